"""Packets of datagrams whose count steps: they are believed when three in a row agree.

A datagram may be late, twice, or of somebody else. Packets that are due, one early, one late or twice are believed at
once; any other one, and the first one of all, waits for two behind it with the counts that follow its own.
"""
from __future__ import annotations

from typing import List, Optional, Tuple

from .fibs import COUNTS
from .follower import step_of
from .frames import Frame
from .moments import Moment

AT_ONCE = range(-2, 2)
"""The steps of packets that are believed at once."""
IN_A_ROW = 3
"""So many packets have to agree."""
Counted = Tuple[Frame, int, Moment]
"""A frame, its count, and when it came."""


class Agreeing:
    """The packets that wait."""

    def __init__(self) -> None:
        self.lost = 0
        """The packets with which none agreed."""
        self._waiting: List[Counted] = []
        self._due: Optional[int] = None

    def take(self, frame: Frame, count: int, moment: Moment) -> List[Counted]:
        """Takes a packet; returns those that are believed by it, in order."""
        waiting = self._waiting
        waiting.append((frame, count, moment))
        if len(waiting) > 1 and count != (waiting[-2][1] + 1) % COUNTS:
            self.lost += len(waiting) - 1
            del waiting[:-1]
        is_near = len(waiting) == 1 and self._due is not None and step_of(count, self._due) in AT_ONCE
        if len(waiting) < IN_A_ROW and not is_near:
            return []
        self._waiting, self._due = [], (count + 1) % COUNTS
        return waiting
