"""What goes out, for those who watch: the frames put it down, and a thread of its own makes of it what is shown.

The thread of the frames adds to a queue, and waits for nothing.
"""
from __future__ import annotations

from collections import deque
from typing import Deque, List, NamedTuple, Optional, Sequence, Tuple

from .air import Air
from .fibs import COUNTS
from .plan import Plan
from .player import Player
from .sinks import Sinks

KEPT = 750
"""The frames that are kept for labels: one that is sent once in 18 s is among them."""


class Shown(NamedTuple):
    """A frame that went out."""

    number: int
    """The index of the frame among those that went out."""
    fic: bytes
    cif: int
    """Its CIF count."""
    swaps: int
    """The swaps up to it."""
    is_held: bool
    """Whether its configuration was held."""
    swap_in: Optional[int]
    """The frames from the next one to the swap that is announced; None without one."""


def last_row(frames: Sequence[Shown], most: int) -> Sequence[Shown]:
    """The last frames whose counts follow each other, all held or none, at most so many: what a receiver knows from
    them is so."""
    first = len(frames) - 1
    while first > max(0, len(frames) - most):
        one, other = frames[first - 1], frames[first]
        if (one.cif + 1) % COUNTS != other.cif or one.is_held != other.is_held:
            break
        first -= 1
    return frames[max(0, first):]


class Board:
    """The last frames, and how the plan began."""

    def __init__(self, plan: Plan) -> None:
        self.plan = plan
        """The plan that is on air, or is to be."""
        self.player: Optional[Player] = None
        """That plan, as it plays; None before it is on air."""
        self.sinks: Optional[Sinks] = None
        self.start: Tuple[str, int] = ("", 0)
        """The time of the plan's first frame, as the log says it, and the count of that frame."""
        self._frames: Deque[Shown] = deque(maxlen=KEPT)
        self._number = 0

    def frame(self, fic: bytes, count: int, swaps: int, is_held: bool, air: Air) -> None:
        """Puts down a frame that went out, behind so many swaps."""
        self.plan, self.player = air.plan, air.player
        self.start = (air.player.start.time, air.player.start.first)
        self._frames.append(Shown(self._number, fic, count, swaps, is_held, air.swap_in()))
        self._number += 1

    def frames(self) -> List[Shown]:
        """The last frames, in order."""
        while True:
            try:
                return list(self._frames)
            except RuntimeError:
                # A frame came meanwhile.
                continue
