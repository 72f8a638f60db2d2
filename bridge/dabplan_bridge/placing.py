"""The whole count of each frame.

EDI has it in each packet. ETI has it modulo 250; the FIG 0/0 of its FIC has the rest, in transmission mode I in every
fourth frame. Frames whose count is not known yet are held until a FIG 0/0 comes.
"""
from __future__ import annotations

from typing import List, Optional, Tuple

from .fibs import COUNTS, Ensemble, ensemble_of
from .frames import Frame

HELD = 4
"""The most frames that are held: within so many there is a FIG 0/0."""
Placed = Tuple[Frame, int]
"""A frame and its count."""


class Placer:
    """Gives frames their whole counts, in order."""

    def __init__(self) -> None:
        self.ensemble: Optional[Ensemble] = None
        """The last FIG 0/0 of the multiplexer."""
        self.dropped = 0
        """The frames that were let go because no FIG 0/0 told their count."""
        self.contradicting = 0
        """The frames whose FIG 0/0 has another count than their header."""
        self._held: List[Frame] = []
        self._next: Optional[int] = None

    def place(self, frame: Frame, fic: bytes) -> List[Placed]:
        """The frames whose counts are known by this one, with it; in order. `fic` is its FIC."""
        found = ensemble_of(fic)
        if found is not None and not self._is_of(found, frame):
            self.contradicting += 1
            found = None
        is_first = self.ensemble is None
        self.ensemble = found or self.ensemble
        if self.ensemble is None:
            self._hold(frame)
            return []
        count = self._count(frame, found)
        if count is None:
            self._hold(frame)
            return []
        self._next = (count + 1) % COUNTS
        return self._released(frame.whole is None and is_first, count) + [(frame, count)]

    @staticmethod
    def _is_of(found: Ensemble, frame: Frame) -> bool:
        """Whether a FIG 0/0 has the count of its frame."""
        return found.count == frame.whole if frame.whole is not None else found.count % 250 == frame.low

    def _count(self, frame: Frame, found: Optional[Ensemble]) -> Optional[int]:
        """The count of a frame; None if it can't be known yet."""
        if frame.whole is not None:
            return frame.whole
        if found is not None:
            return found.count
        if self._next is not None and not self._held and frame.low == self._next % 250:
            return self._next
        return None

    def _hold(self, frame: Frame) -> None:
        """Holds a frame; those before it only where it follows them."""
        if self._held and (self._held[-1].low + 1) % 250 != frame.low:
            self._let_go(len(self._held))
        self._held.append(frame)
        if len(self._held) > HELD:
            self._let_go(1)

    def _released(self, are_first: bool, count: int) -> List[Placed]:
        """The held frames, with their counts, where the frame of this count follows them. At the start of ETI they are
        let go."""
        held = self._held
        if held and (are_first or (held[-1].low + 1) % 250 != count % 250):
            self._let_go(len(held))
        held, self._held = self._held, []
        return [(each, (count - len(held) + at) % COUNTS) for at, each in enumerate(held)]

    def _let_go(self, frames: int) -> None:
        del self._held[:frames]
        self.dropped += frames
