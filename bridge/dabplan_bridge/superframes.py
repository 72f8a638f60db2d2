"""Superframes of DAB+: five frames of a stream, whose first one begins with a Fire code (TS 102 563, 5.2).

Where a swap falls into a superframe a receiver loses it. A stream that is delayed by 0 to 4 frames has its superframes
begin at counts that 5 divides, whatever the encoder does: then a swap at a count that 20 divides cuts none.
"""
from __future__ import annotations

from typing import Dict, List, Optional, Tuple

from .supply import DEPTH, Recent, Taken

POLYNOMIAL = 0x782F
"""x^16 + x^14 + x^13 + x^12 + x^11 + x^5 + x^3 + x^2 + x + 1."""
CODED = 9
"""The bytes under the Fire code, behind the two of it."""
SEARCHED = 3 * DEPTH
"""After so many frames without a superframe a stream has none."""
AGAIN = 100
"""In each so many frames after that the first ones are searched again."""
LOST = 3
"""After so many superframes that do not begin where they should, they are searched anew."""


def table() -> List[int]:
    """The remainders of all bytes by the polynomial."""
    found = []
    for byte in range(256):
        register = byte << 8
        for _ in range(8):
            register = register << 1 & 0xFFFF ^ (POLYNOMIAL if register & 0x8000 else 0)
        found.append(register)
    return found


TABLE = table()


def begins(data: bytes) -> bool:
    """Whether a superframe begins with these bytes, as far as its Fire code says it. Zeros are none."""
    register = 0
    for byte in data[2:2 + CODED]:
        register = register << 8 & 0xFFFF ^ TABLE[register >> 8 ^ byte]
    return register == int.from_bytes(data[:2], "big") and any(data[:2 + CODED])


class Phase:
    """Where the superframes of a stream begin: at which counts modulo 5."""

    def __init__(self) -> None:
        self.at: Optional[int] = None
        """The count modulo 5; None where it is not known."""
        self.searched = 0
        """The frames in which it was searched."""
        self._seen: Dict[int, int] = {}
        self._missed = 0

    def take(self, count: int, data: bytes) -> None:
        """Takes the frame of a count, 11 bytes of it. Two superframes that begin five counts apart are believed."""
        if self.at is not None:
            self._follow(count, data)
            return
        self.searched += 1
        if self.searched > SEARCHED and self.searched % AGAIN >= SEARCHED:
            return
        phase = count % DEPTH
        if not begins(data):
            return
        if (count - self._seen.get(phase, count - 1)) % 5000 == DEPTH:
            self.at, self._missed = phase, 0
        self._seen[phase] = count

    def _follow(self, count: int, data: bytes) -> None:
        """Looks at each fifth frame whether a superframe still begins there."""
        if count % DEPTH != self.at:
            return
        self._missed = 0 if begins(data) else self._missed + 1
        if self._missed == LOST:
            self.at, self.searched, self._seen = None, 0, {}


class Superframes:
    """The superframes of all streams of all inputs."""

    def __init__(self) -> None:
        self._phases: Dict[Tuple[int, int], Phase] = {}

    def look(self, recent: Recent) -> None:
        """Takes what the inputs have of the last count."""
        for source, taken in enumerate(recent.bundle):
            if taken is not None and not taken.frame.wrong:
                self._look_at(source, taken, recent.count)

    def delay_of(self, source: int, sub: int) -> Optional[int]:
        """By how many frames the stream of an input's sub-channel is delayed, 0 to 4; None while its superframes are
        searched."""
        phase = self._phases.get((source, sub))
        if phase is None:
            return 0
        if phase.at is None:
            return None if phase.searched < SEARCHED else 0
        return -phase.at % DEPTH

    def _look_at(self, source: int, taken: Taken, count: int) -> None:
        data = taken.frame.data
        for sub, place in taken.places.items():
            phase = self._phases.get((source, sub))
            if phase is None:
                phase = self._phases[source, sub] = Phase()
            phase.take(count, data[place.at:place.at + 2 + CODED])
