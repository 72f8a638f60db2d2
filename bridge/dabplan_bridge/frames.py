"""A frame of a stream, of either format: where its FIC is, and what the bridge has to know beside it."""
from __future__ import annotations

from dataclasses import dataclass
from typing import NamedTuple, Optional, Tuple, Union

from .fibs import crc, crc_change
from .layout import Entry


class Frame(NamedTuple):
    """A frame of 24 ms in ETI(NI), or a packet of EDI, that has a FIC."""

    data: bytes
    """All bytes of the frame."""
    start: int
    """The offset of the FIC."""
    size: int
    """The bytes of the FIC: 96, in transmission mode III 128."""
    mode: int
    """The transmission mode, 1 to 4."""
    low: int
    """The CIF count modulo 250."""
    whole: Optional[int]
    """The CIF count, where the frame has it outside its FIC (EDI)."""
    stc: bytes
    """What it says of its sub-channels, in the form of ETI."""
    crc_from: int
    """The offset at which the bytes under the CRC begin."""
    crc_at: int
    """The offset of the CRC."""
    wrong: int
    """The CRC that is there, exclusive or the right one: 0 if the frame is not damaged."""
    stamp: Optional[float] = None
    """Its time stamp, in seconds since 1970; None without one."""
    has_crc: bool = True
    """Whether it says that the CRC is there."""
    beside: Tuple[Optional[Frame], ...] = ()
    """Where there are several inputs: the frame of each of them that has this count, this one among them."""

    def fic(self) -> bytes:
        """The FIC of the frame."""
        return self.data[self.start:self.start + self.size]

    def with_fic(self, fic: bytes) -> bytes:
        """The bytes of the frame with another FIC of this size. A right CRC becomes the right one, a wrong one stays
        wrong."""
        data, end = self.data, self.start + self.size
        if self.has_crc:
            check = int.from_bytes(data[self.crc_at:self.crc_at + 2], "big")
            check ^= crc_change(data[self.start:end], fic, self.crc_at - end)
        else:
            check = crc(b"".join((data[self.crc_from:self.start], fic, data[end:self.crc_at]))) ^ self.wrong
        return b"".join((data[:self.start], fic, data[end:self.crc_at], check.to_bytes(2, "big"),
                         data[self.crc_at + 2:]))


class Place(NamedTuple):
    """Where the bytes of a sub-channel are in a frame."""

    level: int
    """Its protection, six bits (TPL)."""
    words: int
    """Its words of 64 bits."""
    at: int
    """The offset of the first of them."""


class Part(NamedTuple):
    """A sub-channel of a frame that is made: its entry in the header, and its bytes."""

    entry: Entry
    data: bytes


class Head(NamedTuple):
    """What a frame has beside its FIC and its sub-channels, in either format."""

    error: int
    """ERR of ETI, STAT of EDI: 255 where there is no error."""
    phase: int
    """The frame phase, 0 to 7 (FP)."""
    mode: int
    """The transmission mode, 1 to 4."""
    mnsc: bytes
    """The multiplex network signalling channel, 2 bytes."""
    rfu: bytes
    """What ETI has behind its last CRC, 2 bytes."""
    tist: bytes
    """The time stamp in the form of ETI, 4 bytes: all bits are 1 where there is none."""


@dataclass(frozen=True)
class NoFrame:
    """Bytes that can't be filled, and why."""

    reason: str
    size: int
    """How many bytes they are."""


Item = Union[Frame, NoFrame]
"""What a reader finds in a stream."""

MODES = (4, 1, 2, 3)
"""The transmission mode of each value of MID (ETS 300 799, 5.3.5)."""


def wrong_by(data: bytes, first: int, at: int) -> int:
    """The CRC at an offset, exclusive or the right one of the bytes from `first` to there."""
    return int.from_bytes(data[at:at + 2], "big") ^ crc(data[first:at])
