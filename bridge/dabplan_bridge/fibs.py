"""FIBs and the FIGs that the bridge has to know: FIG 0/0, 0/1 and 0/10 of the ensemble itself (EN 300 401).

A FIB has 30 data bytes and a CRC (clause 5.2.1). A FIC of a frame of 24 ms has three of them, in transmission mode III
four.
"""
from __future__ import annotations

import binascii
import functools
from dataclasses import dataclass
from typing import Dict, Iterator, NamedTuple, Optional, Tuple

from .layout import SubChannel

COUNTS = 5000
"""CIF counts are below this."""
FRAME_SECONDS = 0.024
"""The seconds of a frame."""
DAY_FRAMES = 3_600_000
"""The frames of a day."""
DAY_SECONDS = 86_400
"""The seconds of a day."""
FIB = 32
"""The bytes of a FIB."""


def crc(data: bytes) -> int:
    """The CRC of FIBs, ETI and EDI: x^16 + x^12 + x^5 + 1, started with ones, inverted (EN 300 401, 5.2.1)."""
    return binascii.crc_hqx(data, 0xFFFF) ^ 0xFFFF


@functools.lru_cache(maxsize=16)
def _with_zeros(size: int) -> Tuple[Tuple[int, ...], Tuple[int, ...]]:
    """What the register of the CRC becomes by so many bytes of zeros, for each of its high bytes and its low ones."""
    low, high = [0], [0]
    for table, first in ((low, 0), (high, 8)):
        for bit in range(first, first + 8):
            one = binascii.crc_hqx(bytes(size), 1 << bit)
            table += [one ^ other for other in table]
    return tuple(high), tuple(low)


def crc_change(old: bytes, new: bytes, behind: int) -> int:
    """The CRC of bytes exclusive or what it was, where some of them become others, and so many follow these. The CRC is
    linear: only what differs counts."""
    differs = int.from_bytes(old, "big") ^ int.from_bytes(new, "big")
    register = binascii.crc_hqx(differs.to_bytes(len(new), "big"), 0)
    high, low = _with_zeros(behind)
    return high[register >> 8] ^ low[register & 0xFF]


def finished(data: bytes) -> bytes:
    """A FIB of these data bytes, at most 30: an end marker where there is room, zeros, and the CRC."""
    body = data if len(data) == 30 else (data + b"\xff").ljust(30, b"\0")
    return body + crc(body).to_bytes(2, "big")


EMPTY_FIB = finished(b"")
"""A FIB without FIGs."""


def size_of(mode: int) -> int:
    """The bytes of a frame's FIC in a transmission mode."""
    return 4 * FIB if mode == 3 else 3 * FIB


def figs(fib: bytes) -> Iterator[bytes]:
    """The bodies of the FIGs of type 0 of this ensemble (OE 0) in a FIB: the byte of flags and extension, then the
    entries. A damaged FIB has none."""
    if len(fib) != FIB or crc(fib[:30]) != int.from_bytes(fib[30:], "big"):
        return
    at = 0
    while at < 30 and fib[at] != 0xFF:
        length = fib[at] & 0x1F
        if at + 1 + length > 30:
            return
        if fib[at] >> 5 == 0 and length and not fib[at + 1] & 0x40:
            yield fib[at + 1:at + 1 + length]
        at += 1 + length


def figs_of(fic: bytes) -> Iterator[bytes]:
    """The bodies of the FIGs of type 0 of all FIBs of a FIC, as `figs` gives them."""
    for at in range(0, len(fic), FIB):
        yield from figs(fic[at:at + FIB])


@dataclass(frozen=True)
class Ensemble:
    """What a FIG 0/0 says (EN 300 401, 6.4)."""

    eid: int
    count: int
    change: int
    """The change flags, 0 to 3."""
    low: int
    """The low part of the count of the swap, where the change flags are not 0."""


ENSEMBLES = (b"\x05\x00", b"\x06\x00")
"""How a FIG 0/0 of the ensemble itself begins (EN 300 401, 6.4): type 0, 5 bytes, with a count of the occurrence 6,
extension 0."""


CHANGES = tuple(bytes([bits]) for bits in range(8))
"""The change flags and the alarm flag of a FIG 0/0, as a byte each."""


def ensemble_of(fic: bytes) -> Optional[Ensemble]:
    """The first FIG 0/0 of a FIC; None if there is none."""
    if ENSEMBLES[0] not in fic and ENSEMBLES[1] not in fic:
        return None
    for body in figs_of(fic):
        if body[0] & 0x9F == 0 and len(body) >= 5:
            change = body[3] >> 6
            low = body[5] if change and len(body) >= 6 else 0
            return Ensemble(int.from_bytes(body[1:3], "big"), (body[3] & 0x1F) * 250 % COUNTS + body[4], change, low)
    return None


EPOCH_MJD = 40_587
"""The Modified Julian Date of 1970-01-01."""
LONG_DATE = b"\x07\x0a"
"""How a FIG 0/10 in its long form begins: type 0, 7 bytes, extension 10."""


def utc_of(fic: bytes) -> Optional[float]:
    """The seconds since 1970, UTC, of the first FIG 0/10 in its long form (EN 300 401, 8.1.3.1); None if there is
    none."""
    if LONG_DATE not in fic:
        return None
    for body in figs_of(fic):
        if body[0] & 0x1F == 10 and len(body) >= 7 and body[3] & 0x08:
            bits = int.from_bytes(body[1:7], "big")
            hours, minutes = bits >> 22 & 0x1F, bits >> 16 & 0x3F
            seconds, milliseconds = bits >> 10 & 0x3F, bits & 0x3FF
            if hours < 24 and minutes < 60 and seconds < 61 and milliseconds < 1000:
                days = (bits >> 30 & 0x1FFFF) - EPOCH_MJD
                return ((days * 24 + hours) * 60 + minutes) * 60 + seconds + milliseconds / 1000
    return None


def day_frame_of(seconds: float) -> float:
    """The frames since midnight of a time in seconds since 1970."""
    return seconds % DAY_SECONDS / FRAME_SECONDS


def entries(body: bytes) -> Iterator[Tuple[int, SubChannel]]:
    """The entries of a FIG 0/1 (EN 300 401, 6.2.1): SubChIds and what they stand for."""
    at = 1
    while at + 3 <= len(body):
        sub, start = body[at] >> 2, (body[at] & 3) << 8 | body[at + 1]
        if not body[at + 2] & 0x80:
            yield sub, SubChannel(start, 0, f"switch {body[at + 2] >> 6 & 1} table {body[at + 2] & 0x3F}")
            at += 3
        elif at + 4 <= len(body):
            option, level = body[at + 2] >> 4 & 7, (body[at + 2] >> 2 & 3) + 1
            yield sub, SubChannel.equal(start, (body[at + 2] & 3) << 8 | body[at + 3], option, level)
            at += 4
        else:
            return


class Told(NamedTuple):
    """What a FIG 0/0 or 0/1 says of sub-channels and swaps."""

    entries: Tuple[Tuple[int, SubChannel], ...]
    """Those of a FIG 0/1."""
    is_next: bool
    """Whether they are of the next configuration."""
    change: int
    """The change flags of a FIG 0/0; 0 without one."""
    low: int
    """The low part of the count of its swap."""


def told_by(fib: bytes) -> Iterator[Told]:
    """What the FIGs 0/0 and 0/1 of a FIB say."""
    for body in figs(fib):
        if body[0] & 0x1F == 1:
            yield Told(tuple(entries(body)), bool(body[0] & 0x80), 0, 0)
        elif body[0] & 0x1F == 0 and len(body) >= 6 and body[3] >> 6:
            yield Told((), False, body[3] >> 6, body[5])


def without_count(fib: bytes) -> bytes:
    """A FIB that begins with a FIG 0/0 without the count of it, of which `told_by` says nothing, and without its CRC;
    nothing where that is wrong."""
    if crc(fib[:30]) != int.from_bytes(fib[30:], "big"):
        return b""
    return b"".join((fib[:4], CHANGES[fib[4] >> 5], fib[6:30]))


class Listener:
    """The sub-channels that a receiver of the plan's FIBs knows."""

    def __init__(self) -> None:
        self.current: Dict[int, SubChannel] = {}
        """The sub-channels of the current configuration, by SubChId."""
        self._next: Dict[int, SubChannel] = {}
        self._change = 0
        self._low = 0
        self._known: Dict[bytes, Tuple[Told, ...]] = {}

    def hear(self, fic: bytes, count: int) -> bool:
        """Takes the FIC of the frame with this count; returns whether a swap falls into it."""
        swapped = bool(self._change) and count % 250 == self._low
        if swapped:
            if self._change & 1:
                self.current, self._next = self._next, {}
            self._change = 0
        for at in range(0, len(fic), FIB):
            for told in self._told(fic[at:at + FIB]):
                self._take(told)
        return swapped

    def swap_in(self, count: int) -> Optional[int]:
        """The frames until the swap that is announced, from the frame of this count on; None without one."""
        return (self._low - count) % 250 if self._change else None

    def coming(self, count: int) -> Dict[int, SubChannel]:
        """The sub-channels in the next frame, which has this count: a swap may fall into it."""
        return self._next if self._change & 1 and count % 250 == self._low else self.current

    @property
    def following(self) -> Dict[int, SubChannel]:
        """The sub-channels behind the swap that is announced; those of the current configuration where it changes
        none."""
        return self._next if self._change & 1 else self.current

    def _told(self, fib: bytes) -> Tuple[Told, ...]:
        """What a FIB says; that of the FIBs of late is known."""
        key = fib if fib[:2] not in ENSEMBLES else without_count(fib)
        found = self._known.get(key)
        if found is None:
            if len(self._known) > 256:
                self._known.clear()
            found = self._known[key] = tuple(told_by(fib))
        return found

    def _take(self, told: Told) -> None:
        if told.change:
            if not self._change:
                self._next = {}
            self._change, self._low = told.change, told.low
        else:
            (self._next if told.is_next else self.current).update(told.entries)
