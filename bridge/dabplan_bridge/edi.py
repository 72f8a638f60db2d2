"""EDI: packets of the layer AF (TS 102 821, clause 6) with TAG items of ETI (TS 102 693, clause 5).

An AF packet: `AF`, the length of its payload in 4 bytes, a sequence number of 2, a byte of flags, `T`, the TAG items,
and a CRC of 2 bytes over all before it. A TAG item: its name of 4 bytes, its length in bits in 4, its value. `deti` has
the header of the frame and the FIC; `est1` and so on have the streams.
"""
from __future__ import annotations

import heapq
from typing import Dict, Iterator, List, Optional, Sequence, Tuple

from .fibs import crc, size_of
from .frames import MODES, Frame, Head, Item, NoFrame, Part, Place, wrong_by
from .pft import Fragments, PfHeader, header_of, header_size

AF_HEADER = 10
"""The bytes before the payload of an AF packet."""
AF_REST = AF_HEADER + 2
"""The bytes of an AF packet besides its payload."""
MOST_HEADER = 20
"""The bytes of the longest header of a packet or a fragment."""
MOST_PAYLOAD = 12_288
"""The most bytes of a payload that is taken for one: a frame of EDI has at most 8 kB."""
SINCE_1970 = 946_684_800
"""The seconds from 1970-01-01 to 2000-01-01."""
TSTA_SECOND = 16_384_000
"""The parts of a second in TSTA."""
NO_TSTA = 0xFFFFFF
"""TSTA without a time."""
NO_SYNC = "no synchronisation"
"""Why bytes without an AF packet are no frame."""


def packet_length(data: bytes, at: int = 0) -> Optional[int]:
    """The bytes of the AF packet that begins at an offset, by its header; None if no AF packet of TAG items begins
    there."""
    if data[at:at + 2] != b"AF" or data[at + 9:at + 10] != b"T" or data[at + 8] & 0x70 != 0x10:
        return None
    payload = int.from_bytes(data[at + 2:at + 6], "big")
    return payload + AF_REST if payload <= MOST_PAYLOAD else None


def tag_items(data: bytes) -> Iterator[Tuple[bytes, int, int]]:
    """The TAG items of an AF packet: the name, and the offsets of the value and of its end. The items end where one is
    longer than the packet."""
    at, end = AF_HEADER, len(data) - 2
    while at + 8 <= end:
        bits = int.from_bytes(data[at + 4:at + 8], "big")
        value, after = at + 8, at + 8 + (bits + 7) // 8
        if after > end:
            return
        yield data[at:at + 4], value, after
        at = after


def frame_of(data: bytes) -> Item:
    """The frame of an AF packet."""
    deti: Optional[Tuple[int, int]] = None
    streams = []
    for name, value, end in tag_items(data):
        if name == b"deti":
            deti = value, end
        elif name[:3] == b"est" and end - value >= 3:
            words = (end - value - 3) // 8
            streams.append(data[value:value + 2] + (data[value + 2] >> 2 << 10 | words & 0x3FF).to_bytes(2, "big"))
    if deti is None or deti[1] - deti[0] < 6:
        return NoFrame("no DETI", len(data))
    value, end = deti
    flags, low = data[value], data[value + 1]
    mode = MODES[data[value + 3] >> 6]
    start, size = value + 6 + (8 if flags & 0x80 else 0), size_of(mode)
    if not flags & 0x40 or start + size > end:
        return NoFrame("no FIC", len(data))
    count = (flags & 0x1F) * 250 + low
    if low >= 250 or count >= 5000:
        return NoFrame("no CIF count", len(data))
    at = len(data) - 2
    has_crc = bool(data[8] & 0x80)
    wrong = wrong_by(data, 0, at) if has_crc else int.from_bytes(data[at:], "big")
    stamp = stamp_of(data[value + 6:value + 14]) if flags & 0x80 else None
    return Frame(data, start, size, mode, low, count, b"".join(streams), 0, at, wrong, stamp, has_crc)


def stamp_of(data: bytes) -> Optional[float]:
    """The time stamp of 8 bytes, in seconds since 1970: UTCO 1, SECONDS 4 since 2000, TSTA 3 in units of 1/16,384,000 s
    (TS 102 693, 5.1.1). None where there is none: SECONDS is 0, or all bits of TSTA are 1."""
    seconds, parts = int.from_bytes(data[1:5], "big"), int.from_bytes(data[5:8], "big")
    if not seconds or parts == NO_TSTA:
        return None
    return SINCE_1970 + seconds - data[0] + parts / TSTA_SECOND


class Starts:
    """Where packets begin in bytes that are in doubt. Each place is looked at once, and the CRC of each packet is
    computed once."""

    def __init__(self) -> None:
        self._scanned = 0
        self._ends: List[Tuple[int, int]] = []
        self._good: List[int] = []

    def first(self, data: bytearray, base: int, after: int, own: int) -> Optional[int]:
        """The first offset behind `after` at which a whole, undamaged packet, or a fragment with an undamaged header,
        begins; None if there is none. Offsets are those of the stream; `data` has its bytes from `base` on. No such
        thing is seen at `own`."""
        self._scanned = max(self._scanned, after + 1)
        for name in (b"AF", b"PF"):
            self._find(data, base, name)
        self._scanned = max(self._scanned, base + len(data) - MOST_HEADER + 1)
        while self._ends and self._ends[0][0] <= base + len(data):
            end, start = heapq.heappop(self._ends)
            packet = bytes(data[start - base:end - base]) if start > after and start != own else b""
            if packet and not wrong_by(packet, 0, len(packet) - 2):
                heapq.heappush(self._good, start)
        while self._good and (self._good[0] <= after or self._good[0] == own):
            heapq.heappop(self._good)
        return self._good[0] if self._good else None

    def _find(self, data: bytearray, base: int, name: bytes) -> None:
        """Looks at the places at which a name begins."""
        last = len(data) - MOST_HEADER + 2
        start = data.find(name, self._scanned - base, last)
        while start >= 0:
            head = bytes(data[start:start + MOST_HEADER])
            length = packet_length(head)
            if length is not None:
                heapq.heappush(self._ends, (base + start + length, base + start))
            elif header_of(head) is not None:
                heapq.heappush(self._good, base + start)
            start = data.find(name, start + 1, last)


class EdiCutter:
    """Cuts the bytes of a stream into AF packets, also those in fragments of PFT, and finds the next packet where bytes
    are lost or too many."""

    def __init__(self) -> None:
        self._bytes = bytearray()
        self._base = 0
        self._starts = Starts()
        self._fragments = Fragments()
        self._lost = 0

    def begin(self) -> None:
        """The bytes that follow are not those behind the ones before."""
        self._forget()
        self._fragments = Fragments()

    def feed(self, data: bytes) -> List[Item]:
        """The frames that are whole with these bytes."""
        self._bytes += data
        found: List[Item] = []
        at = 0
        while True:
            taken = self._next(at, found)
            if taken == 0:
                break
            at += taken
        del self._bytes[:at]
        self._base += at
        return found

    def datagram(self, data: bytes) -> List[Item]:
        """The frames of a datagram, which has whole packets or fragments. What is left of it is none."""
        self._forget()
        found = self.feed(data)
        if self._bytes:
            self._lose(len(self._bytes), found)
            self._forget()
        return found

    def end(self) -> int:
        """How many bytes are left at the end of the stream."""
        return len(self._bytes)

    def finish(self) -> List[Item]:
        """The frames of fragments that still waited at the end of the stream."""
        return [item if isinstance(item, NoFrame) else packet_of(item) for item in self._fragments.finish()]

    def _forget(self) -> None:
        self._bytes.clear()
        self._base, self._starts = 0, Starts()

    def _next(self, at: int, found: List[Item]) -> int:
        """Takes what begins at an offset; returns how many bytes, 0 if it is not whole yet."""
        left = len(self._bytes) - at
        if left < AF_REST:
            return 0
        head = bytes(self._bytes[at:at + MOST_HEADER])
        length = packet_length(head)
        if length is None:
            size = header_size(head) if head[:2] == b"PF" else None
            if size is not None and left < size:
                return 0
            fragment = header_of(head)
            return self._lose(self._gap(at), found) if fragment is None else self._fragment(at, left, fragment, found)
        if left < length:
            # A packet that was cut short lets the next one begin within it.
            return self._lose(self._begun(at, left), found)
        packet = bytes(self._bytes[at:at + length])
        item = frame_of(packet)
        if isinstance(item, NoFrame) or item.wrong:
            inner = self._begun(at, length)
            if inner:
                return self._lose(inner, found)
        self._settle(found)
        found.append(item)
        return length

    def _fragment(self, at: int, left: int, fragment: PfHeader, found: List[Item]) -> int:
        """Takes a fragment of PFT; one in which another packet begins is none."""
        is_packet = fragment.count == 1 and not fragment.rs_k
        own = fragment.size if is_packet and self._fills(at, fragment) else 0
        inner = self._begun(at, min(left, fragment.length), own)
        if inner or left < fragment.length:
            return self._lose(inner, found)
        self._settle(found)
        payload = bytes(self._bytes[at + fragment.size:at + fragment.length])
        for item in self._fragments.take(fragment, payload):
            found.append(item if isinstance(item, NoFrame) else packet_of(item))
        return fragment.length

    def _fills(self, at: int, fragment: PfHeader) -> bool:
        """Whether the payload of a fragment is one packet, by its header."""
        first = at + fragment.size
        return packet_length(bytes(self._bytes[first:first + AF_HEADER])) == fragment.payload

    def _begun(self, at: int, length: int, own: int = 0) -> int:
        """The bytes before a whole, undamaged packet, or a fragment with an undamaged header, that begins within so
        many bytes behind an offset; 0 if there is none. One that begins `own` bytes behind it is not meant."""
        here = self._base + at
        start = self._starts.first(self._bytes, self._base, here, here + own)
        return start - here if start is not None and start < here + length else 0

    def _gap(self, at: int) -> int:
        """How many bytes from an offset on are no packet, as far as the bytes go."""
        last = len(self._bytes) - MOST_HEADER
        starts = []
        for name in (b"AF", b"PF"):
            start = self._bytes.find(name, at + 1)
            while 0 <= start <= last and not is_start(bytes(self._bytes[start:start + MOST_HEADER])):
                start = self._bytes.find(name, start + 1)
            if start >= 0:
                starts.append(start)
        return min(starts, default=max(at + 1, len(self._bytes) - 1)) - at

    def _lose(self, count: int, found: List[Item]) -> int:
        """Counts bytes that are no packet, and adds a frame that is none for each 6,144 of them."""
        self._lost += count
        while self._lost >= 6144:
            found.append(NoFrame(NO_SYNC, 6144))
            self._lost -= 6144
        return count

    def _settle(self, found: List[Item]) -> None:
        """Adds the bytes that were lost before a packet."""
        if self._lost:
            found.append(NoFrame(NO_SYNC, self._lost))
            self._lost = 0


def is_start(head: bytes) -> bool:
    """Whether a packet or a fragment begins with these bytes, by its header."""
    return packet_length(head) is not None or header_of(head) is not None


def packet_of(data: bytes) -> Item:
    """The frame of the bytes of a packet that came in fragments."""
    length = packet_length(data) if len(data) >= AF_REST else None
    return frame_of(data[:length]) if length is not None and length <= len(data) else NoFrame("no AF packet", len(data))


def looks_like(data: bytes) -> bool:
    """Whether these bytes begin with a packet of EDI, as far as they go."""
    return data[:2] in (b"AF", b"PF")


def places_of(frame: Frame) -> Dict[int, Place]:
    """Where the sub-channels of a packet are, by SubChId."""
    data, found = frame.data, {}
    for name, value, end in tag_items(data):
        if name[:3] == b"est" and end - value >= 3:
            found[data[value] >> 2] = Place(data[value + 2] >> 2, (end - value - 3) // 8, value + 3)
    return found


def head_of(frame: Frame) -> Head:
    """What a packet has beside its FIC and its sub-channels."""
    data = frame.data
    value = next(value for name, value, _ in tag_items(data) if name == b"deti")
    is_stamped = bool(data[value] & 0x80)
    tist = b"\xff" + (data[value + 11:value + 14] if is_stamped else b"\xff\xff\xff")
    return Head(data[value + 2], data[value + 3] >> 3 & 7, frame.mode, data[value + 4:value + 6], b"\xff\xff", tist)


def sequence_of(frame: Frame) -> int:
    """The sequence number of a packet."""
    return int.from_bytes(frame.data[6:8], "big")


def tag(name: bytes, value: bytes) -> bytes:
    """A TAG item."""
    return b"".join((name, (8 * len(value)).to_bytes(4, "big"), value))


def streams(parts: Sequence[Part]) -> List[bytes]:
    """The TAG items of sub-channels."""
    return [tag(b"est" + bytes((number,)), part.entry.sstc() + part.data) for number, part in enumerate(parts, 1)]


def packet(items: bytes, sequence: int, flags: int = 0x90, wrong: int = 0) -> bytes:
    """An AF packet of these TAG items, and what fills them up, with a sequence number modulo 65536."""
    head = b"".join((b"AF", len(items).to_bytes(4, "big"), (sequence & 0xFFFF).to_bytes(2, "big"), bytes((flags,)),
                     b"T"))
    covered = head + items
    check = crc(covered) if flags & 0x80 else 0
    return covered + (check ^ wrong).to_bytes(2, "big")


def rebuilt(frame: Frame, fic: bytes, parts: Sequence[Part], sequence: int, wrong: int = 0) -> bytes:
    """A packet with another FIC of this size, these sub-channels and this sequence number. Its other TAG items stay as
    they are, at their places; so does what fills it up."""
    data, end, found = frame.data, AF_HEADER, []
    est = streams(parts)
    for name, value, after in tag_items(data):
        end = after
        if name[:3] == b"est":
            found += est
            est = []
        elif value <= frame.start < after:
            found.append(data[value - 8:frame.start] + fic + data[frame.start + frame.size:after])
        else:
            found.append(data[value - 8:after])
    items = b"".join(found + est)
    rest = data[end:len(data) - 2]
    size = -len(items) % 8 if (len(data) - AF_REST) % 8 == 0 else len(rest)
    return packet(items + rest[:size].ljust(size, b"\0"), sequence, data[8], wrong)


def built(head: Head, count: int, fic: bytes, parts: Sequence[Part], sequence: int, wrong: int = 0) -> bytes:
    """A packet of this count, this FIC and these sub-channels, without a time stamp: that of ETI has no seconds."""
    deti = b"".join((bytes((0x40 | count // 250, count % 250, head.error, head.mode % 4 << 6 | head.phase << 3)),
                     head.mnsc, fic))
    items = b"".join((tag(b"*ptr", b"DETI" + bytes(4)), tag(b"deti", deti), *streams(parts)))
    return packet(items + bytes(-len(items) % 8), sequence, 0x90, wrong)
