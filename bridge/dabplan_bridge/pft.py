"""Fragments of PFT (TS 102 821, clause 7), joined into AF packets.

A fragment: `PF`, Pseq 2 bytes, Findex 3, Fcount 3, FEC 1 bit, Addr 1 bit, Plen 14 bits; with FEC RSk and RSz, 1 byte
each; with addresses 4 bytes; a CRC of 2 bytes over this header; then Plen bytes. Packets of which all fragments come
are joined; with FEC those too of which enough come: Reed-Solomon makes up for the others.
"""
from __future__ import annotations

from dataclasses import dataclass
from typing import Dict, List, Optional, Union

from .fibs import crc
from .frames import NoFrame, wrong_by
from .reed_solomon import MOST_DATA, PARITY, restored

SEQUENCES = 65536
"""Pseq is below this."""
MOST_FRAGMENTS = 1024
"""The most fragments of a packet that is taken for one."""
MOST_BYTES = 65_536
"""The most bytes that all payloads of a packet may have: a frame of EDI has at most 8 kB, and Reed-Solomon adds to
it."""
AF_FLAGS = 8
"""The offset of the byte in an AF packet that says whether it has a CRC."""
LEAST_HEADER = 12
"""The bytes of a header that say how long it is."""


@dataclass(frozen=True)
class PfHeader:
    """The header of a fragment."""

    sequence: int
    index: int
    count: int
    rs_k: int
    """The bytes of a packet in each chunk; 0 without FEC."""
    rs_z: int
    """The zeros behind the packet in the last chunk."""
    size: int
    """The bytes of the header."""
    length: int
    """The bytes of header and payload."""

    @property
    def payload(self) -> int:
        """The bytes of the payload."""
        return self.length - self.size


def header_size(data: bytes) -> Optional[int]:
    """The bytes of the header of a fragment that begins with these bytes; None if they are too few to tell."""
    return 14 + (data[10] >> 7) * 2 + (data[10] >> 6 & 1) * 4 if len(data) >= LEAST_HEADER else None


def header_of(data: bytes) -> Optional[PfHeader]:
    """The header of the fragment that begins with these bytes; None if there is none, its CRC is wrong, or no packet
    has such a one."""
    size = header_size(data) if data[:2] == b"PF" else None
    if size is None or len(data) < size or crc(data[:size - 2]) != int.from_bytes(data[size - 2:size], "big"):
        return None
    has_fec = data[10] >> 7
    rs_k, rs_z = (data[12], data[13]) if has_fec else (0, 0)
    index, count = int.from_bytes(data[4:7], "big"), int.from_bytes(data[7:10], "big")
    payload = int.from_bytes(data[10:12], "big") & 0x3FFF
    # Of the last fragment without FEC the others are longer; what they are together shows with them.
    if index >= count or count > MOST_FRAGMENTS or payload * (count if has_fec else 1) > MOST_BYTES:
        return None
    if has_fec and not (0 < rs_k <= MOST_DATA and rs_z < rs_k):
        return None
    return PfHeader(int.from_bytes(data[2:4], "big"), index, count, rs_k, rs_z, size, size + payload)


def block_of(header: PfHeader, parts: Dict[int, bytes]) -> bytearray:
    """The chunks of a packet with FEC, zeros for what is lost: byte i of fragment j is byte i * Fcount + j of them."""
    longest = max(map(len, parts.values()))
    block = bytearray(longest * header.count)
    for index, payload in parts.items():
        block[index:index + header.count * len(payload):header.count] = payload
    return block


def repaired(header: PfHeader, parts: Dict[int, bytes]) -> Optional[bytes]:
    """The packet of fragments with FEC, of which some may be lost; None if they are too many."""
    block, chunk = block_of(header, parts), header.rs_k + PARITY
    absent = set(range(header.count)).difference(parts)
    found = []
    for first in range(0, len(block) - chunk + 1, chunk):
        lost = [offset for offset in range(chunk) if (first + offset) % header.count in absent] if absent else []
        word = restored(bytes(block[first:first + chunk]), lost)
        if word is None:
            return None
        found.append(word[:header.rs_k])
    data = b"".join(found)
    return data[:len(data) - header.rs_z]


def joined(header: PfHeader, parts: Dict[int, bytes]) -> Optional[bytes]:
    """The packet of its fragments; None where too many are lost."""
    if header.rs_k:
        return repaired(header, parts)
    return b"".join(parts[index] for index in range(header.count)) if len(parts) == header.count else None


def is_right(data: bytes) -> bool:
    """Whether a packet that was repaired is whole: its CRC is right. One without a CRC is taken as it is."""
    return len(data) > AF_FLAGS + 2 and (not data[AF_FLAGS] & 0x80 or not wrong_by(data, 0, len(data) - 2))


class Packet:
    """The fragments of a packet that are there."""

    def __init__(self, header: PfHeader) -> None:
        self.header = header
        self.parts: Dict[int, bytes] = {}
        self.size = 0
        """The bytes of all of them."""

    def take(self, header: PfHeader, payload: bytes) -> bool:
        """Takes a fragment; returns whether it is of this packet."""
        known = self.header
        if (known.count, known.rs_k, known.rs_z) != (header.count, header.rs_k, header.rs_z):
            return False
        if header.index not in self.parts:
            self.parts[header.index] = payload
            self.size += len(payload)
        return self.size <= MOST_BYTES

    @property
    def is_whole(self) -> bool:
        """Whether all fragments are there."""
        return len(self.parts) == self.header.count


class Fragments:
    """The packets of which fragments are there, by Pseq, in the order in which they have to go on.

    A packet waits for one that began before it until a fragment of a packet behind both comes: then the one that is not
    whole is repaired, or lost.
    """

    def __init__(self) -> None:
        self._waiting: Dict[int, Packet] = {}
        self._last: Optional[int] = None

    def take(self, header: PfHeader, payload: bytes) -> List[Union[bytes, NoFrame]]:
        """Takes a fragment; returns the packets that are whole by it, repaired, or lost, in order."""
        found: List[Union[bytes, NoFrame]] = []
        sequence = header.sequence
        if self._last is not None and (self._last - sequence) % SEQUENCES < 64:
            return found
        packet = self._waiting.get(sequence)
        if packet is None or not packet.take(header, payload):
            # Another packet with this number, or nonsense in its name: what was there before is none.
            packet = self._waiting[sequence] = Packet(header)
            packet.take(header, payload)
        while len(self._waiting) > 2:
            found.append(self._first())
        found += self._whole()
        return found

    def finish(self) -> List[Union[bytes, NoFrame]]:
        """What still waits, in order, at the end of the stream."""
        return [self._first() for _ in list(self._waiting)]

    def _order(self) -> int:
        """The Pseq of the packet that began first."""
        newest = next(reversed(self._waiting))
        return max(self._waiting, key=lambda sequence: (newest - sequence + 32768) % SEQUENCES)

    def _whole(self) -> List[Union[bytes, NoFrame]]:
        """The packets that are whole and have none before them."""
        found: List[Union[bytes, NoFrame]] = []
        while self._waiting and self._waiting[self._order()].is_whole:
            found.append(self._first())
        return found

    def _first(self) -> Union[bytes, NoFrame]:
        """Takes out the packet that began first: its bytes, or that it is lost."""
        sequence = self._order()
        packet = self._waiting.pop(sequence)
        self._last = sequence
        data = joined(packet.header, packet.parts)
        if data is None or not (packet.is_whole or is_right(data)):
            return NoFrame("a lost fragment of PFT", packet.size)
        return data
