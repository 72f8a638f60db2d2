"""AF packets in fragments of PFT (TS 102 821, clause 7), with Reed-Solomon where it is asked for."""
from __future__ import annotations

from typing import List

from .fibs import crc
from .pft import SEQUENCES
from .reed_solomon import MOST_DATA, PARITY, parity_of


class Fragmenter:
    """Divides packets into fragments of at most so many bytes of payload. With Reed-Solomon a receiver that lacks `fec`
    fragments of a packet has it all the same."""

    def __init__(self, most: int, fec: int) -> None:
        self._most = most
        self._fec = fec
        self._sequence = 0

    def fragments(self, packet: bytes) -> List[bytes]:
        """The fragments of the next packet, each with its header."""
        parts, k, z = self._protected(packet) if self._fec else (self._divided(packet), 0, 0)
        found = [self._head(index, len(parts), len(part), k, z) + part for index, part in enumerate(parts)]
        self._sequence = (self._sequence + 1) % SEQUENCES
        return found

    def _divided(self, packet: bytes) -> List[bytes]:
        """A packet in pieces."""
        count = -(-len(packet) // self._most)
        longest = -(-len(packet) // count)
        return [packet[at:at + longest] for at in range(0, len(packet), longest)]

    def _protected(self, packet: bytes) -> "tuple[List[bytes], int, int]":
        """A packet in chunks with parity, byte by byte over all fragments; the bytes of a chunk, and the zeros behind
        the last one."""
        chunks = -(-len(packet) // MOST_DATA)
        k = -(-len(packet) // chunks)
        z = chunks * k - len(packet)
        data = packet + bytes(z)
        block = b"".join(data[at:at + k] + parity_of(data[at:at + k]) for at in range(0, len(data), k))
        # So many fragments that `fec` of them have no more bytes of a chunk than it has of parity.
        longest = min(self._most, chunks * PARITY // (self._fec + 1))
        count = -(-len(block) // longest)
        block += bytes(-len(block) % count)
        return [block[index::count] for index in range(count)], k, z

    def _head(self, index: int, count: int, size: int, k: int, z: int) -> bytes:
        flags = (0x8000 if k else 0) | size
        head = b"PF" + self._sequence.to_bytes(2, "big") + index.to_bytes(3, "big") + count.to_bytes(3, "big")
        head += flags.to_bytes(2, "big") + (bytes([k, z]) if k else b"")
        return head + crc(head).to_bytes(2, "big")
