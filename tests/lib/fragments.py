"""Fragments of PFT (TS 102 821, clause 7), made byte by byte, with the parity of Reed-Solomon.

Nothing here comes from the bridge. The parity is that of RS(255,207) over x^8 + x^4 + x^3 + x^2 + 1 with the roots
alpha^1 to alpha^48, by long division, byte by byte."""
import functools

from bridges import crc

PARITY = 48


@functools.lru_cache(maxsize=None)
def product(one, other):
    """The product of two bytes in the field, bit by bit."""
    found = 0
    while other:
        if other & 1:
            found ^= one
        one = one << 1 ^ (0x11D if one & 0x80 else 0)
        other >>= 1
    return found


@functools.lru_cache(maxsize=None)
def divisor():
    """The generator: the product of x + alpha^i, i from 1 to 48, the highest coefficient first."""
    found, root = [1], 1
    for _ in range(PARITY):
        root = product(root, 2)
        found = [high ^ product(low, root) for high, low in zip(found + [0], [0] + found)]
    return found


@functools.lru_cache(maxsize=4096)
def parity_of(data):
    """The 48 bytes of parity of at most 207 bytes, which zeros fill up."""
    rest = bytearray(data.ljust(207, b"\0") + bytes(PARITY))
    for at in range(207):
        if rest[at]:
            for step, each in enumerate(divisor()):
                rest[at + step] ^= product(each, rest[at]) if step else 0
    return bytes(rest[-PARITY:])


def protected(packet, rs_k):
    """The chunks of a packet, each with its parity, and the zeros behind the packet."""
    padding = -len(packet) % rs_k
    data = packet + bytes(padding)
    return b"".join(data[at:at + rs_k] + parity_of(data[at:at + rs_k]) for at in range(0, len(data), rs_k)), padding


def pft(packet, sequence, fragments=3, rs_k=0, addressed=False):
    """The fragments of a packet, with Reed-Solomon where `rs_k` is not 0."""
    if rs_k:
        block, padding = protected(packet, rs_k)
        block += bytes(-len(block) % fragments)
        parts = [block[index::fragments] for index in range(fragments)]
    else:
        padding, longest = 0, -(-len(packet) // fragments)
        parts = [packet[at:at + longest] for at in range(0, len(packet), longest)]
    return [fragment(sequence, index, len(parts), part, (rs_k, padding) if rs_k else None, addressed) for index, part in enumerate(parts)]


def fragment(sequence, index, count, payload, fec=None, addressed=False, length=None):
    """A fragment; with a payload that is longer, or shorter, than it says where `length` is given."""
    flags = (0x8000 if fec else 0) | (0x4000 if addressed else 0) | (len(payload) if length is None else length)
    head = b"PF" + sequence.to_bytes(2, "big") + index.to_bytes(3, "big") + count.to_bytes(3, "big")
    head += flags.to_bytes(2, "big") + (bytes(fec) if fec else b"") + (bytes(4) if addressed else b"")
    return head + crc(head) + payload
