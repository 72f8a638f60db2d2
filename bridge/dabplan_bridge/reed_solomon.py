"""Reed-Solomon over bytes as PFT has it (TS 102 821, 7.2.2): RS(255,207), shortened, over x^8 + x^4 + x^3 + x^2 + 1.

A codeword is RSk bytes of data and 48 of parity. The bytes that a shortened one lacks are zeros between the two. Lost
bytes whose places are known are made up for, up to 48 of them; bytes that are wrong are not looked for: the CRC of the
packet tells of them.
"""
from __future__ import annotations

from typing import List, Optional, Sequence

PARITY = 48
"""The bytes of parity of a codeword."""
MOST_DATA = 207
"""The most bytes of data."""
FIELD = 0x11D
"""The polynomial of the field."""
ORDER = 255
"""The number of powers of alpha."""


def powers() -> List[int]:
    """The powers of alpha, twice, so that sums of two logarithms need no remainder."""
    found, value = [], 1
    for _ in range(ORDER):
        found.append(value)
        value <<= 1
        if value & 0x100:
            value ^= FIELD
    return found * 2


EXP = powers()
LOG = [0] * 256
for _at in range(ORDER):
    LOG[EXP[_at]] = _at


def times(one: int, other: int) -> int:
    """The product of two elements."""
    return EXP[LOG[one] + LOG[other]] if one and other else 0


def generator() -> List[int]:
    """The coefficients of the product of x + alpha^i, i from 1 to 48, the highest first."""
    found = [1]
    for root in range(1, PARITY + 1):
        shifted = [times(each, EXP[root]) for each in found]
        found = [one ^ other for one, other in zip(found + [0], [0] + shifted)]
    return found


GENERATOR = generator()
TABLE = [int.from_bytes(bytes(times(value, each) for each in GENERATOR[1:]), "big") for value in range(256)]
"""What each byte that leaves the register adds to it, as a number of 48 bytes."""
TOP = 8 * (PARITY - 1)
BELOW = (1 << TOP) - 1


def parity_of(data: bytes) -> bytes:
    """The parity of at most 207 bytes."""
    register = 0
    for byte in data + bytes(MOST_DATA - len(data)):
        register = (register & BELOW) << 8 ^ TABLE[register >> TOP ^ byte]
    return register.to_bytes(PARITY, "big")


def value_at(coefficients: Sequence[int], power: int) -> int:
    """The value of a polynomial, the highest coefficient first, at a power of alpha."""
    value = 0
    for each in coefficients:
        value = each ^ (EXP[LOG[value] + power] if value else 0)
    return value


def syndromes_of(word: bytes) -> List[int]:
    """The values of a codeword at alpha^1 to alpha^48: all 0 where nothing is wrong."""
    difference = int.from_bytes(parity_of(word[:-PARITY]), "big") ^ int.from_bytes(word[-PARITY:], "big")
    rest = difference.to_bytes(PARITY, "big")
    return [value_at(rest, root) for root in range(1, PARITY + 1)]


def locator_of(places: Sequence[int]) -> List[int]:
    """The coefficients of the product of 1 + x alpha^p over all places, the lowest first."""
    found = [1]
    for place in places:
        shifted = [times(each, EXP[place]) for each in found]
        found = [one ^ other for one, other in zip(found + [0], [0] + shifted)]
    return found


def evaluator_of(syndromes: Sequence[int], locator: Sequence[int]) -> List[int]:
    """The coefficients of the product of syndromes and locator below x^e, e places, the lowest first."""
    found = []
    for degree in range(len(locator) - 1):
        value = 0
        for at in range(degree + 1):
            value ^= times(syndromes[at], locator[degree - at])
        found.append(value)
    return found


def restored(word: bytes, lost: Sequence[int]) -> Optional[bytes]:
    """A codeword whose bytes at these offsets are lost, and 0 in it, with these bytes; None if they are more than
    48."""
    if not lost:
        return word
    if len(lost) > PARITY:
        return None
    data = len(word) - PARITY
    places = [ORDER - 1 - offset if offset < data else len(word) - 1 - offset for offset in lost]
    syndromes, locator = syndromes_of(word), locator_of(places)
    evaluator = evaluator_of(syndromes, locator)
    evaluator.reverse()
    # The derivative has the odd coefficients, each one power lower.
    derivative = [each if at % 2 else 0 for at, each in enumerate(locator)][1:]
    derivative.reverse()
    found = bytearray(word)
    for offset, place in zip(lost, places):
        inverse = (ORDER - place) % ORDER
        above, below = value_at(evaluator, inverse), value_at(derivative, inverse)
        found[offset] ^= EXP[LOG[above] + ORDER - LOG[below]] if above else 0
    return bytes(found)
