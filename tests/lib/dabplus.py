"""Streams of DAB+ whose audio is no audio, by TS 102 563: superframes that a receiver takes, with access units that
have numbers."""
import functools

import bridges

# Access units of a superframe: 48 kHz with spectral band replication has three, of 40 ms each (5.2).
UNITS = 3
FRAMES = 5
MAGIC = b"\x00access unit "
ROOTS = 10


def fire_code(data):
    """The Fire code of a superframe: x^16 + x^14 + x^13 + x^12 + x^11 + x^5 + x^3 + x^2 + x + 1 (5.2)."""
    register = 0
    for byte in data:
        for bit in range(7, -1, -1):
            register = register << 1 & 0xFFFF ^ (0x782F if (register >> 15 ^ byte >> bit) & 1 else 0)
    return register.to_bytes(2, "big")


def tables():
    """Powers and logarithms of the field of 256 elements over x^8 + x^4 + x^3 + x^2 + 1 (6.1)."""
    powers, value = [], 1
    for _ in range(255):
        powers.append(value)
        value = value << 1 ^ (0x11D if value & 0x80 else 0)
    return powers, {value: power for power, value in enumerate(powers)}


POWERS, LOGS = tables()


def product(one, other):
    """The product of two elements."""
    return POWERS[(LOGS[one] + LOGS[other]) % 255] if one and other else 0


def generator():
    """The generator polynomial of RS(255, 245, 11), with the roots 1, a, .. a^9; the highest power, which is 1, is left
    out."""
    found = [1]
    for root in range(ROOTS):
        found = [one ^ product(other, POWERS[root]) for one, other in zip(found + [0], [0] + found)]
    return found[1:]


GENERATOR = generator()


def parity(data):
    """The ten bytes of RS(120, 110) behind 110 bytes: of the code that is shortened by zeros before them."""
    rest = [0] * ROOTS
    for byte in data:
        lead = byte ^ rest[0]
        rest = [after ^ product(lead, factor) for after, factor in zip(rest[1:] + [0], GENERATOR)]
    return bytes(rest)


@functools.lru_cache(maxsize=4096)
def superframe(kbits, number):
    """The superframe of a number, of 24 ms five times: its access units have numbers too."""
    size = kbits // 8 * 110
    head, room = 6, (size - 6) // UNITS
    starts = [head + unit * room for unit in range(UNITS)]
    # 48 kHz, SBR, mono; where the second and the third access unit begin.
    body = bytes([0x60]) + (starts[1] << 12 | starts[2]).to_bytes(3, "big")
    for unit, (start, end) in enumerate(zip(starts, starts[1:] + [size])):
        data = (MAGIC + (number * UNITS + unit).to_bytes(4, "big")).ljust(end - start - 2, b"\x55")
        body += data + bridges.crc(data)
    data = fire_code(body[:9]) + body
    step = kbits // 8
    columns = [parity(data[at::step]) for at in range(step)]
    return data + bytes(columns[at][row] for row in range(ROOTS) for at in range(step))


def stream(kbits, count, first=0):
    """The bytes of a stream in the frame of a count, whose superframes begin at counts that are `first` modulo 5."""
    number, at = divmod(count - first, FRAMES)
    size = 3 * kbits
    return superframe(kbits, number % (1 << 24))[at * size : (at + 1) * size]


def units_in(latm):
    """The numbers of the access units in an untouched stream of a receiver. They need not begin at whole bytes."""
    found = []
    for shift in range(8):
        bits = int.from_bytes(latm, "big") << shift
        data = bits.to_bytes(len(latm) + 1, "big")
        at = data.find(MAGIC)
        while at >= 0:
            found.append((at * 8 - shift, int.from_bytes(data[at + len(MAGIC) : at + len(MAGIC) + 4], "big")))
            at = data.find(MAGIC, at + 1)
    return [number for _, number in sorted(found)]
