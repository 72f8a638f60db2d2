"""FIBs and streams of FIBs from the bytes of their FIGs, and streams that carry FIBs."""
import lzma

import common

# One frame of one audio service: sub-channel 1 at 3-A 128 kbit/s, service C221 with audio of type 63 on it.
ONE_PROGRAMME = ("05 00 E1 C5 00 00 05 01 04 00 88 60 06 02 C2 21 01 3F 06 FF", "FF", "FF")


def crc(data):
    """The CRC of a FIB's data: the polynomial x^16 + x^12 + x^5 + 1, all ones initially, complemented (EN 300 401, 5.2.1)."""
    word = 0xFFFF
    for byte in data:
        for place in range(7, -1, -1):
            bit = (byte >> place ^ word >> 15) & 1
            word = word << 1 & 0xFFFF ^ (0x1021 if bit else 0)
    return word ^ 0xFFFF


def fib(data):
    """A FIB of these data bytes, with zeros after them up to the 30th, and its CRC."""
    data = bytes.fromhex(data).ljust(30, b"\0")
    return data + crc(data).to_bytes(2, "big")


def stream(*data):
    """FIBs of these data bytes, one after the other."""
    return b"".join(fib(each) for each in data)


def other_formats():
    """Streams of ETI and EDI with their names: of a multiplexer, and the first bytes of each form, behind which nothing is right."""
    for name, file in (("ETI", "real_eti.eti.xz"), ("EDI", "real_edi.edi.xz"), ("EDI", "real_pft.bin.xz")):
        yield name, lzma.decompress((common.TOP / "bench" / "samples" / file).read_bytes())
    for name, front in (("ETI", "FF 07 3A B6"), ("ETI", "FF F8 C5 49"), ("ETI", "18 00 FF 07 3A B6"),
                        ("ETI", "01 00 00 00 18 00 FF F8 C5 49"), ("EDI", "41 46 00 00 00 34 00 01 90 54"),
                        ("EDI", "50 46 00 01 00 00 02 00 00 05")):
        yield name, bytes.fromhex(front).ljust(960, b"\0")


def sixty_five(are_packets):
    """FIBs of 65 services or packet components, one in each after the first FIB, which holds FIG 0/0."""
    data = ["05 00 E1 C5 00 00 FF"]
    for number in range(65):
        high, low = number // 16, number % 16 * 16
        data.append(f"06 03 {high:02X} {low:02X} 3C 14 01 FF" if are_packets else f"04 02 00 {number:02X} 00 FF")
    return stream(*data)
