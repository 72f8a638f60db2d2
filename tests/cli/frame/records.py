#!/usr/bin/env python3
"""'dabplan frame': its output for a record, and refused records. The last line is 'N passed, M failed'."""
import rows
from rows import ONE_PROGRAMME, hexadecimal

# A service that a packet component carries: sub-channel 5 at 3-A 64 kbit/s, service C221, packet component 1.
ONE_PACKET_SERVICE = "01 01 01 05 00 00 00 03 00 40 00 C2 21 01 03 00 01 00 01 00 3C 05 00 01"

EMPTY_FIB = "FF0000000000000000000000000000000000000000000000000000000000A8A8\n"


def row_of_sub_channels(count, components):
    """A record of the sub-channels 1 to `count`, each of 8 kbit/s at 4-A, adjacent, and of one service with
    audio of type 63 on the first `components` of them, if that is not 0."""
    record = [count, 1 if components else 0, 0]
    for number in range(1, count + 1):
        record += [number, 0, (number - 1) % 64 * 4, 0, 4, 0, 8]
    if components:
        record += [0, 0xC2, 0x21, components]
    for number in range(1, components + 1):
        record += [0, 63, number]
    return bytes(record)


def records(rows):
    """The output for a record."""
    counted = "0500E1C500000501040088600602C221013F06FF000000000000000000002369\n"
    carried = "0501140088300602C22101C006060300103C1401FF00000000000000000062EF\n"
    for record, options, first in (
        (ONE_PROGRAMME, "--count 0", counted),
        (ONE_PROGRAMME, "--count +000 --page +0", counted),
        ("00 00 00", "--count 1", EMPTY_FIB),
        (ONE_PACKET_SERVICE, "--count 1", carried),
    ):
        rows.answers(f"frame - --ensemble E1C5 {options}", 0, first + 2 * EMPTY_FIB, stdin=hexadecimal(record))
        ended = rows.run(f"frame - --ensemble E1C5 {options} --raw", stdin=hexadecimal(record))
        rows.tally.same(f"frame {options} --raw", (0, hexadecimal(first + 2 * EMPTY_FIB)), (ended.status, ended.printed))


def modes(rows):
    """In modes 2 and 3 FIG 0/0 is sent at every count, in mode 4 at the even ones. A frame of mode 3 has four FIBs."""
    first = "0500E1C500010501040088600602C221013F06FF0000000000000000000066DD\n"
    second = "0500E1C500020501040088600602C221013F06FF00000000000000000000A801\n"
    without = "0501040088600602C221013F06FF000000000000000000000000000000007FE7\n"
    for options, wanted, empty in (
        ("--count 1", without, 2),
        ("--count 1 --mode 1", without, 2),
        ("--count 2 --mode 1", without, 2),
        ("--count 1 --mode 2", first, 2),
        ("--count 1 --mode 3", first, 3),
        ("--mode +3 --count 2", second, 3),
        ("--count 1 --mode 4", without, 2),
        ("--count 2 --mode 004", second, 2),
    ):
        rows.answers(f"frame - --ensemble E1C5 {options}", 0, wanted + empty * EMPTY_FIB,
                     stdin=hexadecimal(ONE_PROGRAMME))


def refused_records(rows):
    """A record with a fault, and its line. The faults are tested in order: the record, bytes after
    it, soundness, the page."""
    overlap = "02 00 00 01 00 00 00 03 00 80 02 00 00 00 03 00 40"
    one_address = "01 00 02 05 00 00 00 03 00 40 00 01 00 3C 05 00 01 00 02 00 3C 05 00 01"
    for record, page, wanted in (
        ("", 0, "record: Short\n"),
        ("01 01 00 01 00 00 00 03 00", 0, "record: Short\n"),
        ("01 00 00 40", 0, "record: Field 3\n"),
        ("01 00 00 01 00 00 02", 0, "record: Field 6\n"),
        ("02 00 00 01 00 00 00 03 00 80 01", 0, "record: Order\n"),
        ("00 00 00 00", 9, "record: trailing\n"),
        (overlap, 0, "refused: Overlap 1 2\n"),
        (overlap, 1, "refused: Overlap 1 2\n"),
        ("00 01 00 00 C2 21 00", 0, "refused: EmptyService\n"),
        ("00 01 00 00 C2 21 01 00 3F 01", 0, "refused: Orphan\n"),
        (one_address, 0, "refused: AddressUsed\n"),
        (ONE_PROGRAMME, 1, "refused: no such page\n"),
        (ONE_PROGRAMME, 65535, "refused: no such page\n"),
    ):
        rows.answers(f"frame x.rec --ensemble E1C5 --count 0 --page {page}", 1, wanted, {"x.rec": hexadecimal(record)})
    rows.answers("frame x.rec --ensemble E1C5 --count 0", 1, "cannot read x.rec\n")


def fields_of_records(rows):
    """The first byte of the first field at fault. A field is checked as soon as its bytes are present: a rate that has
    no size at the rate, an end past the multiplex at the start, a carrier that occurs twice at its second component."""
    for record, wanted in (
        # the three numbers, and sub-channels
        ("41", "Field 0"), ("40", "Short"), ("01 41", "Field 1"), ("01 01 41", "Field 2"), ("01 00 00 40", "Field 3"),
        ("01 00 00 01 00", "Short"), ("01 00 00 01 00 00 02", "Field 6"), ("01 00 00 01 00 00 00 00", "Field 7"),
        ("01 00 00 01 00 00 00 05", "Field 7"), ("01 00 00 01 00 00 00 03 00 21", "Field 8"),
        ("01 00 00 01 00 00 00 03 00 00", "Field 8"), ("01 00 00 01 FF FF 00 03 00 21", "Field 8"),
        ("01 00 00 01 03 01 00 03 00", "Short"), ("01 00 00 01 03 01 00 03 00 80", "Field 4"),
        ("02 00 00 01 00 00 00 03 00 80 40", "Field 10"), ("02 00 00 01 00 00 00 03 00 80 01", "Order"),
        ("02 00 00 01 00 00 00 03 00 80 00", "Order"),
        # services and their components
        ("00 01 00 02", "Field 3"), ("00 01 00 00 C2", "Short"), ("00 01 00 01 00 00 C2", "Short"),
        ("00 01 00 00 C2 21 0D", "Field 6"), ("00 01 00 01 00 00 C2 21 0C", "Field 8"),
        ("00 02 00 00 C2 21 00 00 C2 21", "Order"), ("00 02 00 01 00 00 00 01 00 00 C2 21", "Order"),
        ("00 01 00 00 C2 21 01 02", "Field 7"), ("00 01 00 00 C2 21 01 04", "Field 7"),
        ("00 01 00 00 C2 21 01 00 40", "Field 8"), ("00 01 00 00 C2 21 01 01 3F 40", "Field 9"),
        ("00 01 00 00 C2 21 01 03 10 00", "Field 8"), ("00 01 00 00 C2 21 02 00 3F 01 01 05", "Short"),
        ("00 01 00 00 C2 21 02 00 3F 01 01 05 01", "Field 10"),
        # packet components
        ("00 00 01 10 00", "Field 3"), ("00 00 01 00 01 02", "Field 5"), ("00 00 01 00 01 00 40", "Field 6"),
        ("00 00 01 00 01 00 3C 40", "Field 7"), ("00 00 01 00 01 00 3C 05 00 00", "Field 8"),
        ("00 00 01 00 01 00 3C 05 04 00", "Field 8"), ("00 00 02 00 01 00 3C 05 00 01 00 01", "Order"),
        ("00 00 02 00 01 00 3C 05 00 01 10 00", "Field 10"),
    ):
        rows.answers("frame - --ensemble E1C5 --count 0", 1, f"record: {wanted}\n", stdin=hexadecimal(record))
    whole = hexadecimal(ONE_PACKET_SERVICE)
    for length in range(len(whole)):
        rows.answers("frame - --ensemble E1C5 --count 0", 1, "record: Short\n", stdin=whole[:length])


def last_pages(rows):
    """The last pages of 63 sub-channels: the fourth, and in mode 3 the third; the next one is refused."""
    record = row_of_sub_channels(63, 0)
    for page, mode, fibs in ((3, 1, 3), (3, 2, 3), (2, 3, 4), (3, 4, 3)):
        line = f"frame - --ensemble E1C5 --count 1 --mode {mode}"
        ended = rows.run(f"{line} --page {page}", stdin=record)
        rows.tally.same(f"page {page} in mode {mode}", (0, fibs), (ended.status, ended.printed.count(b"\n")))
        rows.answers(f"{line} --page {page + 1}", 1, "refused: no such page\n", stdin=record)


def packed_fibs(rows):
    """Configurations that take more than one FIB, and more than one page."""
    sixty_four = bytes([64, 0, 0]) + b"".join(bytes([number, 0, 4 * number, 0, 4, 0, 8]) for number in range(64))
    last_in_mode_3 = (
        "0500E1C500001501D0D08C04D4D48C04D8D88C04DCDC8C04E0E08C04FF00DBB8\n"
        "1D01E4E48C04E8E88C04ECEC8C04F0F08C04F4F48C04F8F88C04FCFC8C043679\n" + 2 * EMPTY_FIB
    )
    for mode, pages in ((1, 4), (2, 4), (3, 3), (4, 4)):
        line = f"frame - --ensemble E1C5 --count 0 --mode {mode}"
        rows.answers(f"{line} --page {pages}", 1, "refused: no such page\n", stdin=sixty_four)
    rows.answers("frame - --ensemble E1C5 --count 0 --mode 3 --page 2", 0, last_in_mode_3, stdin=sixty_four)
    thirteen = (
        "0500E1C50000150104008C0408048C040C088C04100C8C0414108C04FF00A044\n"
        "1D0118148C041C188C04201C8C0424208C0428248C042C288C04302C8C049C07\n"
        "050134308C04FF00000000000000000000000000000000000000000000009BF1\n"
    )
    large_service = (
        EMPTY_FIB + "1C02C2210C3F063F083F0C3F103F143F183F1C3F203F243F283F2C3F30FF7400\n" + EMPTY_FIB
    )
    no_page = "refused: no such page\n"
    for count, components, options, status, wanted in (
        (13, 0, "--count 0", 0, thirteen),
        (13, 0, "--count 0 --page 1", 1, no_page),
        (19, 12, "--count 1 --page 1", 0, large_service),
        (19, 12, "--count 1 --page 2", 1, no_page),
    ):
        rows.answers(f"frame - --ensemble E1C5 {options}", status, wanted, stdin=row_of_sub_channels(count, components))


if __name__ == "__main__":
    rows.main([records, modes, refused_records, fields_of_records, last_pages, packed_fibs])
