#!/usr/bin/env python3
"""'dabplan verify': the bytes of code files, field by field: each kind of fault at its offset, each operand at its limits and
just past them, and truncated files. The last line is 'N passed, M failed'."""
import rows
from codes import AT_64, NOTHING_CODE, PROGRAMME, RATES_CODE, code
from rows import hexadecimal

# A code with two labels, the second of which has counter 0 set: the body of a loop is run three times.
LOOP = code("set 0 3, wait 1, loop 0 1, end", "0 cost 2, 1 counters 01 cost 1")

# A code of two configurations and two labels. Its configurations are the empty one at 16, and at 19 one of two sub-channels
# (at 22 and 29), three services (at 36, 46 and 50) and two packet components (at 59 and 66); the labels are at 73 and 86,
# the only instruction at 99.
FULL = code(
    "end", "0 of 0 1 within 24 27 counters 81 cost 20, 65535 of 1 0 cost 255",
    ["", "sub 1 at 0 eep 3-A 128, sub 2 at 96 eep 4-B 32, "
         "service C221, audio 63 sub 1 in C221, data 5 sub 2 in C221, service C222, service E1C20001, carry 7 in E1C20001, "
         "packet 3847 groups type 60 sub 2 address 1, packet 4095 raw type 0 sub 1 address 1023"], lines=[65535])

# A code that lowers a rate, waits for a frame of the day during the notice, and settles: at its second label, at 63, the
# swap has perhaps been made.
SETTLED = code("rate sub 1 64, commit in 24, until 3300000, test 1 5, wait 1, settle, end",
               "0 cost 3, 5 of 0 1 perhaps 26 cost 2", [PROGRAMME, AT_64], lines=[7, 8, 9, 10, 10, 11, 11])

# Codes that end at once: of version 2, in mode 3; and of version 3, in mode 1 with one FIB of each frame reserved, and in
# mode 3 with two.
IN_MODE_3, ONE_RESERVED, TWO_RESERVED = code("end", mode=3), code("end", reserve=1), code("end", mode=3, reserve=2)


def fault(rows, file):
    """The reported fault of a code file, without the prefix 'code: '; nothing if it has none."""
    printed = rows.run("verify x.code", {"x.code": file}).printed.decode()
    return printed.strip().removeprefix("code: ") if printed.startswith("code: ") else ""


def judged(rows, file, wanted):
    """A file has this fault, or none."""
    rows.tally.same(f"verify {file.hex(' ')}", wanted, fault(rows, file))


def changed(file, place, byte):
    """A file with another byte at this offset."""
    return file[:place] + bytes([byte]) + file[place + 1:]


def one_byte_is_changed(rows, file, table):
    """A file in which one byte is changed has this fault."""
    for place, byte, wanted in table:
        judged(rows, changed(file, place, byte), wanted)


def fields_of_the_shortest_file(rows):
    """The header, the label and the opcode of a code of one instruction."""
    one_byte_is_changed(rows, NOTHING_CODE, (
        # the header: the letters, the version, the period, the notice, the budget and the three numbers
        (0, 0x45, "Magic"), (3, 0x51, "Magic"), (4, 0x00, "Version"), (4, 0x04, "Version"), (4, 0x02, "Field 5"),
        (4, 0x03, "Field 5"),
        (7, 0x00, "Field 7"), (7, 0x3D, "Field 7"), (8, 0x0B, "Field 8"), (8, 0xF9, "Field 8"), (9, 0x00, "Field 9"),
        (11, 0x00, "Field 10"), (13, 0x00, "Field 12"), (15, 0x00, "Field 14"),
        # 257 configurations, 1,025 labels, 4,097 instructions
        (10, 0x01, "Limit"), (12, 0x04, "Limit"), (14, 0x10, "Limit"),
        # the numbers of the configuration
        (16, 0x41, "Field 16"), (17, 0x41, "Field 17"), (18, 0x41, "Field 18"),
        # the label: its configurations, the flag and bounds of a swap, its cost
        (22, 0x01, "Field 21"), (24, 0x01, "Field 23"), (25, 0x03, "Field 25"), (25, 0x02, "Field 28"),
        (25, 0x01, "Field 26"), (27, 0x01, "Field 26"), (29, 0x01, "Field 28"), (31, 0x00, "Field 31"),
        # the opcode
        (34, 0x00, "Field 34"), (34, 0x1A, "Field 34"),
    ))
    for byte in range(256):
        file = changed(NOTHING_CODE, 0, byte)
        rows.tally.same(f"first byte {byte}", "Magic" if byte != 0x44 else "", fault(rows, file))


def fields_of_a_programme_and_its_instructions(rows):
    """A configuration of one programme, and instructions with operands."""
    one_byte_is_changed(rows, RATES_CODE, (
        # the sub-channel: identifier, start, set, level, rate
        (19, 0x40, "Field 19"), (20, 0x04, "Field 20"), (22, 0x02, "Field 22"), (23, 0x00, "Field 23"),
        (23, 0x05, "Field 23"), (25, 0x81, "Field 24"),
        # the service: kind of its SId, number of components, TMId, type, sub-channel
        (26, 0x02, "Field 26"), (29, 0x0D, "Field 29"), (30, 0x02, "Field 30"), (31, 0x40, "Field 31"),
        (32, 0x40, "Field 32"),
        # the instructions: contact, level, sub-channel, delay
        (49, 0x10, "Field 49"), (50, 0x02, "Field 50"), (54, 0x40, "Field 54"), (61, 0x00, "Field 60"),
        (60, 0xEB, "Field 60"), (64, 0x0A, "Field 64"), (86, 0x25, "Field 86"),
    ))


def fields_of_a_loop(rows):
    """Labels that do not ascend, counters and times."""
    one_byte_is_changed(rows, LOOP, (
        # a label that is no later than the one before it
        (33, 0x00, "Field 32"), (20, 0x01, "Field 32"), (20, 0x02, "Field 32"),
        # counters and times
        (48, 0x08, "Field 48"), (50, 0x00, "Field 49"), (55, 0x00, "Field 54"), (59, 0x08, "Field 59"),
    ))


def fields_of_a_configuration(rows):
    """A member of each kind in a configuration's tables."""
    one_byte_is_changed(rows, FULL, (
        # the numbers of sub-channels, services and packet components
        (19, 0x41, "Field 19"), (20, 0x41, "Field 20"), (21, 0x41, "Field 21"),
        # a sub-channel: identifier, end past the multiplex, set, level, rates that have no size
        (22, 0x40, "Field 22"), (30, 0x03, "Field 30"), (25, 0x02, "Field 25"), (32, 0x02, "Field 32"),
        (33, 0x00, "Field 33"), (33, 0x05, "Field 33"), (35, 0x21, "Field 34"), (35, 0x00, "Field 34"),
        # a service: kind of its identifier, number of components of a short one and of a long one
        (36, 0x02, "Field 36"), (39, 0x0D, "Field 39"), (46, 0xFF, "Field 46"), (55, 0x0C, "Field 55"),
        # a component: TMId, type, sub-channel, packet component, the carrier of the one before it
        (40, 0x02, "Field 40"), (40, 0x04, "Field 40"), (43, 0xFF, "Field 43"), (41, 0x40, "Field 41"),
        (42, 0x40, "Field 42"), (44, 0x40, "Field 44"), (45, 0x40, "Field 45"), (56, 0x02, "Field 56"),
        (57, 0x10, "Field 57"), (45, 0x01, "Field 43"),
        # a packet component: identifier, DG flag, type, sub-channel, address
        (59, 0x10, "Field 59"), (61, 0x02, "Field 61"), (62, 0x40, "Field 62"), (63, 0x40, "Field 63"),
        (65, 0x00, "Field 64"), (64, 0x04, "Field 64"), (68, 0xFF, "Field 68"), (69, 0x40, "Field 69"),
        (70, 0x40, "Field 70"), (71, 0x04, "Field 71"),
        # an identifier that is not above the one before it: the record's first byte
        (29, 0x01, "Field 19"), (29, 0x00, "Field 19"), (38, 0x22, "Field 19"), (48, 0x20, "Field 19"),
        (66, 0x00, "Field 19"),
    ))


def fields_of_labels(rows):
    """Labels with a swap that is pending, and with one that perhaps is."""
    one_byte_is_changed(rows, FULL, (
        # the configurations, of which there are two
        (76, 0x02, "Field 75"), (75, 0x01, "Field 75"), (78, 0x02, "Field 77"), (77, 0x01, "Field 77"),
        (89, 0x02, "Field 88"),
        # whether a swap is pending, and the least bound of one that perhaps is
        (79, 0x03, "Field 79"), (79, 0x02, "Field 80"), (79, 0xFF, "Field 79"),
        # the bounds of a swap: the least from 1, the greatest from the least on; zeros if none is pending, and
        # the least is checked first
        (79, 0x00, "Field 80"), (81, 0x00, "Field 80"), (83, 0x17, "Field 82"), (92, 0x01, "Field 93"),
        (94, 0x01, "Field 93"), (96, 0x01, "Field 95"),
        # the cost
        (85, 0x00, "Field 85"), (98, 0x00, "Field 98"),
        # the opcode
        (101, 0x0A, "Field 101"),
    ))
    one_byte_is_changed(rows, SETTLED, (
        # the kind of the swap; the least bound, which is 0; the greatest, which is 1 or more
        (69, 0x03, "Field 69"), (70, 0x01, "Field 70"), (71, 0x01, "Field 70"), (73, 0x00, "Field 72"),
        # bounds of a swap that is pending for certain begin at 1
        (69, 0x01, "Field 70"),
    ))


def limits_of_labels(rows):
    """The last pc, the greatest cost, and the bounds of a swap at their limits, in a valid code."""
    for label, wanted in (
        ("65535 cost 255", ""), ("0 within 1 1", ""), ("0 within 65535 65535", ""), ("0 perhaps 1", ""),
        ("0 perhaps 65535", ""), ("0 within 0 1", "Field 26"), ("0 within 2 1", "Field 28"), ("0 perhaps 0", "Field 28"),
    ):
        judged(rows, code("end", label), wanted)


def limits_of_a_plan(rows):
    """Period, notice and budget at their limits and just past them."""
    one_byte_is_changed(rows, NOTHING_CODE, (
        (7, 1, ""), (7, 60, ""), (7, 0, "Field 7"), (7, 61, "Field 7"), (8, 12, ""), (8, 248, ""), (8, 11, "Field 8"),
        (8, 249, "Field 8"), (9, 1, ""), (9, 255, ""), (9, 0, "Field 9"),
    ))


def modes(rows):
    """Version 2 has a mode from 2 to 4; mode 1 has only version 1."""
    one_byte_is_changed(rows, IN_MODE_3, (
        (5, 2, ""), (5, 3, ""), (5, 4, ""), (5, 0, "Field 5"), (5, 1, "Field 5"), (5, 5, "Field 5"), (5, 255, "Field 5"),
        (4, 0, "Version"), (4, 3, "Field 6"), (4, 4, "Version"), (4, 255, "Version"),
    ))


def reserves(rows):
    """Version 3 has a mode from 1 to 4, and a reserve of 1, in mode 3 of 1 or 2. The mode is judged first."""
    one_byte_is_changed(rows, ONE_RESERVED, (
        (5, 1, ""), (5, 2, ""), (5, 3, ""), (5, 4, ""), (5, 0, "Field 5"), (5, 5, "Field 5"), (5, 255, "Field 5"),
        (6, 1, ""), (6, 0, "Field 6"), (6, 2, "Field 6"), (6, 3, "Field 6"), (6, 255, "Field 6"),
        (4, 0, "Version"), (4, 4, "Version"), (4, 255, "Version"),
    ))
    one_byte_is_changed(rows, TWO_RESERVED, (
        (5, 3, ""), (5, 1, "Field 6"), (5, 2, "Field 6"), (5, 4, "Field 6"), (5, 0, "Field 5"), (5, 5, "Field 5"),
        (6, 1, ""), (6, 2, ""), (6, 0, "Field 6"), (6, 3, "Field 6"), (6, 255, "Field 6"),
    ))


def cut_files(rows):
    """A file that is cut anywhere is truncated, and one with an extra byte is too long."""
    for whole in (NOTHING_CODE, RATES_CODE, FULL, IN_MODE_3, ONE_RESERVED, TWO_RESERVED):
        judged(rows, whole, "")
        for length in range(len(whole)):
            judged(rows, whole[:length], "Truncated")
        judged(rows, whole + b"\x00", "Trailing")
        judged(rows, whole + b"\x07", "Trailing")


def files_that_are_cut_at_a_fault(rows):
    """A field is checked as soon as its bytes are present, and is missing before."""
    for place, byte, end, wanted in (
        (0, 0x45, 4, "Magic"), (4, 0x04, 5, "Version"), (4, 0x03, 6, "Field 5"), (7, 0x00, 8, "Field 7"),
        (8, 0x0B, 9, "Field 8"),
        (9, 0x00, 10, "Field 9"), (11, 0x00, 12, "Field 10"), (10, 0x01, 12, "Limit"), (13, 0x00, 14, "Field 12"),
        (12, 0x04, 14, "Limit"), (15, 0x00, 16, "Field 14"), (14, 0x10, 16, "Limit"), (16, 0x41, 17, "Field 16"),
        (22, 0x01, 23, "Field 21"), (24, 0x01, 25, "Field 23"), (25, 0x03, 26, "Field 25"), (25, 0x02, 30, "Field 28"),
        # the least bound, before the greatest
        (25, 0x01, 28, "Field 26"), (27, 0x01, 28, "Field 26"), (29, 0x01, 30, "Field 28"), (31, 0x00, 32, "Field 31"),
        (34, 0x00, 35, "Field 34"), (34, 0x25, 35, "Field 34"),
    ):
        file = changed(NOTHING_CODE, place, byte)
        judged(rows, file[:end], wanted)
        judged(rows, file[:end - 1], "Truncated")


def of_one_line(line):
    """The file of a code whose one instruction has these bytes."""
    return NOTHING_CODE[:32] + hexadecimal(line)


def operands_at_their_limits(rows):
    """Each instruction with its operands at their least and greatest values is read."""
    for line in (
        "00 00 01 00 01", "FF FF 01 FF FF", "00 01 02 00 00 00 00", "00 01 02 00 36 EE 7F", "00 01 03 00 00",
        "00 01 03 0F 01", "00 01 04 00 01", "00 01 04 EA 60", "00 01 05 00 00", "00 01 05 FF FF", "00 01 06",
        "00 01 07", "00 01 08", "00 01 10 00 00 00 00 01 00 00", "00 01 10 3F 03 FF 01 04 FF FF", "00 01 11 00",
        "00 01 11 3F", "00 01 12 00 00 00", "00 01 12 3F 03 FF", "00 01 13 00 00 00", "00 01 13 3F FF FF",
        "00 01 14 00 00 00", "00 01 14 01 FF FF FF FF", "00 01 15 00 FF FF", "00 01 15 01 00 00 00 00",
        "00 01 16 00 00 00 00 00 00", "00 01 16 00 FF FF 00 3F 3F", "00 01 16 00 00 00 01 00 00",
        "00 01 16 01 FF FF FF FF 01 3F 3F", "00 01 16 00 00 00 03 00 00", "00 01 16 01 FF FF FF FF 03 0F FF",
        "00 01 17 00 00 00 00 00 00", "00 01 17 01 FF FF FF FF 00 00 3F", "00 01 17 00 00 00 01 00 00",
        "00 01 17 01 FF FF FF FF 01 0F FF", "00 01 18 00 00 00 00 00 00 00", "00 01 18 0F FF 01 3F 3F FF FF",
        "00 01 19 00 00", "00 01 19 0F FF", "00 01 20 00 00 00", "00 01 20 0F FF FF", "00 01 21 00 00",
        "00 01 21 FF FF", "00 01 22 00 00 01", "00 01 22 07 FF FF", "00 01 23 00 00 00", "00 01 23 07 FF FF",
        "00 00 07", "FF FF 06",
    ):
        judged(rows, of_one_line(line), "")


def operands_past_their_limits(rows):
    """An instruction with an operand just past its range, at this offset of its file."""
    for line, place in (
        ("00 01 01 00 00", 35), ("00 01 02 00 36 EE 80", 35), ("00 01 03 10 00", 35), ("00 01 03 0F 02", 36),
        ("00 01 04 00 00", 35), ("00 01 04 EA 61", 35), ("00 01 10 40 00 00 00 01 00 00", 35),
        ("00 01 10 00 04 00 00 01 00 00", 36), ("00 01 10 00 00 00 02 01 00 00", 38),
        ("00 01 10 00 00 00 00 05 00 00", 39), ("00 01 11 40", 35), ("00 01 12 00 04 00", 36),
        ("00 01 14 02 00 00", 35), ("00 01 16 00 00 00 02 00 00", 38), ("00 01 16 00 00 00 00 40 00", 39),
        ("00 01 16 00 00 00 01 00 40", 40), ("00 01 16 00 00 00 03 10 00", 39), ("00 01 17 00 00 00 02 00 00", 38),
        ("00 01 17 00 00 00 00 00 40", 39), ("00 01 17 00 00 00 01 10 00", 39), ("00 01 18 00 00 02 00 00 00 00", 37),
        ("00 01 18 00 00 00 40 00 00 00", 38), ("00 01 19 10 00", 35), ("00 01 20 10 00 00", 35),
        ("00 01 22 07 00 00", 36), ("00 01 10 00 00 00 00 00 00 00", 39), ("00 01 12 40 00 00", 35),
        ("00 01 13 40 00 00", 35), ("00 01 15 02 00 00", 35), ("00 01 16 02 00 00 00 00 00", 35),
        ("00 01 16 00 00 00 00 00 40", 40), ("00 01 16 00 00 00 01 40 00", 39), ("00 01 17 02 00 00 00 00 00", 35),
        ("00 01 17 00 00 00 00 01 00", 39), ("00 01 18 10 00 00 00 00 00 00", 35),
        ("00 01 18 00 00 00 00 40 00 00", 39), ("00 01 22 08 00 01", 35), ("00 01 23 08 00 00", 35),
    ):
        judged(rows, of_one_line(line), f"Field {place}")


def opcodes_that_are_none(rows):
    """The opcodes of instructions, which here have no operands, and all other bytes."""
    opcodes = [*range(0x01, 0x0A), *range(0x10, 0x1A), *range(0x20, 0x25)]
    for byte in range(256):
        found = fault(rows, of_one_line(f"00 01 {byte:02X}"))
        rows.tally.same(f"opcode {byte:02X}", byte not in opcodes, found == "Field 34")


if __name__ == "__main__":
    rows.main([fields_of_the_shortest_file, fields_of_a_programme_and_its_instructions, fields_of_a_loop,
               fields_of_a_configuration, fields_of_labels, limits_of_labels, limits_of_a_plan, modes, reserves, cut_files,
               files_that_are_cut_at_a_fault, operands_at_their_limits, operands_past_their_limits, opcodes_that_are_none])
