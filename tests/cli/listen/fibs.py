#!/usr/bin/env python3
"""'dabplan listen': FIBs byte by byte: which are damaged, what is skipped, and what a listener keeps. The last line is 'N
passed, M failed'."""
import rows
from rows import hexadecimal
from streams import ONE_PROGRAMME, fib, sixty_five, stream

# FIG 0/0 of ensemble E1C5 and count 0, and a notice at count 4 of a swap at 28.
TUNED, NOTICED = "05 00 E1 C5 00 00", "06 00 E1 C5 40 04 1C"

# Sub-channel 1 at 0 by 3-A with 96, 72 and 48 capacity units, and its listing lines.
SUB_96, SUB_72, SUB_48 = "04 00 88 60", "04 00 88 48", "04 00 88 30"
LISTED_96, LISTED_72, LISTED_48 = (f"sub 1 at 0 size {size} eep 3-A\n" for size in (96, 72, 48))
RADIO = "service C221\n  audio 63 sub 1 primary\n"


def reported(rows, data, current, following="", swap="no swap", damaged=0):
    """The listing of FIBs: the current and the next lines."""
    wanted = f"fibs {len(data) // 32} damaged {damaged}\ncurrent\n{current}next\n{following}{swap}\n"
    rows.listens("listen x.fib", wanted, {"x.fib": data})


def whole_and_damaged(rows):
    """Data bytes that are whole FIGs, and some that are not; bytes after the end marker are ignored."""
    filled = [f"{0xDF + place:02X} " + "00 " * (place - 1) if place else "" for place in range(30)]
    seven = " 01 " + "00 00 80 00 " * 7
    for data, damaged in (
        ("00", 1), ("01 00 FF", 1), ("1F 01", 1), ("20 3D", 1), ("04 01 04 00 88 FF", 1), ("05 00 E1 C5 14 00 FF", 1),
        ("04 01 04 00 05 FF", 0), ("FF 55", 0),
        # a FIG of type 1, an extension above 3, another ensemble with half an entry, lengths 0, 1, 29 and 31
        ("25 00 E1 C5 50 65 FF", 0), ("02 04 00 02 1F 00 FF", 0), ("02 41 04 FF", 0), ("01 41 01 40 FF", 0),
        ("20 40 60 80 A0 C0 E0 FF", 0), ("3D", 0), ("1D 05", 0), ("3F", 1),
        # FIG 0/1 to 0/3 without entries; an option that no profile has, and P/D 1; the short form, and both forms
        ("01 01 01 02 01 03 FF", 0), ("09 21 04 00 F8 60 08 60 88 60 FF", 0), ("07 01 04 00 05 08 60 45 FF", 0),
        ("08 01 04 00 88 60 08 60 45 FF", 0),
        # FIG 0/0: a byte too many; counts; two entries; flags without their count; none
        ("06 00 E1 C5 13 F2 10 FF", 1), ("05 00 E1 C5 13 F9 FF", 0),
        ("05 00 E1 C5 00 FA FF", 1), ("05 00 E1 C5 54 00 FF", 1), ("22 00 00 01 00 FF", 1),
        ("09 00 E1 C5 00 00 E1 C5 00 04 FF", 1), ("05 00 E1 C5 40 00 FF", 1), ("3B " + "00 " * 27 + "01 00", 1),
        # services: without components and with some; of 32 bits; TMId 10, a CAId and CA flags; 16 bits where P/D is 1
        ("07 02 C2 21 00 C2 22 F0 FF", 0), ("0D 02 C2 21 02 3F 06 45 FC C2 22 01 C0 00 FF", 0),
        ("0D 22 E1 C2 00 01 01 C0 06 E1 C2 00 02 00 FF", 0), ("08 02 C2 21 F2 BF FF 3F 07 FF", 0),
        ("08 22 E1 C2 00 01 01 C0 06 FF", 0), ("06 22 C2 21 01 3F 06 FF", 1),
        # packet components: one with its CAOrg and address 0, and one that lacks it
        ("0D 03 00 1F 7C 14 00 AB CD 00 20 3C 14 07 FF", 0), ("06 03 00 11 3C 14 01 FF", 1),
        # seven sub-channels fill a FIB, and lengths of 30 and 31
        ("1D" + seven, 0), *((f"{header:02X}" + seven, 1) for header in (0x1E, 0x1F, 0x3E, 0x3F)),
        # an end marker, a FIG to the last byte, and one that is a byte longer, at every place
        *((f"{front}FF", 0) for front in filled), *((f"{front}{0x3D - place:02X}", 0) for place, front in enumerate(filled)),
        *((f"{front}{0x3E - place:02X}", 1) for place, front in enumerate(filled)),
    ):
        reported(rows, stream(data), "", damaged=damaged)
    # FIG 0/0 with flags, C/N 1 and P/D 1
    reported(rows, stream("06 A0 E1 C5 D3 F2 FF FF"), "", swap="swap at low 255")


def each_turned_bit(rows):
    """A FIB in which one bit is inverted is ignored, and earlier entries are kept, the awaited swap too."""
    swap = f"05 00 E1 C5 00 1C 05 01 08 60 88 48 05 81 {SUB_48}"
    known = stream(f"{TUNED} 05 01 {SUB_96} {ONE_PROGRAMME[0][36:]}", f"{NOTICED} 05 81 {SUB_72} FF")
    good = fib(swap)
    turned = b"".join(bytes(byte ^ (1 << bit if at == place else 0) for at, byte in enumerate(good))
                      for place in range(32) for bit in range(8))
    reported(rows, known + turned, LISTED_96 + RADIO, LISTED_72, "swap at low 28", damaged=256)
    # the same before half an entry, and before an end marker
    reported(rows, known + fib(f"{swap} 02 02 C2"), LISTED_96 + RADIO, LISTED_72, "swap at low 28", damaged=1)
    reported(rows, known + fib(f"{swap} FF 02 C2"), LISTED_72 + "sub 2 at 96 size 72 eep 3-A\n", LISTED_48)


def passed_over(rows):
    """Other ensembles, types and extensions, bytes after the end marker, and entries before the first FIG 0/0."""
    other = (f"05 41 {SUB_96} 02 09 00 23 00 E1 C5 FF 04 01 08 60 45",
             *(f"{header} 01 {SUB_96} FF" for header in ("25", "45", "65", "85", "A5", "C5", "E5")),
             *(f"05 {ext:02X} {SUB_96} FF" for ext in (*range(4, 32), *range(0x40, 0x44))))
    for data in other:
        reported(rows, stream(f"{TUNED} FF", data), "")
    first, second = "sub 1 at 0 switch 0 table 5\n", "sub 2 at 96 switch 0 table 5\n"
    before = ("04 01 04 00 05 FF", f"04 01 04 00 05 {TUNED} 04 01 08 60 05 FF")
    reported(rows, stream(before[0]), "")
    reported(rows, stream(*before), second)
    reported(rows, stream(*before, before[0]), first + second)


def each_field(rows):
    """Entries in the listing: options, tables, TMIds, long identifiers, and fields without a meaning here."""
    for data, wanted in (
        ("05 01 FC DE 80 18", "sub 63 at 222 size 24 eep 1-A\n"), ("04 01 04 00 23", "sub 1 at 0 switch 0 table 35\n"),
        ("04 01 08 60 45", "sub 2 at 96 switch 1 table 5\n"), ("05 01 08 60 FC 60", "sub 2 at 96 size 96 option 7 level 4\n"),
        ("05 01 04 00 A8 60", "sub 1 at 0 size 96 option 2 level 3\n"), (f"05 21 {SUB_96}", LISTED_96),
        ("06 03 00 00 BC 14 07", "packet 0 raw type 60 sub 5 address 7\n"),
        ("08 03 12 3B 7C 17 FF AB CD", "packet 291 groups type 60 sub 5 address 1023\n"),
        ("06 23 12 30 3C 14 01", "packet 291 groups type 60 sub 5 address 1\n"),
        ("06 02 C2 21 D1 7C 15", "service C221\n  data 60 sub 5 secondary\n"), ("04 02 C2 21 00", "service C221\n"),
        ("0A 02 C2 22 03 3F 0A C0 00 BF FF", "service C222\n  audio 63 sub 2 primary\n  packet 0 secondary\n  other BFFF\n"),
        ("08 22 E1 C2 00 01 01 C0 06", "service E1C20001\n  packet 1 primary\n"),
    ):
        reported(rows, stream(f"{TUNED} {data} FF"), wanted)


def later_entries_replace_earlier_ones(rows):
    """A sub-channel again, in the other form and at another rate; a long identifier of the same number is another service."""
    later = f"08 01 04 00 05 {SUB_72} 06 22 00 00 C2 21 00 FF"
    reported(rows, stream(ONE_PROGRAMME[0], later), LISTED_72 + RADIO + "service 0000C221\n")


def no_configuration(rows):
    """Received entries are listed, and if a configuration can't have them, there is no script either."""
    for data in (
        "04 01 04 00 05", "05 01 04 00 A8 60", "05 01 04 00 88 61", "05 01 07 01 88 60", "06 02 C2 21 81 3F 06",
        "06 02 C2 21 11 3F 06", "06 02 C2 21 01 80 06", "06 02 C2 21 01 3F 07", "06 02 C2 21 01 3F 04",
        "08 02 C2 21 02 3F 06 45 04", "08 03 00 11 3C 14 01 00 00", "06 03 00 10 3C 14 00",
    ):
        ended = rows.run("listen x.fib --script", {"x.fib": stream(f"{TUNED} {data} FF")})
        rows.tally.hold(ended.lines() == (1, b"") and ended.messages.startswith(b"refused: "), f"{data}: {ended.messages[:90]}")


def a_full_picture(rows):
    """It accepts known entries and entries of another kind; of a FIB with one too many nothing is kept."""
    services = [f"04 02 C2 {number:02X} 00 FF" for number in range(64)]
    full, wanted = stream(f"{TUNED} FF", *services), "".join(f"service C2{number:02X}\n" for number in range(64))
    fits = f"06 02 C2 07 01 3F 06 05 01 {SUB_96} 06 03 00 10 3C 14 01 FF"
    known = wanted.replace("service C207\n", "service C207\n  audio 63 sub 1 primary\n")
    for more in (stream(fits), stream(fits, fits), stream("04 02 C2 07 00 FF", fits)):
        reported(rows, full + more, LISTED_96 + known + "packet 1 groups type 60 sub 5 address 1\n")
    reported(rows, full + stream("04 82 C2 40 00 FF"), wanted, "service C240\n")
    reported(rows, stream(f"{TUNED} FF", *services[:61], "0D 02 C2 50 00 C2 51 00 C2 52 00 C2 50 00 FF"),
         "".join(f"service C2{number:02X}\n" for number in (*range(61), 0x50, 0x51, 0x52)))
    four = stream(f"{TUNED} FF", *services[:61], "0D 02 C2 50 00 C2 51 00 C2 52 00 C2 53 00 FF")
    for data in (full + stream(f"05 01 {SUB_96} 04 02 C2 40 00 FF"), four,
                 full + stream("06 03 00 20 3C 14 02 06 00 E1 C5 40 08 20 04 02 C2 40 00 FF")):
        rows.answers("listen x.fib", 1, "refused: Full\n", {"x.fib": data})
    # a swap empties the next picture, and there is room within the same FIB
    of_next = [f"06 83 {number // 16:02X} {number % 16 * 16:02X} 3C 14 01 FF" for number in range(65)]
    notice = "06 00 E1 C5 C0 04 1C FF"
    packets = [f"packet {number} groups type 60 sub 5 address 1\n" for number in range(65)]
    reported(rows, stream(notice, *of_next[:64], "05 00 E1 C5 00 1C 06 83 04 00 3C 14 01 FF"), "".join(packets[:64]), packets[64])
    rows.answers("listen x.fib", 1, "refused: Full\n", {"x.fib": stream(notice, *of_next)})


def entries_ascend(rows):
    """In whatever order they are received."""
    numbers = [turn * 37 % 64 for turn in range(64)]
    data = stream(f"{TUNED} FF", *(f"04 02 {0xC0 | number // 16:02X} {number % 16 * 16:02X} 00 FF" for number in numbers))
    reported(rows, data, "".join(f"service {0xC000 + 16 * number:04X}\n" for number in range(64)))


def swaps(rows):
    """A notice, a swap in whose frame another notice begins, a missed swap detected by the absence of flags, and
    two FIG 0/0 in one FIB."""
    first = ONE_PROGRAMME[0]
    notice = f"{NOTICED} 05 81 {SUB_72} FF"
    later = f"06 00 E1 C5 40 18 1C 05 81 {SUB_72} FF"
    swap = f"06 00 E1 C5 C0 1C 34 05 81 {SUB_48} FF"
    after = f"05 00 E1 C5 00 3C 05 01 {SUB_48} FF"
    reported(rows, stream(first, notice), LISTED_96 + RADIO, LISTED_72, "swap at low 28")
    reported(rows, stream(first, notice, later), LISTED_96 + RADIO, LISTED_72, "swap at low 28")
    reported(rows, stream(first, notice, later, swap), LISTED_72, LISTED_48, "swap at low 52")
    reported(rows, stream(first, notice, later, swap, after), LISTED_48)
    reported(rows, stream(f"{TUNED} FF", "06 00 E1 C5 80 04 08 04 82 C2 21 00 05 00 E1 C5 00 08 FF"), "service C221\n")


def another_multiplexer(rows):
    """FIBs that another multiplexer made, with labels and other extensions between the entries."""
    data = hexadecimal(
        "05 00 E1 C5 11 D2 03 07 10 27 10 01 04 00 23 08 60 84 60 14 C0 9C 1E FC DE 80 18 FF 00 00 83 B9"
        "14 02 C2 21 02 00 06 45 FC C2 22 02 3F 0A C0 00 C2 24 01 3F 0A 06 03 00 00 BC 14 07 FF 00 94 F4"
        "08 22 E1 C2 00 01 01 C0 06 06 03 00 10 3C 17 FF 0D 01 FC DE 80 18 14 C0 9C 1E 08 60 84 60 51 74")
    subs = "sub 2 at 96 size 96 eep 2-A\nsub 5 at 192 size 30 eep 4-B\nsub 63 at 222 size 24 eep 1-A\n"
    services = ("service C221\n  audio 0 sub 1 primary\n  data 5 sub 63 secondary\n"
                "service C222\n  audio 63 sub 2 primary\n  packet 0 secondary\nservice C224\n  audio 63 sub 2 primary\n"
                "service E1C20001\n  packet 1 primary\n")
    packets = "packet 0 raw type 60 sub 5 address 7\npacket 1 groups type 60 sub 5 address 1023\n"
    reported(rows, data, "sub 1 at 0 switch 0 table 35\n" + subs + services + packets)
    reported(rows, data + stream(f"05 01 {SUB_96} FF"), LISTED_96 + subs + services + packets)
    labels = hexadecimal(
        "35 01 C2 21 4F 6E 65 20 20 20 20 20 20 20 20 20 20 20 20 20 FF 00 05 01 FC DE 80 18 FF 00 C3 92"
        "08 22 E1 C2 00 01 01 C0 06 0B 03 00 00 BC 14 07 00 10 3C 17 FF 08 28 E1 C2 00 01 00 80 01 0A BC")
    reported(rows, stream(f"{TUNED} FF") + labels, subs.splitlines(True)[-1] + "service E1C20001\n  packet 1 primary\n" + packets)


if __name__ == "__main__":
    rows.main([whole_and_damaged, each_turned_bit, passed_over, each_field, later_entries_replace_earlier_ones,
               no_configuration, a_full_picture, entries_ascend, swaps, another_multiplexer])
