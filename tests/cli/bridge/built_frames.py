#!/usr/bin/env python3
"""Frames that are made of parts, and sub-channels that are cut out of frames, by values from the standards. The last line
is 'N passed, M failed'."""
import sys
import unittest

import bridges
import composed
import units

sys.dont_write_bytecode = True
sys.path.insert(0, str(bridges.FOLDER))

from dabplan_bridge import edi, eti, layout  # noqa: E402
from dabplan_bridge.frames import Head, Part, Place  # noqa: E402

FIC = bridges.fib("05 00 E1 C5 13 33") + bridges.EMPTY_FIB * 2
# SubChId, first capacity unit, TPL, words: 32 kbit/s at 3-A, 64 at 4-B, 8 at 1-A.
LAYOUT = ((1, 0, 0x22, 12), (7, 24, 0x27, 24), (63, 100, 0x20, 3))


def built_parts(given):
    """The parts of a frame, as the bridge has them."""
    return [Part(layout.Entry(*each), data) for each, data in given]


class Entries(unittest.TestCase):
    """What the header of a frame says of the sub-channels of a plan."""

    def test_each_profile_has_its_level_and_its_words(self):
        # EN 300 401, 6.2.1: sizes at 128 kbit/s; 24 ms of it are 3,072 bits, 48 words.
        for name, size, level in (("1-A", 192, 0x20), ("2-A", 128, 0x21), ("3-A", 96, 0x22), ("4-A", 64, 0x23),
                                  ("1-B", 108, 0x24), ("2-B", 84, 0x25), ("3-B", 72, 0x26), ("4-B", 60, 0x27)):
            found = layout.entry_of(5, layout.SubChannel(40, size, f"eep {name}"))
            self.assertEqual(found, (5, 40, level, 48), name)

    def test_every_rate_comes_back(self):
        rates = 0
        for profile, step in (("A", 8), ("B", 32)):
            for level in range(4):
                units_of_step = composed.UNITS[profile][level]
                for number in range(1, 864 // units_of_step + 1):
                    name = f"{level + 1}-{profile}"
                    found = layout.entry_of(3, layout.SubChannel(0, number * units_of_step, f"eep {name}"))
                    self.assertEqual(found, composed.entry(3, 0, name, number * step))
                    self.assertEqual(layout.from_stc(*found[1:]), layout.SubChannel(0, number * units_of_step, f"eep {name}"))
                    rates += 1
        self.assertEqual(rates, 72 + 108 + 144 + 216 + 32 + 41 + 48 + 57)

    def test_what_no_plan_names_has_no_entry(self):
        for there in (layout.SubChannel(0, 0, "uep level 3 of 128 kbit/s"), layout.SubChannel(0, 25, "eep 3-A"),
                      layout.SubChannel(0, 0, "eep 3-A"), layout.SubChannel(0, 12, "option 2 level 1")):
            with self.assertRaises(ValueError):
                layout.entry_of(1, there)

    def test_a_configuration_is_in_the_order_of_its_units(self):
        subs = {9: layout.SubChannel(24, 6, "eep 3-A"), 2: layout.SubChannel(30, 12, "eep 1-A"), 5: layout.SubChannel(0, 4, "eep 4-A")}
        self.assertEqual([entry.sub for entry in layout.entries_of(subs)], [5, 9, 2])

    def test_bits_are_where_the_standards_have_them(self):
        # ETS 300 799, 5.4.1: SCID 6, SAD 10, TPL 6, STL 10 bits. TS 102 693, 5.1.3: SCID 6, SAD 10, TPL 6, 2 bits of zero.
        entry = layout.Entry(63, 850, 0x23, 3)
        self.assertEqual((entry.stc().hex(), entry.sstc().hex()), ("ff528c03", "ff528c"))
        self.assertEqual(layout.stc_entries(bytes.fromhex("0400880cff528c03")), [(1, 0, 0x22, 12), entry])


class CutOut(unittest.TestCase):
    """Sub-channels out of frames."""

    def test_they_are_where_the_header_says(self):
        given = composed.parts("x", 4801, LAYOUT)
        extra = composed.tag(b"info", b"text of a multiplexer")
        for name, cut, frame in (("eti", eti, eti.frame_of(composed.eti(4801, FIC, given))),
                                 ("edi", edi, edi.frame_of(composed.edi(4801, FIC, given, extra=extra))),
                                 ("edi, stamped", edi, edi.frame_of(composed.edi(4801, FIC, given, stamp=b"\x05" + bytes(7))))):
            found = cut.places_of(frame)
            self.assertEqual(sorted(found), [1, 7, 63], name)
            for (sub, _, level, words), data in given:
                place = found[sub]
                self.assertIsInstance(place, Place)
                self.assertEqual((place.level, place.words), (level, words), name)
                self.assertEqual(frame.data[place.at:place.at + 8 * words], data, name)

    def test_what_stands_beside_them_is_known(self):
        one = eti.head_of(eti.frame_of(composed.eti(4801, FIC, [], rest=b"\xff\x01\x02\x03")))
        self.assertEqual(one, Head(255, 4801 % 8, 1, b"\x12\x34", b"\xff\xff", b"\xff\x01\x02\x03"))
        other = edi.head_of(edi.frame_of(composed.edi(4801, FIC, [], stamp=bytes.fromhex("0511223344010203"))))
        self.assertEqual(other, Head(255, 4801 % 8, 1, b"\x12\x34", b"\xff\xff", b"\xff\x01\x02\x03"))
        self.assertEqual(edi.head_of(edi.frame_of(composed.edi(4801, FIC, []))).tist, b"\xff" * 4)


class Made(unittest.TestCase):
    """Frames of parts."""

    OTHER = bridges.fib("05 00 E1 C5 13 33") + bridges.fib("05 01 04 00 88 18") + bridges.EMPTY_FIB

    def test_a_frame_of_its_own_parts_is_itself(self):
        for count in (0, 249, 250, 4999):
            given = composed.parts("x", count, LAYOUT)
            frame = eti.frame_of(composed.eti(count, FIC, given))
            made = eti.built(eti.head_of(frame), frame.low, eti.sync_of(frame), FIC, built_parts(given))
            self.assertEqual(made, frame.data, count)
            for extra in (b"", composed.tag(b"info", b"seven.."), composed.tag(b"*dmy", bytes(13))):
                packet = edi.frame_of(composed.edi(count, FIC, given, stamp=b"\x05" + bytes(7), extra=extra))
                self.assertEqual(edi.rebuilt(packet, FIC, built_parts(given), count), packet.data, (count, extra))

    def test_other_parts_make_another_frame(self):
        before, after = composed.parts("x", 4801, LAYOUT), composed.parts("y", 4801, ((2, 30, 0x23, 6), (1, 50, 0x22, 24)))
        for stamp in (None, bytes.fromhex("0511223344010203")):
            packet = edi.frame_of(composed.edi(4801, FIC, before, stamp=stamp))
            self.assertEqual(edi.rebuilt(packet, self.OTHER, built_parts(after), 77),
                             composed.edi(4801, self.OTHER, after, stamp=stamp, sequence=77))
        frame = eti.frame_of(composed.eti(4801, FIC, before, rest=b"\xff\x01\x02\x03"))
        self.assertEqual(eti.built(eti.head_of(frame), frame.low, eti.sync_of(frame), self.OTHER, built_parts(after)),
                         composed.eti(4801, self.OTHER, after, rest=b"\xff\x01\x02\x03"))

    def test_what_fills_a_packet_up_follows_the_multiplexer(self):
        # A multiplexer without alignment ends a packet with its last TAG item; one with it, at a multiple of 8 bytes.
        before, after = composed.parts("x", 8, ((1, 0, 0x22, 12), )), composed.parts("x", 8, LAYOUT)
        for is_aligned in (True, False):
            whole, wanted = (composed.edi(8, FIC, given, aligned=is_aligned) for given in (before, after))
            self.assertEqual(len(whole[10:-2]) % 8 == 0, is_aligned)
            self.assertEqual(edi.rebuilt(edi.frame_of(whole), FIC, built_parts(after), 8), wanted)

    def test_formats_turn_into_each_other(self):
        given = composed.parts("x", 4801, LAYOUT)
        frame = eti.frame_of(composed.eti(4801, FIC, given, mnsc=b"\xab\xcd"))
        self.assertEqual(edi.built(eti.head_of(frame), 4801, self.OTHER, built_parts(given), 9),
                         composed.edi(4801, self.OTHER, given, mnsc=b"\xab\xcd", sequence=9))
        packet = edi.frame_of(composed.edi(4801, FIC, given, stamp=bytes.fromhex("0511223344010203"), mnsc=b"\xab\xcd"))
        self.assertEqual(eti.built(edi.head_of(packet), 51, b"\xf8\xc5\x49", self.OTHER, built_parts(given)),
                         composed.eti(4801, self.OTHER, given, mnsc=b"\xab\xcd", rest=b"\xff\x01\x02\x03"))

    def test_a_wrong_crc_stays_wrong(self):
        given = composed.parts("x", 8, LAYOUT)
        right = eti.frame_of(composed.eti(8, FIC, given))
        found = eti.frame_of(eti.built(eti.head_of(right), 8, eti.sync_of(right), FIC, built_parts(given), 5))
        self.assertEqual(found.wrong, 5)
        self.assertEqual(edi.frame_of(edi.rebuilt(edi.frame_of(composed.edi(8, FIC, given)), FIC, built_parts(given), 8, 5)).wrong, 5)

    def test_the_most_of_both_formats(self):
        # 64 sub-channels; and 864 units of 4-B, 57 times 15 units: 1,824 kbit/s, the most bits that a frame can have.
        for whole in (tuple(composed.entry(sub, 6 * sub, "3-A", 8) for sub in range(64)), (composed.entry(1, 0, "4-B", 1824),)):
            given = composed.parts("x", 8, whole)
            for mode in (1, 3):
                fic = bridges.EMPTY_FIB * (bridges.size_of(mode) // 32)
                frame = eti.frame_of(composed.eti(8, fic, given, mode))
                self.assertEqual(eti.built(eti.head_of(frame), 8, eti.sync_of(frame), fic, built_parts(given)), frame.data)
                packet = edi.frame_of(composed.edi(8, fic, given, mode))
                self.assertEqual(edi.rebuilt(packet, fic, built_parts(given), 8), packet.data)

    def test_more_than_a_frame_holds_is_refused(self):
        frame = eti.frame_of(composed.eti(8, FIC, []))
        for whole in (tuple(composed.entry(1, 0, "4-B", 1824) for _ in range(2)), tuple(composed.entry(sub % 64, 0, "3-A", 8) for sub in range(65))):
            with self.assertRaises(ValueError):
                eti.built(eti.head_of(frame), 8, eti.sync_of(frame), FIC, built_parts([(each, bytes(8 * each[3])) for each in whole]))


if __name__ == "__main__":
    units.main()
