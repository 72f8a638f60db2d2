#!/usr/bin/env python3
"""The modules of bridge/, by values from the standards. The last line is 'N passed, M failed'."""
import random
import sys
import unittest

import bridges
import fragments
import units

sys.dont_write_bytecode = True
sys.path.insert(0, str(bridges.FOLDER))

from dabplan_bridge import addresses, edi, eti, faults, fibs, layout, past, placing, reader  # noqa: E402
from dabplan_bridge.frames import Frame, NoFrame  # noqa: E402

# FIG 0/0 of E1C5 at count 4801 = 19 * 250 + 51, no change; and with a change of both at low 70.
STILL = bridges.fib("05 00 E1 C5 13 33")
SWAP = bridges.fib("06 00 E1 C5 D3 33 46")


def fig_0_10(hours, minutes, seconds, milliseconds, is_long=True):
    """A FIG 0/10: Rfu 1, MJD 17, LSI 1, Rfu 1, UTC flag 1, then hours 5, minutes 6, seconds 6, milliseconds 10 bits."""
    bits = f"0{60000:017b}00{is_long:d}{hours:05b}{minutes:06b}" + (f"{seconds:06b}{milliseconds:010b}" if is_long else "")
    data = int(bits, 2).to_bytes(len(bits) // 8, "big")
    return bridges.fib(bytes([1 + len(data), 10]).hex() + data.hex())


class Fibs(unittest.TestCase):
    """FIBs and FIGs."""

    def test_the_crc_is_that_of_the_standard(self):
        self.assertEqual(fibs.EMPTY_FIB, bridges.EMPTY_FIB)
        self.assertEqual(fibs.crc(b"123456789"), 0x29B1 ^ 0xFFFF)

    def test_fig_0_0_has_ensemble_count_and_change(self):
        self.assertEqual(fibs.ensemble_of(STILL), fibs.Ensemble(0xE1C5, 4801, 0, 0))
        self.assertEqual(fibs.ensemble_of(bridges.EMPTY_FIB + SWAP), fibs.Ensemble(0xE1C5, 4801, 3, 70))
        self.assertIsNone(fibs.ensemble_of(bridges.fib("05 40 E1 C5 13 33")), "of another ensemble")
        self.assertIsNone(fibs.ensemble_of(STILL[:5] + b"\x00" + STILL[6:]), "damaged")

    def test_fig_0_10_has_date_and_time(self):
        # MJD 60000 is 2023-02-25.
        found = fibs.utc_of(fig_0_10(21, 59, 53, 240))
        self.assertAlmostEqual(found, 1677283200 + (21 * 60 + 59) * 60 + 53.24, places=3)
        self.assertAlmostEqual(fibs.day_frame_of(found), ((21 * 60 + 59) * 60 + 53.24) / 0.024, places=1)
        self.assertIsNone(fibs.utc_of(fig_0_10(21, 59, 0, 0, is_long=False)), "short form")
        self.assertIsNone(fibs.utc_of(fig_0_10(25, 0, 0, 0)), "no such hour")

    def test_a_fib_that_ends_within_a_fig_has_none(self):
        data = bytes([0x1F]) + bytes(29)
        self.assertEqual(list(fibs.figs(data + bridges.crc(data))), [])

    def test_a_listener_takes_over_the_next_configuration_at_its_count(self):
        listener = fibs.Listener()
        # Sub 1 at 0 size 24 3-A now; sub 2 at 24 next; a swap at low 70.
        now, later = bridges.fib("05 01 04 00 88 18"), bridges.fib("05 81 08 18 88 18")
        for count in range(60, 70):
            self.assertFalse(listener.hear(SWAP + now + later, count))
        self.assertEqual(listener.current, {1: layout.SubChannel(0, 24, "eep 3-A")})
        self.assertTrue(listener.hear(bridges.EMPTY_FIB * 3, 70))
        self.assertEqual(listener.current, {2: layout.SubChannel(24, 24, "eep 3-A")})
        self.assertFalse(listener.hear(bridges.EMPTY_FIB * 3, 70))

    def test_a_change_of_services_alone_leaves_the_sub_channels(self):
        listener = fibs.Listener()
        services = bridges.fib("06 00 E1 C5 93 33 46")
        listener.hear(services + bridges.fib("05 01 04 00 88 18") + bridges.EMPTY_FIB, 69)
        self.assertTrue(listener.hear(bridges.EMPTY_FIB * 3, 70))
        self.assertEqual(listener.current, {1: layout.SubChannel(0, 24, "eep 3-A")})


    def test_a_fig_0_0_that_was_received_before_with_another_count_acts_and_a_damaged_one_does_not(self):
        listener = fibs.Listener()
        for count in (2 * 250 + 100, 7 * 250 + 40):
            ensemble = bridges.fib(f"0600E1C5{0x80 | count // 250:02X}{count % 250:02X}96")
            damaged = ensemble[:-1] + bytes([ensemble[-1] ^ 1])
            listener.hear(damaged + bridges.EMPTY_FIB * 2, count)
            self.assertIsNone(listener.swap_in(count))
            listener.hear(ensemble + bridges.EMPTY_FIB * 2, count)
            self.assertEqual(listener.swap_in(count), (150 - count) % 250)
            self.assertTrue(listener.hear(bridges.EMPTY_FIB * 3, 150))


class Layouts(unittest.TestCase):
    """Sub-channels of a stream's header, and those of a plan."""

    def test_sizes_follow_from_rate_and_protection(self):
        # EN 300 401, table 8: 128 kbit/s at 1-A to 4-A and at 1-B to 4-B; 48 words of 64 bits.
        for level, wanted in ((0x20, (192, "1-A")), (0x21, (128, "2-A")), (0x22, (96, "3-A")), (0x23, (64, "4-A")),
                              (0x24, (108, "1-B")), (0x25, (84, "2-B")), (0x26, (72, "3-B")), (0x27, (60, "4-B"))):
            found = layout.from_stc(7, level, 48)
            self.assertEqual((found.start, found.size, found.protection), (7, wanted[0], f"eep {wanted[1]}"))

    def test_differences_are_named_by_both_places(self):
        plan = {1: layout.SubChannel(0, 24, "eep 3-A"), 2: layout.SubChannel(24, 24, "eep 3-A"), 9: layout.SubChannel(80, 4, "eep 3-A")}
        there = layout.sub_channels(bytes.fromhex("04 00 88 0C 08 1C 88 0C"))
        self.assertEqual(layout.differences(plan, there), [
            "sub 2: at 24 size 24 eep 3-A in the plan, at 28 size 24 eep 3-A in the multiplexer",
            "sub 9: at 80 size 4 eep 3-A in the plan, not there in the multiplexer"])
        self.assertEqual(layout.differences({1: plan[1]}, there), [])

    def test_unequal_protection_is_another_one(self):
        self.assertEqual(str(layout.from_stc(0, 0x02, 48)), "at 0 uep level 3 of 128 kbit/s")


class Cutters(unittest.TestCase):
    """Frames out of bytes, whole or not."""

    FIC = STILL + bridges.EMPTY_FIB * 2

    def cut(self, name, data, piece):
        """What a cutter finds in bytes that come in pieces."""
        cutter = reader.cutter_of(name)
        return [item for at in range(0, len(data), piece) for item in cutter.feed(data[at:at + piece])]

    def test_frames_come_out_of_pieces_of_any_size(self):
        for name, maker in bridges.MAKERS.items():
            frames = [maker(count, self.FIC) for count in range(20)]
            for piece in (1, 97, 6144, 100_000):
                found = self.cut(name, b"".join(frames)[:None if piece > 1 else 3 * len(frames[0])], piece)
                self.assertEqual([item.data for item in found], frames[:len(found)])
                self.assertEqual(len(found), 20 if piece > 1 else 3)
                self.assertTrue(all(item.fic() == self.FIC and not item.wrong for item in found))

    def test_a_frame_knows_its_count_and_its_streams(self):
        stc = bytes.fromhex("04 00 88 0C 08 18 88 0C FF 52 8C 03")
        one, other = eti.frame_of(bridges.eti_frame(4801, self.FIC)), edi.frame_of(bridges.edi_packet(4801, self.FIC))
        self.assertEqual((one.low, one.whole, one.mode, one.stc), (51, None, 1, stc))
        self.assertEqual((other.low, other.whole, other.mode, other.stc), (51, 4801, 1, stc))
        self.assertEqual(other.start, 40)
        self.assertEqual(edi.frame_of(bridges.edi_packet(4801, self.FIC, stamp=bridges.NO_TIME)).start, 48)

    def test_synchronisation_comes_back_within_five_frames(self):
        for name, maker in bridges.MAKERS.items():
            frames = [maker(count, self.FIC) for count in range(12)]
            for what, data in {
                    "100 bytes too many": frames[:4] + [bytes(range(100))] + frames[4:],
                    "100 bytes that look like a beginning": frames[:4] + [frames[0][:100]] + frames[4:],
                    "a new writer in the middle": frames[:4] + [frames[4][:len(frames[4]) // 2]] + frames[5:],
                    "30 bytes lost": frames[:4] + [frames[4][30:]] + frames[5:],
                    "a frame of zeros": frames[:4] + [bytes(len(frames[4]))] + frames[5:]}.items():
                found = self.cut(name, b"".join(data), 4096)
                whole = [item.data for item in found if isinstance(item, Frame) and not item.wrong]
                missing = [number for number, frame in enumerate(frames) if frame not in whole]
                self.assertTrue(set(missing) <= {4, 5}, f"{name}, {what}: {missing}")
                self.assertTrue(any(isinstance(item, NoFrame) for item in found), f"{name}, {what}")
                self.assertEqual(whole, [frame for frame in frames if frame in whole], "in order")

    def test_it_comes_back_after_any_damage_in_one_place(self):
        """800 streams of ETI, EDI and PFT, each with bytes lost, added, repeated or written over in two frames, in
        random pieces."""
        chance = random.Random(1)
        whole = {name: [maker(count, self.FIC) for count in range(14)] for name, maker in bridges.MAKERS.items()}
        given = {**{name: list(frames) for name, frames in whole.items()},
                 "pft": [b"".join(fragments.pft(packet, number, rs_k=number % 2 * 150)) for number, packet in enumerate(whole["edi"])]}
        for _ in range(800):
            name = chance.choice(sorted(given))
            data, longest = bytearray(b"".join(given[name])), len(given[name][0]) // 2
            first, last = len(b"".join(given[name][:3])), len(b"".join(given[name][:5]))
            at, kind = chance.randrange(first, last), chance.randrange(5)
            if kind == 0:
                del data[at:at + chance.randrange(1, longest)]
            elif kind == 1:
                data[at:at] = chance.randbytes(chance.randrange(1, longest))
            elif kind == 2:
                data[at:at] = data[:last][chance.randrange(last):][:longest]
            elif kind == 3:
                data[at:at + 200] = bytes(200)
            else:
                data[at:at] = chance.choice([b"AF", b"PF", b"\x07\x3a\xb6", b"deti", b"AF\0\0\x2f\0\0\0\x90T"])
            items, cutter = [], reader.cutter_of("eti" if name == "eti" else "edi")
            while data:
                size = chance.choice([37, 100, 1000, 6144, 65536])
                items += cutter.feed(bytes(data[:size]))
                del data[:size]
            found = {item.data for item in items if isinstance(item, Frame) and not item.wrong}
            missing = [number for number, frame in enumerate(whole["eti" if name == "eti" else "edi"]) if frame not in found]
            self.assertTrue(all(3 <= number < 9 for number in missing), f"{name}, {kind} at {at}: {missing}")

    def test_a_broken_word_of_synchronisation_costs_one_frame(self):
        frames = [bridges.eti_frame(count, self.FIC) for count in range(6)]
        found = self.cut("eti", b"".join(frames[:2]) + b"\xff\0\0\0" + frames[2][4:] + b"".join(frames[3:]), 5000)
        self.assertEqual([item.reason if isinstance(item, NoFrame) else item.low for item in found],
                         [0, 1, "no synchronisation", 3, 4, 5])

    def test_a_wrong_crc_stays_wrong(self):
        for name, maker in bridges.MAKERS.items():
            frame = bytearray(maker(8, self.FIC))
            frame[-1 if name == "edi" else 8 + 12 + 4 + 96 + 216 + 1] ^= 5
            item = self.cut(name, bytes(frame), 10_000)[0]
            self.assertEqual(item.wrong, 5, name)
            other = bridges.EMPTY_FIB * 3
            wanted = bytearray(maker(8, other))
            wanted[-1 if name == "edi" else 8 + 12 + 4 + 96 + 216 + 1] ^= 5
            self.assertEqual(item.with_fic(other), bytes(wanted), name)

    def test_a_packet_without_a_crc_gets_the_one_of_its_bytes(self):
        """TS 102 821: where CF is 0 the field of the CRC is 0."""
        frame = bytearray(bridges.edi_packet(8, self.FIC))
        frame[8] &= 0x7F
        frame[-2:] = b"\0\0"
        item = self.cut("edi", bytes(frame), 10_000)[0]
        self.assertEqual(item.wrong, 0)
        wanted = bytearray(bridges.edi_packet(8, bridges.EMPTY_FIB * 3))
        wanted[8] &= 0x7F
        self.assertEqual(item.with_fic(bridges.EMPTY_FIB * 3), bytes(wanted[:-2]) + bridges.crc(bytes(wanted[:-2])))

    def test_formats_are_found_by_the_first_bytes(self):
        frames = {name: b"".join(maker(count, self.FIC) for count in range(4)) for name, maker in bridges.MAKERS.items()}
        for name, data in frames.items():
            self.assertEqual(reader.format_of(data[:4]), name)
            self.assertEqual(reader.format_of(data[1000 if name == "eti" else 100:]), name)
        self.assertEqual(reader.format_of(fragments.pft(b"x" * 40, 7)[0]), "edi")
        self.assertIsNone(reader.format_of(bytes(20_000)))

    def test_headers_that_lie_are_no_frames(self):
        frame = bridges.eti_frame(8, self.FIC)
        head = frame[4:5] + bytes([frame[5] & 0x7F]) + frame[6:22]
        self.assertEqual(eti.frame_of(frame[:4] + head + bridges.crc(head) + frame[24:]).reason, "no FIC")
        self.assertEqual(eti.frame_of(frame[:5] + b"\x99" + frame[6:]).reason, "damaged header")
        packet = bridges.edi_packet(8, self.FIC)
        self.assertEqual(edi.frame_of(packet[:34] + b"\x00" + packet[35:]).reason, "no FIC")
        self.assertEqual(edi.frame_of(packet.replace(b"deti", b"deto")).reason, "no DETI")
        self.assertEqual(edi.frame_of(packet[:34] + b"\x54" + packet[35:]).reason, "no CIF count")


class Placing(unittest.TestCase):
    """The whole counts of ETI."""

    def frames(self, counts, tells=()):
        """Frames of these counts, with a FIG 0/0 in those of `tells`, or at multiples of 4."""
        for count in counts:
            has = count in tells or not tells and count % 4 == 0
            first = bridges.fib(f"05 00 E1 C5 {count // 250:02X} {count % 250:02X}") if has else bridges.EMPTY_FIB
            yield eti.frame_of(bridges.eti_frame(count, first + bridges.EMPTY_FIB * 2))

    def placed(self, counts, **options):
        """The counts that are placed, and how many frames are dropped."""
        placer = placing.Placer()
        found = [count for frame in self.frames(counts, **options) for _, count in placer.place(frame, frame.fic())]
        return found, placer.dropped

    def test_frames_before_the_first_fig_0_0_are_dropped(self):
        self.assertEqual(self.placed(range(4801, 4820)), (list(range(4804, 4820)), 3))

    def test_frames_of_a_step_are_held(self):
        self.assertEqual(self.placed([8, 9, 10, 13, 14, 15, 16, 17]), ([8, 9, 10, 13, 14, 15, 16, 17], 0))
        self.assertEqual(self.placed([8, 9, 10, 10, 11, 12]), ([8, 9, 10, 10, 11, 12], 0))
        # A step of 750 shows where a FIG 0/0 comes.
        self.assertEqual(self.placed([8, 9, 10, 761, 762, 763, 764]), ([8, 9, 10, 11, 12, 13, 764], 0))
        self.assertEqual(self.placed([8, 9, 10, 801, 802, 803, 804]), ([8, 9, 10, 801, 802, 803, 804], 0))

    def test_frames_without_fig_0_0_are_dropped(self):
        self.assertEqual(self.placed([8, 9, 30, 31, 32, 33, 34, 35], tells={8, 35}), ([8, 9, 31, 32, 33, 34, 35], 1))

    def test_a_fig_0_0_of_another_count_is_none(self):
        frame = eti.frame_of(bridges.eti_frame(12, bridges.fib("05 00 E1 C5 00 14") + bridges.EMPTY_FIB * 2))
        placer = placing.Placer()
        self.assertEqual((placer.place(frame, frame.fic()), placer.contradicting), ([], 1))


class Logs(unittest.TestCase):
    """Lines of logs, addresses and messages."""

    def test_lines_have_steps_and_nothing_else(self):
        self.assertEqual(past.steps_of(b"contact 3 closed frames 250 # x"), [b"contact 3 closed", b"frames 250"])
        self.assertEqual(past.steps_of(b"# nothing"), [])
        for line in (b"frames", b"contact 3", b"frames 1 x", b"x frames 1"):
            with self.assertRaises(ValueError):
                past.steps_of(line)

    def test_wall_times_are_utc_with_milliseconds(self):
        self.assertEqual(past.text_of(1_000_000_000.1234), "2001-09-09T01:46:40.123Z")
        self.assertAlmostEqual(past.wall_of(b"2001-09-09T01:46:40.123Z"), 1_000_000_000.123, places=3)

    def test_addresses(self):
        self.assertEqual(addresses.address_of("tcp://:9000"), addresses.Address("tcp", "tcp://:9000", "", 9000))
        self.assertEqual(addresses.address_of("udp://[::1]:9").host, "::1")
        self.assertEqual(addresses.address_of("a:b").kind, "path")
        for text in ("", "tcp://x", "tcp://x:0", "udp://x:70000", "http://x:1"):
            with self.assertRaises(ValueError):
                addresses.address_of(text)

    def test_bytes_of_others_are_shown_escaped(self):
        self.assertEqual(faults.shown(b"a\x1b[31m\\\xc3"), "a\\x1b[31m\\x5c\\xc3")
        self.assertEqual(faults.shown(b"x" * 100), "x" * 60 + "..")


if __name__ == "__main__":
    units.main()
