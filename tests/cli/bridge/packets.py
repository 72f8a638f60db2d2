#!/usr/bin/env python3
"""Packets of EDI and fragments of PFT in bytes that are damaged, lost, or made to do harm. The last line is 'N passed,
M failed'."""
import itertools
import random
import sys
import time
import unittest

import bridges
import units
from bridges import common
from fragments import fragment, parity_of, pft

sys.dont_write_bytecode = True
sys.path.insert(0, str(bridges.FOLDER))

from dabplan_bridge import edi, fragmenter, reed_solomon  # noqa: E402
from dabplan_bridge import pft as reading  # noqa: E402
from dabplan_bridge.frames import Frame, NoFrame  # noqa: E402

STILL = bridges.fib("05 00 E1 C5 13 33")
WHOLE = [bridges.edi_packet(count, STILL + bridges.EMPTY_FIB * 2) for count in range(40)]


def packets(given):
    """What comes of pieces of a stream, in this order: the packets, None for a lost one."""
    cutter = edi.EdiCutter()
    items = [item for piece in given for item in cutter.feed(piece)] + cutter.finish()
    return [item.data if isinstance(item, Frame) else None for item in items]


def datagrams(given):
    """The packets that come of datagrams."""
    cutter = edi.EdiCutter()
    items = [item for piece in given for item in cutter.datagram(piece)]
    return [item.data for item in items if isinstance(item, Frame) and not item.wrong]


class Fragments(unittest.TestCase):
    """Fragments of EDI."""

    def test_packets_are_joined_with_and_without_fec(self):
        for options in ({}, {"fragments": 1}, {"fragments": 7}, {"rs_k": 207}, {"rs_k": 100, "fragments": 5, "addressed": True}):
            found = [each for number, packet in enumerate(WHOLE) for each in pft(packet, number, **options)]
            self.assertEqual(packets(found), WHOLE, options)

    def test_fragments_come_in_any_order(self):
        for rs_k in (0, 150):
            found = []
            for number, packet in enumerate(WHOLE[:6]):
                parts = pft(packet, 65534 + number & 0xFFFF, rs_k=rs_k)
                found += [parts[2], parts[0], parts[1]]
            self.assertEqual(packets(found), WHOLE[:6])
            # One fragment of the second packet comes behind those of the third.
            found.insert(8, found.pop(4))
            self.assertEqual(packets(found), WHOLE[:6])

    def test_a_lost_fragment_loses_its_packet_alone(self):
        for rs_k in (0, 150):
            found = [each for number, packet in enumerate(WHOLE[:6]) for each in pft(packet, number, rs_k=rs_k)]
            del found[4]
            self.assertEqual(packets(found), [WHOLE[0], None, *WHOLE[2:6]])

    def test_a_fragment_twice_and_a_late_one_change_nothing(self):
        found = [each for number, packet in enumerate(WHOLE[:6]) for each in pft(packet, number)]
        self.assertEqual(packets(found[:5] + found[4:12] + found[3:5] + found[12:]), WHOLE[:6])

    def test_a_damaged_header_is_none(self):
        one = pft(WHOLE[0], 3)[0]
        self.assertEqual(reading.header_of(one).index, 0)
        self.assertIsNone(reading.header_of(one[:4] + b"\x01" + one[5:]))

    def test_a_last_fragment_of_one_byte_comes_out(self):
        """The header of a fragment has 14 bytes: with a payload of 1 to 5 bytes it is shorter than the longest
        header."""
        packet = WHOLE[0]
        for rest in range(1, 7):
            first, last = packet[:-rest], packet[-rest:]
            found = packets([fragment(0, 0, 2, first), fragment(0, 1, 2, last)])
            self.assertEqual(found, [packet], rest)
            cutter = edi.EdiCutter()
            items = cutter.feed(fragment(0, 0, 2, first) + fragment(0, 1, 2, last))
            self.assertEqual([item.data for item in items], [packet], "at once")


class ReedSolomon(unittest.TestCase):
    """Lost fragments are made up for."""

    def test_the_parity_is_that_of_the_standard(self):
        chance = random.Random(1)
        for size in (1, 2, 47, 48, 100, 206, 207):
            data = chance.randbytes(size)
            self.assertEqual(reed_solomon.parity_of(data), parity_of(data), size)
            self.assertEqual(reed_solomon.syndromes_of(data + parity_of(data)), [0] * 48)
            self.assertNotEqual(reed_solomon.syndromes_of(data + parity_of(data)[:-1] + b"\0"), [0] * 48)

    def test_up_to_48_lost_bytes_are_made_up_for(self):
        chance = random.Random(2)
        for lost in (0, 1, 2, 24, 47, 48):
            data = chance.randbytes(chance.randrange(100, 208))
            word = bytearray(data + parity_of(data))
            places = sorted(chance.sample(range(len(word)), lost))
            for place in places:
                word[place] = 0
            self.assertEqual(reed_solomon.restored(bytes(word), places), data + parity_of(data))
        self.assertIsNone(reed_solomon.restored(bytes(255), list(range(49))))

    def test_every_lost_pair_of_fragments_is_made_up_for(self):
        packet = WHOLE[7]
        for rs_k, count in ((207, 12), (150, 10), (90, 7)):
            parts = pft(packet, 5, fragments=count, rs_k=rs_k)
            for lost in itertools.combinations(range(count), 2):
                given = [part for index, part in enumerate(parts) if index not in lost]
                behind = [each for number in (6, 7) for each in pft(WHOLE[number + 2], number, fragments=count, rs_k=rs_k)]
                self.assertEqual(packets(given + behind), [packet, WHOLE[8], WHOLE[9]], f"{rs_k}, {lost}")

    def test_too_many_lost_fragments_lose_the_packet(self):
        parts = pft(WHOLE[7], 5, fragments=12, rs_k=207)
        behind = [each for number in (6, 7) for each in pft(WHOLE[number + 2], number, fragments=12, rs_k=207)]
        self.assertEqual(packets(parts[4:] + behind), [None, WHOLE[8], WHOLE[9]])

    def test_the_packets_of_odr_dabmux_are_made_up_for(self):
        """The sample is EDI over PFT that ODR-DabMux made, two lost fragments of a packet allowed; 1 of 50 fragments is
        lost here."""
        data = common.TOP / "bench/samples/real_pft.bin.xz"
        stream = bridges.unpacked(data)
        parts, at = [], 0
        while at < len(stream):
            header = reading.header_of(stream[at:at + 20])
            parts.append(stream[at:at + header.length])
            at += header.length
        self.assertGreater(reading.header_of(parts[0]).rs_k, 0)
        whole = packets(parts)
        self.assertGreaterEqual(len(whole), 90)
        self.assertNotIn(None, whole)
        for seed in range(5):
            chance = random.Random(seed)
            kept = [part for part in parts if chance.random() >= 0.02]
            self.assertLess(len(kept), len(parts))
            self.assertEqual(packets(kept), whole, f"{len(parts) - len(kept)} of {len(parts)} fragments lost")

    def test_what_the_bridge_sends_is_read_with_fragments_lost(self):
        chance = random.Random(3)
        for most, fec in ((1400, 0), (200, 0), (1400, 1), (200, 2), (64, 3), (1400, 6)):
            sender = fragmenter.Fragmenter(most, fec)
            kept = []
            for packet in WHOLE:
                found = sender.fragments(packet)
                self.assertTrue(all(reading.header_of(each).payload <= most for each in found))
                lost = chance.sample(range(len(found)), fec)
                kept += [each for index, each in enumerate(found) if index not in lost]
            self.assertEqual(packets(kept), WHOLE, f"{most}, {fec}")

    def test_the_parity_that_the_bridge_sends_is_right(self):
        found = fragmenter.Fragmenter(1400, 2).fragments(WHOLE[3])
        header = reading.header_of(found[0])
        self.assertEqual([each[header.size:] for each in found],
                         [each[header.size:] for each in pft(WHOLE[3], 0, len(found), header.rs_k)])


class Harm(unittest.TestCase):
    """Bytes that somebody made to do harm cost little time and little else."""

    def test_a_fragment_that_says_to_be_long_hides_no_packet(self):
        lie = fragment(9, 0, 1, b"", length=0x3FFF)
        fec = fragment(9, 0, 3, b"", (207, 3), True, 0x3FFF)
        for each in (lie, fec):
            for piece in (1, 700, 100_000):
                data = b"".join(WHOLE[:5]) + each + b"".join(WHOLE[5:])
                found = packets(data[at:at + piece] for at in range(0, len(data), piece))
                self.assertEqual([packet for packet in found if packet is not None], WHOLE, piece)
        self.assertEqual(datagrams([WHOLE[0], lie, WHOLE[1], b"x", WHOLE[2], fec, WHOLE[3]]), WHOLE[:4])

    def test_a_packet_that_says_to_be_long_hides_none(self):
        lie = b"AF" + (12_000).to_bytes(4, "big") + b"\0\0\x90T"
        for piece in (1, 700, 100_000):
            data = b"".join(WHOLE[:5]) + lie + b"".join(WHOLE[5:])
            found = packets(data[at:at + piece] for at in range(0, len(data), piece))
            self.assertEqual([packet for packet in found if packet is not None], WHOLE, piece)

    def test_datagrams_are_cut_each_for_itself(self):
        given = [WHOLE[0], b"A", b"AF", WHOLE[1][:100], WHOLE[2], b"\0" * 50, b"P", WHOLE[3], WHOLE[4] + WHOLE[5], b"PF" + bytes(30), WHOLE[6]]
        self.assertEqual(datagrams(given), [WHOLE[0], *WHOLE[2:7]])

    def seconds(self, data, piece):
        """The processor time for bytes in pieces."""
        cutter, start = edi.EdiCutter(), time.process_time()
        for at in range(0, len(data), piece):
            cutter.feed(data[at:at + piece])
        return time.process_time() - start

    def test_headers_cost_as_much_as_they_are(self):
        """Of 10 bytes each, all with a length beyond the others: the time grows with them, and not by their square."""
        head = b"AF" + (12_000).to_bytes(4, "big") + b"\0\0\x90T"
        for lie in (head, fragment(9, 0, 1, b"", length=0x3FFF), b"AF"):
            small, large = (min(self.seconds(lie * (size // len(lie)), 4096) for _ in range(2)) for size in (24_000, 96_000))
            self.assertLess(large, 0.1 + 10 * small, lie[:2])
            self.assertLess(large, 5)

    def test_fragments_take_a_bounded_memory(self):
        """1,024 fragments of 16 KB each would be 16 MB, and chunks of one byte 49 times a packet."""
        self.assertIsNone(reading.header_of(fragment(1, 0, 1024, bytes(0x3FFF), (1, 0))))
        self.assertIsNone(reading.header_of(fragment(1, 0, 4, bytes(100), (0, 0))))
        self.assertIsNone(reading.header_of(fragment(1, 0, 4, bytes(100), (208, 0))))
        waiting = reading.Fragments()
        for index in range(1024):
            one = fragment(1, index, 1024, bytes(0x3FFF))
            header = reading.header_of(one)
            if header is not None:
                waiting.take(header, one[header.size:])
            held = sum(packet.size for packet in waiting._waiting.values())     # pylint: disable=protected-access
            self.assertLessEqual(held, reading.MOST_BYTES + 0x3FFF)

    def test_any_bytes_end_in_no_exception(self):
        chance = random.Random(4)
        parts = [each for number, packet in enumerate(WHOLE) for each in pft(packet, number, 5, 90)]
        for _ in range(3000):
            one = bytearray(chance.choice(parts + WHOLE))
            for _ in range(chance.randrange(1, 6)):
                one[chance.randrange(min(len(one), chance.choice((20, 60, 6000))))] = chance.randrange(256)
            if chance.random() < 0.5 and one[:2] == b"PF":
                size = reading.header_size(bytes(one)) or 14
                one[size - 2:size] = bridges.crc(bytes(one[:size - 2]))
            cutter = edi.EdiCutter()
            items = cutter.feed(bytes(one) + WHOLE[1]) + cutter.datagram(bytes(one)) + cutter.finish()
            self.assertTrue(all(isinstance(item, (Frame, NoFrame)) for item in items))


if __name__ == "__main__":
    units.main()
