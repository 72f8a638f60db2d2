#!/usr/bin/env python3
"""`dabplan-bridge run --compose` over streams that are made byte by byte: each frame that goes out is compared with one that is
made of the streams that it has to have. The last line is 'N passed, M failed'."""
import re
import subprocess

import bridges
import composed
import units
from bridges import common
from composed import DAY, DAY_SIDE, DAY_SUBS, HEAD, NIGHT, NIGHT_SIDE, SERVICES, TURNS, entry, side

FORMS = ("eti", "edi")


class OneInput(composed.Case):
    """An input that has what the plan has: the stream is what it is without --compose."""

    # A service that comes and goes, on sub-channels that stay.
    SCRIPT = HEAD + DAY_SUBS + SERVICES + "begin\nforever {\nwait 20\ndrop service C222\ncommit in 24\njoin\nwait 20\n" \
        "service C222\naudio 63 sub 2 in C222\ncommit in 24\njoin\n}\n"

    def both(self, line, stdin=b""):
        """What comes without --compose and with it: status, and the file `out`."""
        found = []
        for words in (line, line + " --compose"):
            status, _, messages = self.bridge(words, stdin)
            self.assertIn(status, (0, 1), messages)
            found.append((status, self.read("out")))
        return found

    def test_byte_for_byte_in_both_formats_and_all_modes(self):
        for mode in (1, 2, 3, 4):
            self.compile(self.folder, "p", self.SCRIPT.replace("E1C5", "E1C5" if mode == 1 else f"E1C5 mode {mode}"))
            for form in FORMS:
                self.give("a", DAY, 200, 4801, form, mode)
                one, other = self.both("run p.code --in a --out out")
                self.assertEqual(one[0], 0)
                self.assertGreater(len(one[1]), 190 * 500)
                self.same(one[1], other[1], f"{form}, mode {mode}")

    def test_byte_for_byte_with_stamps_other_items_and_steps(self):
        self.compile(self.folder, "p", self.SCRIPT)
        for others in ({"stamp": bytes.fromhex("0511223344010203")}, {"extra": composed.tag(b"info", b"a text")}, {"aligned": False}):
            frames = self.give("a", DAY, 200, 4801, **others)
            one, other = self.both("run p.code --in a --out out")
            self.same(one[1], other[1], str(others))
        # Frames that are lost, damaged, and sent again.
        for form in FORMS:
            frames = self.give("a", DAY, 300, 100, form)
            frames[50] = frames[50][:400] + b"\x99" * 10 + frames[50][410:]
            frames[100:120] = []
            frames[150] = bytes(len(frames[150]))
            frames[200:200] = frames[190:200]
            self.write("a", b"".join(frames))
            one, other = self.both("run p.code --in a --out out")
            self.assertEqual(one[0], other[0])
            self.same(one[1], other[1], form)

    def test_labels_are_carried(self):
        fic = common.TOP.joinpath("bench/samples/real_fic.fib").read_bytes()
        at = fic.index(b"\x05\x00\xe1\xc5")
        count = ((fic[at + 4] & 0x1F) * 250 + fic[at + 5] - at // 96) % 5000
        layout = (entry(1, 0, "3-A", 128), entry(2, 96, "2-A", 96), entry(5, 192, "4-B", 64), entry(63, 222, "1-A", 16))
        script = (common.EXAMPLES / "on_air.plan").read_text(encoding="utf-8") + "drop service C224\ncommit in 240\njoin\n"
        self.compile(self.folder, "air", script)
        for form in FORMS:
            frames = [composed.MAKERS[form]((count + number) % 5000, each, composed.parts("x", number, layout))
                      for number, each in enumerate(bridges.fics(fic))]
            self.write("a", b"".join(frames))
            one, other = self.both("run air.code --in a --out out")
            self.same(one[1], other[1], form)
            self.assertIn(b"PeerEnsemble", other[1])

    def test_a_layout_of_more_is_cut_to_the_plan(self):
        self.compile(self.folder, "p", self.SCRIPT)
        more = (entry(9, 0, "4-B", 96), entry(2, 45, "3-A", 64), entry(8, 93, "2-A", 32), entry(1, 125, "3-A", 128))
        for form in FORMS:
            self.give("more", more, 100, 0, form)
            self.assertEqual(self.bridge("run p.code --compose --in more=more --out out")[0], 0)
            fic = self.plan(100, 0, self.SCRIPT)
            self.same(b"".join(self.made(fic, [side(DAY, "more")] * 100, 0, form)), self.read("out"), form)


class DayAndNight(composed.Case):
    """Two multiplexers, and six swaps."""

    FRAMES = 300

    def setUp(self):
        super().setUp()
        self.compile(self.folder, "turns", TURNS)

    def wanted(self, form, first, count, **others):
        """The frames from the one of a count on; the FIC is that of `play`."""
        frames = self.FRAMES - first
        fic = self.plan(frames, count, TURNS)
        self.assertEqual(len(self.swaps(fic, count)), 6)
        return b"".join(self.made(fic, self.turns(fic, DAY_SIDE, NIGHT_SIDE, first=count), count, form, **others))

    def test_each_stream_is_that_of_its_input_at_that_count(self):
        # ETI has its count with the first FIG 0/0, in the frame 4804.
        for form, first in (("eti", 3), ("edi", 0)):
            self.give("day", DAY, self.FRAMES, 4801, form)
            self.give("night", NIGHT, self.FRAMES, 4801, form)
            status, printed, messages = self.bridge("run turns.code --compose --in day=day --in night=night --out out")
            self.assertEqual((status, printed), (0, b""), messages)
            self.same(self.wanted(form, first, 4801 + first), self.read("out"), form)

    def test_the_header_says_what_fig_0_1_says(self):
        self.give("day", DAY, self.FRAMES)
        self.give("night", NIGHT, self.FRAMES)
        self.assertEqual(self.bridge("run turns.code --compose --in day=day --in night=night --out out")[0], 0)
        fic = self.bridge("fic out")[1]
        self.assertIn("swaps 6 faults 0", self.checked(fic))
        data, at, swaps = self.read("out"), 0, [0, *self.swaps(fic), self.FRAMES]
        for first, last in zip(swaps, swaps[1:]):
            listed = subprocess.run([self.program, "listen", "-"], input=fic[96 * first:96 * last], capture_output=True, check=False)
            current = listed.stdout.decode().split("next")[0]
            wanted = [tuple(map(int, each)) for each in re.findall(r"(?m)^sub (\d+) at (\d+) size (\d+)", current)]
            self.assertIn(len(wanted), (2, 3))
            for _ in range(first, last):
                size = int.from_bytes(data[at + 2:at + 6], "big") + 12
                found = headers(data[at:at + size])
                at += size
                self.assertEqual(found, wanted)

    def test_formats_may_differ(self):
        """The output has the format of the first input, or that of --format."""
        self.give("day", DAY, self.FRAMES, 0, "edi")
        self.give("night", NIGHT, self.FRAMES, 0, "eti", rest=b"\xff\xff\xff\xff")
        self.assertEqual(self.bridge("run turns.code --compose --in day=day --in night=night --out out")[0], 0)
        self.same(self.wanted("edi", 0, 0), self.read("out"), "EDI and ETI")
        self.assertEqual(self.bridge("run turns.code --compose --in day=day --in night=night --out out --format eti")[0], 0)
        self.same(self.wanted("eti", 0, 0, rest=b"\xff" * 4), self.read("out"), "to ETI")
        self.give("day", DAY, self.FRAMES, 0, "eti", rest=b"\xff\xff\xff\xff")
        self.assertEqual(self.bridge("run turns.code --compose --in day=day --in night=night --out out --format edi")[0], 0)
        found = self.read("out")
        wanted = self.wanted("edi", 0, 0)
        self.same(wanted, found, "ETI to EDI")


def headers(packet):
    """The SubChIds, first capacity units and sizes of a packet of EDI, in its order."""
    found, at = [], 10
    while at + 8 <= len(packet) - 2:
        bits = int.from_bytes(packet[at + 4:at + 8], "big")
        if packet[at:at + 3] == b"est":
            head = int.from_bytes(packet[at + 8:at + 11], "big")
            level, words = head >> 2 & 0x3F, (bits // 8 - 3) // 8
            profile, kbits = "AB"[level >> 2 & 1], words * 64 // 24
            found.append((head >> 18, head >> 8 & 0x3FF, composed.size(f"{(level & 3) + 1}-{profile}", kbits)))
        at += 8 + bits // 8
    return found


class Alone(composed.Case):
    """One kind of change after another, each with a multiplexer for before and one for behind."""

    def changes(self):
        """By name: sub-channels before and behind, and the statements between them."""
        one, two, three = entry(1, 0, "3-A", 64), entry(2, 48, "3-A", 64), entry(3, 96, "2-B", 64)
        return {
            "a smaller size": ((one, two), (entry(1, 0, "3-A", 32), two), "rate sub 1 32"),
            "a larger size": ((one, entry(2, 100, "3-A", 64)), (entry(1, 0, "3-A", 128), entry(2, 100, "3-A", 64)), "rate sub 1 128"),
            "a move": ((one, two), (one, entry(2, 500, "3-A", 64)), "move sub 2 at 500"),
            "an exchange": ((one, two), (entry(1, 48, "3-A", 64), entry(2, 0, "3-A", 64)),
                            "move sub 2 at 100\nmove sub 1 at 48\nmove sub 2 at 0"),
            "one more": ((one, two), (one, two, three), "sub 3 at 96 eep 2-B 64\nservice C223\naudio 63 sub 3 in C223"),
            "one less": ((one, two), (two,), "drop service C221\ndrop sub 1"),
            "nothing but a service": ((one, two), (one, two), "drop service C222"),
            "EEP B": ((entry(1, 0, "1-B", 32), two), (entry(1, 0, "1-B", 32), entry(2, 48, "4-B", 96)),
                      "drop component sub 2 in C222\ndrop sub 2\nsub 2 at 48 eep 4-B 96\naudio 63 sub 2 in C222"),
        }

    def test_each_is_made_in_the_frame_of_the_swap(self):
        for name, (before, behind, statements) in self.changes().items():
            subs = "".join(f"sub {sub} at {start} eep {(level & 3) + 1}-{'AB'[level >> 2 & 1]} {words * 8 // 3}\n"
                           for sub, start, level, words in before)
            script = f"{HEAD}{subs}{SERVICES}begin\nwait 20\n{statements}\ncommit in 24\njoin\n"
            self.compile(self.folder, "p", script)
            fic = self.plan(100, 0, script)
            self.assertEqual(len(self.swaps(fic)), 1, name)
            for form in FORMS:
                self.give("before", before, 100, 0, form)
                self.give("behind", behind, 100, 0, form)
                status, _, messages = self.bridge("run p.code --compose --in before=before --in behind=behind --out out")
                self.assertEqual(status, 0, f"{name}: {messages}")
                carried = {each[0]: each[2:] for each in before}
                sides = (side(before, "before"), tuple(
                    (each, "before" if carried.get(each[0]) == each[2:] else "behind", each[0]) for each in behind))
                self.same(b"".join(self.made(fic, self.turns(fic, *sides), 0, form)), self.read("out"), f"{name}, {form}")

    def test_as_many_as_there_can_be(self):
        subs = [(sub, 6 * sub, "3-A", 8) for sub in range(64)]
        for name, before in {"64 sub-channels": subs, "864 units": [(1, 0, "4-A", 1080), (2, 540, "4-B", 576), (9, 810, "1-B", 64)]}.items():
            head = "ensemble E1C5\nperiod 40 notice 120 budget 20\n"
            text = "".join(f"sub {sub} at {start} eep {protection} {kbits}\n" for sub, start, protection, kbits in before)
            script = f"{head}{text}service C221\naudio 63 sub 1 in C221\nbegin\nwait 20\ndrop sub 9\ncommit in 120\njoin\n"
            self.compile(self.folder, "p", script)
            layout = [entry(*each) for each in before]
            fic = self.plan(200, 0, script)
            behind = [each for each in layout if each[0] != 9]
            for form in FORMS:
                self.give("all", layout, 200, 0, form)
                status, _, messages = self.bridge("run p.code --compose --in all --out out")
                self.assertEqual(status, 0, f"{name}: {messages}")
                self.same(b"".join(self.made(fic, self.turns(fic, side(layout, "all"), side(behind, "all")), 0, form)), self.read("out"), name)


if __name__ == "__main__":
    units.main()
