#!/usr/bin/env python3
"""`dabplan-bridge run --compose` with `--align5`, `--shrink`, `--modulator` and `--state`, over streams that are made byte by
byte. The last line is 'N passed, M failed'."""
import sys

import bridges
import composed
import units
from bridges import common
from composed import DAY, DAY_SIDE, HEAD, NIGHT, NIGHT_SIDE, SERVICES, TURNS, entry, side

sys.dont_write_bytecode = True
sys.path.insert(0, str(bridges.FOLDER))

from dabplan_bridge.code_file import configurations_of  # noqa: E402
from dabplan_bridge.layout import entries_of  # noqa: E402

BOTH = "run turns.code --compose --in day=day --in night=night --out out"


def fire_code(data):
    """The Fire code of a superframe: x^16 + x^14 + x^13 + x^12 + x^11 + x^5 + x^3 + x^2 + x + 1 (TS 102 563, 5.2)."""
    register = 0
    for byte in data:
        for bit in range(7, -1, -1):
            register = register << 1 & 0xFFFF ^ (0x782F if (register >> 15 ^ byte >> bit) & 1 else 0)
    return register.to_bytes(2, "big")


def superframes(name, sub, count, words, first):
    """The frame of a count of a stream whose superframes begin at counts that are `first` modulo 5."""
    data = composed.data(name, sub, count, words)
    return fire_code(data[2:11]) + data[2:] if count % 5 == first else data


class Aligned(composed.Case):
    """Superframes of DAB+ at counts that 5 divides."""

    def give_superframes(self, name, layout, frames, firsts):
        """A file NAME of frames whose sub-channels have superframes as `firsts` says; others have none."""
        fics, found = self.fic(frames), []
        for count in range(frames):
            given = [(each, superframes(name, each[0], count, each[3], firsts[each[0]]) if each[0] in firsts else
                      composed.data(name, each[0], count, each[3])) for each in layout]
            found.append(composed.edi(count, fics[count], given))
        self.write(name, b"".join(found))

    def test_streams_are_delayed_by_what_is_wanting(self):
        self.compile(self.folder, "turns", TURNS)
        self.give_superframes("day", DAY, 200, {1: 2})
        self.give_superframes("night", NIGHT, 200, {1: 0, 5: 4})
        self.assertEqual(self.bridge(BOTH + " --align5")[0], 0)
        fic = self.plan(200, 0, TURNS)
        # 2 is 3 before a multiple of 5, and 4 is one before it; sub-channel 2 has no superframes, and is not delayed.
        ways = {("day", 1): (2, 3), ("night", 1): (0, 0), ("night", 5): (4, 1), ("day", 2): (None, 0)}
        wanted = []
        for count, each in enumerate(self.turns(fic, DAY_SIDE, NIGHT_SIDE)):
            given = []
            for there, name, sub in sorted(each, key=lambda row: row[0][1]):
                first, delay = ways[name, sub]
                data = composed.data(name, sub, (count - delay) % 5000, there[3]) if first is None else \
                    superframes(name, sub, (count - delay) % 5000, there[3], first)
                given.append((there, data))
            wanted.append(composed.edi(count, fic[96 * count:96 * count + 96], given, sequence=count))
        found = self.read("out")
        # It takes two superframes until they are known, and 15 frames until it is known that there are none.
        at = len(b"".join(wanted[:15]))
        self.same(b"".join(wanted[15:]), found[at:], "from the frame 15 on")
        self.assertEqual(len(found), len(b"".join(wanted)))

    def test_frames_before_are_silent(self):
        script = HEAD + "sub 1 at 0 eep 3-A 128\nsub 2 at 96 eep 3-A 64\n" + SERVICES + "begin\n"
        self.compile(self.folder, "still", script)
        self.give_superframes("day", DAY, 40, {1: 2})
        self.assertEqual(self.bridge("run still.code --compose --in day --out out --align5")[0], 0)
        fic, wanted = self.plan(40, 0, script), []
        for count in range(40):
            one = superframes("day", 1, count - 3, 48, 2) if count >= 7 else bytes(8 * 48)
            other = composed.data("day", 2, count, 24) if count >= 14 else bytes(8 * 24)
            wanted.append(composed.edi(count, fic[96 * count:96 * count + 96], [(DAY[0], one), (DAY[1], other)]))
        self.same(b"".join(wanted), self.read("out"), "silent until two superframes were seen")


class Shrunk(composed.Case):
    """A smaller size some frames ahead."""

    def test_the_new_size_is_there_before_the_swap(self):
        self.compile(self.folder, "turns", TURNS)
        for form in ("edi", "eti"):
            self.give("day", DAY, 200, 0, form)
            self.give("night", NIGHT, 200, 0, form)
            for frames in (15, 1):
                self.assertEqual(self.bridge(BOTH + f" --shrink {frames}")[0], 0)
                fic = self.plan(200, 0, TURNS)
                sides, swaps = self.turns(fic, DAY_SIDE, NIGHT_SIDE), self.swaps(fic)
                # By night sub-channel 1 is smaller; at its old start, which is the new one too, beside the others of the day.
                early = ((NIGHT[0], "night", 1), DAY_SIDE[1])
                for swap in swaps:
                    if sides[swap] is NIGHT_SIDE:
                        sides[swap - frames:swap] = [early] * frames
                self.same(b"".join(self.made(fic, sides, 0, form)), self.read("out"), f"{form}, {frames} frames ahead")


class ForOdrDabmod(composed.Case):
    """What odr-dabmod needs."""

    MOVES = HEAD + "sub 1 at 0 eep 3-A 64\nsub 2 at 48 eep 3-A 64\n" + SERVICES + "begin\nforever {\nwait 20\nmove sub 2 at 148\n" \
        "commit in 24\njoin\nwait 20\nmove sub 2 at 48\ncommit in 24\njoin\n}\n"

    def ahead(self, fic, *sides):
        """For each frame the side of its header: it changes 4 frames before a swap at a count that 8 divides, else in the
        frame before the last such count."""
        swaps = self.swaps(fic)
        self.assertGreater(len(swaps), 3)
        changes = [swap - 4 if swap % 8 == 0 else swap // 8 * 8 - 1 for swap in swaps]
        self.assertEqual(len({swap % 8 for swap in swaps}), 2, "swaps of both kinds")
        return [sides[sum(change <= at for change in changes) % len(sides)] for at in range(len(fic) // 96)]

    def test_the_header_changes_before_the_swap(self):
        self.compile(self.folder, "turns", TURNS)
        self.give("day", DAY, 210, 0, "eti")
        self.give("night", NIGHT, 210, 0, "eti")
        self.assertEqual(self.bridge(BOTH + " --modulator odr-dabmod")[0], 0)
        fic = self.plan(210, 0, TURNS)
        self.same(b"".join(self.made(fic, self.ahead(fic, DAY_SIDE, NIGHT_SIDE), 0, "eti")), self.read("out"), "ahead")

    def test_where_sub_channels_move_alone_another_one_shows_it(self):
        self.compile(self.folder, "moves2", self.MOVES)
        one, two, there = entry(1, 0, "3-A", 64), entry(2, 48, "3-A", 64), entry(2, 148, "3-A", 64)
        self.give("all", (one, two), 210, 0, "eti")
        self.assertEqual(self.bridge("run moves2.code --compose --in all --out out --modulator odr-dabmod")[0], 0)
        fic = self.plan(210, 0, self.MOVES)
        before, behind = side((one, two), "all"), side((one, there), "all")
        found = self.made_with_filler(fic, self.ahead(fic, before, behind), behind)
        self.same(b"".join(found), self.read("out"), "8 kbit/s at 4-A, behind the move")

    def made_with_filler(self, fic, sides, behind):
        """Frames in which those of a side have a sub-channel of 8 kbit/s without a stream, in the first free units."""
        filler = entry(63, 48, "4-A", 8)
        found = []
        for count, each in enumerate(sides):
            given = [(there, composed.data(name, sub, count, there[3])) for there, name, sub in each]
            given += [(filler, bytes(24))] if each is behind else []
            found.append(composed.eti(count, fic[96 * count:96 * count + 96], sorted(given, key=lambda row: row[0][1])))
        return found

    def test_what_it_can_not_do_is_refused(self):
        self.compile(self.folder, "turns", TURNS)
        for name, layout in (("day", DAY), ("night", NIGHT)):
            self.give(name, layout, 50)
        self.write("out", "kept")
        status, printed, messages = self.bridge(BOTH + " --modulator odr-dabmod")
        self.assertEqual((status, printed, self.read("out")), (5, b"", b"kept"))
        self.assertIn("turns.code does not fit odr-dabmod: sub 1: at 0 size 96 eep 3-A and at 0 size 48 eep 3-A; sub 2: at 96", messages)
        self.assertIn("odr-dabmod takes no such change by EDI; by ETI it does\n", messages)
        self.assertEqual(self.bridge(BOTH + " --modulator odr-dabmod --format eti")[0], 0)
        # Sub-channels that only come and go are no matter by EDI.
        script = TURNS.replace("rate sub 1 64\nmove sub 2 at 48\nsub 5 at 96", "sub 5 at 200") \
            .replace("move sub 2 at 96\nrate sub 1 128\n", "")
        self.compile(self.folder, "adds", script)
        self.assertEqual(self.bridge(BOTH.replace("turns", "adds") + " --modulator odr-dabmod")[0], 0)

    def test_a_move_without_room_is_refused(self):
        full = HEAD + "sub 1 at 0 eep 4-A 864\nsub 2 at 432 eep 4-A 864\n" + SERVICES + "begin\nwait 20\n" \
            "drop component sub 1 in C221\ndrop component sub 2 in C222\ndrop sub 1\ndrop sub 2\nsub 2 at 0 eep 4-A 864\n" \
            "sub 1 at 432 eep 4-A 864\naudio 63 sub 1 in C221\naudio 63 sub 2 in C222\ncommit in 24\njoin\n"
        self.compile(self.folder, "full", full)
        self.give("all", (entry(1, 0, "4-A", 864), entry(2, 432, "4-A", 864)), 100, 0, "eti")
        self.assertEqual(self.bridge("run full.code --compose --in all --out out")[0], 0)
        status, _, messages = self.bridge("run full.code --compose --in all --out out --modulator odr-dabmod")
        self.assertEqual(status, 5)
        self.assertIn("a configuration of 2 sub-channels has no 4 capacity units or no SubChId left", messages)


class Examples(composed.Case):
    """Each example plan can be sent, whatever layouts it has: here with an input for each of its configurations."""

    def test_each_begins(self):
        several = 0
        for path in sorted(common.EXAMPLES.glob("*.plan")):
            script = path.read_text(encoding="utf-8")
            self.compile(self.folder, "p", script)
            fic = self.played(script, "frames 20")
            layouts = [tuple(entries_of(subs)) for subs in configurations_of(self.read("p.code"))]
            several += len(set(layouts)) > 1
            inputs = []
            for number, layout in enumerate(layouts):
                frames = [composed.edi(at, each, composed.parts(f"c{number}", at, layout)) for at, each in enumerate(bridges.fics(fic))]
                self.write(f"c{number}", b"".join(frames))
                inputs.append(f"--in c{number}=c{number}")
            status, _, messages = self.bridge(f"run p.code --compose {' '.join(inputs)} --out out")
            self.assertEqual(status, 0, f"{path.name}: {messages}")
            # The shortest notice has its swap within the 20 frames.
            wanted = b"".join(self.made(fic, [side(layouts[0], "c0")] * 4))
            self.same(wanted, self.read("out")[:len(wanted)], path.name)
        self.assertGreater(several, 10)


class Told(composed.Case):
    """What the textfile says."""

    def test_inputs_and_streams_have_lines(self):
        self.compile(self.folder, "turns", TURNS)
        self.give("day", DAY, 60)
        self.give("night", NIGHT, 60)
        self.assertEqual(self.bridge(BOTH + " --state s")[0], 0)
        lines = self.read("s").decode().splitlines()
        for line in ('dab_input_connected{input="day"} 0', 'dab_input_depth_frames{input="night"} 0', 'dab_input_late_total{input="day"} 0',
                     'dab_input_missing_total{input="night"} 0', 'dab_input_damaged_total{input="night"} 0',
                     'dab_stream_source{sub="1",input="night"} 1', 'dab_stream_source{sub="2",input="day"} 1',
                     'dab_stream_silent_total{sub="5"} 0', 'dab_stream_fallbacks_total{sub="1"} 0', 'dab_alarm{alarm="input"} 0', "dab_fits 1"):
            self.assertIn(line, lines)
        self.write("a", b"".join(self.stream("edi", 20)))
        self.assertEqual(self.bridge("run moves.code --in a --out b --state s")[0], 0)
        self.assertNotIn(b"dab_input_connected", self.read("s"))


if __name__ == "__main__":
    units.main()
