#!/usr/bin/env python3
"""`dabplan-bridge run --compose` where inputs are at other counts, late, gone, others than the plan's, or damaged. Frames are
compared with ones that are made of the streams that they have to have. The last line is 'N passed, M failed'."""
import random
import re
import signal
import time

import bridges
import composed
import units
from composed import DAY, NIGHT, TURNS, count_of, packets_of, streams_of

BOTH = "run turns.code --compose --in day=day --in night=night --out out"


class Counts(composed.Turns):
    """Inputs at other counts."""

    def test_how_far_apart_they_begin_changes_nothing(self):
        for form, first in (("edi", 4801), ("eti", 4804)):
            wanted = b"".join(self.wanted(260, first, form))
            for apart in (0, 1, 8, 249):
                for early, late in (("day", "night"), ("night", "day")):
                    layouts = {"day": DAY, "night": NIGHT}
                    self.give(early, layouts[early], 260 + apart, (first - apart) % 5000, form)
                    self.give(late, layouts[late], 260, first, form)
                    status, _, messages = self.bridge(BOTH)
                    self.assertEqual(status, 0, messages)
                    self.same(wanted, self.read("out"), f"{form}: {early} begins {apart} earlier")

    def test_more_than_250_apart_is_another_stream(self):
        self.give("day", DAY, 200, 100)
        for first in (351, 4849):
            self.give("night", NIGHT, 200, first)
            text = f"input night: its count is {first}, that of the first input is 100"
            self.write("out", "kept")
            self.assertEqual(self.bridge(BOTH + " --strict"), (4, b"", f"dabplan-bridge: {text}\n"))
            self.assertEqual(self.read("out"), b"kept")
            status, _, messages = self.bridge(BOTH)
            self.assertEqual(status, 0)
            self.assertIn(f"dabplan-bridge: {text}: it is left out as long as they are more than 250 apart\n", messages)
            # What it alone has is silence. (Where the first one ends, the stream goes on with the other one.)
            fic = self.plan(200, 100, TURNS)
            sides = self.turns(fic, composed.DAY_SIDE, composed.NIGHT_SIDE, first=100)
            silent = {at: (1, 5) for at, each in enumerate(sides) if each is composed.NIGHT_SIDE}
            wanted = b"".join(self.made(fic, sides, 100, silent=silent))
            self.same(wanted, self.read("out")[:len(wanted)], f"night from {first}")

    def test_both_go_on_elsewhere(self):
        """Without a clock a step of 1000 is not explained: what is on air is held, in its layout, at the counts that come."""
        for name, layout in (("day", DAY), ("night", NIGHT)):
            self.write(name + "2", b"".join(self.give(name, layout, 60) + self.give(name, layout, 40, 1060)))
        status, _, messages = self.bridge("run turns.code --compose --in day=day2 --in night=night2 --out out")
        self.assertEqual(status, 0)
        self.assertIn("frame 60: the count is 1060, 60 was due: a step of 1000: what is on air is held", messages)
        found = self.read("out")
        self.same(b"".join(self.wanted(60)), found[:len(b"".join(self.wanted(60)))], "before")
        packets = packets_of(found)
        self.assertEqual([count_of(packet) for packet in packets], [*range(60), *range(1060, 1100)])
        for number, packet in enumerate(packets[60:]):
            given = [(each, composed.data(name, sub, 1060 + number, each[3])) for each, name, sub in composed.NIGHT_SIDE]
            self.assertEqual(streams_of(packet), streams_of(composed.edi(1060 + number, bytes(96), given)))


class Begun(composed.Turns):
    """A plan that begins when all inputs are there."""

    def test_one_that_comes_later_belongs_to_the_others(self):
        """However long it was waited for: what came of the others meanwhile is passed over."""
        feed, day, night = self.live()
        days, nights = self.give("day", DAY, 400), self.give("night", NIGHT, 400)
        day.give(days[:320])
        self.assertIn(b"", [feed.get(1, 0.5)])
        night.give(nights[318:340])
        day.give(days[320:340])
        wanted = self.wanted(22, 318)
        self.same(b"".join(wanted), feed.get(len(b"".join(wanted))), "from the first frame of the night on")
        self.assertEqual(feed.end(signal.SIGTERM)[0], 0)

    def test_the_clock_goes_over_to_the_next_input(self):
        """Where the first input ends, counts, sequence numbers and words of synchronisation go on."""
        fic = self.plan(200, 0, TURNS)
        by_day, by_night = (tuple((each, "night", each[0]) for each in layout) for layout in (DAY, NIGHT))
        turns = self.turns(fic, composed.DAY_SIDE, composed.NIGHT_SIDE)
        sides = [each if at < 100 else by_day if each is composed.DAY_SIDE else by_night for at, each in enumerate(turns)]
        silent = {at: (1,) for at, each in enumerate(sides) if each is by_day}
        for form in ("edi", "eti"):
            self.give("day", DAY, 100, 0, form)
            self.give("night", NIGHT, 200, 0, form)
            status, _, messages = self.bridge(BOTH)
            self.assertEqual(status, 0, messages)
            self.same(b"".join(self.made(fic, sides, 0, form, silent=silent)), self.read("out"), form)


class Late(composed.Turns):
    """Inputs in real time that come late, or not at all."""

    def test_late_by_one_less_than_the_delay_loses_nothing(self):
        feed, day, night = self.live("--delay 10")
        days, nights = self.give("day", DAY, 150), self.give("night", NIGHT, 150)
        wanted = self.wanted(141)
        day.give(days[:9])
        for at in range(141):
            day.give(days[at + 9:at + 10])
            night.give(nights[at:at + 1])
            self.same(wanted[at], feed.get(len(wanted[at])), f"frame {at}")
        self.assertEqual(feed.end(signal.SIGTERM)[0], 0)

    def test_late_by_the_delay_is_silence(self):
        feed, day, night = self.live("--delay 10 --state s")
        days, nights = self.give("day", DAY, 150), self.give("night", NIGHT, 150)
        fic = self.plan(150, 0, TURNS)
        sides = self.turns(fic, composed.DAY_SIDE, composed.NIGHT_SIDE)
        silent = {at: (1, 5) for at in range(1, 150)}
        wanted = self.made(fic, sides, silent={at: subs for at, subs in silent.items() if sides[at] is composed.NIGHT_SIDE})
        day.give(days[:1])
        night.give(nights[:1])
        self.same(wanted[0], feed.get(len(wanted[0])), "both")
        day.give(days[1:11])
        for at in range(1, 139):
            day.give(days[at + 10:at + 11])
            self.same(wanted[at], feed.get(len(wanted[at])), f"frame {at}")
            night.give(nights[at:at + 1])
        self.assertEqual(feed.end(signal.SIGTERM)[0], 0)
        lines = self.read("s").decode()
        self.assertIn('\ndab_input_missing_total{input="night"} 138\n', lines)
        self.assertIn('\ndab_alarm{alarm="input"} 1\n', lines)
        late = int(re.search(r'dab_input_late_total{input="night"} (\d+)', lines)[1])
        self.assertGreater(late, 100)
        self.assertIn(f'dab_stream_silent_total{{sub="5"}} {sides[:139].count(composed.NIGHT_SIDE)}\n', lines)

    def test_a_connection_that_is_closed_is_not_waited_for(self):
        feed, day, night = self.live()
        days, nights = self.give("day", DAY, 150), self.give("night", NIGHT, 150)
        fic = self.plan(150, 0, TURNS)
        without_day = tuple((each, "night", each[0]) for each in NIGHT)
        turns = self.turns(fic, composed.DAY_SIDE, composed.NIGHT_SIDE)
        sides = [side_ if at < 60 or side_ is composed.DAY_SIDE else without_day for at, side_ in enumerate(turns)]
        # The day's own stream is silence once it is gone; the one that both have comes from the night.
        gone = tuple((each, "night", each[0]) for each in DAY)
        sides = [gone if side_ is composed.DAY_SIDE and at >= 60 else side_ for at, side_ in enumerate(sides)]
        wanted = self.made(fic, sides, silent={at: (1,) for at, each in enumerate(sides) if each is gone})
        for at in range(60):
            day.give(days[at:at + 1])
            night.give(nights[at:at + 1])
            self.same(wanted[at], feed.get(len(wanted[at])), f"frame {at}")
        day.drop()
        for at in range(60, 150):
            night.give(nights[at:at + 1])
            self.same(wanted[at], feed.get(len(wanted[at])), f"frame {at}, without the day")
        status, _, messages = feed.end(signal.SIGTERM)
        self.assertEqual(status, 0)
        self.assertIn(f"{day.address}: the connection was closed: tried again", messages)
        self.assertIn("no frames in time of input day: others take over, or silence", messages)

    def test_one_that_comes_back_is_used_again(self):
        feed, day, night = self.live("--delay 5")
        days, nights = self.give("day", DAY, 400), self.give("night", NIGHT, 400)
        for at in range(20):
            day.give(days[at:at + 1])
            night.give(nights[at:at + 1])
            feed.get(len(days[0]))
        day.drop()
        size = len(self.wanted(1)[0])
        for at in range(20, 30):
            night.give(nights[at:at + 1])
            self.assertEqual(streams_of(feed.get(size))[1][1], bytes(8 * 48))
        day.accept()
        # It is a frame behind the other one, and has its ensemble with the FIG 0/0 of the frame 32: from then on it is waited for.
        used = []
        for at in range(30, 44):
            night.give(nights[at:at + 1])
            time.sleep(0.05)
            day.give(days[at:at + 1])
            found = feed.get(size)
            data = streams_of(found)[1][1]
            self.assertEqual(count_of(found), at)
            self.assertTrue(data in (bytes(8 * 48), composed.data("day", 1, at, 48)), at)
            used.append(any(data))
        first = used.index(True)
        self.assertTrue(first >= 2 and all(used[first:]), used)
        self.assertEqual(feed.end(signal.SIGTERM)[0], 0)

    def test_the_last_frame_may_be_repeated(self):
        feed, day, night = self.live("--missing last")
        days, nights = self.give("day", DAY, 50), self.give("night", NIGHT, 50)
        day.give(days[:10])
        night.give(nights[:10])
        size = len(self.wanted(1)[0])
        for at in range(10):
            feed.get(size)
        day.drop()
        for at in range(10, 40):
            night.give(nights[at:at + 1])
            self.assertEqual(streams_of(feed.get(size))[1][1], composed.data("day", 1, 9, 48))
        self.assertEqual(feed.end(signal.SIGTERM)[0], 0)


class Others(composed.Turns):
    """Inputs that do not fit, and inputs that are damaged."""

    def test_what_no_input_carries_is_refused_before_anything_goes_out(self):
        self.give("day", DAY, 50)
        other = (composed.entry(1, 0, "3-A", 64), composed.entry(2, 48, "3-A", 64), composed.entry(5, 96, "3-A", 32))
        self.give("night", other, 50)
        self.write("out", "kept")
        message = "dabplan-bridge: turns.code does not fit the inputs: sub 5: at 96 size 48 eep 3-A in the plan, carried by no input\n"
        status, printed, messages = self.bridge(BOTH)
        self.assertEqual((status, printed), (5, b""))
        self.assertIn(message, messages)
        self.assertEqual(self.bridge("run turns.code --compose --in day --out out")[0], 5)
        self.assertEqual(self.read("out"), b"kept")

    def test_another_ensemble_or_mode_is_refused(self):
        self.give("day", DAY, 50)
        self.write("out", "kept")
        fics = bridges.fics(self.played((composed.HEAD + composed.DAY_SUBS + composed.SERVICES + "begin\n").replace("E1C5", "E1C6"), "frames 50"))
        self.write("night", b"".join(composed.edi(at, fics[at], composed.parts("night", at, NIGHT)) for at in range(50)))
        self.assertEqual(self.bridge(BOTH), (5, b"", "dabplan-bridge: turns.code: input night: ensemble E1C6; that of the plan is E1C5\n"))
        self.give("night", NIGHT, 50, mode=2)
        self.assertEqual(self.bridge(BOTH), (
            5, b"", "dabplan-bridge: turns.code: input night: transmission mode 2; that of the plan is 1\n"))
        self.assertEqual(self.read("out"), b"kept")

    def test_another_ensemble_that_comes_later_is_left_out(self):
        feed, day, night = self.live()
        days, nights = self.give("day", DAY, 300), self.give("night", NIGHT, 300)
        day.give(days[:44])
        night.give(nights[:44])
        wanted = self.wanted(44)
        self.same(b"".join(wanted), feed.get(len(b"".join(wanted))), "before")
        night.drop()
        night.accept()
        fics = bridges.fics(self.played((composed.HEAD + composed.DAY_SUBS + composed.SERVICES + "begin\n").replace("E1C5", "E1C6"), "frames 90"))
        strange = [composed.edi(at, fics[at], composed.parts("strange", at, NIGHT)) for at in range(90)]
        # Its first frames have no FIG 0/0: they wait for one.
        for at in range(45, 80):
            night.give(strange[at:at + 1])
            day.give(days[at - 1:at] if at == 45 else [])
            day.give(days[at:at + 1])
            self.assertTrue(at > 45 or count_of(composed.next_packet(feed)) == 44)
            found = streams_of(composed.next_packet(feed))
            self.assertEqual((found[1][1], found[5][1]), (bytes(8 * 24), bytes(8 * 24)))
        status, _, messages = feed.end(signal.SIGTERM)
        self.assertEqual(status, 0)
        self.assertEqual(messages.count("ensemble E1C6; that of the plan is E1C5: nothing of it goes out"), 1, messages)
        self.assertNotIn("again\n", messages.replace("connected again\n", ""))

    def test_other_numbers_are_mapped(self):
        renamed = ((10, *NIGHT[0][1:]), (2, *NIGHT[1][1:]), (1, *NIGHT[2][1:]))
        self.give("day", DAY, 200)
        self.give("night", renamed, 200)
        self.assertEqual(self.bridge(BOTH)[0], 5)
        self.assertEqual(self.bridge(BOTH + " --map 1=night:10 --map 1=day:1 --map 5=night:1")[0], 0)
        mapped = ((NIGHT[0], "night", 10), (NIGHT[1], "day", 2), (NIGHT[2], "night", 1))
        self.same(b"".join(self.wanted(200, sides=(composed.DAY_SIDE, mapped))), self.read("out"), "mapped")
        # Without that of the day, sub-channel 1 of 128 kbit/s is carried by none.
        self.assertEqual(self.bridge(BOTH + " --map 1=night:10 --map 5=night:1")[0], 5)

    def test_damage_of_one_is_made_up_for_by_the_other(self):
        chance = random.Random(7)
        for form in ("edi", "eti"):
            for _ in range(2):
                days, nights = self.give("day", DAY, 200, 0, form), self.give("night", NIGHT, 200, 0, form)
                bad = chance.sample(range(20, 180), 12)
                for at in bad:
                    frames = (days, nights)[at % 2]
                    kind, frame = chance.randrange(3), frames[at]
                    cut = chance.randrange(20, len(frame) - 20)
                    frames[at] = (b"", frame[:cut], bytes(len(frame)))[kind]
                self.write("day", b"".join(days))
                self.write("night", b"".join(nights))
                status, _, messages = self.bridge(BOTH)
                self.assertEqual(status, 0, messages)
                fic = self.plan(200, 0, TURNS)
                if form == "edi":
                    packets = packets_of(self.read("out"))
                    self.assertEqual([count_of(packet) for packet in packets], list(range(200)))
                self.same(fic, self.bridge("fic out")[1], form)

    def test_the_command_line(self):
        self.give("day", DAY, 10)
        base = "run turns.code --out out --in "
        for line, message in {
                base + "day --delay 9": "--delay is an option of --compose",
                base + "day --map 1=day:1": "--map is an option of --compose",
                base + "day --align5": "--align5 is an option of --compose",
                base + "day --in night": "several inputs are for --compose",
                base + "day --in night --compose": "each of several inputs has a name: --in NAME=IN",
                base + "a=day --in a=night --compose": "two inputs have the same name",
                base + "a=day --in b=day --compose": "day and day are the same file",
                base + "a=day --compose --map 1=b:1": "--map 1=b:1: no input b",
                base + "a=day --compose --map 64=a:1": "--map 64=a:1: expected SUB=NAME:SUB, with SubChIds of 0 to 63",
                base + "a=day --compose --map 1=a:1 --map 1=a:2": "--map 1=a:2: sub-channel 1 is another one of a already",
                base + "a=day --compose --shrink 15 --modulator odr-dabmod": "--shrink and --modulator exclude each other"}.items():
            self.assertEqual(self.bridge(line), (2, b"", f"dabplan-bridge: {message}\n"), line)
        for line, part in {base + "day --compose --delay 0": "expected a number of frames, 1 to 250: 0",
                           base + "a=tcp://x --compose": "expected tcp://HOST:PORT or udp://HOST:PORT",
                           base + "day --compose --missing noise": "invalid choice: 'noise'"}.items():
            status, printed, messages = self.bridge(line)
            self.assertEqual((status, printed), (2, b""))
            self.assertIn(part, messages)
        self.assertFalse((self.folder / "out").exists())


class Resumed(composed.Turns):
    """A plan whose bridge is killed in the night."""

    def test_layout_and_inputs_are_right_in_the_first_frame(self):
        feed, day, night = self.live("--log l")
        days, nights = self.give("day", DAY, 200), self.give("night", NIGHT, 200)
        wanted = self.wanted(200)
        for at in range(60):
            day.give(days[at:at + 1])
            night.give(nights[at:at + 1])
            self.same(wanted[at], feed.get(len(wanted[at])), f"frame {at}")
        feed.end(signal.SIGKILL)
        day.drop()
        night.drop()
        # However long that takes on a busy machine, the clock agrees.
        feed = self.started(f"run turns.code --compose --in day={day.address} --in night={night.address} --out - --log l"
                            " --delay 250 --tolerance 59")
        day.accept()
        night.accept()
        # 44 to 87 are the night. What follows is of another run: sequence numbers begin with that of the first frame.
        day.give(days[70:])
        night.give(nights[70:])
        for at in range(70, 190):
            self.assertEqual(streams_of(feed.get(len(wanted[at]))), streams_of(wanted[at]), f"frame {at}")
        self.assertEqual(feed.end(signal.SIGTERM)[0], 0)

    def test_it_goes_on_with_one_input_if_the_other_one_is_not_there(self):
        self.give("day", DAY, 60)
        self.give("night", NIGHT, 60)
        self.assertEqual(self.bridge(BOTH + " --log l")[0], 0)
        self.give("night", NIGHT, 60, 60)
        self.write("empty", b"")
        status, _, messages = self.bridge("run turns.code --compose --in day=empty --in night=night --out out --log l")
        self.assertEqual(status, 0, messages)
        packets = packets_of(self.read("out"))
        self.assertEqual([count_of(packet) for packet in packets], list(range(60, 120)))
        self.assertEqual(sorted(streams_of(packets[0])), [1, 2, 5], "the night")
        self.assertEqual(sorted(streams_of(packets[40])), [1, 2], "the day")
        self.assertEqual(streams_of(packets[40])[1][1], bytes(8 * 48))
        self.assertIn("does not fit the inputs: sub 1: at 0 size 96 eep 3-A in the plan, carried by no input", messages)

    def test_a_plan_that_begins_waits_for_all(self):
        self.give("day", DAY, 60)
        self.write("night", b"")
        self.write("out", "kept")
        self.assertEqual(self.bridge(BOTH), (1, b"", "dabplan-bridge: input night: no frames with a count\n"))
        self.assertEqual(self.read("out"), b"kept")


if __name__ == "__main__":
    units.main()
