#!/usr/bin/env python3
"""Which frame of the plan belongs to a frame of the stream: the modules that follow counts, case by case. The last line
is 'N passed, M failed'."""
import sys
import unittest

import bridges
import units
from bridges import common

sys.dont_write_bytecode = True
sys.path.insert(0, str(bridges.FOLDER))

from dabplan_bridge import agreeing, code_file, follower, moments, state, utc  # noqa: E402
from dabplan_bridge.moments import Moment  # noqa: E402
from dabplan_bridge.state import Phase  # noqa: E402

FRAME = 0.024
FIRST = 4900
WALL = 1_800_000_000.0


def at(seconds, ahead=0.0):
    """The moment so many seconds behind some time, on a clock that is so much ahead."""
    return Moment(seconds, WALL + seconds + ahead)


def stamped(seconds):
    """A moment by a time stamp; the host's clock stands still."""
    return Moment(0.0, WALL + seconds, True)


class Case(unittest.TestCase):
    """A follower that has followed some frames in real time."""

    def begun(self, frames=1000, has_clock=True, when=at, tolerance=3.0):
        """A follower after so many frames."""
        self.state = state.State()
        self.utc = utc.UtcWatch(self.state)
        self.follower = follower.Follower(FIRST, tolerance, has_clock, self.utc)
        self.follower.begin(0, when(0.0))
        for number in range(frames):
            self.assertEqual(self.follower.number_of((FIRST + number) % 5000, when(number * FRAME)), number)
        return self.follower

    def place(self, number, seconds, when=at):
        """What a frame with the count of this number gets after so many seconds; with the frames that were followed
        before."""
        return self.follower.number_of((FIRST + number) % 5000, when(seconds))


class Following(Case):
    """The rows of the table, but for those of holding."""

    def test_a_count_that_is_due(self):
        self.begun()
        self.assertEqual((self.place(1000, 24.0), self.follower.step), (1000, None))

    def test_a_near_step_is_what_the_count_says_whatever_the_clock_says(self):
        for seconds in (0.0, 1.0, 60.0, 118.0, 119.9, 120.0, 122.0, 240.0, 3600.0):
            for step in (*range(1, 251, 83), 250, -1, -2, -137, -250):
                self.begun()
                self.assertEqual(self.place(1000 + step, 24.0 + seconds), 1000 + step, f"{step} after {seconds} s")
                self.assertEqual(self.follower.step.frames, step)
            self.begun()
            self.assertEqual((self.place(1000, 24.0 + seconds), self.follower.step), (1000, None), "the next frame is the next one")

    def test_another_step_needs_the_time(self):
        for step in (251, 1290, 2499, 2501, 4700):
            for turns in (0, 1, 30):
                missed = step + 5000 * turns
                for wrong, wanted in ((0.0, 1000 + missed), (2.9, 1000 + missed), (-2.9, 1000 + missed), (3.2, None), (-3.2, None), (60, None)):
                    self.begun()
                    self.assertEqual(self.place(1000 + missed, 24.0 + missed * FRAME + wrong), wanted, f"{missed}, {wrong}")
                    self.assertIs(self.follower.phase, Phase.FOLLOWING if wanted else Phase.HOLDING)

    def test_the_tolerance_is_given(self):
        self.begun(tolerance=10.0)
        self.assertEqual(self.place(1300, 24.0 + 300 * FRAME + 9.0), 1300)

    def test_without_a_clock_no_other_step_is_explained(self):
        for step in (251, 1000, 2500):
            self.begun(has_clock=False)
            self.assertIsNone(self.place(1000 + step, 24.0 + step * FRAME))

    def test_a_count_may_not_go_back_behind_what_is_kept(self):
        self.begun(2000)
        self.assertEqual(self.place(1760, 48.0), 1760)
        self.assertEqual(self.place(1520, 48.0), 1520)
        self.assertEqual(self.place(1280, 48.0), 1280)
        self.assertIsNone(self.place(1040, 48.0), "more than 750 frames are not there any more")

    def test_a_backlog_is_not_taken_for_no_time(self):
        """The bridge stands still for 90 s. 2,460 frames waited; 1,290 are missing."""
        self.begun()
        now = 24.0 + 90.0
        for number in range(1000, 3460):
            self.assertEqual(self.place(number, now + (number - 1000) * 0.0001), number)
        self.assertEqual(self.place(4750, now + 0.3), 4750)
        self.assertEqual(self.follower.step.frames, 1290)

    def test_a_backlog_under_load_is_none_either(self):
        """The frames that waited are read at 4 times the pace of the stream, with rests."""
        self.begun()
        now = 24.0 + 90.0
        for number in range(1000, 3460):
            now += 0.006 if number % 50 else 0.3
            self.assertEqual(self.place(number, now), number)
        behind = round((now - 24.0) / FRAME) + 1000
        self.assertEqual(self.place(behind, now), behind)

    def test_after_a_pause_frames_come_in_real_time_again(self):
        """A pause of 120 s, then a gap of 20 s: 833 frames, not 5,833."""
        for followed in (25, 130, 500):
            self.begun()
            now = 24.0 + 120.0
            for number in range(1000, 1000 + followed):
                self.assertEqual(self.place(number, now), number)
                now += FRAME
            found = self.place(1000 + followed + 833, now + 833 * FRAME)
            self.assertIn(found, (1833 + followed,) if followed > 125 else (1833 + followed, None), "never a guess")

    def test_a_slow_multiplexer_stays_in_real_time(self):
        """Its clock is wrong by 100 parts in a million: after 10 hours by 3.6 s."""
        self.begun(10)
        now = 10 * FRAME
        for number in range(10, 150_000, 1):
            now += FRAME * 1.0001
            self.assertEqual(self.place(number, now), number)
        self.assertEqual(self.place(151_000, now + 1000 * FRAME), 151_000)


class Stamps(Case):
    """Time stamps of the stream, and FIG 0/10."""

    def test_the_time_is_that_of_the_stamps(self):
        self.begun(when=stamped)
        self.assertEqual(self.place(2290, 24.0 + 1290 * FRAME, stamped), 2290)
        self.begun(when=stamped)
        self.assertIsNone(self.place(2290, 24.0 + 60.0, stamped))

    def test_a_fig_0_10_that_contradicts_the_clock_stops_large_steps(self):
        for ahead, wanted in ((0.0, 6300), (59.0, 6300), (61.0, None), (-61.0, None), (3600.0, None)):
            self.begun()
            self.look(ahead)
            self.assertEqual(self.place(6300, 24.0 + 5300 * FRAME), wanted, ahead)
            self.assertEqual(state.Alarm.CLOCK in self.state.alarms, wanted is None)
            self.begun()
            self.look(ahead)
            self.assertEqual(self.place(1250, 24.0), 1250, "small ones are what the count says")

    def look(self, ahead):
        """A FIG 0/10 of so many seconds ahead of the clock."""
        now = WALL + 24.0 + ahead
        days, rest = divmod(round(now * 1000), 86_400_000)
        bits = f"0{days + 40587:017b}101{rest // 3_600_000:05b}{rest // 60_000 % 60:06b}{rest // 1000 % 60:06b}{rest % 1000:010b}"
        self.utc.look(bridges.fib("070A" + int(bits, 2).to_bytes(6, "big").hex()), at(24.0))

    def test_an_alarm_of_the_clock_is_cleared(self):
        self.begun()
        self.look(100.0)
        self.assertIn(state.Alarm.CLOCK, self.state.alarms)
        self.look(1.0)
        self.assertNotIn(state.Alarm.CLOCK, self.state.alarms)


class Holding(Case):
    """The rows of holding."""

    def held(self, has_clock=True):
        """A follower that holds since a count of 3,000 frames too many."""
        self.begun(has_clock=has_clock)
        self.assertIsNone(self.place(4000, 24.0))
        self.assertIs(self.follower.phase, Phase.HOLDING)

    def row(self, first, seconds, frames, pace=FRAME):
        """What frames in a row get."""
        return [self.place(first + number, seconds + number * pace) for number in range(frames)]

    def test_it_goes_on_after_25_frames_that_agree(self):
        self.held()
        self.assertEqual(self.row(4001, 24.1, 100), [None] * 100)
        self.assertEqual(self.row(1300, 24.0 + 300 * FRAME, 40), [None] * 24 + list(range(1324, 1340)))

    def test_not_where_they_come_out_of_a_buffer(self):
        self.held()
        self.assertEqual(self.row(1300, 24.0 + 300 * FRAME, 40, 0.0001), [None] * 40)

    def test_not_where_they_do_not_follow_each_other(self):
        self.held()
        found = [self.place(1300 + number + (number % 20 == 0) * 2, 24.0 + (300 + number) * FRAME) for number in range(100)]
        self.assertEqual(found, [None] * 100)

    def test_not_where_they_do_not_agree(self):
        self.held()
        self.assertEqual(self.row(1300 + 130, 24.0 + 300 * FRAME, 60), [None] * 60)

    def test_it_agrees_after_any_time(self):
        self.held()
        number = 1000 + 3_600_000 * 2
        self.assertEqual(self.row(number, number * FRAME, 26)[24:], [number + 24, number + 25])

    def test_without_a_clock_by_a_count_that_is_near(self):
        self.held(has_clock=False)
        self.assertEqual(self.row(4001, 0, 30), [None] * 30)
        self.assertEqual(self.row(1100, 0, 26)[24:], [1124, 1125])

    def test_the_clock_says_where_the_plan_is_meanwhile(self):
        self.held()
        self.assertEqual(self.follower.by_clock(at(999 * FRAME + 10.0)), 999 + 416)
        self.assertAlmostEqual(self.follower.wall_of(1999), WALL + 1999 * FRAME, places=3)

    def test_it_can_hold_from_a_log_on(self):
        watch = utc.UtcWatch(state.State())
        one = follower.Follower(FIRST, 3.0, True, watch)
        one.hold(1000, at(999 * FRAME))
        self.assertIs(one.phase, Phase.HOLDING)
        found = [one.number_of((FIRST + 5000 + number) % 5000, at((5000 + number) * FRAME)) for number in range(26)]
        self.assertEqual(found[24:], [5024, 5025])
        one.go_on(5025, at(5025 * FRAME))
        self.assertEqual(one.number_of((FIRST + 5026) % 5000, at(5026 * FRAME)), 5026)


class Paces(unittest.TestCase):
    """Frames in real time."""

    def test_frames_that_are_late_are_not_in_real_time(self):
        pace = moments.Pace(0, at(0.0))
        pace.take(1, at(0.024))
        pace.take(2, at(0.9))
        self.assertEqual(pace.number, 2, "less than a second")
        pace.take(3, at(2.0))
        self.assertEqual((pace.number, pace.last[0]), (2, 3))
        pace.take(40, at(2.1))
        self.assertEqual(pace.number, 2, "it catches up")
        pace.take(90, at(2.2))
        self.assertEqual(pace.number, 90)


class Agreeing(unittest.TestCase):
    """Datagrams whose counts step."""

    def believed(self, counts, begin=(7, 8, 9)):
        """The counts that are believed behind the first ones, and how many are lost."""
        waits = agreeing.Agreeing()
        found = [each for count in (*begin, *counts) for _, each, _ in waits.take(None, count, at(0.0))]
        self.assertEqual(found[:len(begin)], list(begin))
        return found[len(begin):], waits.lost

    def test_three_in_a_row_begin(self):
        self.assertEqual(self.believed([4998, 100, 101, 4998, 4999, 0, 1], ()), ([4998, 4999, 0, 1], 3))

    def test_three_in_a_row_are_believed(self):
        self.assertEqual(self.believed([10, 11, 100, 101, 102, 103]), ([10, 11, 100, 101, 102, 103], 0))
        self.assertEqual(self.believed([10, 4000, 11, 12]), ([10, 11, 12], 1))
        self.assertEqual(self.believed([10, 4000, 4001, 11, 3000, 12, 13]), ([10, 11, 12, 13], 3))
        self.assertEqual(self.believed([10, 6, 7, 8, 9, 10, 11]), ([10, 6, 7, 8, 9, 10, 11], 0))

    def test_one_early_late_or_twice_is_believed_at_once(self):
        self.assertEqual(self.believed([10, 12, 11, 13]), ([10, 12, 11, 13], 0))
        self.assertEqual(self.believed([10, 10, 11, 13, 14]), ([10, 10, 11, 13, 14], 0))

    def test_two_senders_that_take_turns(self):
        self.assertEqual(self.believed([10, 3000, 11, 3001, 12, 3002, 13, 3003, 14]), ([10, 11, 12, 13, 14], 4))


class Codes(unittest.TestCase):
    """The configurations of code files."""

    def test_those_of_the_examples_are_those_that_map_prints(self):
        program = str(common.dabplan())
        for path in sorted(common.EXAMPLES.glob("*.plan")):
            done = common.run([program, "compile", path, "-"], common.EXAMPLES)
            self.assertEqual(done.status, 0, path.name)
            found = set()
            for each in code_file.configurations_of(done.printed):
                found |= {f"sub {sub} {entry}" for sub, entry in each.items()}
            printed = common.run([program, "map", path, "--quiet"], common.EXAMPLES).printed.decode()
            named = {line.split(maxsplit=1)[1] for line in printed.splitlines() if line.lstrip()[:5] in ("+ sub", "- sub")}
            self.assertTrue(named <= found, f"{path.name}: {named - found}")
            layout = common.run([program, "map", path, "--layout", "--quiet"], common.EXAMPLES)
            if layout.status == 0:
                self.assertEqual(set(layout.printed.decode().splitlines()), found, path.name)

    def test_bytes_that_are_none(self):
        program = str(common.dabplan())
        data = common.run([program, "compile", common.EXAMPLES / "night_rate.plan", "-"], common.EXAMPLES).printed
        for cut in range(len(data)):
            with self.assertRaises(code_file.NoCode):
                code_file.configurations_of(data[:cut])


if __name__ == "__main__":
    units.main()
