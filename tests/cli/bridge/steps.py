#!/usr/bin/env python3
"""`dabplan-bridge run` over streams whose count steps while it runs. The last line is 'N passed, M failed'."""
import re
import time

import bridges
import units
from bridges import made

FORMS = ("eti", "edi")
TAKE_UP = "--resume-at COUNT plays the log to its end and goes on in the first frame of that count, --anew begins the plan anew"


class Steps(bridges.Case):
    """Steps of a stream that goes on."""

    def stepped(self, form, first, step, frames=40):
        """A stream of `first` frames from count 0 on, and then a step and more frames; and the FIC that has to go
        out."""
        counts = [*range(first), *range(first + step, first + step + frames)]
        own, plan = bridges.fics(self.own(first + max(step, 0) + frames)), bridges.fics(self.plan(first + max(step, 0) + frames))
        return counts, [bridges.MAKERS[form](count, own[count]) for count in counts], [plan[count] for count in counts]

    def goes_out(self, form, counts, plan, stream):
        """Asserts that a stream has these counts with these FICs."""
        self.same(b"".join(bridges.MAKERS[form](count, fic) for count, fic in zip(counts, plan)), stream, f"{form}")

    def test_small_steps(self):
        """The plan makes missed frames unsent, and repeats those that come again; a step falls where a FIG 0/0 is, or
        not."""
        steps = (1, -1, 2, -2, 3, -3, 4, 7, -7, 24, 25, -25, 100, -100, 137, -137, 248, -248, 249, -249)
        for form in FORMS:
            for first in (300, 301, 302):
                counts = [*range(first)]
                for step in steps:
                    counts += range(counts[-1] + 1 + step, counts[-1] + 16 + step + max(-step, 0))
                # In ETI a step of 250 is seen with the next FIG 0/0: here it leads to one.
                for step in (250, -250):
                    counts += range(counts[-1] + 1, counts[-1] + 30 + -(counts[-1] + 30 + step) % 4)
                    counts += range(counts[-1] + 1 + step, counts[-1] + 300 + step)
                own, plan = bridges.fics(self.own(max(counts) + 1)), bridges.fics(self.plan(max(counts) + 1))
                self.write("a", b"".join(bridges.MAKERS[form](count, own[count]) for count in counts))
                status, _, messages = self.bridge("run moves.code --in a --out b")
                self.assertEqual(status, 0, messages)
                self.goes_out(form, counts, [plan[count] for count in counts], self.read("b"))

    def test_a_step_is_told_once(self):
        for form in FORMS:
            for step, said in ((1, "1 frame missed: the plan makes 1 frame unsent"), (250, "250 frames missed: the plan makes 250 frames unsent"),
                               (-1, "1 frame back: 1 frame of the plan goes out again"),
                               (-250, "250 frames back: 250 frames of the plan go out again")):
                counts, frames, plan = self.stepped(form, 302, step, 300)
                self.write("a", b"".join(frames))
                status, _, messages = self.bridge("run moves.code --in a --out b")
                self.assertEqual(status, 0, f"{form}, {step}: {messages}")
                self.goes_out(form, counts, plan, self.read("b"))
                self.assertEqual(re.findall(r": the count is .*", messages), [f": the count is {302 + step}, 302 was due: {said}"])

    def test_a_multiple_of_250_in_eti_is_seen_with_the_next_fig_0_0(self):
        counts, frames, plan = self.stepped("eti", 301, 250)
        self.write("a", b"".join(frames))
        self.assertEqual(self.bridge("run moves.code --in a --out b")[0], 0)
        # 551 is taken for 301, 552 has a FIG 0/0.
        all_of = bridges.fics(self.plan(600))
        self.goes_out("eti", counts, [*plan[:301], all_of[301], *all_of[552:591]], self.read("b"))

    def test_one_frame_twice(self):
        for form in FORMS:
            own, plan = bridges.fics(self.own(60)), bridges.fics(self.plan(60))
            for at in (20, 21, 23):
                counts = [*range(at + 1), at, *range(at + 1, 60)]
                self.write("a", b"".join(bridges.MAKERS[form](count, own[count]) for count in counts))
                status, _, messages = self.bridge("run moves.code --in a --out b")
                self.assertEqual(status, 0, messages)
                self.goes_out(form, counts, [plan[count] for count in counts], self.read("b"))

    def test_a_restart_that_steps_back_by_three_keeps_the_plan_in_time(self):
        """The count falls by 3 and goes on, over a swap: the swap is where it would have been."""
        for form in FORMS:
            counts, frames, plan = self.stepped(form, 40, -3, 120)
            self.write("a", b"".join(frames))
            status, _, messages = self.bridge("run moves.code --in a --out b")
            self.assertEqual(status, 0, messages)
            self.goes_out(form, counts, plan, self.read("b"))
            self.assertIn("the count is 37, 40 was due: 3 frames back: 3 frames of the plan go out again", messages)

    def test_a_step_while_frames_go_out_again(self):
        own, plan = bridges.fics(self.own(500)), bridges.fics(self.plan(500))
        counts = [*range(300), *range(200, 220), *range(240, 260), *range(150, 160), *range(330, 340), *range(90, 110)]
        self.write("a", b"".join(bridges.edi_packet(count, own[count]) for count in counts))
        status, _, messages = self.bridge("run moves.code --in a --out b")
        self.assertEqual(status, 0, messages)
        self.goes_out("edi", counts, [plan[count] for count in counts], self.read("b"))

    def test_frames_before_the_plan_are_not_filled(self):
        own, plan = bridges.fics(self.own(60)), bridges.fics(self.plan(20, 40))
        counts = [*range(40, 48), *range(36, 60)]
        self.write("a", b"".join(bridges.edi_packet(count, own[count]) for count in counts))
        status, _, messages = self.bridge("run moves.code --in a --out b")
        self.assertEqual(status, 1)
        self.assertIn("its count 36 is before the plan's first frame: nothing goes out for it", messages)
        self.goes_out("edi", [*range(40, 48), *range(40, 60)], [*plan[:8], *plan], self.read("b"))

    def test_other_steps_of_a_file_end_it_where_that_is_asked_for(self):
        for form in FORMS:
            for step in (251, 1000, -251, -1000, 2500):
                first = 1200
                own, plan = bridges.fics(self.own(first)), bridges.fics(self.plan(first))
                later = bridges.fics(self.own(20, first + step))
                frames = [*(bridges.MAKERS[form](count, own[count]) for count in range(first)), *made(form, b"".join(later), first + step)]
                self.write("a", b"".join(frames))
                status, _, messages = self.bridge("run moves.code --in a --out b --strict")
                self.assertEqual(status, 4, f"{form}, {step}: {messages}")
                self.assertIn(f"the count is {first + step}, {first} was due: a step of {step if step < 2500 else -2500}: the plan has to begin anew", messages)
                out = self.read("b")
                self.goes_out(form, range(first), plan, out[:len(b"".join(frames[:first]))])

    def heard_40(self, form, log, options=""):
        """A bridge that has heard 40 frames before a step of 1,000, with all its frames, their counts and the plan's
        FIBs."""
        counts, frames, plan = self.stepped(form, 40, 1000, 40)
        feed = self.started(f"run moves.code --in - --out - --log {log}{form} {options}")
        self.assertEqual(len(b"".join(feed.through(frames[:40]))), len(b"".join(frames[:40])))
        return feed, frames, counts, plan

    def test_a_step_before_its_time(self):
        """1,000 frames are 24 s: at once the clock does not agree."""
        for form in FORMS:
            feed, frames, _, _ = self.heard_40(form, "at_once", "--strict")
            feed.give(frames[40:44])
            status, rest, messages = feed.end()
            self.assertEqual((status, rest), (4, b""), messages)
            self.assertRegex(messages, r"the count is 1040, 40 was due: a step of 1000, after \d+\.\d s by the clock: " + TAKE_UP)

    def test_a_step_with_the_clock(self):
        """1,000 frames are 24 s: after 8 s the clock agrees within 20 s."""
        heard = [(form, self.heard_40(form, "later", "--tolerance 20")) for form in FORMS]
        time.sleep(8.0)
        for form, (feed, frames, counts, plan) in heard:
            found = b"".join(feed.through(frames[40:]))
            status, _, messages = feed.end()
            self.assertEqual(status, 0, messages)
            self.goes_out(form, counts[40:], plan[40:], found)
            self.assertIn("1000 frames missed: the plan makes 1000 frames unsent", messages)


if __name__ == "__main__":
    units.main()
