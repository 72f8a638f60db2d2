#!/usr/bin/env python3
"""What the control port says of what comes: the changes of the next day, with a stand-in for `dabplan timeline` and,
where the program has it, with the real one; and the line of the script that is next. The last line is 'N passed, M
failed'."""
import json
import os
import re
import subprocess
import time
import unittest

import bridges
import ports
import units
from bridges import made
from timelines import BY_LIVE, stand_in, swap

DAY = 3_600_000


def shown(frame, line=12):
    """What the port shows of it."""
    found = json.loads(swap(frame, line))
    del found["kind"]
    return found


class Outlooks(ports.Controlled):
    """What comes."""

    def setUp(self):
        super().setUp()
        self.stand_in = stand_in(self.program, self.folder)

    def words(self, line):
        """The arguments of a line; `run` gets the stand-in."""
        return [*line.split(), "--dabplan", self.stand_in]

    def says(self, *lines):
        """What `timeline` says from now on."""
        self.write("new", "".join(lines))
        os.rename(self.folder / "new", self.folder / "says")

    def asked(self):
        """What it was asked, each time."""
        path = self.folder / "asked"
        return [json.loads(line) for line in path.read_text().splitlines()] if path.exists() else []

    def changes(self, wanted):
        """Asserts that these changes come to be shown."""
        found = self.until_shown(changes=wanted)
        self.assertEqual(found["changes"], wanted)

    def given_contact(self, feed, frames, contact, state):
        """Gives a contact while these frames come."""
        status, answer, _ = self.given(feed, frames, contact, state)
        self.assertEqual(status, 200, answer)
        return answer["frame"]

    def test_changes_from_now_on_are_shown(self):
        """Those that are past are not; `on-air`, and what is no change, is passed over."""
        self.says(
            swap(2, 3),
            swap(8),
            swap(40),
            swap(3_000_000, 7),
            '{"kind":"on-air","time":"21:00:00.000","day":1,"frame":3600009,"parts":[]}\n',
        )
        feed = self.begun("moves", "--time 21:59:50")
        feed.through(self.stream("edi", 9))
        self.changes([shown(40), shown(3_000_000, 7)])
        feed.through(self.stream("edi", 41)[9:])
        self.changes([shown(3_000_000, 7)])
        self.assertEqual(feed.end()[0], 0)

    def test_it_plays_what_the_plan_was_given_and_a_day(self):
        """The code, time and count of the plan's first frame, each contact before its frame, and a day from now on."""
        self.says(swap(100))
        feed = self.begun("contacts", "--time 21:59:50")
        frames = self.stream("edi", 400, 4712)
        feed.through(frames[:10])
        self.changes([shown(100)])
        self.says(swap(200))
        frame = self.given_contact(feed, frames[10:60], 3, b"closed")
        self.changes([shown(200)])
        self.assertEqual(feed.end()[0], 0)
        code = self.read("contacts.code").hex()
        words, first_code, events = self.asked()[0]
        self.assertEqual((words, first_code), (["--count", "4712", "--time", "21:59:50", "--json"], code))
        self.assertEqual(sum(map(int, re.findall(r"^frames (\d+)$", events, re.MULTILINE))), 10 + DAY)
        words, _, events = self.asked()[-1]
        before, contact, behind = events.partition("contact 3 closed\n")
        self.assertEqual(
            (words[:4], before, contact),
            (["--count", "4712", "--time", "21:59:50"], f"frames {frame}\n", "contact 3 closed\n"),
        )
        played = frame + sum(map(int, re.findall(r"^frames (\d+)$", behind, re.MULTILINE))) - DAY
        self.assertIn(played, range(frame + 1, 61))

    def test_a_log_is_part_of_it(self):
        """A bridge that goes on by its log plays the contacts of the log; and those of a calendar that come are among
        them."""
        self.says(swap(100_000))
        line = "contacts.code --in - --out - --control {} --time 21:59:50 --log l --weekdays 8"
        frames = self.stream("edi", 200)
        feed = self.started(f"run {line.format(self.port)}")
        self.addCleanup(feed.job.kill)
        with bridges.connected(self.port):
            pass
        feed.through(frames[:5])
        frame = self.given_contact(feed, frames[5:56], 3, b"closed")
        self.changes([shown(100_000)])
        self.assertEqual(feed.end()[0], 0)
        os.remove(self.folder / "asked")
        feed = self.started(f"run {line.format(self.port)}")
        self.addCleanup(feed.job.kill)
        feed.through(frames[56:60])
        self.changes([shown(100_000)])
        self.assertEqual(feed.end()[0], 0)
        _, _, events = self.asked()[0]
        today = re.match(r"(contact \d+ closed)\n", events)[1]
        at, found = 0, []
        for step in events.splitlines():
            at += int(step[7:]) if step.startswith("frames") else 0
            found += [(at, step)] if step.startswith("contact") else []
        midnight = DAY - -(-(21 * 3600 + 59 * 60 + 50) * 125 // 3)
        number = int(today.split()[1])
        following = 8 + (number - 8 + 1) % 7
        # At midnight the one contact opens and the other one closes, in the order of their numbers.
        turn = sorted(
            [(midnight, f"contact {number} open"), (midnight, f"contact {following} closed")],
            key=lambda each: int(each[1].split()[1]),
        )
        self.assertEqual(found, [(0, today), (frame, "contact 3 closed"), *turn])

    def test_without_timeline_nothing_is_said(self):
        """It is asked once; all else is shown."""
        feed = self.begun("contacts")
        frames = self.stream("edi", 300)
        feed.through(frames[:10])
        self.assertTrue(bridges.until(lambda: self.asked()))
        for first, state in ((10, b"closed"), (60, b"open")):
            self.given_contact(feed, frames[first:first + 50], 5, state)
        time.sleep(1.5)
        found = self.status()
        self.assertEqual((found["changes"], found["plan"]["overlays"], len(self.asked())), (None, None, 1))
        self.assertEqual(feed.end()[0], 0)

    def test_a_changed_contact_is_asked_for_again(self):
        """What was found before is not shown any more, from the moment on at which the contact acts."""
        self.says(swap(100_000))
        feed = self.begun("contacts")
        frames = self.stream("edi", 100)
        feed.through(frames[:10])
        self.changes([shown(100_000)])
        self.write("sleeps", "")
        self.given_contact(feed, frames[10:60], 5, b"closed")
        self.until_shown(changes=None)
        self.assertEqual(feed.end()[0], 0)

    def test_the_first_hundred_are_shown(self):
        """However many there are: the child is ended then."""
        self.write("endless", "")
        feed = self.begun("moves")
        feed.through(self.stream("edi", 95))
        self.assertTrue(bridges.until(lambda: self.status()["changes"]))
        self.assertTrue(bridges.until(lambda: not self.sleepers(feed)))
        found = [each["frame"] for each in self.status()["changes"]]
        self.assertEqual(found, list(range(100, 100 + 10 * len(found), 10)))
        self.assertIn(len(found), range(91, 101))
        self.assertEqual(feed.end()[0], 0)

    def test_no_frame_waits_for_it(self):
        """A child that does not end: frames go on, and the end of the bridge does not wait either."""
        self.write("sleeps", "")
        feed = self.begun("moves")
        frames = self.stream("edi", 200)
        found = feed.through(frames[:5])
        self.assertTrue(bridges.until(lambda: self.sleepers(feed)))
        found += feed.through(frames[5:])
        self.same(b"".join(made("edi", self.plan(200))), b"".join(found))
        self.assertIsNone(self.status()["changes"])
        sleepers = self.sleepers(feed)
        self.assertEqual(feed.end()[0], 0)
        self.assertTrue(bridges.until(lambda: not any(os.path.exists(f"/proc/{each}") for each in sleepers)))

    def sleepers(self, feed):
        """The children that play a timeline."""
        found = []
        for each in feed.children():
            try:
                with open(f"/proc/{each}/cmdline", "rb") as file:
                    found += [each] if b"\0timeline\0" in file.read() else []
            except OSError:
                pass
        return found

    def test_it_is_less_urgent_than_frames(self):
        self.write("sleeps", "")
        feed = self.begun("moves")
        feed.through(self.stream("edi", 5))
        self.assertTrue(bridges.until(lambda: self.sleepers(feed)))
        (job,) = self.sleepers(feed)
        wanted = min(19, os.getpriority(os.PRIO_PROCESS, 0) + 10)
        self.assertTrue(bridges.until(lambda: os.getpriority(os.PRIO_PROCESS, job) == wanted, 30))
        self.assertEqual(os.getpriority(os.PRIO_PROCESS, feed.job.pid), os.getpriority(os.PRIO_PROCESS, 0))
        self.assertEqual(feed.end()[0], 0)

    def test_what_is_held_has_no_changes(self):
        """Nobody knows when a plan that is not on air will be there again."""
        self.says(swap(100_000))
        feed = self.begun("moves", "--time 21:59:50 --tolerance 0")
        feed.through(self.stream("edi", 10))
        self.changes([shown(100_000)])
        feed.through(self.stream("edi", 10, 2000))
        found = self.until_shown(state="holding")
        self.assertEqual((found["changes"], found["plan"]["line"]), (None, None))
        feed.end()

    def test_what_is_no_answer_is_not_shown(self):
        for text in (
            "no JSON\n" + swap(50),
            swap(50, frame="x"),
            swap(50, dropped=[1]),
            swap(50, time=5),
            "[]\n",
            '{"kind":"swap"}\n',
            "[" * 100_000 + "\n",
        ):
            with self.subTest(text=text[:40]):
                self.says(text)
                feed = self.begun("moves")
                feed.through(self.stream("edi", 5))
                self.changes([shown(50)] if text.startswith("no JSON") else [])
                self.assertEqual(feed.end()[0], 0)

    def test_the_line_that_is_next(self):
        """`wait contact 3 closed` stands in line 9: what follows it comes next; once it has, what follows the next
        wait."""
        lines = bridges.CONTACTS.splitlines()
        feed = self.begun("contacts")
        frames = self.stream("edi", 400)
        feed.through(frames[:10])
        wait = lines.index("wait contact 3 closed") + 1
        self.until_line(wait + 1)
        self.given_contact(feed, frames[10:60], 3, b"closed")
        feed.through(frames[60:120])
        self.until_line(lines.index("wait contact 3 open") + 2)
        self.assertEqual(feed.end()[0], 0)

    def test_a_line_that_is_next_for_a_while_alone(self):
        """`wait 20` in line 9, then what follows the join, without a contact or a swap between: each line in its time,
        none behind it."""
        feed = self.begun("moves")
        frames = self.stream("edi", 400)
        feed.through(frames[:5])
        wait = bridges.MOVES.splitlines().index("wait 20") + 1
        self.until_line(wait + 1)
        feed.through(frames[5:24])
        join = bridges.MOVES.splitlines().index("join") + 1
        self.assertNotEqual(self.until_shown(frame=23)["plan"]["line"], wait + 1)
        self.until_line(join + 1)
        self.assertEqual(feed.end()[0], 0)

    def until_line(self, line):
        """Asserts that this line comes to be shown."""
        self.assertTrue(
            bridges.until(lambda: self.status()["plan"]["line"] == line), f"{line}: {self.status()['plan']}"
        )


class ByLive(ports.Controlled):
    """With a `timeline` of the swaps that `dabplan live` makes of the same events."""

    def setUp(self):
        super().setUp()
        self.program = stand_in(self.program, self.folder, BY_LIVE)

    def same_changes(self, changes):
        """Asserts what changes there and back; here that is not known."""

    def test_the_changes_are_those_that_come(self):
        """The first swaps that are shown are those that `live` reports."""
        feed = self.begun("moves", "--time 21:59:50 --status")
        frames = self.stream("edi", 300, 100)
        feed.through(frames[:5])
        self.assertTrue(bridges.until(lambda: self.status()["changes"]))
        changes = self.status()["changes"]
        feed.through(frames[5:])
        status, _, messages = feed.end()
        self.assertEqual(status, 0)
        swaps = [(int(frame), int(count)) for frame, count in re.findall(r"frame (\d+) count (\d+) swap", messages)]
        self.assertGreater(len(swaps), 3)
        self.assertEqual([(each["frame"], each["count"]) for each in changes[: len(swaps)]], swaps)
        self.same_changes(changes)

    def test_a_contact_changes_what_comes(self):
        """Nothing comes while contact 3 is open; then one change, after which the plan waits for it to open."""
        feed = self.begun("contacts")
        frames = self.stream("edi", 200)
        feed.through(frames[:5])
        self.until_shown(changes=[])
        status, answer, _ = self.given(feed, frames[5:20], 3, b"closed")
        self.assertEqual(status, 200, answer)
        self.assertTrue(bridges.until(lambda: self.status()["changes"]))
        (change,) = self.status()["changes"]
        feed.through(frames[20:])
        self.until_shown(swaps=1, changes=[])
        self.assertIn(change["frame"], range(answer["frame"] + 24, 200))
        self.assertEqual(feed.end()[0], 0)


class Real(ByLive):
    """With the program's own `timeline`."""

    def setUp(self):
        ports.Controlled.setUp(self)
        done = subprocess.run([self.program, "timeline", "--help"], capture_output=True, check=False)
        if done.returncode != 0:
            self.skipTest("this dabplan has no command timeline")

    def same_changes(self, changes):
        """Asserts what changes there and back."""
        there, back = ["sub 1 at 0 size 24 eep 3-A"], ["sub 2 at 24 size 24 eep 3-A"]
        for change, (dropped, added) in zip(changes[:4], [(there, back), (back, there)] * 2):
            self.assertTrue(set(dropped) <= set(change["dropped"]) and set(added) <= set(change["added"]), change)


if __name__ == "__main__":
    unittest.TestCase.maxDiff = 3000
    units.main()
