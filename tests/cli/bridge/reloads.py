#!/usr/bin/env python3
"""`dabplan-bridge run`: a plan is replaced by another one while it is on air. The last line is 'N passed, M failed'."""
import hashlib
import itertools
import json
import re
import resource
import signal
import threading
import time

import bridges
import units
from bridges import made
from ports import asked
from reloaded import FIRST, SCHEDULE, SECOND, Reloaded

FORMS = ("edi", "eti")
# Service C221 is in sub-channel 2, for ever.
MOVED = FIRST.split("forever")[0].replace("sub 1 at 0", "sub 2 at 24").replace("audio 63 sub 1", "audio 63 sub 2")


class Replaced(Reloaded):
    """The plan goes on air, and nothing is lost."""

    def others(self):
        """The plans that can take the place of another one: name, and script."""
        return [("schedule", SCHEDULE), *([("steps", SECOND)] if self.has_steps() else [])]

    def test_no_frame_is_lost_and_every_change_is_announced(self):
        for (name, script), form in itertools.product(self.others(), FORMS):
            with self.subTest(f"{name}, {form}"):
                self.port = bridges.free_port()
                feed = self.begun_plan(FIRST, "--log l --time 11:59:00 --check")
                frames = self.streamed(form, 4900)
                found = feed.through(itertools.islice(frames, 60))
                self.write("p.plan", script)
                more, status, answer = self.reloaded(feed, frames)
                self.assertEqual(status, 200, answer)
                found += more
                found += feed.through(itertools.islice(frames, 300))
                at = (answer["count"] - 4900) % 5000
                self.assertTrue(60 < at < len(found), answer)
                self.assertEqual(
                    (answer["frame"], self.until_shown(frame=len(found) - at - 1)["plan"]["digest"]),
                    (0, answer["plan"]),
                )
                self.filled(form, b"".join(found[:at]), self.plan(at, 4900, FIRST, "--time 11:59:00"), 0, 4900)
                # 11:59:00 is frame 1,797,500 of the day.
                wanted = self.played_from(
                    script, FIRST, f"frames {len(found) - at}", f"--count {answer['count']} --day {1_797_500 + at}"
                )
                self.filled(form, b"".join(found[at:]), wanted, at, 4900)
                self.assertRegex(self.checked_faults(b"".join(found)), r"swaps [0-3] faults 0$")
                self.assertTrue(bridges.until(lambda: self.status()["check"]["is_up"], 30))
                self.assertEqual(self.status()["check"]["faults"], 0)
                ended, _, messages = feed.end()
                self.assertEqual(ended, 0, messages)
                self.assertIn(
                    f"dabplan-bridge: p.plan takes its own place: its frame 0 is at count {answer['count']}\n", messages
                )
                self.assertRegex(self.read("l.1").decode(), r"^# dabplan-bridge: count 4900 time 11:59:00 code ")
                digest = hashlib.sha256(self.read(f"l.{answer['plan']}.code")).hexdigest()[:16]
                self.assertEqual(digest, answer["plan"])
                self.assertRegex(
                    self.read("l").decode(),
                    rf"^# dabplan-bridge: count {answer['count']} day {1_797_500 + at} code {digest} at .*\n"
                    r"# script [0-9a-f]{16}\nframes ",
                )
                for file in self.folder.glob("l*"):
                    file.unlink()

    def test_contacts_stay_closed(self):
        feed = self.begun_plan(FIRST)
        frames = self.streamed("edi", 0)
        found = feed.through(itertools.islice(frames, 10))
        given, (status, _, _) = self.while_asked(
            feed, frames, lambda: asked(self.port, "PUT", "/contacts/4", b"closed")
        )
        self.assertEqual(status, 200)
        found += given
        self.write("p.plan", SCHEDULE)
        more, status, answer = self.reloaded(feed, frames)
        self.assertEqual(status, 200, answer)
        found += more + feed.through(itertools.islice(frames, 200))
        at = answer["count"]
        wanted = self.played_from(
            SCHEDULE, FIRST, f"contact 4 closed frames {len(found) - at}", f"--count {at} --day {at}"
        )
        self.filled("edi", b"".join(found[at:]), wanted, at)
        self.assertEqual(self.until_shown(frame=len(found) - at - 1)["contacts"][4], "closed")
        self.assertEqual(feed.end()[0], 0)
        self.assertRegex(self.read("l").decode(), r"^# dabplan-bridge: .*\n# script .*\ncontact 4 closed\nframes ")

    def test_it_goes_on_by_its_log(self):
        """Killed and started again with the same command line: the plan that took the place goes on, with its own code,
        whatever the script says by then."""
        for text, said in (
            (SCHEDULE, ""),
            (SECOND, "p.plan is not what is on air: "),
            ("ensemble", "p.plan is not what is on air: "),
            (None, "cannot read p.plan: No such file or directory: "),
        ):
            with self.subTest(said):
                self.port = bridges.free_port()
                feed = self.begun_plan(FIRST)
                frames = self.streamed("edi", 0)
                found = feed.through(itertools.islice(frames, 20))
                self.write("p.plan", SCHEDULE)
                more, status, answer = self.reloaded(feed, frames)
                self.assertEqual(status, 200, answer)
                found += more + feed.through(itertools.islice(frames, 20))
                feed.job.kill()
                feed.end()
                (self.folder / "p.plan").unlink()
                self.port = bridges.free_port()
                feed = self.begun_plan(text, "--log l --tolerance 59")
                self.assertFalse(feed.job.poll(), "it runs")
                found += self.at_once(feed, frames, 200)
                at = answer["count"]
                wanted = self.played_from(SCHEDULE, FIRST, f"frames {len(found) - at}", f"--count {at} --day {at}")
                self.filled("edi", b"".join(found[at:]), wanted, at)
                ended, _, messages = feed.end()
                self.assertEqual(ended, 0, messages)
                self.assertEqual("is not what is on air" in messages or "cannot read" in messages, bool(said), messages)
                self.assertIn(said, messages)
                for file in self.folder.glob("l*"):
                    file.unlink()

    def test_a_signal_is_an_order(self):
        feed = self.begun_plan(FIRST)
        frames = self.streamed("edi", 0)
        found = feed.through(itertools.islice(frames, 20))
        self.write("p.plan", SCHEDULE)
        feed.job.send_signal(signal.SIGHUP)

        def is_replaced():
            return bridges.until(lambda: (self.folder / "l.1").exists(), 60)

        more, is_there = self.while_asked(feed, frames, is_replaced)
        self.assertTrue(is_there)
        found += more + feed.through(itertools.islice(frames, 100))
        ended, _, messages = feed.end()
        self.assertEqual(ended, 0, messages)
        at = int(re.search(r"its frame 0 is at count (\d+)\n", messages)[1])
        wanted = self.played_from(SCHEDULE, FIRST, f"frames {len(found) - at}", f"--count {at} --day {at}")
        self.filled("edi", b"".join(found[at:]), wanted, at)

    def test_frames_that_come_again_are_those_of_the_plan_before(self):
        feed = self.begun_plan(FIRST)
        frames = self.streamed("edi", 0)
        found = feed.through(itertools.islice(frames, 60))
        self.write("p.plan", SCHEDULE)
        more, status, answer = self.reloaded(feed, frames)
        self.assertEqual(status, 200, answer)
        found += more
        at, back = answer["count"], 40
        found += feed.through(itertools.islice(frames, max(0, at + 10 - len(found))))
        first = len(found) - back
        again = feed.through(made("edi", self.own(back, first), first))
        self.same(b"".join(found[first:]), b"".join(again), "the same frames")
        self.assertLess(first, at, "some of them are those of the plan before")
        self.assertEqual(feed.end()[0], 0)

    def test_it_can_be_replaced_again_and_again(self):
        feed = self.begun_plan(FIRST)
        frames = self.streamed("edi", 0, 20000)
        found = feed.through(itertools.islice(frames, 20))
        for number, script in enumerate((SCHEDULE, SCHEDULE, SCHEDULE.replace("overlay noon", "overlay midday"))):
            self.write("p.plan", script)
            more, status, answer = self.reloaded(feed, frames)
            self.assertEqual(status, 200, answer)
            found += more
            # Its change is announced, and made.
            found += feed.through(itertools.islice(frames, 120))
            self.assertTrue((self.folder / f"l.{number + 1}").exists())
        self.assertRegex(self.checked_faults(b"".join(found)), "swaps 1 faults 0$")
        self.assertEqual(feed.end()[0], 0)
        # Of children and files of those before nothing is left.
        self.assertEqual(sorted(path.name for path in self.folder.glob("l.?")), ["l.1", "l.2", "l.3"])

    def test_without_a_log(self):
        feed = self.begun_plan(FIRST, "")
        frames = self.streamed("edi", 0)
        found = feed.through(itertools.islice(frames, 20))
        self.write("p.plan", SCHEDULE)
        more, status, answer = self.reloaded(feed, frames)
        self.assertEqual(status, 200, answer)
        found += more + feed.through(itertools.islice(frames, 60))
        at = answer["count"]
        wanted = self.played_from(SCHEDULE, FIRST, f"frames {len(found) - at}", f"--count {at} --day {at}")
        self.filled("edi", b"".join(found[at:]), wanted, at)
        self.assertEqual(feed.end()[0], 0)
        self.assertEqual([path.name for path in self.folder.glob("l*")], [])

    def test_what_is_held_is_what_it_begins_with(self):
        """Where counts are not explained, the plan that is reloaded goes on at once, by the counts that come."""
        feed = self.begun_plan(FIRST)
        feed.through(self.stream("edi", 40))
        feed.through(made("edi", self.own(12, 1000), 1000))
        self.until_shown(state="holding")
        self.write("p.plan", SCHEDULE)
        frames = self.streamed("edi", 1012)
        found, status, answer = self.reloaded(feed, frames)
        self.assertEqual(status, 200, answer)
        found += feed.through(itertools.islice(frames, 100))
        at = answer["count"] - 1012
        day = int(re.search(rb"count \d+ day (\d+) code", self.read("l"))[1])
        wanted = self.played_from(
            SCHEDULE, FIRST, f"frames {len(found) - at}", f"--count {answer['count']} --day {day}"
        )
        self.filled("edi", b"".join(found[at:]), wanted, at, 1012)
        self.assertEqual(self.until_shown(state="following")["alarms"], [])
        self.assertRegex(self.checked_faults(b"".join(found)), "swaps 1 faults 0$")
        self.assertEqual(feed.end()[0], 0)


class Codes(Reloaded):
    """A code file is read anew."""

    def test_one_that_begins_with_what_is_on_air(self):
        feed = self.begun("contacts", "--log l")
        frames = self.streamed("edi", 0)
        found = feed.through(itertools.islice(frames, 20))
        self.compile(self.folder, "contacts", SECOND)
        more, status, answer = self.reloaded(feed, frames)
        self.assertEqual(
            (status, answer.get("plan")), (200, hashlib.sha256(self.read("contacts.code")).hexdigest()[:16]), answer
        )
        found += more
        given, (status, _, body) = self.while_asked(
            feed, frames, lambda: asked(self.port, "PUT", "/contacts/4", b"closed")
        )
        self.assertEqual(status, 200)
        found += given + feed.through(itertools.islice(frames, 100))
        at, acts = answer["count"], json.loads(body)["frame"]
        wanted = self.played(
            SECOND, f"frames {acts} contact 4 closed frames {len(found) - at - acts}", f"--count {at} --day {at}"
        )
        self.filled("edi", b"".join(found[at:]), wanted, at)
        feed.job.kill()
        feed.end()
        # A code that comes to the path without an order does not end the bridge at its next start.
        self.port = bridges.free_port()
        self.compile(self.folder, "contacts", FIRST)
        feed = self.begun("contacts", "--log l --tolerance 59")
        again = self.at_once(feed, frames, 20)
        wanted = self.played(
            SECOND, f"frames {acts} contact 4 closed frames {len(found) - at - acts + 20}", f"--count {at} --day {at}"
        )
        self.filled("edi", b"".join(again), wanted[-96 * 20 :], len(found))
        status, _, messages = feed.end()
        self.assertEqual(status, 0, messages)
        self.assertIn(
            "contacts.code is not what is on air: the plan of l goes on; POST /reload or SIGHUP takes up the other one",
            messages,
        )

    def test_one_that_begins_with_something_else(self):
        feed = self.begun("contacts", "--log l")
        frames = self.streamed("edi", 0)
        found = feed.through(itertools.islice(frames, 20))
        log = self.read("l")
        self.compile(self.folder, "contacts", MOVED)
        more, status, answer = self.reloaded(feed, frames)
        self.assertEqual((status, answer), (409, {"error": "contacts.code does not begin with what is on air"}))
        found += more + feed.through(itertools.islice(frames, 20))
        self.filled("edi", b"".join(found), self.plan(len(found), 0, FIRST))
        self.assertTrue(self.read("l").startswith(log))
        self.assertFalse((self.folder / "l.1").exists())
        self.assertEqual(feed.end()[0], 0)


class Refused(Reloaded):
    """Nothing changes where a plan can't be replaced."""

    def refused(self, script, reason, options="--log l", before=None):
        """Asserts that a script is refused, and that the plan goes on."""
        self.port = bridges.free_port()
        feed = self.begun_plan(before or FIRST, options)
        frames = self.streamed("edi", 0)
        found = feed.through(itertools.islice(frames, 20))
        if script is None:
            (self.folder / "p.plan").unlink()
        else:
            self.write("p.plan", script)
        more, status, answer = self.reloaded(feed, frames)
        self.assertEqual(status, 409, answer)
        self.assertRegex(answer["error"], reason)
        found += more + feed.through(itertools.islice(frames, 30))
        self.filled("edi", b"".join(found), self.plan(len(found), 0, before or FIRST))
        self.assertEqual(self.status()["alarms"], [])
        ended, _, messages = feed.end()
        self.assertEqual(ended, 0, messages)
        self.assertIn(f"dabplan-bridge: the plan is not replaced: {answer['error']}\n", messages)
        self.assertNotIn("Traceback", messages)
        self.assertFalse((self.folder / "l.1").exists())
        for file in self.folder.glob("l*"):
            file.unlink()

    def test_one_that_is_not_compiled(self):
        self.refused(
            SCHEDULE.replace("sub 63 at 850", "sub 64 at 850", 1),
            r"^p\.plan is refused: (p\.plan:)?6:5: Number: ",
        )
        self.refused(
            SCHEDULE.replace("sub 63 at 850", "sub 63 at 10", 1),
            r"^p\.plan is refused: (p\.plan: )?refused line \d+: Config Overlap",
        )
        self.refused(SCHEDULE.replace("E1C5", "E1C6"), r"^p\.plan is refused: (p\.plan: )?refused: another ensemble$")
        self.refused("", r"^p\.plan: no code file$")
        self.refused(None, r"^cannot read p\.plan: No such file or directory$")

    def test_one_that_does_not_fit(self):
        self.refused(
            SCHEDULE.replace("sub 2 at 24", "sub 2 at 48"),
            r"^p\.plan does not fit: sub 2: at 48 size 24 eep 3-A in the plan, at 24 ",
        )

    def test_steps_where_the_compiler_does_not_take_them(self):
        if self.has_steps():
            print("skipped: scripts of steps are taken")
        else:
            self.refused(SECOND, r"^p\.plan is refused: refused: Steps")

    def test_while_a_swap_is_announced(self):
        feed = self.begun_plan(
            bridges.MOVES.replace("notice 24", "notice 240").replace("commit in 24", "commit in 240")
        )
        frames = self.streamed("edi", 0)
        feed.through(itertools.islice(frames, 30))
        self.until_shown(frame=29)
        self.assertTrue(self.status()["swap"])
        self.write("p.plan", SCHEDULE)
        found, status, answer = self.reloaded(feed, frames)
        self.assertEqual((status, answer), (409, {"error": "a swap is announced"}))
        self.assertLess(len(found), 230)
        self.assertEqual(feed.end()[0], 0)

    def test_while_it_is_being_replaced(self):
        """Of two orders at once one is carried out."""
        feed = self.begun_plan(FIRST)
        frames = self.streamed("edi", 0)
        feed.through(itertools.islice(frames, 20))
        self.write("p.plan", SCHEDULE)
        answers = []

        def ask():
            answers.append(asked(self.port, "POST", "/reload", b""))

        threads = [threading.Thread(target=ask) for _ in range(2)]
        for each in threads:
            each.start()
        # Both wait before the next frame comes.
        time.sleep(2.0)
        self.while_asked(feed, frames, lambda: [each.join(60) for each in threads])
        found = sorted((status, json.loads(body).get("error")) for status, _, body in answers)
        self.assertIn(
            found,
            (
                [(200, None), (409, "it is being replaced")],
                # One that comes when the other one is done, and its change is announced.
                [(200, None), (409, "a swap is announced")],
            ),
        )
        self.assertEqual(feed.end()[0], 0)

    def test_before_the_plan_begins(self):
        feed = self.begun_plan(FIRST, "--clock fig")
        frames = self.streamed("edi", 0)
        answers = []
        asking = threading.Thread(target=lambda: answers.append(asked(self.port, "POST", "/reload", b"")))
        asking.start()
        end = time.monotonic() + 60
        while asking.is_alive() and time.monotonic() < end:
            feed.give([next(frames)])
            time.sleep(0.01)
        asking.join(30)
        self.assertEqual((answers[0][0], json.loads(answers[0][2])), (409, {"error": "the plan has not begun"}))
        feed.end()

    def test_a_log_that_can_not_be_written(self):
        feed = self.begun_plan(FIRST)
        frames = self.streamed("edi", 0)
        feed.through(itertools.islice(frames, 20))
        size = len(self.read("l"))
        resource.prlimit(feed.job.pid, resource.RLIMIT_FSIZE, (size, resource.RLIM_INFINITY))
        self.write("p.plan", SCHEDULE)
        _, status, answer = self.reloaded(feed, frames)
        self.assertEqual(status, 409, answer)
        self.assertTrue((self.folder / "l").exists())
        self.assertFalse((self.folder / "l.1").exists())
        feed.end()

    def test_who_may(self):
        """As every change: with the token, and not by a page of somebody else."""
        self.write("token", "secret")
        feed = self.begun_plan(FIRST, "--token-file token")
        frames = self.streamed("edi", 0)
        feed.through(itertools.islice(frames, 20))
        for headers, status in (
            ({}, 401),
            ({"Authorization": "Bearer other"}, 401),
            ({"Authorization": "Bearer secret", "Origin": "http://example.org"}, 403),
        ):
            self.assertEqual(self.reloaded(feed, frames, **headers)[1], status, headers)
        _, status, answer = self.reloaded(feed, frames, Authorization="Bearer secret")
        self.assertEqual(status, 200 if self.has_steps() else 409, answer)
        self.assertEqual(feed.end()[0], 0)


class Scripts(Reloaded):
    """`run SCRIPT`."""

    def test_a_script_is_what_its_code_is(self):
        for form in FORMS:
            self.write("a", b"".join(self.stream(form, 120)))
            self.write("p.plan", bridges.MOVES)
            self.assertEqual(self.bridge("run p.plan --in a --out b")[0], 0)
            self.filled(form, self.read("b"), self.plan(120))

    def test_it_goes_on_by_its_log(self):
        frames = self.stream("edi", 200)
        self.write("p.plan", bridges.MOVES)
        self.write("a", b"".join(frames[:80]))
        self.assertEqual(self.bridge("run p.plan --in a --out b --log l")[0], 0)
        found = self.read("b")
        # The script is another one meanwhile.
        self.write("p.plan", FIRST)
        self.write("a", b"".join(frames[80:]))
        status, _, messages = self.bridge("run p.plan --in a --out b --log l")
        self.assertEqual(status, 0, messages)
        self.assertIn(
            "dabplan-bridge: p.plan is not what is on air: the plan of l goes on; POST /reload or SIGHUP takes up the "
            "other "
            "one, --anew begins it\n",
            messages,
        )
        self.filled("edi", found + self.read("b"), self.plan(200))
        # Compacted, it still says of which script it is.
        self.write("p.plan", bridges.MOVES)
        self.assertEqual(self.bridge("compact l")[0], 0)
        self.write("a", b"".join(made("edi", self.own(20, 200), 200)))
        status, _, messages = self.bridge("run p.plan --in a --out b --log l")
        self.assertEqual((status, "on air" in messages), (0, False), messages)
        self.filled("edi", self.read("b"), self.plan(220)[96 * 200 :], 200)

    def test_without_its_copy_another_script_is_another_plan(self):
        self.write("p.plan", bridges.MOVES)
        self.write("a", b"".join(self.stream("edi", 80)))
        self.assertEqual(self.bridge("run p.plan --in a --out b --log l")[0], 0)
        for copy in self.folder.glob("l.*.code"):
            copy.write_bytes(b"damaged")
        self.assertEqual(self.bridge("run p.plan --in a --out b --log l")[0], 0)
        for copy in self.folder.glob("l.*.code"):
            copy.unlink()
        self.write("p.plan", FIRST)
        status, _, messages = self.bridge("run p.plan --in a --out b --log l")
        self.assertEqual(
            (status, messages), (4, "dabplan-bridge: l is of another plan than p.plan: --anew begins this one\n")
        )
        status, _, messages = self.bridge("run p.plan --in a --out b --log l --anew")
        self.assertEqual(status, 0, messages)
        self.filled("edi", self.read("b"), self.plan(80, 0, FIRST))

    def test_one_that_is_refused(self):
        self.write("a", b"".join(self.stream("edi", 20)))
        self.write("b", "kept")
        self.write("p.plan", FIRST.replace("sub 1 at 0", "sub 1 at 860", 1))
        status, _, messages = self.bridge("run p.plan --in a --out b --log l")
        self.assertEqual((status, self.read("b")), (1, b"kept"), messages)
        self.assertRegex(
            messages,
            r"(?m)^p\.plan:3: error: .*\n(?:.*\n)*"
            r"dabplan-bridge: p\.plan is refused: (p\.plan: )?refused line 3: Edit PastEnd: ",
        )
        self.assertNotIn("Traceback", messages)
        self.assertFalse((self.folder / "l").exists())

    def test_what_the_compiler_warns_of_is_said(self):
        self.write("a", b"".join(self.stream("edi", 20)))
        self.write("p.plan", FIRST.replace("begin\n", "sub 7 at 600 eep 3-A 32\nbegin\n"))
        messages = self.bridge("run p.plan --in a --out b")[2]
        self.assertIn("p.plan:7: warning: no component names sub 7\n", messages)


if __name__ == "__main__":
    units.main()
