#!/usr/bin/env python3
"""`dabplan-bridge run` with a log: what is in it, how a plan is resumed, and `compact`. The last line is 'N passed, M
failed'."""
import hashlib
import re
import subprocess
import sys
import time

import bridges
import units
from bridges import made

FORMS = ("eti", "edi")
TAKE_UP = "--resume-at COUNT plays the log to its end and goes on in the first frame of that count, --anew begins the plan anew"


class Logged(bridges.Case):
    """A plan with a log."""

    def log_at(self, seconds):
        """Sets the wall time of the last note of the log so many seconds back."""
        wall = time.time() - seconds
        text = time.strftime("%Y-%m-%dT%H:%M:%S", time.gmtime(wall)) + f".{int(wall % 1 * 1000):03d}Z"
        lines = self.read("l").decode().splitlines(True)
        lines[-1] = re.sub(r" at \S+", f" at {text}", lines[-1])
        self.write("l", "".join(lines))

    def begun(self, form, frames=100, count=4900, options=""):
        """A log of so many frames."""
        self.write("a", b"".join(self.stream(form, frames, count)))
        status, _, messages = self.bridge(f"run moves.code --in a --out b --log l {options}")
        self.assertEqual(status, 0, messages)

    def resumed(self, form, at, frames=80, count=4900, options="--tolerance 30"):
        """Frames from `at` on, through standard input, for a plan that began at a count: status, what came, and
        messages. On a machine with much else to do the bridge may need seconds to begin."""
        stream = made(form, self.own(frames, (count + at) % 5000), (count + at) % 5000)
        return self.bridge(f"run moves.code --in - --out - --log l {options}", b"".join(stream))

    def test_a_log_has_its_start_and_what_was_since(self):
        self.begun("eti", 600)
        lines = self.read("l").decode().splitlines()
        self.assertRegex(lines[0], r"^# dabplan-bridge: count 4900 time - code [0-9a-f]{16} at \d{4}-\d\d-\d\dT\d\d:\d\d:\d\d\.\d{3}Z$")
        self.assertEqual(len(lines), 4)
        for line, wanted in zip(lines[1:], ("frames 250 # count 150 frames 250", "frames 250 # count 400 frames 500",
                                            "frames 100 # count 500 frames 600")):
            self.assertRegex(line, rf"^{wanted} at \d{{4}}-\d\d-\d\dT\d\d:\d\d:\d\d\.\d{{3}}Z$")
        self.write("e", self.read("l"))
        subprocess.run([self.program, "play", "moves.code", "e", "p", "--count", "4900"], cwd=self.folder, check=True,
                               capture_output=True)
        self.same(self.plan(600, 4900), self.read("p"), "it is an event file")

    def test_a_line_comes_each_n_frames(self):
        feed = self.started("run moves.code --in - --out - --log l --every 10")
        feed.through(self.stream("edi", 34))
        totals = [0, *map(int, re.findall(rb"frames (\d+) at", self.read("l")))]
        self.assertGreater(totals[-1], 24, "flushed while it runs")
        # Where the stream, or the machine, stopped for a second a line comes before its time.
        self.assertLessEqual(max(later - earlier for earlier, later in zip(totals, totals[1:])), 10)
        self.assertEqual(feed.end()[0], 0)
        self.assertEqual(re.findall(rb"# count \d+ frames \d+", self.read("l"))[-1], b"# count 34 frames 34")

    def test_a_stop_is_bridged_by_count_and_clock(self):
        for form in FORMS:
            whole = self.plan(2000, 4900)
            for missed in (0, 60, 1000, 1800):
                self.begun(form)
                # What is missing is seconds old by the count; so old is the log.
                self.log_at(missed * 0.024)
                status, out, messages = self.resumed(form, 100 + missed)
                self.assertEqual(status, 0, messages)
                self.filled(form, out, whole[96 * (100 + missed):96 * (180 + missed)], 100 + missed, 4900)
                self.assertIn(f"resumed after 100 frames; {missed} frames were not sent", messages)
                self.assertIn(f"frames {180 + missed} at".encode(), self.read("l").splitlines()[-1])
                (self.folder / "l").unlink()

    def test_whole_turns_of_the_count_are_told_by_the_clock(self):
        self.begun("edi")
        self.log_at((60 + 15000) * 0.024)
        status, out, messages = self.resumed("edi", 160)
        self.assertEqual(status, 0, messages)
        self.assertIn("resumed after 100 frames; 15060 frames were not sent", messages)
        self.same(self.plan(80 + 15160, 4900)[96 * 15160:], self.bridge("fic -", out)[1])

    def test_a_restart_that_steps_back_repeats(self):
        """The multiplexer runs ahead by some frames; it and the bridge are started again at once."""
        for form in FORMS:
            for back in (3, 4, 50):
                self.begun(form)
                self.log_at(0.3)
                status, out, messages = self.resumed(form, 100 - back, 120)
                self.assertEqual(status, 0, messages)
                # In ETI the frames before the first FIG 0/0 are dropped.
                first = -(100 - back) % 4 if form == "eti" else 0
                self.filled(form, out, self.plan(220 - back, 4900)[96 * (100 - back + first):], 100 - back + first, 4900)
                again = f"; {back - first} frame" if back > first else "\n"
                self.assertIn(f"resumed after 100 frames; 0 frames were not sent{again}", messages)
                (self.folder / "l").unlink()

    def test_count_and_clock_that_do_not_agree_end_it_where_that_is_asked_for(self):
        for form in FORMS:
            self.begun(form)
            for at, seconds in ((96, 60.0), (104, 6.0), (100, 60.0), (1100, 60.0), (3000, 2.0)):
                self.log_at(seconds)
                before = self.read("l")
                status, out, messages = self.resumed(form, at, options="--strict")
                self.assertEqual((status, out), (4, b""), messages)
                count, step = (4900 + at) % 5000, (at - 100 + 2500) % 5000 - 2500
                self.assertRegex(messages, rf"l: the count is {count}, 0 was due: a step of {step}, after \d+\.\d s by the clock: {TAKE_UP}")
                self.assertEqual(self.read("l"), before, "the log stays")
            (self.folder / "l").unlink()

    def test_the_tolerance_is_an_option(self):
        self.begun("edi")
        self.log_at(9.0)
        self.assertEqual(self.resumed("edi", 100, options="--strict")[0], 4)
        self.log_at(9.0)
        status, out, _ = self.resumed("edi", 100, options="--strict --tolerance 40")
        self.assertEqual(status, 0)
        self.filled("edi", out, self.plan(180, 4900)[9600:], 100, 4900)

    def test_a_file_is_resumed_by_its_count_alone(self):
        for form in FORMS:
            self.begun(form)
            self.log_at(50.0)
            self.write("a", b"".join(self.stream(form, 80, 60)))
            status, _, messages = self.bridge("run moves.code --in a --out b --log l")
            self.assertEqual(status, 0, messages)
            self.filled(form, self.read("b"), self.plan(240, 4900)[96 * 160:], 160, 4900)
            self.write("a", b"".join(self.stream(form, 80, 1000)))
            status, _, messages = self.bridge("run moves.code --in a --out c --log l --strict")
            self.assertEqual(status, 4)
            self.assertIn("a step of 860: --resume-at COUNT", messages)
            (self.folder / "l").unlink()

    def test_resume_at_a_count(self):
        """The plan goes on in the frame of that count; frames before it are dropped. The time since the log ends is of
        its day."""
        for form in FORMS:
            self.begun(form)
            self.log_at(700.0)
            stream = made(form, self.own(200, 2000), 2000)
            status, out, messages = self.bridge("run moves.code --in - --out - --log l --resume-at 2048", b"".join(stream))
            self.assertEqual(status, 0, messages)
            missed = int(re.search(r"resumed after 100 frames; (\d+) frames were not sent", messages)[1])
            self.assertTrue(700 / 0.024 - 1 <= missed <= 760 / 0.024, messages)
            # Its first frame had the count that leads to 2048, as far as the plan can tell.
            first = (2048 - 100 - missed) % 5000
            wanted = self.plan(252 + missed, first)[96 * (100 + missed):]
            self.filled(form, out, wanted, 48, 2000)
            self.assertIn(f"# dabplan-bridge: count {first} time - code ".encode(), self.read("l"))
            # And from there on it is resumed as any other.
            self.log_at(0.2)
            again = made(form, self.own(60, 2200), 2200)
            status, out, messages = self.bridge("run moves.code --in - --out - --log l --tolerance 30", b"".join(again))
            self.assertEqual(status, 0, messages)
            self.filled(form, out, self.plan(312 + missed, first)[96 * (252 + missed):], 0, 2200)
            (self.folder / "l").unlink()
        self.begun("edi")
        status, out, messages = self.bridge("run moves.code --in - --out - --log l --resume-at 77", b"".join(stream))
        self.assertEqual((status, out), (1, b""))
        self.assertIn("-: no frame of the count 77", messages)

    def test_anew(self):
        self.begun("edi")
        first = self.read("l")
        self.write("l.1", "another one")
        status, out, messages = self.resumed("edi", 3000, options="--anew")
        self.assertEqual(status, 0, messages)
        self.filled("edi", out, self.plan(80, 2900), 0, 2900)
        self.assertEqual(self.read("l.2"), first, "the old log is renamed")
        self.assertEqual(self.read("l.1"), b"another one")
        self.assertIn("l is now l.2", messages)
        self.assertTrue(self.read("l").startswith(b"# dabplan-bridge: count 2900 time - "))

    def test_anew_that_fails_leaves_the_log(self):
        self.begun("edi")
        first = self.read("l")
        self.write("bad.code", b"DABP\x01\xe1\xc5" + bytes(30))
        self.assertEqual(self.bridge("run bad.code --in - --out - --log l --anew", b"".join(self.stream("edi", 8)))[0], 1)
        self.assertEqual(self.read("l"), first)
        self.assertFalse((self.folder / "l.1").exists())

    def test_contacts_and_times_are_in_the_log(self):
        script = bridges.CONTACTS
        feed = self.started("run contacts.code --in - --out - --log l --contacts c --time 21:59:50")
        frames = self.stream("edi", 400)
        feed.through(frames[:37])
        self.write("c", "contact 3 closed\n")
        feed.through(frames[37:60])
        # A kill: what the log does not have yet is told by count and clock.
        feed.job.kill()
        feed.end()
        lines = self.read("l").decode().splitlines()
        self.assertRegex(lines[0], "^# dabplan-bridge: count 0 time 21:59:50 code ")
        self.assertRegex(lines[1], "^frames 37 # count 37 frames 37 at ")
        self.assertEqual(lines[2:], ["contact 3 closed"])
        status, out, messages = self.bridge("run contacts.code --in - --out - --log l --tolerance 30", b"".join(frames[70:]))
        self.assertEqual(status, 0, messages)
        wanted = self.played(script, "frames 37 contact 3 closed frames 363", "--time 21:59:50")
        self.filled("edi", out, wanted[96 * 70:], 70)

    def test_a_log_cut_short_in_its_last_line(self):
        for form in FORMS:
            self.begun(form, 260)
            whole = self.read("l")
            for cut in (1, 20, 51, len(whole.splitlines(True)[-1]) - 1):
                self.write("l", whole[:-cut])
                self.log_at(0.0)
                # Its end is still without a line feed.
                self.write("l", self.read("l").rsplit(b"\n", 1)[0] + b"\nframes 1" if cut == 51 else whole[:-cut])
                status, out, messages = self.resumed(form, 260)
                self.assertEqual(status, 0, messages)
                self.assertIn("resumed after 250 frames; 10 frames were not sent", messages)
                self.filled(form, out, self.plan(340, 4900)[96 * 260:], 260, 4900)
                self.assertEqual([line for line in self.read("l").splitlines() if not re.fullmatch(rb"(# dab|frames \d+ # ).*", line)], [])
            (self.folder / "l").unlink()

    def test_logs_that_are_none(self):
        stream = b"".join(self.stream("edi", 8))
        head = "# dabplan-bridge: count 0 time - code " + "0" * 16 + "\n"
        for text, status, said in (
                ("frames 7\n", 1, "l: line 1: no log of this program"),
                (head + "frames 5 # count 5 frames 6 at 2026-01-01T00:00:00.000Z\n", 1, "l: line 2: 6 frames so far, but there are 5"),
                (head + "frames 5\nfrogs 5\n", 1, "l: line 3: no line of a log"),
                (head + "frames 5\n", 4, "l is of another plan than moves.code: --anew begins this one"),
                ("a text without a line feed", 1, "l: line 1: no log of this program")):
            self.write("l", text)
            ended, out, messages = self.bridge("run moves.code --in - --out - --log l", stream)
            self.assertEqual((ended, out), (status, b""), messages)
            self.assertIn(f"dabplan-bridge: {said}\n", messages)
            self.assertEqual(self.read("l").decode(), text)
        (self.folder / "l").unlink()
        self.begun("edi")
        self.write("l", re.sub(rb" (# count|at ).*\n", b"\n", self.read("l")))
        status, _, messages = self.resumed("edi", 100)
        self.assertEqual(status, 4)
        self.assertIn("l tells no wall time: --resume-at COUNT", messages)

    def test_a_kill_before_the_first_note(self):
        feed = self.started("run moves.code --in - --out - --log l")
        feed.through(self.stream("edi", 100, 4900))
        feed.job.kill()
        feed.end()
        # A machine that stopped for a second has noted that.
        self.write("l", self.read("l").splitlines(True)[0])
        status, out, messages = self.resumed("edi", 150)
        self.assertEqual(status, 0, messages)
        self.filled("edi", out, self.plan(230, 4900)[96 * 150:], 150, 4900)
        # Where the first line is cut, nothing was begun.
        whole = self.read("l").splitlines(True)[0]
        self.write("l", whole[:30])
        status, out, messages = self.resumed("edi", 0)
        self.assertEqual(status, 0, messages)
        self.filled("edi", out, self.plan(80, 4900), 0, 4900)
        self.assertEqual(self.read("l").count(b"# dab"), 1)

    def test_a_long_resume_says_each_second_that_it_goes_on(self):
        self.begun("edi", 300)
        self.write("slow", f"#!/bin/sh\ncase $1 in live) sleep 2.4 ;; esac\nexec '{self.program}' \"$@\"\n")
        (self.folder / "slow").chmod(0o755)
        stream = b"".join(made("edi", self.own(20, 200), 200))
        done = subprocess.run([sys.executable, str(bridges.BRIDGE), "run", "moves.code", "--in", "-", "--out", "-", "--log", "l",
                               "--tolerance", "30", "--dabplan", "./slow"], cwd=self.folder, input=stream, capture_output=True, check=False)
        self.assertEqual(done.returncode, 0, done.stderr)
        self.filled("edi", done.stdout, self.plan(320, 4900)[96 * 300:], 0, 200)
        for second in (1, 2):
            self.assertIn(f"dabplan-bridge: 300 frames of the plan are made again: {second} s so far\n".encode(), done.stderr)

    def test_two_bridges_do_not_share_a_log(self):
        feed = self.started("run moves.code --in - --out - --log l")
        feed.through(self.stream("edi", 8))
        self.assertIn("l: another bridge writes it", self.bridge("run moves.code --in - --out - --log l")[2])
        self.assertEqual(self.bridge("compact l")[::2], (1, "dabplan-bridge: l: another bridge writes it\n"))
        self.assertEqual(feed.end()[0], 0)

    def test_a_compact_log_is_resumed_as_it_was(self):
        steps = ["contact 3 closed", "frames 137", "contact 3 open", "contact 5 closed", "frames 211", "contact 3 closed", "frames 52"]
        digest = hashlib.sha256(self.read("contacts.code")).hexdigest()[:16]
        lines, frames = [f"# dabplan-bridge: count 100 time 12:00:00 code {digest}"], 0
        for step in steps:
            frames += int(step[7:]) if step.startswith("frames") else 0
            note = f" # count {100 + frames} frames {frames} at 2026-01-01T00:00:00.000Z" if step.startswith("frames") else ""
            lines.append(step + note)
        before = "\n".join(lines) + "\nframes 25"
        self.write("l", before)
        self.assertEqual(self.bridge("compact l"), (0, b"", ""))
        after = self.read("l").decode().splitlines()
        self.assertEqual(after, [lines[0], " ".join(steps), "# count 500 frames 400 at 2026-01-01T00:00:00.000Z"])
        self.assertLessEqual(len(after), 6)
        self.assertEqual(sorted(path.name for path in self.folder.iterdir() if path.name.startswith("l")), ["l"])
        wanted = self.played(bridges.CONTACTS, " ".join(steps) + " frames 60", "--count 100 --time 12:00:00")[96 * 400:]
        for log in (before, "\n".join(after) + "\n"):
            self.write("l", log.replace("2026-01-01T00:00:00.000Z", "2026-01-01T00:00:00.001Z"))
            self.log_text(0.5)
            status, out, messages = self.bridge("run contacts.code --in - --out - --log l --tolerance 30", b"".join(self.stream("edi", 60, 500)))
            self.assertEqual(status, 0, messages)
            self.filled("edi", out, wanted, 0, 500)

    def log_text(self, seconds):
        """Sets all wall times of the log so many seconds back."""
        wall = time.time() - seconds
        text = time.strftime("%Y-%m-%dT%H:%M:%S", time.gmtime(wall)) + f".{int(wall % 1 * 1000):03d}Z"
        self.write("l", re.sub(r" at \S+Z", f" at {text}", self.read("l").decode()))

    def test_a_long_log_with_many_contacts(self):
        """Four days with 3,000 contacts: a line of more than 65,536 bytes, which is given to the plan in parts."""
        digest = hashlib.sha256(self.read("contacts.code")).hexdigest()[:16]
        steps = "".join(f"contact 3 {'open' if number % 2 else 'closed'}\nframes 5000\n" for number in range(3000))
        frames = 3000 * 5000
        self.write("l", f"# dabplan-bridge: count 0 time - code {digest}\n{steps}# count 0 frames {frames} at 2026-01-01T00:00:00.000Z\n")
        self.assertEqual(self.bridge("compact l")[0], 0)
        self.assertEqual(self.read("l").count(b"\n"), 3)
        self.assertGreater(max(map(len, self.read("l").splitlines())), 65536)
        self.log_text(0.1)
        status, out, messages = self.bridge("run contacts.code --in - --out - --log l --tolerance 30", b"".join(self.stream("edi", 40)))
        self.assertEqual(status, 0, messages)
        wanted = self.played(bridges.CONTACTS, " ".join(steps.split("\n")[-5:]) + " frames 40", "--count 0")[96 * 10000:]
        self.filled("edi", out, wanted)

    def test_compact_refuses_what_is_no_log(self):
        self.write("l", "frames 7\n")
        self.assertEqual(self.bridge("compact l"), (1, b"", "dabplan-bridge: l: line 1: no log of this program\n"))
        self.write("l", "")
        self.assertEqual(self.bridge("compact l"), (1, b"", "dabplan-bridge: l: no log of this program\n"))
        self.assertEqual(self.bridge("compact y"), (1, b"", "dabplan-bridge: cannot read y: No such file or directory\n"))


if __name__ == "__main__":
    units.main()
