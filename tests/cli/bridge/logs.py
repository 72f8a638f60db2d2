#!/usr/bin/env python3
"""The log of `dabplan-bridge run`: disks that are full, logs that grow, two that want one log, and lines that nobody
wrote. The last line is 'N passed, M failed'."""
import hashlib
import os
import re
import resource
import stat
import sys
import time
import unittest

import bridges
import units
from bridges import made

sys.dont_write_bytecode = True
sys.path.insert(0, str(bridges.FOLDER))

from dabplan_bridge import compact, faults, lock, log, past, state, sync  # noqa: E402

HEAD = "# dabplan-bridge: count 0 time - code 0123456789abcdef\n"


class Disks(bridges.Case):
    """A log that can't be written for a while."""

    def test_what_could_not_be_written_is_written_later(self):
        """The disk is full within the second line; after some seconds it has room again. Nothing is off the air, and
        nothing is lost."""
        limit = len(HEAD) + 60

        def limited():
            resource.setrlimit(resource.RLIMIT_FSIZE, (limit, resource.RLIM_INFINITY))
        feed = self.started("run contacts.code --in - --out - --log l --contacts c", preexec_fn=limited)
        frames = self.stream("edi", 800)
        found = feed.through(frames[:300])
        self.write("c", "contact 3 closed\n")
        found += feed.through(frames[300:600])
        resource.prlimit(feed.job.pid, resource.RLIMIT_FSIZE, (resource.RLIM_INFINITY, resource.RLIM_INFINITY))
        number, end = 600, time.monotonic() + 60
        while b"contact 3 closed" not in self.read("l") and time.monotonic() < end:
            time.sleep(1.0)
            self.write("c", "contact 9 open\n")
            found += feed.through(frames[number:number + 2])
            number += 2
        status, _, messages = feed.end()
        self.assertEqual(status, 0, messages)
        self.assertEqual(messages.count("cannot write l: File too large: what is to be logged is kept, and tried again each 10 s\n"), 1)
        self.assertIn("l is written again\n", messages)
        steps = past.steps_in(str(self.folder / "l"))
        given = [step.decode() for step in steps if b"contact 9" not in step]
        frames_of = [int(step.split()[1]) for step in given if step.startswith("frames")]
        self.assertEqual((frames_of[0], given[1], sum(frames_of)), (300, "contact 3 closed", number))
        self.filled("edi", b"".join(found), self.played(bridges.CONTACTS, f"frames 300 contact 3 closed frames {number - 300}"))

    def test_a_first_line_that_could_not_be_written_is_written_later_too(self):
        self.compile(self.folder, "p", bridges.MOVES)
        one = log.Log(str(self.folder / "l"), 10, False, state.State())
        one.start(7, "time -", "0" * 16, 1_000_000_000.0)
        real = os.write
        try:
            log.os.write = lambda file, data: (_ for _ in ()).throw(OSError(28, "No space left on device"))
            one.open()
            for _ in range(35):
                one.count(1, 1_000_000_001.0)
            one.contacts([b"contact 3 closed"])
            one.count(5, 1_000_000_002.0)
            self.assertEqual(self.read("l"), b"")
        finally:
            log.os.write = real
        self.assertTrue(one.close())
        self.assertEqual(self.read("l").decode().splitlines(), [
            "# dabplan-bridge: count 7 time - code 0000000000000000 at 2001-09-09T01:46:40.000Z",
            "frames 35 # count 42 frames 35 at 2001-09-09T01:46:41.000Z", "contact 3 closed",
            "frames 5 # count 47 frames 40 at 2001-09-09T01:46:42.000Z"])

    def test_a_folder_that_is_not_there_is_refused_before_anything_goes_out(self):
        self.write("a", b"".join(self.stream("edi", 20)))
        self.assertEqual(self.bridge("run moves.code --in a --out b --log x/l"),
                         (1, b"", "dabplan-bridge: cannot write x/l: No such file or directory\n"))
        self.assertFalse((self.folder / "b").exists())


class Grown(bridges.Case):
    """A log that has grown is written anew, while it is written."""

    def test_frames_without_contacts_become_one_line(self):
        path, large = str(self.folder / "l"), log.LARGE
        self.addCleanup(setattr, log, "LARGE", large)
        log.LARGE = 3000
        one = log.Log(path, 250, False, state.State())
        one.start(0, "time -", "0" * 16, 1_000_000_000.0)
        one.open()
        os.chmod(path, 0o640)
        steps = []
        for number in range(4000):
            one.count(100, 1_000_000_000.0 + number)
            steps.append("frames 100")
            if number % 1000 == 999:
                one.contacts([b"contact 3 closed", b"contact 4 open"])
                steps.append("contact 3 closed contact 4 open")
            self.assertLess(os.path.getsize(path), 3000 + 200)
        with self.assertRaisesRegex(faults.Trouble, "another bridge writes it"):
            lock.locked(path, os.O_RDONLY)
        self.assertTrue(one.close())
        known = past.past_of(path)
        self.assertEqual((known.frames, known.count, known.due()), (400_000, 0, 0))
        self.assertEqual([step for step in past.steps_in(path)],
                         [step for _ in range(4) for step in (b"frames 100000", b"contact 3 closed", b"contact 4 open")])
        self.assertEqual(stat.S_IMODE(os.stat(path).st_mode), 0o640)
        self.assertEqual([entry.name for entry in self.folder.iterdir() if entry.name.startswith("l")], ["l"])

    def test_contacts_and_what_is_held_are_on_the_disk_at_once(self):
        synced, real = [], os.fsync
        path = str(self.folder / "l")
        try:
            sync.os.fsync = lambda file: synced.append(os.fstat(file).st_size) or real(file)
            one = log.Log(path, 250, False, state.State())
            one.start(0, "time -", "0" * 16, 1_000_000_000.0)
            one.open()
            one.contacts([b"contact 3 closed"])
            self.assertTrue(bridges.until(lambda: synced == [os.path.getsize(path)]))
            one.held(12)
            self.assertTrue(bridges.until(lambda: synced[-1] == os.path.getsize(path)))
            one.close()
        finally:
            sync.os.fsync = real


class Locks(bridges.Case):
    """Two that want one log."""

    def test_a_log_that_is_put_in_place_meanwhile_is_the_one_that_is_opened(self):
        """Between opening a log and locking it, `compact` may put another one there."""
        path, real, calls = str(self.folder / "l"), lock.lock, []
        self.write("l", "old")

        def replaced(name, file):
            if not calls:
                self.write("new", "new")
                os.rename(self.folder / "new", path)
            calls.append(file)
            real(name, file)
        try:
            lock.lock = replaced
            file = lock.locked(path, os.O_RDWR)
        finally:
            lock.lock = real
        self.assertEqual((os.read(file, 10), len(calls)), (b"new", 2))
        os.close(file)

    def test_compact_keeps_owner_and_mode(self):
        self.write("l", HEAD + "frames 5\nframes 6\n")
        os.chmod(self.folder / "l", 0o604)
        if os.geteuid() == 0:
            os.chown(self.folder / "l", 4321, 1234)
        before = os.stat(self.folder / "l")
        self.assertEqual(self.bridge("compact l"), (0, b"", ""))
        after = os.stat(self.folder / "l")
        self.assertEqual((after.st_uid, after.st_gid, after.st_mode), (before.st_uid, before.st_gid, before.st_mode))
        self.assertEqual(self.read("l").decode(), HEAD + "frames 11\n")

    def test_compact_that_fails_leaves_the_log(self):
        self.write("l", HEAD + "frames 5\nframes 6\n")
        real = compact.write
        try:
            compact.write = lambda *_: (_ for _ in ()).throw(OSError(28, "No space left on device"))
            with self.assertRaisesRegex(faults.Trouble, "cannot write .*: No space left on device"):
                compact.compact(str(self.folder / "l"))
        finally:
            compact.write = real
        self.assertEqual(self.read("l").decode(), HEAD + "frames 5\nframes 6\n")
        self.assertEqual([entry.name for entry in self.folder.iterdir() if entry.name.startswith("l")], ["l"])


class Lines(bridges.Case):
    """Lines of a log that nobody wrote."""

    def test_numbers_out_of_range_are_refused_and_nothing_is_played(self):
        digest = hashlib.sha256(self.read("moves.code")).hexdigest()[:16]
        head = f"# dabplan-bridge: count 0 time - code {digest}\n"
        note = "# count 5 frames 5 at 2026-01-01T00:00:00.000Z\n"
        self.write("a", b"".join(self.stream("edi", 20)))
        for text, line in ((head.replace("count 0", "count 9999"), 1), (head.replace("time -", "time 25:00:00"), 1),
                           (head.replace("time -", "day 3600000"), 1), (head + "contact 99 closed\n", 2), (head + "contact 16 open\n", 2),
                           (head + "frames 0\n", 2), (head + "frames 9999999\n", 2), (head + "frames 5 " + note.replace("count 5", "count 9999"), 2),
                           (head + "frames 5 " + note.replace("count 5", "count 6"), 2), (head + "frames 5 contact 3\n", 2)):
            self.write("l", text)
            self.write("b", "kept")
            status, _, messages = self.bridge("run moves.code --in a --out b --log l")
            self.assertEqual(status, 1, f"{text}: {messages}")
            self.assertRegex(messages, rf"^dabplan-bridge: l: line {line}: [^\n]+\n$")
            self.assertEqual((self.read("b"), self.read("l").decode()), (b"kept", text))
        self.write("l", head + "frames 5 " + note.replace("2026-01-01", "2026-13-01"))
        self.assertEqual(self.bridge("run moves.code --in a --out b --log l")[::2],
                         (1, "dabplan-bridge: l: no such time: 2026-13-01T00:00:00.000Z\n"))

    def test_a_line_costs_as_much_as_it_is(self):
        for line in (b" " * 400_000 + b"x", b"contact 3 closed " * 4000 + b"x", b"frames 1" + b" " * 400_000 + b"#"):
            start = time.process_time()
            try:
                past.steps_of(line)
            except ValueError:
                pass
            self.assertLess(time.process_time() - start, 2.0)


class Played(bridges.Case):
    """The past of a plan."""

    def begun(self, frames=60, options=""):
        """A log of so many frames."""
        self.write("a", b"".join(self.stream("edi", frames)))
        status, _, messages = self.bridge(f"run moves.code --in a --out b --log l {options}")
        self.assertEqual(status, 0, messages)

    def test_it_is_played_before_the_input_is_opened(self):
        self.begun(60)
        os.mkfifo(self.folder / "in")
        feed = self.started("run moves.code --in in --out - --log l --tolerance 59")
        # Nobody writes to the FIFO: it is not open yet, and the children are there.
        self.assertTrue(bridges.until(lambda: len(feed.children()) == 2, 30))
        with open(self.folder / "in", "wb") as entry:
            entry.write(b"".join(made("edi", self.own(40, 60), 60)))
        status, rest, messages = feed.end()
        self.assertEqual(status, 0, messages)
        self.filled("edi", rest, self.plan(100)[96 * 60:], 60)

    def test_the_status_says_nothing_of_it(self):
        self.begun(100)
        self.write("a", b"".join(self.stream("edi", 80, 110)))
        status, _, messages = self.bridge("run moves.code --in a --out b --log l --status")
        self.assertEqual(status, 0, messages)
        found = [int(number) for number in re.findall(r"(?m)^frame (\d+) count", messages)]
        # A notice of frames that were missed is said, for nobody has said it.
        self.assertEqual(found, [108, 132, 152, 176])

    def test_time_now_is_the_clock_when_the_first_frame_comes(self):
        for zone, hours in (("", 0), ("--zone utc", 0), ("--zone local", 3)):
            feed = self.started(f"run moves.code --in - --out - --log l --time now {zone}", env=os.environ | {"TZ": "XYZ-3"})
            time.sleep(1.0)
            before = time.time()
            feed.through(self.stream("edi", 4))
            after = time.time()
            status, _, messages = feed.end()
            self.assertEqual(status, 0, messages)
            day = int(re.search(rb"count 0 day (\d+) code", self.read("l"))[1])
            low, high = ((moment + hours * 3600) / 0.024 for moment in (before, after))
            self.assertLessEqual((day - low + 1) % 3_600_000, high - low + 2, zone)
            self.assertRegex(messages, r"frame 0: the plan's first frame has \d\d:\d\d:\d\d\.\d\d\d (UTC|local time)\n")
            (self.folder / "l").unlink()
        self.assertEqual(self.bridge("run moves.code --in a --out b --zone local")[0], 2)


if __name__ == "__main__":
    unittest.TestCase.maxDiff = 2000
    units.main()
