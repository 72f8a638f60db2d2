#!/usr/bin/env python3
"""What ends `dabplan-bridge`: signals, children, the output, the disk under the log, and command lines. The last line
is 'N passed, M failed'."""
import fcntl
import os
import re
import resource
import shlex
import signal
import subprocess
import sys
import time

import bridges
import units
from bridges import made

BEGINS = r"dabplan-bridge: frame \d: the plan begins at count \d+\n"


def catches(pid, number):
    """Whether a process has a handler of its own for a signal."""
    with open(f"/proc/{pid}/status", encoding="ascii") as status:
        mask = next(line.split()[1] for line in status if line.startswith("SigCgt"))
    return bool(int(mask, 16) >> number - 1 & 1)


class Ends(bridges.Case):
    """What ends it: signals, children, the output, the disk under the log."""

    def test_it_ends_with_its_children(self):
        frames = self.stream("eti", 30)
        for what, status, said in (("source", 0, "^" + BEGINS + "frames 12 carried .*\n$"), ("sink", 1, "dabplan-bridge: - was closed\n"),
                                   (signal.SIGTERM, 0, "^" + BEGINS + "frames 12 carried .*\n$"), (signal.SIGINT, 0, BEGINS),
                                   (signal.SIGPIPE, 0, BEGINS),
                                   ("live", 1, "dabplan-bridge: 'dabplan live' has ended, by signal 9\n"),
                                   ("merge", 1, "dabplan-bridge: 'dabplan merge' has ended, by signal 9\n")):
            feed = self.started("run moves.code --in - --out - --log l")
            feed.through(frames[:12])
            children = feed.children()
            self.assertEqual(len(children), 2)
            if what == "sink":
                feed.job.stdout.close()
                feed.give(frames[12:13])
                feed.job.stdout = open(os.devnull, "rb")
            elif what in ("live", "merge"):
                os.kill(children[what == "merge"], signal.SIGKILL)
                time.sleep(0.05)
                feed.give(frames[12:13])
            elif what == signal.SIGPIPE:
                feed.job.send_signal(what)
                self.assertEqual(feed.through(frames[12:13]), made("eti", self.plan(13)[96 * 12:], 12))
            ended, _, messages = feed.end(what if what in (signal.SIGTERM, signal.SIGINT) else None)
            self.assertEqual(ended, status, f"{what}: {messages}")
            self.assertRegex(messages, said)
            self.assertNotIn("Traceback", messages)
            self.assertEqual([child for child in children if os.path.exists(f"/proc/{child}")], [], "no child is left")
            self.assertRegex(self.read("l").decode(), r"# count 1[23] frames 1[23] at [^\n]*\n$")
            (self.folder / "l").unlink()

    def test_sigterm_while_it_waits(self):
        os.mkfifo(self.folder / "in")
        os.mkfifo(self.folder / "out")
        for line in ("run moves.code --in in --out b", "run moves.code --in - --out out", "run moves.code --in - --out b --clock fig"):
            feed = self.started(line)
            self.assertTrue(bridges.until(lambda pid=feed.job.pid: catches(pid, signal.SIGTERM)))
            time.sleep(0.1)
            status, _, messages = feed.end(signal.SIGTERM)
            self.assertEqual((status, messages), (0, ""), line)

    def test_standard_input_that_does_not_block(self):
        frames, own = self.stream("eti", 20), self.own(20)
        for line, wanted in (("fic -", own), ("run moves.code --in - --out -", b"".join(made("eti", self.plan(20))))):
            reader, writer = os.pipe()
            fcntl.fcntl(reader, fcntl.F_SETFL, os.O_NONBLOCK)
            job = subprocess.Popen([sys.executable, str(bridges.BRIDGE), *self.words(line)], cwd=self.folder, stdin=reader,
                                   stdout=subprocess.PIPE, stderr=subprocess.DEVNULL)
            os.close(reader)
            time.sleep(0.2)
            for frame in frames:
                os.write(writer, frame)
                time.sleep(0.002)
            os.close(writer)
            self.assertEqual((job.communicate(timeout=20)[0], job.returncode), (wanted, 0), line)

    def test_standard_streams_that_are_closed(self):
        frames, plan = self.stream("eti", 20), self.plan(20)
        self.write("a", b"".join(frames))
        for line, closing, status, said in (("run moves.code --in a --out b --status", "2>&-", 0, ""), ("run moves.code --in - --out b", "<&-", 1,
                                            "cannot read -: Bad file descriptor"), ("fic a", ">&-", 1, "cannot write -: Bad file descriptor"),
                                            ("run moves.code --in a --out b", ">&- 2>&- <&-", 0, "")):
            words = shlex.join(self.words(line))
            done = subprocess.run(["sh", "-c", f"exec '{sys.executable}' '{bridges.BRIDGE}' {words} {closing}"], cwd=self.folder,
                                  capture_output=True, check=False)
            self.assertEqual((done.returncode, done.stdout), (status, b""), line)
            self.assertIn(said, done.stderr.decode())
            if status == 0:
                self.filled("eti", self.read("b"), plan)
        self.assertEqual(self.read("a"), b"".join(frames))

    def test_files_that_are_one_are_not_touched(self):
        stream = b"".join(self.stream("eti", 8))
        self.write("a", stream)
        os.link(self.folder / "a", self.folder / "hard")
        os.symlink("a", self.folder / "soft")
        self.write("l", b"")
        for line, one, other in (("run moves.code --in a --out ./a", "a", "./a"), ("run moves.code --in a --out hard", "a", "hard"),
                                 ("run moves.code --in soft --out a", "soft", "a"), ("run moves.code --in a --out moves.code", "moves.code", "moves.code"),
                                 ("run moves.code --in a --out b --log a", "a", "a"), ("run moves.code --in a --out l --log l", "l", "l")):
            self.assertEqual(self.bridge(line), (2, b"", f"dabplan-bridge: {one} and {other} are the same file\n"))
        code = self.read("moves.code")
        for command in (["fic", "a"], ["insert", "moves.code", "a"], ["insert", "a", "moves.code"]):
            with open(self.folder / "a", "ab") as out:
                done = subprocess.run([sys.executable, str(bridges.BRIDGE), *command], cwd=self.folder, stdout=out, stderr=subprocess.PIPE, check=False)
            self.assertEqual((done.returncode, done.stderr), (2, b"dabplan-bridge: a and standard output are the same file\n"))
        self.assertEqual((self.read("a"), self.read("moves.code"), self.read("l")), (stream, code, b""))
        self.assertFalse((self.folder / "b").exists())

    def test_a_full_disk_under_the_log(self):
        """The plan goes on; that the log is not whole is an alarm, and at the end the status is 1."""
        self.write("a", b"".join(self.stream("edi", 600)))
        os.symlink("/dev/full", self.folder / "full")
        status, _, messages = self.bridge("run moves.code --in a --out b --log full --state s")
        self.assertEqual(status, 1)
        self.assertEqual(messages.count("dabplan-bridge: cannot write full: No space left on device: what is to be logged is kept, and "
                                        "tried again each 10 s\n"), 1)
        self.assertIn("full is not whole: what could not be written is lost\n", messages)
        self.assertTrue((self.folder / "full").is_symlink())
        self.assertIn(b'\ndab_alarm{alarm="log"} 1\n', self.read("s"))
        self.filled("edi", self.read("b"), self.plan(600))
        # The disk is full after so many bytes: at the beginning, within a line, at its end.
        head = len("# dabplan-bridge: count 0 time - code 0123456789abcdef at 2026-01-01T00:00:00.000Z\n")
        for limit in (0, 10, head, head + 20, head + 68):
            def limited(limit=limit):
                resource.setrlimit(resource.RLIMIT_FSIZE, (limit, resource.RLIM_INFINITY))
            feed = self.started("run moves.code --in - --out - --log l", preexec_fn=limited)
            found = b"".join(feed.through(self.stream("edi", 600)))
            status, _, messages = feed.end()
            self.assertEqual(status, 1, messages)
            self.filled("edi", found, self.plan(600))
            self.assertIn("dabplan-bridge: cannot write l: File too large: what is to be logged is kept, and tried again each 10 s\n", messages)
            self.assertNotIn("Traceback", messages)
            self.assertLessEqual(len(self.read("l")), limit)
            if limit < head:
                (self.folder / "l").unlink()
                continue
            status, out, messages = self.bridge("run moves.code --in - --out - --log l --resume-at 700", b"".join(self.stream("edi", 20, 700)))
            self.assertEqual(status, 0, messages)
            frames = 250 if limit == head + 68 else 0
            missed = int(re.search(rf"resumed after {frames} frames; (\d+) frames? w", messages)[1])
            first = frames + missed
            self.filled("edi", out, self.plan(first + 20, (700 - first) % 5000)[96 * first:], 700)
            (self.folder / "l").unlink()

    def test_an_output_that_fails(self):
        self.write("a", b"".join(self.stream("edi", 40)))
        os.symlink("/dev/full", self.folder / "full")
        status, _, messages = self.bridge("run moves.code --in a --out full --log l")
        self.assertEqual(status, 1)
        self.assertIn("dabplan-bridge: cannot write full: No space left on device\n", messages)
        self.assertFalse((self.folder / "l").exists(), "a first start that fails leaves no log")
        self.assertEqual(self.bridge("run moves.code --in a --out x/y")[::2], (1, "dabplan-bridge: cannot write x/y: No such file or directory\n"))
        self.assertEqual(self.bridge("run moves.code --in a --out .")[::2], (1, "dabplan-bridge: cannot write .: Is a directory\n"))
        self.assertEqual(self.bridge("run moves.code --in a --out b --log x/y")[::2][0], 1)

    def test_a_code_that_is_refused(self):
        self.write("a", b"".join(self.stream("edi", 40)))
        self.write("b", "kept")
        for code, said in ((b"DABQ" + bytes(30), "x.code: no code file"), (b"DAB", "x.code: no code file"),
                           (self.read("moves.code")[:-3], "has ended|makes no frame"), (None, "cannot read x.code: No such file")):
            if code is None:
                (self.folder / "x.code").unlink()
            else:
                self.write("x.code", code)
            status, _, messages = self.bridge("run x.code --in a --out b --log l")
            self.assertEqual(status, 1, messages)
            self.assertRegex(messages, said)
            self.assertNotIn("Traceback", messages)
            self.assertEqual(self.read("b"), b"kept")
            self.assertFalse((self.folder / "l").exists())

    def test_programs_that_are_none(self):
        self.write("a", b"".join(self.stream("edi", 4)))
        (self.folder / "dabplan").mkdir()
        self.write("text", "no program")
        for name in ("dabplan", "./dabplan", "text", "/nothing"):
            words = ["run", "moves.code", "--in", "a", "--out", "b", "--dabplan", name]
            environment = dict(os.environ, PATH=str(self.folder))
            done = subprocess.run([sys.executable, str(bridges.BRIDGE), *words], cwd=self.folder, capture_output=True, check=False, env=environment)
            self.assertEqual((done.returncode, done.stderr), (2, f"dabplan-bridge: --dabplan {name}: no program\n".encode()))
        # Beside a folder that is named dabplan the bridge looks on the path.
        self.assertTrue(not (self.folder / "b").exists())
        os.symlink(bridges.FOLDER, self.folder / "bridge")
        done = subprocess.run([sys.executable, "bridge/dabplan-bridge", "run", "moves.code", "--in", "a", "--out", "b"], cwd=self.folder,
                              capture_output=True, check=False)
        self.assertEqual(done.returncode, 0, done.stderr)

    def test_command_lines_that_are_none(self):
        lines = []
        for line in ("", "play x", "fic", "fic a b", "fic tcp://x", "insert a", "run", "run x.code", "run x.code --in a", "compact",
                     "run x.code --in a --out b --time 24:00:00", "run x.code --in a --out b --skip -1", "run x.code --in a --out b --every 0 --log l",
                     "run x.code --in a --out b --resume-at 5000 --log l", "run x.code --in a --out b --resume-at 1",
                     "run x.code --in a --out b --anew", "run x.code --in a --out b --every 5", "run x.code --in a --out b --tolerance 60",
                     "run x.code --in a --out b --offset 1", "run x.code --in a --out b --clock gps", "run x.code --in a --out b --format sti",
                     "run x.code --in a --out b --log l --anew --resume-at 3", "run x.code --in a --out udp://:99999",
                     "run x.code --in a --out b --clock fig --offset x"):
            lines.append(line)
        # All of them in one process: what is refused leaves nothing behind.
        driver = ("import sys; sys.path.insert(0, sys.argv[1]); from dabplan_bridge.command import main\n"
                  "def status(line):\n    try:\n        return main(line.split())\n    except SystemExit as end:\n        return end.code\n"
                  "print([status(line) for line in sys.argv[2:]])")
        done = subprocess.run([sys.executable, "-c", driver, str(bridges.FOLDER), *lines], cwd=self.folder, capture_output=True, text=True,
                              check=False)
        self.assertEqual(done.stdout, f"{[2] * len(lines)}\n", done.stderr)
        self.assertNotIn("Traceback", done.stderr)
        self.assertEqual(sorted(path.name for path in self.folder.iterdir()),
                         ["contacts.code", "contacts.plan", "moves.code", "moves.plan", "moves3.code", "moves3.plan"])


if __name__ == "__main__":
    units.main()
