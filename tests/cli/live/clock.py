#!/usr/bin/env python3
"""examples/live_clock.py: the frames that it sends, its log, and how it ends where the plan ends, is refused, or is killed. The last
line is 'N passed, M failed'."""
import os
import pathlib
import signal
import subprocess
import sys
import tempfile
import time

import common
from rows import NOTHING_FILE, RATES_FILE, hexadecimal

CLOCK = common.TOP / "examples/live_clock.py"


class Clock:
    """The program, a folder with the code files, and the count."""

    def __init__(self, folder):
        self.tally, self.program, self.folder = common.Tally(), common.dabplan(), pathlib.Path(folder)
        (self.folder / "rates").write_bytes(hexadecimal(RATES_FILE))
        (self.folder / "ends").write_bytes(hexadecimal(NOTHING_FILE))
        (self.folder / "refused").write_bytes(b"DABQ")

    def start(self, words, stdin=subprocess.DEVNULL):
        """Starts the script, which an interrupt reaches also where these tests run in the background."""
        return subprocess.Popen([sys.executable, CLOCK, *words], cwd=self.folder, env=os.environ | {"DABPLAN": str(self.program)},
                                stdin=stdin, stdout=subprocess.PIPE, stderr=subprocess.PIPE,
                                preexec_fn=lambda: signal.signal(signal.SIGINT, signal.SIG_DFL))

    def run(self, words, text=b""):
        """Runs the script to its end, and returns its status, its output and its messages."""
        job = self.start(words, subprocess.PIPE)
        printed, messages = job.communicate(text, timeout=60)
        return job.returncode, printed, messages.decode()

    def log(self):
        """The log; None if there is none."""
        path = self.folder / "log"
        return path.read_text(encoding="utf-8") if path.exists() else None

    def played(self, events, words=()):
        """The frames of 'play' over these events."""
        (self.folder / "events").write_text(events, encoding="utf-8")
        subprocess.run([self.program, "play", "rates", "events", "frames", *words], cwd=self.folder, check=True, stdout=subprocess.PIPE)
        return (self.folder / "frames").read_bytes()


def resumed(clock):
    """Runs one after the other give the frames of one playback, with frames that were missed, more than a line can have."""
    first = clock.run(["rates", "log", "--frames", "5"], b"contact 3 closed\n")
    clock.tally.same("first", (0, clock.played("contact 3 closed frames 5"), ""), first)
    clock.tally.same("its log", "contact 3 closed\n" + "frames 1\n" * 5, clock.log())
    second = clock.run(["rates", "log", "--frames", "3", "--missed", "2"])
    whole = clock.played("contact 3 closed frames 10")
    clock.tally.same("second", (0, whole[7 * 96:], ""), second)
    clock.tally.same("its log", "contact 3 closed\n" + "frames 1\n" * 5 + "frames 2 # missed\n" + "frames 1\n" * 3, clock.log())
    (clock.folder / "log").unlink()
    third = clock.run(["rates", "log", "--frames", "1", "--missed", "3600001"])
    clock.tally.same("more than a day", (0, clock.played("frames 3600000 frames 2")[-96:], ""), third)
    clock.tally.same("its log", "frames 3600000 # missed\nframes 1 # missed\nframes 1\n", clock.log())
    (clock.folder / "log").unlink()


def no_contacts(clock):
    """Lines that are no contacts are reported, and neither given nor logged; bytes that are no UTF-8 are one."""
    text = b"frames 7\ncontact 16 open\n\ncontact 3 \xff\ncontact 3 closed # now\n"
    found = clock.run(["rates", "log", "--frames", "2"], text)
    clock.tally.same("frames", (0, clock.played("contact 3 closed frames 2")), found[:2])
    clock.tally.same("messages", ["live_clock.py: no contact: 'frames 7'", "live_clock.py: no contact: 'contact 16 open'",
                                  "live_clock.py: no contact: 'contact 3 \\\\xff'"], found[2].splitlines())
    clock.tally.same("log", "contact 3 closed # now\nframes 1\nframes 1\n", clock.log())
    (clock.folder / "log").unlink()


def refused(clock):
    """A code that is refused or absent, and a wrong start, leave no log."""
    for words, message in ((["refused", "log"], "live_clock.py: 'dabplan live' has ended with status 1"),
                           (["none", "log"], "live_clock.py: none: No such file or directory"),
                           (["rates", "log", "--count", "5000"], "live_clock.py: 'dabplan live' has ended with status 1")):
        status, printed, messages = clock.run([*words, "--frames", "2"])
        clock.tally.same(words, (1, b"", message, None), (status, printed, messages.splitlines()[-1], clock.log()))


def killed(clock):
    """Where 'live' is killed, one line says so; the log has the frames that were sent, and the next run goes on behind them."""
    job = clock.start(["rates", "log"])
    sent = job.stdout.read(3 * 96)
    children = subprocess.run(["ps", "-o", "pid=", "--ppid", str(job.pid)], check=True, capture_output=True, text=True).stdout.split()
    os.kill(int(children[0]), signal.SIGKILL)
    more, messages = job.communicate(timeout=60)
    sent += more
    clock.tally.same("killed", (1, ["live_clock.py: 'dabplan live' has ended with status -9"]), (job.returncode, messages.decode().splitlines()))
    clock.tally.same("its log", "frames 1\n" * (len(sent) // 96), clock.log())
    status, later, _ = clock.run(["rates", "log", "--frames", "2"])
    clock.tally.same("resumed", (0, clock.played(f"frames {len(sent) // 96 + 2}")), (status, sent + later))
    (clock.folder / "log").unlink()


def ended(clock):
    """An interrupt ends it with 0; an output that is closed ends it with a line and 1."""
    for number in (signal.SIGINT, signal.SIGTERM):
        job = clock.start(["ends", "log"])
        job.stdout.read(96)
        job.send_signal(number)
        _, messages = job.communicate(timeout=60)
        clock.tally.same(number, (0, b""), (job.returncode, messages))
    job = clock.start(["ends", "log"])
    job.stdout.read(96)
    job.stdout.close()
    time.sleep(0.1)
    messages = job.stderr.read().decode()
    clock.tally.same("a closed output", (1, "live_clock.py: standard output: Broken pipe\n"), (job.wait(timeout=60), messages))
    job.stderr.close()


def main():
    """Runs all of it in one folder."""
    with tempfile.TemporaryDirectory() as folder:
        clock = Clock(folder)
        for part in (resumed, no_contacts, refused, killed, ended):
            part(clock)
    clock.tally.end()


if __name__ == "__main__":
    main()
