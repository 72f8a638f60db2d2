#!/usr/bin/env python3
"""Drives a plan on air with 'dabplan live': one frame every 24 ms, and contacts as they change.

    examples/live_clock.py CODE LOG [--frames N] [--missed N] [options of 'dabplan live'] > FIBS

Standard input has a line for each change of a contact, as 'contact 3 closed'; another line is reported and passed over. Standard
output gets the FIBs. LOG gets each line when the plan has taken it and its frames are sent. Where LOG is there already the run
of that log is resumed: its lines are given again, and the frames that they made are skipped. --missed adds frames that went by
since then, which are made and not sent. --frames ends the run after so many frames; without it the run ends with an interrupt.
To start anew remove LOG. The program is ./dabplan of the clone that this script is in, else the one on the path, or DABPLAN.
Exit status: 0 at the end or at an interrupt, 1 if the plan or an output ended before, 2 if the command line is wrong.
"""
import argparse
import os
import pathlib
import re
import select
import signal
import subprocess
import sys
import time

FRAME = 0.024
# The most frames that a line of events can have.
MOST = 3_600_000
CLONE = pathlib.Path(__file__).resolve().parents[1] / "dabplan"
CONTACTS = re.compile(r"\s*(contact\s+([0-9]|1[0-5])\s+(closed|open)\s*)+(#.*)?")


class Ended(Exception):
    """Why the run ended before it was to end, in a line."""


def arguments():
    """The arguments, and those that are passed on."""
    parser = argparse.ArgumentParser(usage=__doc__.splitlines()[2].strip())
    parser.add_argument("code")
    parser.add_argument("log", type=pathlib.Path)
    parser.add_argument("--frames", type=int)
    parser.add_argument("--missed", type=int, default=0)
    return parser.parse_known_args()


def program():
    """The path or the name of the program."""
    return os.environ.get("DABPLAN", str(CLONE) if CLONE.is_file() else "dabplan")


def frame_size(code):
    """The bytes of a frame: four FIBs in mode III, which a code file of version 2 or 3 names behind its version; else three."""
    try:
        head = pathlib.Path(code).read_bytes()[:6]
    except OSError as error:
        raise Ended(f"{code}: {error.strerror}") from error
    return 128 if head[4:6] in (b"\2\3", b"\3\3") else 96


def frames_in(lines):
    """The number of frames that these lines of a log make."""
    return sum(int(count) for line in lines for count in re.findall(r"\bframes (\d+)", line.split("#")[0]))


class Run:
    """A plan that is led line by line, and the log of the lines that it has taken."""

    def __init__(self, plan, log, size):
        self.plan, self.log, self.size = plan, log, size

    def give(self, line):
        """Gives the plan a line."""
        try:
            self.plan.stdin.write(f"{line}\n".encode())
            self.plan.stdin.flush()
        except OSError as error:
            raise self.ended() from error

    def note(self, line):
        """Writes a line to the log."""
        try:
            with self.log.open("a", encoding="utf-8") as file:
                file.write(f"{line}\n")
        except OSError as error:
            raise Ended(f"{self.log}: {error.strerror}") from error

    def send(self):
        """Has the plan make a frame, and sends it."""
        self.give("frames 1")
        frame = self.plan.stdout.read(self.size)
        if len(frame) < self.size:
            raise self.ended()
        try:
            sys.stdout.buffer.write(frame)
            sys.stdout.buffer.flush()
        except OSError as error:
            raise Ended(f"standard output: {error.strerror}") from error
        self.note("frames 1")

    def ended(self):
        """That the plan has ended."""
        return Ended(f"'dabplan live' has ended with status {self.plan.wait()}")


def changes(waiting):
    """The whole lines that standard input has now; `waiting` keeps the beginning of the next one."""
    while select.select([0], [], [], 0)[0]:
        piece = os.read(0, 65536)
        if not piece:
            break
        waiting += piece
    *lines, rest = bytes(waiting).split(b"\n")
    waiting[:] = rest
    return [line.decode(errors="backslashreplace") for line in lines]


def resume(run, past, missed):
    """Gives the lines of a log again, and has the frames made that were missed since; none of them is sent."""
    for line in past:
        run.give(line)
    while missed > 0:
        line = f"frames {min(missed, MOST)} # missed"
        run.give(line)
        run.note(line)
        missed -= MOST


def drive(run, frames):
    """Sends a frame every 24 ms, so many of them, and gives the plan the changes of contacts between them."""
    waiting, due, sent = bytearray(), time.monotonic(), 0
    while frames is None or sent < frames:
        for line in changes(waiting):
            if CONTACTS.fullmatch(line):
                run.give(line)
                run.note(line)
            elif line.strip():
                print(f"live_clock.py: no contact: {line!r}", file=sys.stderr)
        run.send()
        due, sent = due + FRAME, sent + 1
        time.sleep(max(0.0, due - time.monotonic()))


def main():
    """Resumes the run of the log, and then sends frames."""
    known, passed = arguments()
    size = frame_size(known.code)
    past = known.log.read_text(encoding="utf-8").splitlines() if known.log.exists() else []
    words = [program(), "live", known.code, *passed, "--skip", str(frames_in(past) + known.missed)]
    with subprocess.Popen(words, stdin=subprocess.PIPE, stdout=subprocess.PIPE, start_new_session=True) as plan:
        run = Run(plan, known.log, size)
        try:
            resume(run, past, known.missed)
            drive(run, known.frames)
        finally:
            try:
                plan.stdin.close()
            except OSError:
                pass  # the plan has ended


if __name__ == "__main__":
    signal.signal(signal.SIGTERM, signal.default_int_handler)
    try:
        main()
    except Ended as ended:
        sys.exit(f"live_clock.py: {ended}")
    except KeyboardInterrupt:
        sys.exit(0)
