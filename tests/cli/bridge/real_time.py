#!/usr/bin/env python3
"""`dabplan-bridge run` over EDI with time stamps, whose time is asked and not that of the host; and with a real-time
priority. The last line is 'N passed, M failed'."""
import calendar
import os
import pathlib
import re

import bridges
import units
from bridges import made

# The seconds from 2000 to when the first frame is sent, at noon, and UTCO.
START = calendar.timegm((2031, 5, 6, 12, 0, 0)) - calendar.timegm((2000, 1, 1, 0, 0, 0))
LEAP_SECONDS = 5
FIFO, PRIORITY = os.SCHED_FIFO, 10
# The policy and the priority of a process are fields 41 and 40 of its line (proc(5)).
RECORDER = """\
#!/bin/sh
sleep 1
echo "$1 $(cut -d ' ' -f 41 /proc/$$/stat)" >> policies
exec {program} "$@"
"""


def stamp(frames):
    """The time stamp of so many frames of 24 ms after the first one: UTCO, SECONDS since 2000, TSTA in units of
    1/16,384,000 s (TS 102 693)."""
    seconds, milliseconds = divmod(24 * frames, 1000)
    return bytes([LEAP_SECONDS]) + (START + LEAP_SECONDS + seconds).to_bytes(4, "big") \
        + (16_384 * milliseconds).to_bytes(3, "big")


class Stamps(bridges.Case):
    """Streams that come at once, and say when their frames were sent."""

    def packets(self, count, frames, after, fic=None):
        """Packets from this count on, of which the first one is sent so many frames after the start."""
        fics = bridges.fics(self.own(frames, count) if fic is None else fic)
        return [bridges.edi_packet((count + at) % 5000, each, stamp=stamp(after + at)) for at, each in enumerate(fics)]

    def filled_from(self, stream, number, count, frames, after):
        """Asserts that a stream of packets has the plan's frames from that of this number on."""
        plan = self.plan(number + frames, (count - number) % 5000)[96 * number:]
        self.same(b"".join(self.packets(count, frames, after, plan)), stream, f"count {count}")

    def test_a_step_is_what_the_stamps_say(self):
        """The step after 60 frames, the frames of time from the last of these to it, and the number of the plan's frame
        that goes out; None where the step is not explained, and what is on air is held."""
        for step, time, number in ((1, 2, 61), (1200, 1201, 1260), (1200, 1201 + 5000, 6260), (0, 5001, 60),
                                   (1200, 601, None), (-2000, 3001, 3060), (-2000, 1, None)):
            feed = self.started("run moves.code --in - --out -")
            feed.through(self.packets(0, 60, 0))
            count = (60 + step) % 5000
            found = b"".join(feed.through(self.packets(count, 40, 59 + time)))
            status, _, messages = feed.end()
            self.assertEqual(status, 0, messages)
            self.assertEqual("what is on air is held" in messages, number is None, (step, time, messages))
            if number is not None:
                self.filled_from(found, number, count, 40, 59 + time)

    def test_a_plan_that_is_held_goes_on_by_the_stamps(self):
        """Frames come at once: by the host's clock they would be out of a buffer. 25 in a row have to agree."""
        feed = self.started("run moves.code --in - --out -")
        feed.through(self.packets(0, 60, 0))
        feed.through(self.packets(2000, 40, 60))
        found = b"".join(feed.through(self.packets(300, 200, 300)))
        status, _, messages = feed.end()
        self.assertEqual(status, 0, messages)
        goes_on = re.search(r"counts and clock agree again: the plan goes on with its frame (\d+)\n", messages)
        self.assertIsNotNone(goes_on, messages)
        number = int(goes_on[1])
        self.assertGreaterEqual(number, 324)
        size = len(found) // 200
        self.filled_from(found[(number - 300) * size:], number, number, 500 - number, number)

    def test_a_log_goes_on_by_the_stamps(self):
        """Ten seconds, and an hour later by the stamps; at once by the host's clock."""
        for missed in (417, 150_000):
            first = b"".join(self.packets(0, 60, 0))
            self.assertEqual(self.bridge("run moves.code --in - --out - --log l", first)[0], 0)
            count = (60 + missed) % 5000
            second = b"".join(self.packets(count, 40, 60 + missed))
            status, out, messages = self.bridge("run moves.code --in - --out - --log l", second)
            self.assertEqual(status, 0, messages)
            self.assertIn(f"resumed after 60 frames; {missed} frames were not sent", messages)
            self.filled_from(out, 60 + missed, count, 40, 60 + missed)
            (self.folder / "l").unlink()

    def test_now_is_the_time_of_the_stamps(self):
        status, _, messages = self.bridge("run moves.code --in - --out - --time now",
                                          b"".join(self.packets(0, 8, 75_000)))
        self.assertEqual(status, 0, messages)
        self.assertIn("the plan's first frame has 12:30:00.000 UTC\n", messages)


def may_be_real_time():
    """Whether this process may give a real-time priority."""
    child = os.fork()
    if child == 0:
        try:
            os.sched_setscheduler(0, FIFO, os.sched_param(PRIORITY))
        except OSError:
            os._exit(1)
        os._exit(0)
    return os.waitpid(child, 0)[1] == 0


class Priorities(bridges.Case):
    """A bridge that is started with a real-time priority, as by its service."""

    def setUp(self):
        super().setUp()
        if not may_be_real_time():
            self.skipTest("no real-time priority can be given here")

    def test_what_is_played_again_is_played_without_it(self):
        """The children that play the log have an ordinary priority while they do, and the real-time one for what goes
        out."""
        recorder = pathlib.Path(self.folder, "recorder")
        recorder.write_text(RECORDER.format(program=self.program))
        recorder.chmod(0o755)
        self.assertEqual(self.bridge("run moves.code --in - --out - --log l", b"".join(self.stream("edi", 60)))[0], 0)
        feed = bridges.Running("run moves.code --in - --out - --log l --dabplan ./recorder".split(), self.folder,
                               preexec_fn=lambda: os.sched_setscheduler(0, FIFO, os.sched_param(PRIORITY)))
        self.assertTrue(bridges.until(lambda: len(self.policies()) >= 2))
        # What comes is held: by the clock it is late. Its children are not asked here.
        feed.through(made("edi", self.own(1, 60), 60))
        children = {pid: os.sched_getscheduler(pid) for pid in (feed.job.pid, *feed.children())}
        status, _, messages = feed.end()
        self.assertEqual(status, 0, messages)
        self.assertEqual(sorted(self.policies()[:2]), [f"live {os.SCHED_OTHER}", f"merge {os.SCHED_OTHER}"])
        self.assertGreaterEqual(len(children), 3)
        self.assertEqual(set(children.values()), {FIFO})

    def policies(self):
        """The commands of the program that were run, each with its policy a second later."""
        path = pathlib.Path(self.folder, "policies")
        return path.read_text(encoding="ascii").splitlines() if path.exists() else []


if __name__ == "__main__":
    units.main()
