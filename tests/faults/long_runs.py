#!/usr/bin/env python3
"""Long runs, ten minutes, which `./test` leaves out: `./test tests/faults/long_runs.py`.

A hundred million frames in the memory of a hundred; a day of a plan with a swap every 300 frames, heard by a
listener that is always right; and an event file with more than 2^32 frames. The last line
is 'N passed, M failed'.
"""
import sys
import tempfile
import time

import common

CODE = common.SAMPLES / "contact_lowers_a_rate.code"
SWAPS = """\
ensemble E1C5 period 4 notice 24 budget 20
sub 1 at 0 eep 3-A 128 service C221 audio 63 sub 1 in C221 begin
forever { rate sub 1 96 commit in 24 join wait 276 rate sub 1 128 commit in 24 join wait 276 }
"""


def frames(count):
    """An event file of this many frames."""
    return "frames 3600000\n" * (count // 3_600_000) + (f"frames {count % 3_600_000}\n" if count % 3_600_000 else "")


def measured(words, folder):
    """The output of a run, its peak memory in KB, and its time in seconds."""
    begin = time.monotonic()
    ended = common.run(["/usr/bin/time", "-f", "%M", "-o", "a.memory", *words], folder)
    with open(f"{folder}/a.memory", encoding="ascii") as memory:
        return ended.printed.decode(), int(memory.read().split()[-1]), time.monotonic() - begin


def try_frames(tally, program, folder, count, least):
    """Plays this many frames to /dev/null, in at most `least` KB of memory plus 256."""
    common.write(folder, "a.events", frames(count))
    printed, memory, seconds = measured([program, "play", CODE, "a.events", "/dev/null"], folder)
    print(f"{count} frames: {memory} KB, {seconds:.0f} s", flush=True)
    tally.same(f"{count} frames", f"played {count} frames\n", printed)
    tally.hold(least is None or memory <= least + 256, f"{count} frames: {memory} KB")
    return memory


def try_day(tally, program, trials, folder):
    """A day of swaps with a listener. Each of the 12,000 swaps is 300 frames after the one before; the first after 24."""
    common.write(folder, "a.plan", SWAPS)
    compiled = common.run([program, "compile", "a.plan", "a.code"], folder)
    tally.same("the plan of swaps", 0, compiled.status)
    with open(f"{folder}/a.code", "rb") as code:
        ended = common.run([trials, "day"], folder, code.read())
    print(ended.printed.decode(), end="", flush=True)
    wanted = b"frames 3600000 FIBs 10800000 damaged 0 swaps 12000 frames heard wrongly 0\n"
    tally.same("a day of swaps", (0, wanted), ended.lines())


def main():
    """Runs everything; 'short' omits the frames past 32 bits."""
    tally = common.Tally()
    program, trials = common.dabplan(), common.trials()
    with tempfile.TemporaryDirectory() as folder:
        least = try_frames(tally, program, folder, 100, None)
        try_frames(tally, program, folder, 100_000_000, least)
        try_day(tally, program, trials, folder)
        if sys.argv[1:] != ["short"]:
            try_frames(tally, program, folder, 2 ** 32 + 1, least)
    tally.end()


if __name__ == "__main__":
    main()
