#!/usr/bin/env python3
"""An opt-out that is forgotten: 'schedule_hours.py [STEP]'.

The schedule of examples/night_and_region.plan is started shortly before nine. Its studio's contact is closed in one of the 600
frames around nine, and stays closed: in each run, or in each STEP-th one, the region is off the air at noon, as a window ends when
it ends. The last line is 'N passed, M failed'."""
import os
import subprocess
import sys
import tempfile
from concurrent.futures import ThreadPoolExecutor

import common
from schedules import frame_of

NINE, NOON = frame_of(9 * 3600), frame_of(12 * 3600)
BEFORE = 1000
"""The frames from the start until nine."""

# FIG 0/1 of the items alone: sub-channel 1 at 0, long form, 3-A, 96 capacity units (EN 300 401 clause 6.2.1).
ALONE = bytes.fromhex("0501040088600602C221013F06FF")


def last_frame(program, folder, name, events):
    """The last frame of a run, three FIBs."""
    common.write(folder, f"{name}.events", events)
    words = [program, "play", "x.code", f"{name}.events", "-", "--day", str(NINE - BEFORE)]
    with subprocess.Popen(words, cwd=folder, stdout=subprocess.PIPE, stderr=subprocess.DEVNULL) as playing:
        last = b""
        while piece := playing.stdout.read(96 * 10_000):
            last = piece[-96:]
    return last


def try_contact(program, folder, frame):
    """Whether the region is off the air at noon where its contact is closed in this frame of the run."""
    frames = NOON - NINE + BEFORE
    last = last_frame(program, folder, str(frame), f"frames {frame} contact 5 closed frames {frames - frame}")
    return ALONE in last


def main():
    """Runs all of them, several at a time."""
    step = int((sys.argv[1:] or ["1"])[0])
    tally, program = common.Tally(), common.dabplan()
    with tempfile.TemporaryDirectory() as folder:
        ended = common.run([program, "compile", common.EXAMPLES / "night_and_region.plan", "x.code"], folder)
        tally.same("the schedule", 0, ended.status)
        frames = range(BEFORE - 300, BEFORE + 300, step)
        with ThreadPoolExecutor(os.cpu_count()) as pool:
            for frame, is_off in zip(frames, pool.map(lambda frame: try_contact(program, folder, frame), frames)):
                tally.hold(is_off, f"contact 5 closed in frame {frame}: on air at noon")
        # The same contact closed an hour before is on air meanwhile: what is looked for would be seen.
        early = last_frame(program, folder, "early", "frames 1 contact 5 closed frames 600")
        tally.hold(ALONE not in early and len(early) == 96, "the region is never on air")
    tally.end()


if __name__ == "__main__":
    main()
