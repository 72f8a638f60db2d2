#!/usr/bin/env python3
"""Random schedules over random events from random starts, beside a second reading of what they mean: 'schedule_runs.py [SEED [RUNS]]'.

Each schedule is compiled, and played from a random count, day and set of closed contacts, over contacts that change at random
frames. Its machine, read a second time in tests/lib/schedules.py, says which commits there are; a plan of steps with just
these commits, which has no condition in it, is compiled and played from the same start. The FIBs of both have to be the same,
byte by byte. A schedule whose code would be too long is refused: of the schedules here at most one in 200. The last line is
'N passed, M failed'."""
import os
import random
import sys
import tempfile
from concurrent.futures import ThreadPoolExecutor

import common
import schedules
from random_schedules import random_run

SEED, RUNS = 1, 1000
TOO_LONG = "refused: Limit\n"


def played(program, folder, name, text, start, events):
    """The FIBs of a plan with this text, or why there are none."""
    common.write(folder, f"{name}.plan", text)
    ended = common.run([program, "compile", f"{name}.plan", f"{name}.code"], folder)
    if ended.status != 0:
        return ended.printed.decode(), b""
    common.write(folder, "events", events)
    ended = common.run([program, "play", f"{name}.code", "events", f"{name}.fib", *schedules.start_words(start)], folder)
    with open(f"{folder}/{name}.fib", "rb") as fibs:
        return ended.printed.decode(), fibs.read()


def try_run(program, number):
    """Whether a run is as it reads, or None where the schedule's code would be too long; its commits; and what it was."""
    schedule, start, events, frames = random_run(random.Random(number))
    found = schedules.commits(schedule, start, events, frames)
    text = schedules.events_text(events, frames)
    with tempfile.TemporaryDirectory() as folder:
        had, fibs = played(program, folder, "schedule", schedule.text(), start, text)
        wanted, others = played(program, folder, "steps", schedules.steps(schedule, found), start, text)
    if had == TOO_LONG:
        return None, 0, ""
    is_same = had == wanted == f"played {frames} frames\n" and fibs == others and len(fibs) > 0
    return is_same, len(found), f"run {number}: {had.strip()} beside {wanted.strip()}\n{schedule.text()}{start}\n{text}"


def main():
    """Runs them all, several at a time."""
    seed, runs = (int(word) for word in (sys.argv[1:] + [str(SEED), str(RUNS)][len(sys.argv) - 1:])[:2])
    tally, program, swaps, refused = common.Tally(), common.dabplan(), 0, 0
    with ThreadPoolExecutor(os.cpu_count()) as pool:
        for is_same, commits, what in pool.map(lambda number: try_run(program, number), range(seed * 1_000_000, seed * 1_000_000 + runs)):
            if is_same is None:
                refused += 1
                continue
            tally.hold(is_same, what)
            swaps += commits
    print(f"{runs} runs, {refused} of them refused, {swaps} commits", flush=True)
    tally.hold(swaps > runs, "too few commits to say anything")
    tally.hold(200 * refused <= runs + 200, f"{refused} schedules of {runs} are refused")
    tally.end()


if __name__ == "__main__":
    main()
