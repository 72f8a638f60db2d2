#!/usr/bin/env python3
"""Timelines of random plans over random events beside the frames: 'timelines.py [SEED [RUNS]]'.

Random schedules, and random plans of steps that wait, test contacts and times and loop, are played from random counts,
days and contacts. The swaps that 'timeline' prints have to be those that 'check' finds in the frames that 'play'
writes, at the same times; what is on air at the end is that of 'listen'; and the frames that 'live' writes behind
skipped ones are those of 'play'.
The last line is 'N passed, M failed'."""
import os
import random
import re
import sys
import tempfile
from concurrent.futures import ThreadPoolExecutor

import common
import schedules
from random_schedules import random_run

SEED, RUNS = 1, 400
HEAD = ("ensemble E1C5\nperiod {period} notice {notice} budget 40\nsub 1 at 0 eep 3-A 128\nservice C221\n"
        "audio 63 sub 1 in C221\nbegin\n")


def clock(day):
    """The time of day of a frame of the day."""
    at = day % schedules.DAY * 24
    return f"{at // 3_600_000:02}:{at // 60_000 % 60:02}:{at // 1000 % 60:02}.{at % 1000:03}"


def random_wait(chance, around):
    """A statement that waits."""
    contact, level = chance.randrange(3), chance.choice(("closed", "open"))
    moment = schedules.clock((around + chance.randint(-4, 60)) % 86_400)
    return chance.choice((f"wait {chance.randint(1, 200)}", f"wait contact {contact} {level}", f"until {moment}",
                          f"wait {chance.randint(1, 200)} or contact {contact} {level}",
                          f"wait contact {contact} {level} or until {moment}"))


def random_plan(chance, around):
    """A plan of steps for ever: waits, and changes of the rate that are joined at once or later."""
    notice = chance.choice((24, 48, 100))
    rates, lines = [96, 112, 128], []
    for number in range(chance.randint(1, 6)):
        rate = rates[number % 3]
        lines += [random_wait(chance, around) for _wait in range(chance.randint(1, 2))]
        lines.append(f"rate sub 1 {rate} commit in {chance.randint(notice, 2 * notice)}")
        lines += [f"wait {chance.randint(1, 20)}"] if chance.random() < 0.4 else []
        lines += ["join", "wait 1"]
    changes = len([line for line in lines if line.startswith("rate")])
    if rates[(changes - 1) % 3] != 128:
        lines.append("rate sub 1 128 commit in 100 join")
    body = "\n".join(lines)
    return HEAD.format(period=chance.choice((1, 2, 4)), notice=notice) + "forever {\n" + body + "\nwait 1\n}\n"


def some_run(number):
    """The text of a plan, how its run starts, and its events."""
    chance = random.Random(number)
    schedule, start, events, frames = random_run(chance)
    text = schedule.text() if chance.random() < 0.5 else random_plan(chance, start.day * 24 // 1000)
    return text, start, schedules.events_text(events, frames), frames


def try_run(program, number):
    """What differs in a run, and how many swaps it has."""
    text, start, events, frames = some_run(number)
    words = schedules.start_words(start)
    mode = (re.findall(r"\bmode (\d)", text) or ["1"])[0]
    size = 128 if mode == "3" else 96
    with tempfile.TemporaryDirectory() as folder:
        common.write(folder, "x.plan", text)
        common.write(folder, "x.events", events)
        compiled = common.run([program, "compile", "x.plan", "x.code"], folder)
        if compiled.status != 0:
            return f"{number}: {compiled.printed.decode()}{text}", 0
        common.run([program, "play", "x.code", "x.events", "x.fib", *words], folder)
        begin = ["--time", clock(start.day)]
        checked = common.run([program, "check", "x.fib", "--mode", mode, *begin], folder).printed.decode().splitlines()
        found = common.run([program, "timeline", "x.code", "x.events", *words], folder).printed.decode().splitlines()
        plan = common.run([program, "timeline", "x.plan", "x.events", *words], folder).printed.decode().splitlines()
        # check numbers frames from the first FIG 0/0 on
        before = -start.count % schedules.STEPS[int(mode)]
        matches = [match for line in checked if (match := re.fullmatch(r"(\S+) (\d+) \d+ swap", line))]
        wanted = [(match[1], int(match[2]) + before) for match in matches]
        swaps = [line for line in found if " line " in line]
        had = [re.match(r"(?:day \d+ )?(\S+) frame (\d+) line", line).groups() for line in swaps]
        had = [(time, int(frame)) for time, frame in had]
        skip = random.Random(number).randint(0, frames)
        lines = events.replace("frames", "\nframes").replace("contact", "\ncontact").encode()
        live = common.run([program, "live", "x.code", "--skip", str(skip), *words], folder, stdin=lines)
        with open(f"{folder}/x.fib", "rb") as fibs:
            written = fibs.read()
    rest = written[size * skip:]
    same = had == wanted and found == plan and live.printed == rest
    differs = f"{number}: {had} beside {wanted}, skip {skip}\n{text}{start}\n{events}"
    return ("" if same else differs), len(wanted)


def main():
    """Runs them all, several at a time."""
    seed, runs = (int(word) for word in (sys.argv[1:] + [str(SEED), str(RUNS)][len(sys.argv) - 1:])[:2])
    tally, program, swaps = common.Tally(), common.dabplan(), 0
    with ThreadPoolExecutor(os.cpu_count()) as pool:
        numbers = range(seed * 1_000_000, seed * 1_000_000 + runs)
        for differs, count in pool.map(lambda number: try_run(program, number), numbers):
            tally.hold(not differs, differs)
            swaps += count
    print(f"{runs} runs, {swaps} swaps", flush=True)
    tally.hold(swaps > runs // 2, "too few swaps to say anything")
    tally.end()


if __name__ == "__main__":
    main()
