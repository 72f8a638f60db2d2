#!/usr/bin/env python3
"""Hints of 'dabplan check' on a stream of another mode, and on lost bytes: on standard error, once; what is printed stays as it is.
The last line is 'N passed, M failed'."""
import rows
from codes import AT_64, code
from streams import stream

OTHER = {1: "x.fib: FIG 0/0 in every fourth frame: --mode 1?\n", 2: "x.fib: FIG 0/0 in every frame: --mode 2 or 3?\n",
         3: "x.fib: FIG 0/0 in every frame: --mode 2 or 3?\n", 4: "x.fib: FIG 0/0 in every second frame: --mode 4?\n"}
STEPS = {1: 4, 2: 1, 3: 1, 4: 2}


def hinted(rows, what, words, data, wanted):
    """Counts that these hints, and no others, are on standard error, with the lines that there are without them."""
    ended = rows.run(words, {"x.fib": data})
    rows.tally.same(f"{what}: {words}", wanted, ended.messages.decode())


def frames_of(rows, mode, count):
    """So many frames of a plan in this mode."""
    plan = {"x.code": code("end", configs=[AT_64], mode=mode), "x.events": f"frames {count}"}
    rows.run("play x.code x.events x.fib", plan)
    return rows.made("x.fib")


def modes(rows):
    """Each mode checked as each: a hint where FIG 0/0 comes at other steps, after three of them."""
    for mode, step in STEPS.items():
        data = frames_of(rows, mode, 20)
        fibs = 4 if mode == 3 else 3
        for other, wanted in STEPS.items():
            hint = "" if wanted == step else OTHER[mode]
            hinted(rows, f"mode {mode}", f"check x.fib --mode {other}", data, hint)
        other = 2 if mode in (1, 4) else 1
        hinted(rows, f"mode {mode}", f"check x.fib --json --mode {other}", data, OTHER[mode])
        short = data[:32 * fibs * 2 * step]
        hinted(rows, f"two frames of FIG 0/0 in mode {mode}", f"check x.fib --mode {other}", short, "")
        hinted(rows, f"three frames of FIG 0/0 in mode {mode}", f"check x.fib --mode {other}", short + data[len(short):][:32], OTHER[mode])
    # Counts that step by 4, 3 and 4 are those of no mode.
    odd = stream(*(f"05 00 E1 C5 00 {count:02X} FF" for count in (0, 4, 7, 11)))
    hinted(rows, "no steady step", "check x.fib --mode 2", odd, "")


def lost(rows):
    """Bytes that are lost, between two FIBs and in one; damaged FIBs that are too few, or that begin the stream."""
    data = frames_of(rows, 1, 40)
    damaged = "x.fib: FIBs are damaged from byte {} on"
    goes_on = damaged + ": if bytes were lost there, the stream goes on at byte {}"
    for cut, count, at, to in ((960, 1, 960, 991), (960, 31, 960, 961), (1000, 5, 992, 1019), (960, 33, 960, 991)):
        hinted(rows, f"{count} bytes lost at {cut}", "check x.fib", data[:cut] + data[cut + count:], goes_on.format(at, to) + "\n")
    hinted(rows, "a whole FIB lost", "check x.fib", data[:960] + data[992:], "")
    hinted(rows, "bytes put in", "check x.fib", data[:960] + b"x" + data[960:], goes_on.format(960, 961) + "\n")
    zeros = bytes(32)
    hinted(rows, "29 damaged", "check x.fib", data[:960] + 29 * zeros + data[960:], "")
    hinted(rows, "30 damaged", "check x.fib", data[:960] + 30 * zeros + data[960:], goes_on.format(960, 1920) + "\n")
    hinted(rows, "no more FIBs", "check x.fib", data[:960] + 40 * zeros, damaged.format(960) + "\n")
    hinted(rows, "once", "check x.fib", data[:960] + 2 * (30 * zeros + data), goes_on.format(960, 1920) + "\n")
    hinted(rows, "none before", "check x.fib", 100 * zeros + data, "")
    hinted(rows, "as JSON", "check x.fib --json", data[:960] + 40 * zeros, damaged.format(960) + "\n")


if __name__ == "__main__":
    rows.main([modes, lost])
