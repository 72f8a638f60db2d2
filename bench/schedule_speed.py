#!/usr/bin/env python3
"""Compiles the largest and the unluckiest schedules, and prints the processor time and the memory of each.

    bench/schedule_speed.py [PROGRAM]

Each text is within the limits of texts: 16 contacts, 64 overlays, 32 tests in one. Some are compiled, the others are
refused, which is an answer too. A line each: the best processor time of three runs in milliseconds, the largest memory
in MB, the text, and what the program printed. At the end the largest of each. Required: 500 ms, and 64 MB."""
import os
import pathlib
import subprocess
import sys
import tempfile

TOP = pathlib.Path(__file__).resolve().parents[1]
RUNS = 3
MOST_MS, MOST_MB = 500, 64
HEAD = """\
ensemble E1C5
period 10 notice 100 budget 255
sub 1 at 0 eep 3-A 64
service C201
audio 63 sub 1 in C201
sub 2 at 48 eep 3-A 64
service C202
audio 63 sub 2 in C202
schedule
"""


def overlay(number, condition, edits):
    """An overlay with this condition and these edits."""
    return f"overlay o{number} while {condition} {{ {' '.join(edits)} }}\n"


def services(number, count):
    """Edits that add a sub-channel with so many services."""
    sub = 10 + number
    edits = [f"sub {sub} at {100 + 36 * number} eep 3-A 48"]
    for index in range(count):
        name = f"{0xD000 + 16 * number + index:04X}"
        edits += [f"service {name}", f"audio 63 sub {sub} in {name}"]
    return edits


def clock(seconds):
    """A time of the day."""
    return f"{seconds // 3600 % 24:02}:{seconds // 60 % 60:02}:{seconds % 60:02}"


def window(begin, length):
    """A window of so many seconds."""
    return f"time {clock(begin)} to {clock(begin + length)}"


def rate(number):
    """Edits to one of two rates, by turns."""
    return [f"rate sub 2 {(48, 56)[number % 2]}"]


def free(count, edits):
    """Overlays that hold in any combination, a contact each."""
    return "".join(overlay(number, f"contact {number} closed", edits(number)) for number in range(count))


def precedence(count):
    """Overlays of which the first one whose contact is closed holds."""
    return "".join(overlay(number, " and ".join([f"contact {number} closed"] + [f"contact {before} open" for before in range(number)]),
                           services(number, 2)) for number in range(count))


def hours(count, edits):
    """Overlays with a window each, one behind the other."""
    length = 86_400 // count
    return "".join(overlay(number, window(number * length, length - 60), edits(number)) for number in range(count))


def many_windows(count, tests, length):
    """Overlays with this many windows each, so that no two begin or end at once."""
    texts = []
    for number in range(count):
        begins = [(number + count * index) * 86_400 // (count * tests) for index in range(tests)]
        texts.append(overlay(number, " or ".join(window(begin, length) for begin in begins), rate(number)))
    return "".join(texts)


def mixed(count, contacts):
    """Overlays with 32 tests each, of contacts and windows."""
    texts = []
    for number in range(count):
        terms = [f"contact {(number + 3 * index) % contacts} {('closed', 'open')[index % 2]} and "
                 f"{window((number * 1_351 + index * 5_003) % 86_400, 900 + 7 * index)}" for index in range(16)]
        texts.append(overlay(number, " or ".join(terms), rate(number)))
    return "".join(texts)


TEXTS = {
    "4 overlays of 5 services in any combination": free(4, lambda number: services(number, 5)),
    "5 overlays of 5 services in any combination": free(5, lambda number: services(number, 5)),
    "12 overlays of 12 contacts in any combination, two rates": free(12, rate),
    "16 overlays of 16 contacts in any combination, two rates": free(16, rate),
    "12 overlays, the first one holds": precedence(12),
    "16 overlays, the first one holds": precedence(16),
    "20 windows, a service each": hours(20, lambda number: services(number, 1)),
    "64 windows, two rates": hours(64, rate),
    "64 overlays of 32 windows, two rates": many_windows(64, 32, 35),
    "64 overlays of 32 windows that overlap, two rates": many_windows(64, 32, 600),
    "8 overlays of 32 tests of 4 contacts and windows": mixed(8, 4),
    "64 overlays of 32 tests of 16 contacts and windows": mixed(64, 16),
}


def compiled(program, folder):
    """The processor time of a run in ms, its memory in MB, and what it printed."""
    with open(f"{folder}/printed", "w+b") as printed:
        child = subprocess.Popen([program, "compile", "--quiet", "a.plan", "a.code"], cwd=folder, stdout=printed,
                                 stderr=subprocess.STDOUT)
        _pid, _status, used = os.wait4(child.pid, 0)
        printed.seek(0)
        return 1000 * (used.ru_utime + used.ru_stime), used.ru_maxrss / 1024, printed.read().decode().strip()


def main():
    """Compiles each text."""
    program = sys.argv[1] if len(sys.argv) > 1 else str(TOP / "dabplan")
    most_time, most_memory = 0.0, 0.0
    with tempfile.TemporaryDirectory() as folder:
        for name, text in TEXTS.items():
            pathlib.Path(folder, "a.plan").write_text(HEAD + text, encoding="utf-8")
            runs = [compiled(program, folder) for _run in range(RUNS)]
            took, memory = min(run[0] for run in runs), max(run[1] for run in runs)
            most_time, most_memory = max(most_time, took), max(most_memory, memory)
            print(f"{took:7.1f} ms {memory:5.1f} MB  {name}: {runs[0][2]}", flush=True)
    print(f"the most: {most_time:.1f} ms, {most_memory:.1f} MB")
    sys.exit(most_time > MOST_MS or most_memory > MOST_MB)


if __name__ == "__main__":
    main()
