#!/usr/bin/env python3
"""`dabplan-bridge run --compose` with DAB+: what dablin makes of swaps, of streams whose access units have numbers.
dablin is skipped, and it is said so, where it is not installed. The last line is 'N passed, M failed'."""
import pathlib
import shutil
import subprocess
import sys
import tempfile

import bridges
import composed
import dabplus
from bridges import common
from composed import entry

FRAMES = 1200
HEAD = "ensemble E1C5\nperiod 4 notice 24 budget 20 reserve 1\n"
SERVICES = "service C221\naudio 63 sub 1 in C221\nservice C222\naudio 63 sub 2 in C222\n"
# Each sub-channel with its kbit/s, and the counts modulo 5 at which its superframes begin.
DAY = ((entry(1, 0, "3-A", 128), 128, 2), (entry(2, 96, "3-A", 64), 64, 0))
NIGHT = ((entry(1, 0, "3-A", 64), 64, 0), (entry(2, 48, "3-A", 64), 64, 0), (entry(5, 96, "3-A", 64), 64, 4))
LABELS = [
    bridges.fib(head + text.ljust(16).encode().hex() + "E000")
    for head, text in (("3501C221", "One"), ("3501C222", "Two"), ("3500E1C5", "Both"))
]
# By night service C221 has another rate under its SubChId; or it is in a new sub-channel in the units that are free
# then. Service C222 moves.
RATE = ("rate sub 1 64\nmove sub 2 at 48\n", "move sub 2 at 96\nrate sub 1 128\n")
NEW = (
    "drop component sub 1 in C221\ndrop sub 1\nmove sub 2 at 0\nsub 5 at 48 eep 3-A 64\naudio 63 sub 5 in C221\n",
    "drop component sub 5 in C221\ndrop sub 5\nmove sub 2 at 96\nsub 1 at 0 eep 3-A 128\naudio 63 sub 1 in C221\n",
)
CHANGES = {"another rate in place": RATE, "a new sub-channel": NEW}
# Counts that 20 divides, and others that no superframe of the streams begins at.
ON, OFF = (400, 700, 1000), (404, 708, 1004)
# A gap of this many access units is four superframes.
LONG = 12


class Stand:
    """Two inputs, a bridge over them, and dablin behind it."""

    def __init__(self, folder):
        self.folder, self.program = pathlib.Path(folder), str(common.dabplan())

    def run(self, *words, **options):
        """Runs a program, which has to end well."""
        return subprocess.run(
            [str(word) for word in words], cwd=self.folder, check=True, capture_output=True, **options
        ).stdout

    def give(self, name, layout):
        """The stream of a multiplexer with labels."""
        common.write(
            self.folder, "own.plan", HEAD + "sub 1 at 0 eep 3-A 64\nsub 2 at 48 eep 3-A 64\n" + SERVICES + "begin\n"
        )
        common.write(self.folder, "own.events", f"frames {FRAMES}")
        self.run(self.program, "compile", "own.plan", "own.code")
        self.run(self.program, "play", "own.code", "own.events", "own.fib")
        fics = bridges.fics((self.folder / "own.fib").read_bytes())
        common.write(
            self.folder,
            name,
            b"".join(
                composed.edi(
                    count,
                    fics[count][:64] + LABELS[count % len(LABELS)],
                    [(each, dabplus.stream(kbits, count, first)) for each, kbits, first in layout],
                )
                for count in range(FRAMES)
            ),
        )

    def sent(self, change, counts, options):
        """Starts dablin on both services of what goes out with swaps at these counts, to the night and back: it plays
        in real time."""
        swaps = "".join(f"{change[number % 2]}commit at {count}\njoin\n" for number, count in enumerate(counts))
        common.write(
            self.folder,
            "x.plan",
            HEAD + "sub 1 at 0 eep 3-A 128\nsub 2 at 96 eep 3-A 64\n" + SERVICES + "begin\n" + swaps,
        )
        self.run(
            sys.executable,
            bridges.BRIDGE,
            "run",
            "x.plan",
            "--compose",
            "--in",
            "day=day",
            "--in",
            "night=night",
            "--out",
            "air",
            "--dabplan",
            self.program,
            *options,
        )
        found = []
        for sid in ("C221", "C222"):
            with open(self.folder / "air", "rb") as stream:
                found.append(
                    subprocess.Popen(
                        ["dablin", "-u", "-s", f"0x{sid}", "-f", "edi"],
                        stdin=stream,
                        stdout=subprocess.PIPE,
                        stderr=subprocess.DEVNULL,
                    )
                )
        (self.folder / "air").unlink()
        return found


def heard(jobs):
    """The numbers of the access units that dablin takes of both services."""
    return [dabplus.units_in(job.communicate(timeout=600)[0]) for job in jobs]


def gaps_of(units):
    """How many access units are missing at each place where some are."""
    return [later - earlier - 1 for earlier, later in zip(units, units[1:]) if later != earlier + 1]


def test(tally, folder):
    """Each change, at counts that 20 divides and at others, with streams as they are and aligned."""
    stand = Stand(folder)
    stand.give("day", DAY)
    stand.give("night", NIGHT)
    cases = [
        (options, name, change, counts)
        for options in ((), ("--align5",))
        for name, change in CHANGES.items()
        for counts in (ON, OFF)
    ]
    jobs = [stand.sent(change, counts, options) for options, _, change, counts in cases]
    for (options, name, change, counts), job in zip(cases, jobs):
        one, two = heard(job)
        what = f"{name}, swaps at {counts[0]}, {counts[1]} and {counts[2]}{' '.join(('', *options))}"
        gaps = gaps_of(one)
        print(
            f"{what}: {len(one)} access units, missing {gaps}; "
            f"of the service that moves {len(two)}, missing {gaps_of(two)}",
            flush=True,
        )
        tally.same(f"{what}: the service that moves", [], gaps_of(two))
        tally.hold(len(two) > 700, f"{what}: {len(two)} access units")
        if change is RATE:
            # Silent as long as the other rate lasts, 300 frames with 180 access units, and from the third swap on.
            tally.hold(len(gaps) == 1 and 170 <= gaps[0] <= 190 and one[-1] < 610, f"{what}: {gaps}, up to {one[-1]}")
        elif options and counts is ON:
            tally.same(what, [], gaps)
        else:
            tally.hold(
                len(gaps) <= 3 and all(gap < LONG and gap % dabplus.UNITS == 0 for gap in gaps) and len(one) > 690,
                f"{what}: {gaps}",
            )


def main():
    tally = common.Tally()
    if shutil.which("dablin") is None:
        print("skipped: DAB+ in a transmission that follows its plan: no dablin")
        tally.hold(len(dabplus.superframe(64, 7)) == 5 * 3 * 64, "a superframe has five frames")
        tally.end()
    with tempfile.TemporaryDirectory() as folder:
        test(tally, folder)
    tally.end()


if __name__ == "__main__":
    main()
