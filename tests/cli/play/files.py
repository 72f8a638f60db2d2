#!/usr/bin/env python3
"""'dabplan play': its count of frames, their bytes, and its refusals. The last line is 'N passed, M failed'."""
import rows
from codes import ADDED, NOTHING_CODE, RATES_CODE, REFUSED_CODE, code
from rows import hexadecimal

EVENTS = "frames 1 contact 3 closed contact 3 open contact 3 closed frames 39 contact 3 open frames 30"


def played(rows, file, events, options, status, wanted):
    """Playing a code file and an event file gives this output."""
    rows.answers(f"play x.code x.events x.fib {options}", status, wanted,
                 {"x.code": file, "x.events": events})


def has(rows, places):
    """Counts that the file of frames has these bytes from these frames and FIBs on."""
    made = rows.made("x.fib") or b""
    for frame, number, wanted in places:
        start = 96 * frame + 32 * number
        wanted = hexadecimal(wanted)
        rows.tally.same(f"frame {frame}, FIB {number}", wanted, made[start:start + len(wanted)])


def frames_are_counted(rows):
    """Events, a start late in the day and at the last count, and contacts that are closed at the start."""
    for file, events, options, count in (
        (RATES_CODE, EVENTS, "", 70),
        (RATES_CODE, "", "", 0),
        (NOTHING_CODE, "frames 3", "--count 4999 --day 3599999", 3),
        (RATES_CODE, "frames 2", "--contacts 0008", 2),
    ):
        played(rows, file, events, options, 0, f"played {count} frames\n")
        rows.tally.same("bytes of a frame", 96 * count, len(rows.made("x.fib") or b""))


def a_rate_by_a_contact(rows):
    """Two swaps: announced at the counts 4 and 40, made at 28 and 64."""
    played(rows, RATES_CODE, EVENTS, "", 0, "played 70 frames\n")
    has(rows, (
        (4, 0, "06 00 E1 C5 40 04 1C 05 01 04 00 88 60 06 02 C2 21 01 3F 06 05 81 04 00 88 48 FF"),
        (4, 1, "06 82 C2 21 01 3F 06 FF"),
        (28, 0, "05 00 E1 C5 00 1C"),
        (40, 0, "06 00 E1 C5 40 28 40"),
        (64, 0, "05 00 E1 C5 00 40"),
    ))


def a_first_programme(rows):
    """A swap in 24 frames from count 4990 on, and one at count 1000, almost 5,000 frames later."""
    for commit, count, frames, places in (
        ("in 24", 4990, 30, (
            (2, 0, "06 00 E1 C5 D3 F2 10 05 81 04 00 88 60 06 82 C2 21 01 3F 06 FF"),
            (26, 0, "05 00 E1 C5 00 10"),
        )),
        ("at 1000", 1000, 5001, (
            (4976, 0, "06 00 E1 C5 C3 E2 00"),
            (5000, 0, "05 00 E1 C5 04 00"),
        )),
    ):
        played(rows, code(f"{ADDED}, commit {commit}, join, end", "0 cost 5"), f"frames {frames}", f"--count {count}", 0, f"played {frames} frames\n")
        has(rows, places)


def faults_in_their_order(rows):
    """Only the line of a fault is printed: of the code first, then of the start, then of the events."""
    for file, events, options, wanted in (
        (b"", "@", "--count 5000", "code: Truncated\n"),
        (NOTHING_CODE, "@", "--count 5000 --day 3600000", "start: Count\n"),
        (NOTHING_CODE, "@", "--day 3600000", "start: Day\n"),
        (NOTHING_CODE, "frames 0 @", "", "events 1:10: Byte\n"),
        (NOTHING_CODE, "frames 0", "", "events 1:8: Number\n"),
        (NOTHING_CODE, "contact 3 shut", "", "events 1:11: Expected\n"),
        (REFUSED_CODE, "frames 1", "", "refused at 0 line 1: JoinIdle\n"),
    ):
        played(rows, file, events, options, 1, wanted)


def files_that_cannot_be_had(rows):
    """Files that don't exist or are not text, and one that can't be created; the first of them is reported."""
    files = {"x.code": b"DABP", "x.events": "frames 1", "no_text": b"\xff"}
    for line, wanted in (
        ("y.code x.events x.fib", "cannot read y.code\n"),
        ("x.code y.events x.fib", "cannot read y.events\n"),
        ("x.code no_text x.fib", "cannot read no_text\n"),
        ("x.code x.events y/x.fib", "cannot write y/x.fib\n"),
    ):
        rows.answers(f"play {line}", 1, wanted, files)
        rows.tally.same("no file is made", None, rows.made("x.fib"))


if __name__ == "__main__":
    rows.main([frames_are_counted, a_rate_by_a_contact, a_first_programme, faults_in_their_order,
               files_that_cannot_be_had])
