#!/usr/bin/env python3
"""'dabplan play' and 'dabplan debug': event files and command files: each fault at its position, and files that are not text. The
last line is 'N passed, M failed'."""
import rows
from codes import ADDED, NOTHING_CODE, RATES_CODE, code


def event_files(rows):
    """Steps, and their number of frames; blanks, comments and line ends between them do not matter."""
    for text, frames in (
        ("", 0), (" \t; # frames 1\n", 0), ("frames 1", 1), ("frames 2 frames 2", 4), ("frames 3600000\n", 3_600_000),
        ("frames 1 contact 3 closed contact 3 open contact 3 closed frames 39", 40),
        ("contact 0 open;contact 15 closed#then\nframes\n\n70", 70), ("# \0 \u00e4 @\nframes 1", 1),
    ):
        rows.answers("play x.code x.events /dev/null", 0, f"played {frames} frames\n",
                     {"x.code": NOTHING_CODE, "x.events": text})


def faults_of_event_files(rows):
    """The first fault, at its position; an invalid byte anywhere takes precedence, and an incomplete step is at the end."""
    for text, wanted in (
        ("@", "1:1: Byte"), ("frames 0 @", "1:10: Byte"), ("frames 1\nfr\u00e4mes", "2:3: Byte"), ("frames 0", "1:8: Number"),
        ("frames 3600001", "1:8: Number"), ("frames 01", "1:8: Number"), ("frames 4294967296", "1:8: Number"),
        ("frames\nclosed", "2:1: Number"), ("contact 16 open", "1:9: Number"), ("contact C open", "1:9: Number"),
        ("contact 3 shut", "1:11: Expected"), ("contact { open", "1:9: Expected"), ("contact 3 }", "1:11: Expected"),
        ("frames 1 1", "1:10: Expected"), ("wait 1", "1:1: Expected"), ("frames", "1:7: Expected"),
        ("frames # how many\n", "2:1: Expected"), ("contact 3 \n ", "2:2: Expected"),
        ("framesframesframesframesframesframes 1", "1:1: Expected"), ("\0\0\0", "1:1: Byte"), ("#\r\n@", "2:1: Byte"),
        ("a\u20acb\u20ac", "1:2: Byte"), ("frames 1 \0\0\0", "1:10: Byte"), ("{ } : _ - ; \t ~ ~", "1:15: Byte"),
        ("\0" * 200_000, "1:1: Byte"), (" " * 65_534 + "#\u20ac\nframes 1 @ @", "2:10: Byte"),
        ("frames 0 @ # \u00e4", "1:10: Byte"), ("\U0001f600\U0001f600", "1:1: Byte"),
    ):
        rows.answers("play x.code x.events x.fib", 1, f"events {wanted}\n",
                     {"x.code": NOTHING_CODE, "x.events": text})
        rows.tally.same("no frame is written", b"", rows.made("x.fib"))


def faults_of_command_files(rows):
    """The same for commands."""
    for text, wanted in (
        ("run 0 @", "1:7: Byte"), ("run 0", "1:5: Number"), ("run 3600001", "1:5: Number"), ("run 01", "1:5: Number"),
        ("next\nbreak 0", "2:7: Number"), ("break 65536", "1:7: Number"), ("break next", "1:7: Number"),
        ("break }", "1:7: Expected"), ("contact 16 open", "1:9: Number"), ("contact 3 shut", "1:11: Expected"),
        ("frames 1", "1:1: Expected"), ("next 1", "1:6: Expected"), ("show show9", "1:6: Expected"),
        ("clear {", "1:7: Expected"),
        ("run", "1:4: Expected"), ("run # how many\n", "2:1: Expected"), ("run\n\n  1 2 3 \u00e4 run 1", "3:9: Byte"),
    ):
        rows.answers("debug x.code x.commands", 1, f"commands {wanted}\n",
                     {"x.code": NOTHING_CODE, "x.commands": text})


def command_files(rows):
    """Commands at the limits of their numbers, each with its line; none for an empty text."""
    for text, frames in (
        ("", ()), (" \t; # run 1\n", ()), ("run 1\nrun 3600000", (1, 3_600_000)),
        ("break 1;break 65535#then\nclear", (0, 0, 0)),
        ("contact 0 open contact 15 closed", (0, 0)), ("break 9 run 100 contact 3 closed run 2 next show", (0, 1, 0, 2, 26, 0)),
    ):
        printed = rows.run("debug x.code x.commands", {"x.code": RATES_CODE, "x.commands": text}).printed.decode()
        found = [int(line.split()[1]) for line in printed.splitlines() if line.startswith("frames")]
        rows.tally.same(text, list(frames), found)


def texts_that_are_none(rows):
    """Bytes that are not UTF-8, in any position: before an invalid byte, after it, in a comment and at the end."""
    for text in (
        b"\xff", b"\x80", b"frames 1 # \x80\n", b"frames 1 # \xc3", b"# \xe2\x82", b"# \xe2\x82 ", b"\xf0\x9f\x98",
        b"\xf0\x9f\x98\x80\x80", b"\xc0\x80", b"\xed\xa0\x80", b"\xf4\x90\x80\x80", b"@ \x80", b"\0\0\xc3",
        b"@@@@@ \xff\xff\xff\xff",
    ):
        files = {"x.code": NOTHING_CODE, "x.text": text}
        rows.answers("play x.code x.text x.fib", 1, "cannot read x.text\n", files)
        rows.tally.same("no file is made", None, rows.made("x.fib"))
        rows.answers("debug x.code x.text", 1, "cannot read x.text\n", files)


def refused_codes_come_first(rows):
    """A label that costs too little or more than the budget; nothing is written."""
    edits = f"{ADDED}, commit in 24, join, end"
    for cost, options, wanted in (
        (4, "", "refused at 4 line 5: Cost\n"), (21, "--count 5000 --day 3600000", "refused at 0 line 1: Cost\n"),
        (5, "", "events 1:1: Byte\n"),
    ):
        rows.answers(f"play x.code x.events x.fib {options}", 1, wanted,
                     {"x.code": code(edits, f"0 cost {cost}"), "x.events": "@"})
        rows.tally.same("nothing is written", b"", rows.made("x.fib"))


if __name__ == "__main__":
    rows.main([event_files, faults_of_event_files, command_files, faults_of_command_files, texts_that_are_none,
               refused_codes_come_first])
