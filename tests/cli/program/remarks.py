#!/usr/bin/env python3
"""What standard error says besides of a file that can't be read or written, or that is of another kind than the command wants. The
last line is 'N passed, M failed'."""
import os
import pathlib
import shutil
import subprocess

import rows
from rows import NOTHING, NOTHING_FILE, RATES_FILE, REFUSED_FILE, hexadecimal
from streams import fib

CODE = hexadecimal(NOTHING_FILE)
FIBS = fib("05 00 E1 C5 00 00 FF")
# A frame of ETI (NI) begins with its error field and FSYNC, 073AB6 or F8C549 in turn.
ETI = [b"\xff\x07\x3a\xb6" + bytes(60), b"\xff\xf8\xc5\x49" + bytes(60)]
# An AF packet of EDI begins with 'AF', its length, number and version, and 'T' for tags.
EDI = b"AF\x00\x00\x00\x34\x00\x01\x90T*ptr" + bytes(60)


def remarks(rows, line, printed, remark, files):
    """A command ends with status 1; its line is on standard output, or on standard error where that has a product; the remark is
    on standard error."""
    ended = rows.run(line, files)
    rows.tally.same(line, 1, ended.status)
    rows.tally.hold(printed in ended.printed + ended.messages, f"{line}: {ended.printed} {ended.messages}")
    rows.tally.hold(remark.encode() in ended.messages.splitlines(), f"{line}: {ended.messages}")


def unread(rows):
    """No such file, a folder, and a path through a file."""
    missing = "none: error: No such file or directory"
    for line in ("compile none o", "verify none", "map none", "frame none --script --count 0", "listen none --script",
                 "diff none none"):
        remarks(rows, line, b"cannot read none\n", missing, {})
    for line in ("listen none", "check none", "listen none --json", "check none --json", "timeline none e", "debug none e"):
        remarks(rows, line, b"cannot read none", missing, {})
        ended = rows.run(line)
        rows.tally.same(f"{line}, and nothing else", missing.encode() + b"\n", ended.messages)
    for line in ("merge none p", "merge p none", "live none"):
        ended = rows.run(line, {"p": FIBS * 3})
        rows.tally.same(line, (1, b"", f"cannot read none\n{missing}\n".encode()), (*ended.lines(), ended.messages))
    ended = rows.run("live none --json")
    rows.tally.same("live none --json has objects alone", b'{"kind":"refused","cause":"cannot read none"}\n', ended.messages)
    for line in ("listen /", "check /", "merge / p", "merge p /", "live /", "verify /", "timeline / e", "listen / --script"):
        remarks(rows, line, b"cannot read /", "/: error: Is a directory", {"p": FIBS * 3})
    for line in ("listen c/x", "check c/x", "merge c/x c", "live c/x"):
        remarks(rows, line, b"cannot read c/x", "c/x: error: Not a directory", {"c": CODE})
    long = "n" * 256
    remarks(rows, f"listen {long}", b"cannot read ", f"{long}: error: File name too long", {})
    remarks(rows, "play c e o", b"cannot read e\n", "e: error: No such file or directory", {"c": CODE})
    remarks(rows, "compile / o", b"cannot read /\n", "/: error: Is a directory", {})
    remarks(rows, "compile c/x o", b"cannot read c/x\n", "c/x: error: Not a directory", {"c": CODE})


def unwritten(rows):
    """An output that is a folder, in no folder, behind a file, full, or that may not be written; said by each command that writes."""
    files = {"s": NOTHING, "c": CODE, "e": "frames 1", "f": "a file"}
    for line in ("compile s {}", "compile s {} --from s", "map s --svg {}", "timeline c e --svg {}", "timeline s e --svg {}", "play c e {}"):
        for out, why in (("/", "Is a directory"), ("/tmp", "Is a directory"), ("none/o", "No such file or directory"),
                         ("f/o", "Not a directory"), ("n" * 256, "File name too long"), ("/proc/version/o", "Not a directory")):
            remarks(rows, line.format(out), f"cannot write {out}\n".encode(), f"{out}: error: {why}", files)
    for line in ("compile s /dev/full", "map s --svg /dev/full", "timeline c e --svg /dev/full"):
        remarks(rows, line, b"cannot write /dev/full\n", "/dev/full: error: No space left on device", files)
    remarks(rows, "play c bad none/o", b"cannot write none/o\n", "none/o: error: No such file or directory", files | {"bad": "frames 0"})
    ended = rows.run("compile s -", files)
    rows.tally.same("standard output has no remark", (0, b"instructions 1 labels 1 configurations 1\n"), (ended.status, ended.messages))


def unpermitted(rows):
    """Files without permission, for somebody who is not root."""
    if os.geteuid() != 0:
        return
    folder = pathlib.Path(rows.folder)
    rows.run("help", {"s": NOTHING, "p": FIBS * 3, "o": "another's"})
    folder.chmod(0o755)
    shutil.copy(rows.program, folder / "dabplan")
    for name, mode in (("s", 0o644), ("p", 0o600), ("o", 0o644), ("dabplan", 0o755)):
        (folder / name).chmod(mode)
    for words, said in ((["listen", "p"], "cannot read p"), (["check", "p"], "cannot read p"), (["merge", "p", "p"], "cannot read p"),
                        (["compile", "s", "o"], "cannot write o"), (["compile", "s", "new"], "cannot write new"),
                        (["map", "s", "--svg", "o"], "cannot write o")):
        done = subprocess.run([folder / "dabplan", *words], cwd=folder, capture_output=True, check=False, user=65534, group=65534)
        remark = f"{said.split()[-1]}: error: Permission denied".encode()
        rows.tally.hold(done.returncode == 1 and said.encode() in done.stdout + done.stderr and remark in done.stderr.splitlines(),
                        f"{words}: {done}")
    rows.tally.same("what is another's", b"another's", rows.made("o"))


def no_text(rows):
    """A byte that is no UTF-8, with its line and column."""
    remarks(rows, "compile s o", b"cannot read s\n", "s:2:4: error: the byte E9 is no UTF-8", {"s": b"ensemble E1C5\n  p\xe9riod\n"})
    remarks(rows, "compile s o", b"cannot read s\n", "s:1:1: error: the byte FF is no UTF-8", {"s": b"\xff"})
    remarks(rows, "diff s s", b"cannot read s\n", "s:1:3: error: the byte C3 is no UTF-8", {"s": b"# \xc3("})


def other_kinds(rows):
    """Files of another kind than the command wants."""
    for line in ("compile s o", "map s", "frame s --script --count 0"):
        remarks(rows, line, b"", "s: error: this is a code file: its script is wanted", {"s": CODE})
        remarks(rows, line, b"", "s: error: these are FIBs", {"s": FIBS})
        for eti in ETI:
            remarks(rows, line, b"", "s: error: this is ETI", {"s": eti})
        remarks(rows, line, b"", "s: error: this is EDI", {"s": EDI})
    script = f"# a comment\n\n  {NOTHING}"
    for line in ("verify s", "play s e o", "debug s e"):
        remarks(rows, line, b"code: ", "s: error: this is a script: compile it first", {"s": script, "e": "frames 1" if "play" in line else "run 1"})
        remarks(rows, line, b"code: ", "s: error: these are FIBs", {"s": FIBS, "e": "frames 1" if "play" in line else "run 1"})
    remarks(rows, "frame s --ensemble E1C5 --count 0", b"record: ", "s: error: this is a script: with --script", {"s": NOTHING})
    remarks(rows, "frame s --ensemble E1C5 --count 0", b"record: ", "s: error: this is a code file", {"s": CODE})


def live_of_a_script(rows):
    """`live` with a script for a code says so behind its line, but not among objects of JSON."""
    said = "s: error: this is a script: compile it first"
    remarks(rows, "live s", b"code: Magic", said, {"s": NOTHING})
    remarks(rows, "live s", b"code: Magic", "s: error: these are FIBs", {"s": FIBS})
    ended = rows.run("live s --json", {"s": NOTHING})
    rows.tally.same("live s --json", (1, b'{"kind":"refused","cause":"code: Magic"}\n'), (ended.status, ended.messages))
    ended = rows.run("live c", {"c": hexadecimal(REFUSED_FILE)})
    rows.tally.same("live of a code that is refused", (1, b"refused at 0 line 1: JoinIdle\n"), (ended.status, ended.messages))


def exchanged(rows):
    """A code where events or commands are wanted: of which file it is said what it is."""
    said = "c: error: this is a code file: it stands first, events and commands behind it"
    code = hexadecimal(RATES_FILE)
    for line, items in (("play e c o", "frames 1"), ("debug e c", "run 1"), ("timeline c c", "frames 1")):
        remarks(rows, line, b"", said, {"e": items, "c": code})
    remarks(rows, "play e c o", b"cannot read c\n", "c: error: this is a code file: it stands first, events and commands behind it",
            {"e": "frames 1", "c": code + b"\xff"})
    remarks(rows, "play c s o", b"events 1:1: Expected\n", "s: error: this is a script: events and commands are wanted",
            {"c": CODE, "s": NOTHING})


def nothing_said(rows):
    """Of a file of the right kind, and of an unknown one, nothing more is said."""
    for line, files in (("verify c", {"c": CODE[:-1]}), ("compile s o --quiet", {"s": NOTHING + " join"}), ("verify c", {"c": "x"})):
        ended = rows.run(line, files)
        rows.tally.same(line, (1, b""), (ended.status, ended.messages))


def nothing_false(rows):
    """Of a pipe, of which what was read is gone, nothing is said by what comes behind it."""
    events = b"\xff\n" + 20_000 * b"frames 1\n" + b"\xe9\n"
    ended = rows.run("play c /dev/stdin o", {"c": CODE}, stdin=events)
    rows.tally.same("play c /dev/stdin o", (1, b"cannot read /dev/stdin\n", b""), (*ended.lines(), ended.messages))
    ended = rows.run("verify /dev/stdin", stdin=b"x" * 70_000 + CODE)
    rows.tally.same("verify /dev/stdin", (1, b"code: Magic\n", b""), (*ended.lines(), ended.messages))


if __name__ == "__main__":
    rows.main([unread, unwritten, unpermitted, no_text, other_kinds, live_of_a_script, exchanged, nothing_said, nothing_false])
