#!/usr/bin/env python3
"""Standard input, which `-` names, as the script of `compile` and `map` and the code of `verify`. The last line is 'N passed, M
failed'."""
import pathlib

import rows
from rows import NOTHING, NOTHING_FILE, common, hexadecimal

CODE = hexadecimal(NOTHING_FILE)
COUNTS = b"instructions 1 labels 1 configurations 1\n"
REFUSED = NOTHING + "\njoin\n"
ERROR = b"-:2: error: no swap is pending here, so that there is none to wait for"


def accepted(rows):
    """What comes of a script or a code is that of a file with the same bytes."""
    ended = rows.run("compile - o", stdin=NOTHING.encode())
    rows.tally.same("compile - o", (0, COUNTS, b"", CODE), (*ended.lines(), ended.messages, rows.made("o")))
    ended = rows.run("compile - -", stdin=NOTHING.encode())
    rows.tally.same("compile - -", (0, CODE, COUNTS), (*ended.lines(), ended.messages))
    rows.tally.same("verify -", (0, b"accepted\n"), rows.run("verify -", stdin=CODE).lines())
    of_file = rows.run("map s", {"s": NOTHING}).lines()
    rows.tally.same("map -", (0, of_file), (of_file[0], rows.run("map -", stdin=NOTHING.encode()).lines()))
    ended = rows.run("map - --svg o", stdin=NOTHING.encode())
    rows.tally.hold(ended.lines() == of_file and rows.made("o").startswith(b"<svg"), f"map - --svg o: {ended.lines()}")


def refused(rows):
    """A refusal names it `-`; no file is made of it."""
    for line in ("compile - o", "map -"):
        ended = rows.run(line, stdin=REFUSED.encode())
        rows.tally.same(line, (1, b"refused line 2: JoinIdle\n"), ended.lines())
        rows.tally.hold(ended.messages.startswith(ERROR), f"{line}: {ended.messages}")
        rows.tally.hold(not pathlib.Path(rows.folder, "o").exists(), f"{line} makes no file")
    rows.tally.same("verify -", (1, b"code: Trailing\n"), rows.run("verify -", stdin=CODE + b"x").lines())
    for line, stdin in (("compile - o", b"\xff"), ("map -", b"\xff")):
        rows.tally.same(f"{line}, no text", (1, b"cannot read -\n"), rows.run(line, stdin=stdin).lines())


def files(rows):
    """A file named `-` is `./-`; and the file behind standard input is not written over."""
    rows.tally.same("verify ./-", (0, b"accepted\n"), rows.run("verify ./-", {"-": CODE}, stdin=b"x").lines())
    rows.tally.same("verify -", (1, b"code: Magic\n"), rows.run("verify -", {"-": CODE}, stdin=b"another").lines())
    shell = ["bash", "-c", f"'{rows.program}' compile - v <v"]
    rows.run("--version", {"v": NOTHING})
    ended = common.run(shell, rows.folder)
    wanted = (2, b"", b"error: /dev/stdin and v are the same file\n", NOTHING.encode())
    rows.tally.same("compile - v <v", wanted, (*ended.lines(), ended.messages, rows.made("v")))
    ended = common.run(["bash", "-c", f"'{rows.program}' compile - o <&-"], rows.folder)
    rows.tally.same("compile - o <&-", (1, b"cannot read -\n"), ended.lines())


if __name__ == "__main__":
    rows.main([accepted, refused, files])
