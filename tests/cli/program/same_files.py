#!/usr/bin/env python3
"""An input is never written over: outputs that are an input by another path, by a hard or a symbolic link; and a file that can't be
written whole stays as it was. The last line is 'N passed, M failed'."""
import os
import pathlib
import resource
import signal
import subprocess

import rows
from rows import NOTHING, NOTHING_FILE, common, hexadecimal

EVENTS = "frames 1"
CODE = hexadecimal(NOTHING_FILE)
# FIG 0/0 of ensemble E1C5 at count 0, and an end marker; an empty FIB (EN 300 401 clauses 5.2 and 6.4).
FRAME = (hexadecimal("0500E1C50000FF" + "00" * 23 + "47F0") + 2 * hexadecimal("FF" + "00" * 29 + "A8A8"))


def lay(rows, files):
    """A folder with exactly these files and links: a link is given as its kind and the name of what it leads to."""
    folder = pathlib.Path(rows.folder)
    for path in folder.iterdir():
        path.unlink()
    for name, content in files.items():
        if isinstance(content, tuple):
            kind, target = content
            (os.link if kind == "hard" else os.symlink)(folder / target if kind == "hard" else target, folder / name)
        else:
            common.write(folder, name, content)


def ends(rows, words, **options):
    """Runs the program in the folder, and returns its status, output and messages."""
    ended = subprocess.run([str(rows.program), *words], cwd=rows.folder, capture_output=True, check=False, **options)
    return ended.returncode, ended.stdout, ended.stderr


def kept(rows, words, files, one, other):
    """A command line is a mistake, whose line names both paths, and no file is changed, made or removed."""
    lay(rows, files)
    folder = pathlib.Path(rows.folder)
    before = {path.name: path.read_bytes() for path in folder.iterdir()}
    wanted = f"error: {one} and {other} are the same file\n".encode()
    found = ends(rows, words)
    rows.tally.same(words, (2, wanted), (found[0], found[1] + found[2]))
    rows.tally.same(f"{words}: files", before, {path.name: path.read_bytes() for path in folder.iterdir()})


def inputs(rows):
    """Each input of each command that writes a file."""
    for other in ("./v", "{folder}/v", "hard", "soft"):
        path = other.format(folder=rows.folder)
        link = {"hard": ("hard", "v"), "soft": ("soft", "v")}
        links = {other: link[other]} if other in link else {}
        script, code, events = ({"v": text} for text in (NOTHING, CODE, EVENTS))
        kept(rows, ["compile", "v", path], script | links, "v", path)
        kept(rows, ["map", "v", "--svg", path], script | links, "v", path)
        kept(rows, ["play", path, "e", "v"], code | {"e": EVENTS} | links, path, "v")
        kept(rows, ["play", "c", "v", path], events | {"c": CODE} | links, "v", path)


def may_be_one(rows):
    """Devices may be named twice, and files with the same bytes are two."""
    lay(rows, {"c": CODE, "v": NOTHING, "w": NOTHING})
    rows.tally.same("/dev/null twice", (0, b"played 0 frames\n", b""), ends(rows, ["play", "c", "/dev/null", "/dev/null"]))
    rows.tally.same("a copy", (0, b"instructions 1 labels 1 configurations 1\n", b""), ends(rows, ["compile", "v", "w"]))
    rows.tally.same("its code", CODE, rows.made("w"))
    rows.tally.same("to a device", (0, b"instructions 1 labels 1 configurations 1\n", b""), ends(rows, ["compile", "v", "/dev/null"]))


def replaced(rows):
    """A file that is written over keeps its permissions, and a link its place; nothing else is left in the folder."""
    lay(rows, {"v": NOTHING, "w": b"before", "l": ("soft", "w")})
    path = pathlib.Path(rows.folder, "w")
    path.chmod(0o640)
    file = path.stat().st_ino
    rows.tally.same("compile", 0, ends(rows, ["compile", "v", "l"])[0])
    rows.tally.same("permissions, and the file itself", (0o640, file), (path.stat().st_mode & 0o777, path.stat().st_ino))
    rows.tally.same("files", {"l", "v", "w"}, {entry.name for entry in pathlib.Path(rows.folder).iterdir()})
    rows.tally.same("the link", "w", os.readlink(pathlib.Path(rows.folder, "l")))
    rows.tally.same("behind it", CODE, path.read_bytes())
    lay(rows, {"v": NOTHING, "w.0.new": b"another's"})
    rows.tally.same("compile", 0, ends(rows, ["compile", "v", "w"])[0])
    rows.tally.same("another's file", (CODE, b"another's"), (rows.made("w"), rows.made("w.0.new")))


def unwritten(rows):
    """A file that can't be written whole is as it was."""
    def limit():
        signal.signal(signal.SIGXFSZ, signal.SIG_IGN)
        resource.setrlimit(resource.RLIMIT_FSIZE, (10, 10))

    for words in (["compile", "v", "w"], ["map", "v", "--svg", "w"]):
        for files in ({"v": NOTHING, "w": b"before"}, {"v": NOTHING}):
            lay(rows, files)
            found = ends(rows, words, preexec_fn=limit)
            rows.tally.same(f"{words}: no room", (1, b"cannot write w\n", b"w: error: File too large\n"), found)
            rows.tally.same(f"{words}: files", set(files), {entry.name for entry in pathlib.Path(rows.folder).iterdir()})
            rows.tally.same(f"{words}: w", files.get("w"), rows.made("w"))
    lay(rows, {"c": CODE, "e": "frames 0", "w": b"before"})
    explained = b"e:1:8: error: expected a number of frames, 1 to 3600000; found '0'\n    frames 0\n           ^\n"
    rows.tally.same("a refused play", (1, b"events 1:8: Number\n", explained), ends(rows, ["play", "c", "e", "w"]))
    rows.tally.same("its OUT", b"before", rows.made("w"))


def drawings(rows):
    """A drawing is no product of standard output."""
    rows.answers("map v --svg -", 2, "error: invalid value '-' for '--svg <OUT>': standard output has the map\n", {"v": NOTHING})
    rows.tally.same("no file is made", None, rows.made("-"))


def no_input(rows):
    """A standard input that is closed can't be read, whatever file is opened in its place."""
    lay(rows, {"p": FRAME})
    found = ends(rows, ["merge", "p", "-"], preexec_fn=lambda: os.close(0))
    rows.tally.same("merge", (1, b"", b"cannot read -\n"), found)
    rows.tally.same("listen", (1, b"cannot read -\n", b""), ends(rows, ["listen", "-"], preexec_fn=lambda: os.close(0)))


if __name__ == "__main__":
    rows.main([inputs, may_be_one, replaced, unwritten, drawings, no_input])
