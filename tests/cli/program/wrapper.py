#!/usr/bin/env python3
"""'dabplan' at the top, 'release/make --program' and 'release/install', in a small repository whose program prints its arguments:
which program they find, from which folder and through which path, and what they leave. The last line is 'N passed, M failed'."""
import hashlib
import os
import pathlib
import shutil
import subprocess
import tempfile

import common

SOURCES = {"crates.txt": "# crates\ndabplan: low\nlow: thiserror\nother: low\n", "crates/dabplan/src/main.rt": "fn main() {}\n",
           "crates/low/src/lib.rt": "//! Low.\n", "crates/low/specs/Lib.antt": "", "crates/other/src/lib.rt": "//! Not of the program.\n"}
OF_PROGRAM = [name for name in SOURCES if "other" not in name and "specs" not in name]
RELEASED = "#!/bin/sh\necho released \"$@\"\n"
OWN = "#!/bin/sh\necho own \"$@\"\n"
# No prover is on this path.
PATH = "/usr/bin:/bin"
NOT_BUILT = "dabplan: release/dabplan was not built from these sources, and there is no rt to build the program with\n"


def sum_of(text):
    """The SHA-256 of a text, in hexadecimal digits."""
    return hashlib.sha256(text.encode()).hexdigest()


def sources_of(top):
    """The sum of the sources: of the lines that sha256sum prints of them."""
    return sum_of("".join(f"{sum_of((top / name).read_text())}  {name}\n" for name in sorted(OF_PROGRAM)))


def executable(path, text):
    """Writes a program."""
    path.parent.mkdir(parents=True, exist_ok=True)
    path.write_text(text)
    path.chmod(0o755)


def repository(top):
    """Makes a repository whose released program was built from its sources."""
    for name, text in SOURCES.items():
        path = top / name
        path.parent.mkdir(parents=True, exist_ok=True)
        path.write_text(text)
    shutil.copy(common.TOP / "dabplan", top)
    (top / "release").mkdir()
    for name in ("sources.sh", "make", "install"):
        shutil.copy(common.TOP / "release" / name, top / "release")
    executable(top / "release/dabplan", RELEASED)
    (top / "release/BUILT_FROM").write_text(f"kit: none\nsources: {sources_of(top)}\nprogram: {sum_of(RELEASED)}\n")
    return top


def run(words, folder, **environment):
    """Runs a command in a folder, without a prover on the path, and returns its status, output and messages."""
    ended = subprocess.run([str(word) for word in words], cwd=folder, env=os.environ | {"PATH": PATH} | environment,
                           stdin=subprocess.DEVNULL, capture_output=True, text=True, errors="replace", check=False)
    return ended.returncode, ended.stdout, ended.stderr


def paths(tally, folder):
    """By a relative path, from other folders, through links, and where CDPATH has such a folder."""
    wanted = (0, "released a b\n", "")
    for place in ("fresh", "with a blank", "with\nline feed"):
        top = repository(folder / place)
        (top / "examples").mkdir()
        (folder / "link").unlink(missing_ok=True)
        (folder / "link").symlink_to(pathlib.Path(place) / "dabplan")
        tally.same(f"{place}: a relative path, first", wanted, run([f"{place}/dabplan", "a", "b"], folder))
        for words, where in (([f"{place}/dabplan"], folder), (["./dabplan"], top), (["../dabplan"], top / "examples"),
                             (["bash", "dabplan"], top), ([top / "dabplan"], folder), (["./link"], folder), ([folder / "link"], top)):
            tally.same(f"{place}: {words}", wanted, run([*words, "a", "b"], where))
        tally.same(f"{place}: with CDPATH", wanted, run([f"{place}/dabplan", "a", "b"], folder, CDPATH=f"{top}:{folder}"))
        tally.same(f"{place}: its path", (0, f"{top}/release/dabplan\n", ""), run([f"{place}/release/make", "--program"], folder))
        tally.same(f"{place}: its sources", (0, f"{sources_of(top)}\n", ""), run([f"{place}/release/make", "--sources"], folder))


def unwritable(tally, folder):
    """Where neither the repository nor TMPDIR takes a file, the program runs, and the user's folder stays as it was."""
    top = repository(folder / "read-only")
    (top / "out").write_text("no folder")
    user = folder / "user"
    user.mkdir()
    (user / ".sum").write_text("the user's")
    for _ in range(2):
        tally.same("read-only", (0, "released\n", ""), run([top / "dabplan"], user, TMPDIR=f"{folder}/none", HOME=str(user)))
    tally.same("the user's folder", [(".sum", "the user's")], [(path.name, path.read_text()) for path in user.iterdir()])


def changed(tally, folder):
    """A source that is changed, and copies of that: none runs a program that other sources gave; put back, it is found again."""
    top = repository(folder / "changed")
    source = top / "crates/low/src/lib.rt"
    tally.same("as released", "released\n", run(["./dabplan"], top)[1])
    source.write_text("//! Another.\n")
    refused = (1, "", NOT_BUILT)
    tally.same("changed", refused, run(["./dabplan"], top))
    for kind, words in (("copied", ["cp", "-r"]), ("copied with times", ["cp", "-a"])):
        subprocess.run([*words, top, folder / kind], check=True)
        tally.same(kind, refused, run([f"{kind}/dabplan"], folder))
    source.write_text(SOURCES["crates/low/src/lib.rt"])
    tally.same("put back", "released\n", run(["./dabplan"], top)[1])
    (top / "crates/other/src/lib.rt").write_text("//! Changed.\n")
    tally.same("a crate that is no part of it", "released\n", run(["./dabplan"], top)[1])
    (top / "crates/low/specs/Lib.antt").write_text("-- Changed.\n")
    tally.same("a definition", "released\n", run(["./dabplan"], top)[1])
    executable(top / "release/dabplan", RELEASED + "# changed\n")
    tally.same("another released program", refused, run(["./dabplan"], top))


def own(tally, folder):
    """A program of one's own is run where it was made of these sources, whatever the times of files say."""
    top = repository(folder / "own")
    built = top / "crates/dabplan/out/dabplan"
    executable(built, OWN)
    tally.same("of unknown sources", "released\n", run(["./dabplan"], top)[1])
    (top / "crates/low/src/lib.rt").write_text("//! Another.\n")
    pathlib.Path(f"{built}.sources").write_text(f"{sources_of(top)}\n")
    tally.same("of these sources", (0, "own x\n", ""), run(["./dabplan", "x"], top))
    subprocess.run(["cp", "-r", top, folder / "copied own"], check=True)
    tally.same("copied", (0, "own x\n", ""), run(["copied own/dabplan", "x"], folder))
    (top / "crates/low/src/lib.rt").write_text("//! A third one.\n")
    os.utime(built)
    tally.same("newer, of other sources", (1, "", NOT_BUILT), run(["./dabplan"], top))


def main():
    """Runs all of it, each part in a folder of its own."""
    tally = common.Tally()
    for part in (paths, unwritable, changed, own):
        with tempfile.TemporaryDirectory() as folder:
            part(tally, pathlib.Path(folder).resolve())
    tally.end()


if __name__ == "__main__":
    main()
