"""The edits of tests/mutants/: known bugs that the prover, or a test, must find."""
from __future__ import annotations

import os
import pathlib
import shutil
import subprocess
import tempfile
from concurrent.futures import ThreadPoolExecutor
from typing import List

from jobs import TOP, Count


def edits() -> List[pathlib.Path]:
    """All edits, in order."""
    return sorted((TOP / "tests/mutants").glob("*/*.edit"))


def values_of(edit: pathlib.Path, key: str) -> List[str]:
    """The texts of the lines of an edit that begin with this key, in order."""
    lines = edit.read_text(encoding="utf-8").splitlines()
    return [line[len(key) + 1:].removeprefix(" ") for line in lines if line.startswith(key + ":")]


def copy_for_mutants(top: pathlib.Path) -> None:
    """Copies the crates, with their build results, and replaces their must-fail edits by those of tests/mutants/ that
    the prover must reject."""
    subprocess.run(["git", "init", "-q", top], check=True)
    for name in ("crates.txt", "HANDLES"):
        shutil.copy2(TOP / name, top)
    shutil.copytree(TOP / "crates", top / "crates", ignore=shutil.ignore_patterns("must-fail", "incremental"))
    for edit in edits():
        if not values_of(edit, "test"):
            folder = top / "crates" / edit.parent.name / "must-fail"
            folder.mkdir(exist_ok=True)
            shutil.copy2(edit, folder)


def planted(text: str, edit: pathlib.Path) -> str:
    """A text with what an edit replaces; the text itself where something to replace does not stand there once."""
    changed = text
    for old, new in zip(values_of(edit, "old"), values_of(edit, "new")):
        changed = changed.replace(old, new) if changed.count(old) == 1 else text
    return changed


def is_found(top: pathlib.Path, edit: pathlib.Path, tester: str) -> bool:
    """Plants an edit, and returns whether the tests of a crate fail then."""
    path = top / "crates" / edit.parent.name / values_of(edit, "file")[0]
    text = path.read_text(encoding="utf-8")
    changed = planted(text, edit)
    path.write_text(changed, encoding="utf-8")
    done = subprocess.run(["rt", "test"], cwd=top / "crates" / tester, capture_output=True, text=True, errors="replace")
    path.write_text(text, encoding="utf-8")
    return changed != text and done.returncode != 0 and "test result: FAILED" in done.stdout


def test_found_mutants(top: pathlib.Path) -> Count:
    """Plants in turn each edit of tests/mutants/ that a test must find, runs the tests of the crate that it names, and
    returns how many fail there and how many not."""
    passed = failed = 0
    for edit in edits():
        for tester in values_of(edit, "test"):
            found = is_found(top, edit, tester)
            how = "found by a test, as it must be" if found else f"NOT FOUND by the tests of {tester}"
            print(f"{edit.parent.name}/{edit.name}: {how}", flush=True)
            passed, failed = passed + found, failed + (not found)
    return passed, failed


def test_mutants() -> Count:
    """Tests the edits of tests/mutants/, crates in parallel, and returns how many were rejected and how many not."""
    refused = [edit for edit in edits() if not values_of(edit, "test")]
    names = sorted({edit.parent.name for edit in refused})
    with tempfile.TemporaryDirectory() as folder:
        top = pathlib.Path(folder)
        copy_for_mutants(top)

        def tried(name: str) -> int:
            done = subprocess.run(["rt", "must-fail", name], cwd=top, capture_output=True, text=True, errors="replace")
            print(done.stdout, end="", flush=True)
            return done.stdout.count(": refused, as it must be")

        with ThreadPoolExecutor(len(os.sched_getaffinity(0))) as pool:
            passed = sum(pool.map(tried, names))
        found, missed = test_found_mutants(top)
    return passed + found, len(refused) - passed + missed
