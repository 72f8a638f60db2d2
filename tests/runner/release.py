"""The proofs, the program that they build, and the released one."""
from __future__ import annotations

import hashlib
import pathlib
import re
import resource
import subprocess
import time
from typing import Dict

from jobs import TOP, Count, count_of


def proved() -> Count:
    """Runs 'rt ci', shows its output as it arrives, and returns how many passed and failed.

    The lines of rt itself are followed by the seconds elapsed."""
    last, start = "", time.monotonic()
    with subprocess.Popen(["rt", "ci"], cwd=TOP, stdout=subprocess.PIPE, text=True, errors="replace") as job:
        for last in job.stdout or ():
            when = f" ({time.monotonic() - start:.0f} s)" if last.startswith("rt: ") else ""
            print(last.rstrip("\n") + when, flush=True)
    largest = resource.getrusage(resource.RUSAGE_CHILDREN).ru_maxrss / 2**20
    print(f"the proofs took {time.monotonic() - start:.0f} s, the largest process {largest:.1f} GB")
    return count_of(["rt", "ci"], last, job.returncode)


def stated() -> Dict[str, str]:
    """The 'kit', 'sources' and 'program' of release/BUILT_FROM."""
    lines = (TOP / "release/BUILT_FROM").read_text(encoding="utf-8").splitlines()
    words = [line.partition(": ") for line in lines]
    return {key: value for key, _, value in words}


def sha256(path: pathlib.Path) -> str:
    """The SHA-256 of a file, in hexadecimal digits."""
    return hashlib.sha256(path.read_bytes()).hexdigest()


def test_release() -> Count:
    """Compares release/BUILT_FROM with the sources and the released program, and returns how many match and how many
    don't."""
    sources = subprocess.run(["release/make", "--sources"], cwd=TOP, check=True, capture_output=True, text=True)
    found = {"sources": sources.stdout.strip(), "program": sha256(TOP / "release/dabplan")}
    behind = [word for word, value in found.items() if stated().get(word) != value]
    for word in behind:
        print(f"release/BUILT_FROM: not the {word} that are here ({found[word]}): run release/make")
    return len(found) - len(behind), len(behind)


def test_built() -> Count:
    """Compares the program that 'rt ci' built with the released one; returns passed and failed."""
    kit = subprocess.run(["rt", "version"], capture_output=True, text=True).stdout.strip()
    if kit != stated().get("kit"):
        print(f"release/dabplan was built by {stated().get('kit')}, and is not compared with what {kit} built")
        return 0, 0
    built = TOP / "crates/dabplan/out/dabplan"
    if built.is_file() and built.read_bytes() == (TOP / "release/dabplan").read_bytes():
        return 1, 0
    print("release/dabplan is not the program that these sources give: run release/make")
    return 0, 1


def test_system() -> Count:
    """Compares the C library that README.md asks for with the newest one whose functions the released program names;
    returns passed and failed."""
    readme = (TOP / "README.md").read_text(encoding="utf-8")
    asked = re.findall(r"GNU C library (\d+)\.(\d+) or later", readme)
    named = re.findall(rb"GLIBC_(\d+)\.(\d+)", (TOP / "release/dabplan").read_bytes())
    wanted = max((int(major), int(minor)) for major, minor in named)
    found = [(int(major), int(minor)) for major, minor in asked]
    if found != [wanted]:
        print(f"README.md: the released program needs version {wanted} of the C library, not {found}")
    return int(found == [wanted]), int(found != [wanted])
