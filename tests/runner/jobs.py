"""What the runner of the tests is made of: commands run, the counts in their last lines, and how far all is."""
from __future__ import annotations

import os
import pathlib
import re
import subprocess
import sys
import threading
import time
from typing import Callable, List, Optional, Sequence, Tuple

TOP = pathlib.Path(__file__).resolve().parents[2]
SECONDS = 7200
# How many passed, and how many failed.
Count = Tuple[int, int]
Job = Callable[[], Count]


def count_of(words: Sequence[str], last: str, status: int) -> Count:
    """How many passed and failed, from the last line of a command, which must be a count."""
    counts = re.fullmatch(r"(\d+) passed, (\d+) failed", last.strip())
    if counts is None:
        print(f"{' '.join(words)}: no count in its last line")
        return 0, 1
    passed, failed = int(counts[1]), int(counts[2])
    if status != 0 and failed == 0:
        print(f"{' '.join(words)}: exit status {status}")
        failed = 1
    return passed, failed


def scripts(path: pathlib.Path) -> List[pathlib.Path]:
    """The scripts at a path: that file, or all in that folder and below it."""
    return sorted(path.rglob("*.py")) if path.is_dir() else [path]


def python_of(script: str) -> List[str]:
    """The command that runs a script with this Python, such that no file beside the script hides a module of the
    library."""
    if sys.version_info >= (3, 11):
        return [sys.executable, "-P", script]
    without_folder = "import runpy, sys; del sys.argv[0], sys.path[0]; runpy.run_path(sys.argv[0], run_name='__main__')"
    return [sys.executable, "-c", without_folder, script]


def counted(path: pathlib.Path, *options: str, only: Optional[str] = None) -> Count:
    """Runs a script whose last line is a count, shows its output and how long it took, and returns the count. With
    `only`, those of its rows alone count whose name has that text."""
    start = time.monotonic()
    words = [str(path.relative_to(TOP)), *options]
    environment = os.environ | {"PYTHONPATH": str(TOP / "tests/lib")} | ({"ONLY_ROWS": only} if only else {})
    done = subprocess.run([*python_of(words[0]), *options], cwd=TOP, env=environment, stdin=subprocess.DEVNULL,
                          stdout=subprocess.PIPE, stderr=subprocess.STDOUT, text=True, errors="replace")
    print(f"== {' '.join(words)} ({time.monotonic() - start:.0f} s)\n{done.stdout}", end="", flush=True)
    passed, failed = count_of(words, (done.stdout.splitlines() or [""])[-1], done.returncode)
    if passed + failed == 0 and not only:
        print(f"{' '.join(words)}: it tests nothing")
        failed = 1
    return passed, failed


def run(command: str, folder: str) -> Tuple[Optional[List[str]], str]:
    """The standard output of a command, as lines, and its standard error."""
    try:
        done = subprocess.run(["bash", "-c", command], cwd=folder, stdin=subprocess.DEVNULL, capture_output=True,
                              text=True, errors="replace", timeout=SECONDS)
    except subprocess.TimeoutExpired:
        return None, f"no end after {SECONDS} s"
    return done.stdout.splitlines(), done.stderr


def told(where: str, passed: int, wrong: Sequence[str]) -> Count:
    """Prints what is wrong somewhere, a line each, and returns how many passed and how many are wrong."""
    for what in wrong:
        print(f"{where}: {what}")
    return passed, len(wrong)


class Progress:
    """Says on standard error, every ten seconds, how many jobs are done."""

    def __init__(self, count: int) -> None:
        self.count = count
        self.done = 0
        self.start = time.monotonic()
        self.ended = threading.Event()

    def __enter__(self) -> Progress:
        threading.Thread(target=self.say, daemon=True).start()
        return self

    def __exit__(self, *_: object) -> None:
        self.ended.set()

    def say(self) -> None:
        """Prints a line every ten seconds, until the end."""
        while not self.ended.wait(10):
            seconds = time.monotonic() - self.start
            print(f"./test: {self.done} of {self.count} parts done, {seconds:.0f} s", file=sys.stderr, flush=True)

    def run(self, job: Job) -> Count:
        """Runs a job, and returns its result."""
        result = job()
        self.done += 1
        return result
