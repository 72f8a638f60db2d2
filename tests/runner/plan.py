"""What './test' runs: which parts there are, and the jobs of each."""
from __future__ import annotations

import functools
import pathlib
from typing import List, Optional, Set

import documents
import mutants
import release
from jobs import TOP, Job, counted, scripts

PARTS = ("documents", "cli", "faults", "mutants", "prove")
# The scripts of tests/faults/ that need only the program, and no prover, with their arguments.
FAULTS_WITHOUT_PROVER = [["live_runs.py"], ["operation.py"], ["limits.py"], ["damaged_files.py", "--program"],
                         ["failing_calls.py"], ["failing_files.py"], ["replaced_files.py"],
                         ["hints.py", "300401", "600"], ["facts.py", "300401", "400"],
                         ["event_texts.py", "300401", "400"], ["shipped_plans.py"], ["schedule_runs.py", "1", "300"],
                         ["schedule_hours.py", "20"], ["timelines.py", "1", "120"]]
FAULTS = [["live_runs.py"], ["operation.py"], ["limits.py"], ["damaged_files.py"], ["failing_calls.py"],
          ["failing_files.py"], ["replaced_files.py"], ["hints.py"], ["facts.py"], ["event_texts.py"],
          ["shipped_plans.py"], ["schedule_runs.py"], ["schedule_hours.py"], ["timelines.py"], ["refused_memory.py"]]


def jobs_at(path: pathlib.Path, only: Optional[str] = None) -> List[Job]:
    """The jobs of the scripts at a path."""
    return [functools.partial(counted, script, only=only) for script in scripts(path)]


def faults(parts: Set[str]) -> List[Job]:
    """The jobs of tests/faults/."""
    lines = FAULTS if "prove" in parts else FAULTS_WITHOUT_PROVER
    return [functools.partial(counted, TOP / "tests/faults" / words[0], *words[1:]) for words in lines]


def jobs_of(parts: Set[str]) -> List[Job]:
    """The jobs of these parts, which can run in parallel, the longest first; each returns a count."""
    everything = not parts - {"prove"}
    jobs: List[Job] = []
    if everything or "faults" in parts:
        jobs += faults(parts)
    if everything or "documents" in parts:
        jobs += [functools.partial(documents.test_document, name) for name in documents.SHOWN]
        jobs += [*documents.LINTS, release.test_system]
    if everything or "cli" in parts:
        jobs += jobs_at(TOP / "tests/cli")
    if everything:
        jobs.append(release.test_release)
    if "mutants" in parts:
        jobs.append(mutants.test_mutants)
    return jobs
