"""Copies of code files beside a log: a plan that was compiled here, or that took the place of another one, goes on by
its log whatever has become of the script or the code file since."""
from __future__ import annotations

import contextlib
import os
from typing import Optional

from .faults import Trouble, reason_of, say
from .past import Past
from .plan import Plan, bytes_of, digest_of, is_script, of_code, plan_of


def copy_path(log: str, digest: str) -> str:
    """Where the copy is of a plan with a log; its code file has a digest."""
    return f"{os.path.realpath(log)}.{digest}.code"


def keep(log: str, data: bytes, is_synced: bool) -> None:
    """Writes the copy of a code file, where it is not there yet, and waits for the disk where that is asked for;
    `OSError` if that fails."""
    path = copy_path(log, digest_of(data))
    if kept(log, digest_of(data)) is not None:
        return
    beside = f"{path}.{os.getpid()}"
    try:
        with open(beside, "wb") as file:
            file.write(data)
            file.flush()
            if is_synced:
                os.fsync(file.fileno())
        os.replace(beside, path)
    except OSError:
        with contextlib.suppress(OSError):
            os.unlink(beside)
        raise


def kept(log: str, digest: str) -> Optional[bytes]:
    """The code file of a digest of which there is a copy; None where there is none, or it is damaged."""
    try:
        with open(copy_path(log, digest), "rb") as file:
            data = file.read()
    except OSError:
        return None
    return data if digest_of(data) == digest else None


def plan_with_log(path: str, program: str, log: Optional[str], past: Optional[Past]) -> Plan:
    """The plan at a path; or that of its log, where there is a copy of it: then it is said where the file at the path
    is another one. `Trouble` as for one without a log."""
    data = None if log is None or past is None else kept(log, past.digest)
    if data is None or past is None:
        return plan_of(path, program)
    found = of_code(path, data, past.script, text_of(path, past.script))
    other = difference(found, path)
    if other:
        say(f"{other}: the plan of {log} goes on; POST /reload or SIGHUP takes up the other one, --anew begins it")
    return found


def text_of(path: str, digest: Optional[str]) -> bytes:
    """The script at a path, where it is the one of a digest; else nothing."""
    try:
        data = bytes_of(path)
    except Trouble:
        return b""
    return data if digest_of(data) == digest else b""


def difference(plan: Plan, path: str) -> str:
    """What is to be said of the file of a plan that goes on by a copy; nothing where it is the same."""
    try:
        data = bytes_of(path)
    except Trouble as fault:
        return reason_of(fault)
    known = plan.script if is_script(data) else plan.digest
    return "" if digest_of(data) == known else f"{path} is not what is on air"
