"""The command `compact`: a log with one line for what is past."""
from __future__ import annotations

import contextlib
import os
import stat
from typing import BinaryIO, Tuple

from .faults import Trouble, why
from .lock import lock, locked
from .past import HEAD_TEXT, UTC_TEXT, Past, holds_line, past_of, steps_in


def write(file: BinaryIO, path: str, past: Past) -> None:
    """Writes what a log says to another file, in a few lines."""
    file.write(f"{HEAD_TEXT}count {past.count} {past.start} code {past.digest}\n".encode("ascii"))
    if past.script is not None:
        file.write(f"# script {past.script}\n".encode("ascii"))
    is_first = True
    for step in steps_in(path):
        file.write(step if is_first else b" " + step)
        is_first = False
    if not is_first:
        file.write(b"\n")
    if past.wall_text:
        file.write(f"# count {past.due()} frames {past.frames} at {past.wall_text.decode('ascii')}\n".encode("ascii"))
    if past.has_utc:
        file.write(f"{UTC_TEXT}\n".encode("ascii"))
    if past.first_date is not None:
        file.write(f"# date {past.first_date}\n".encode("ascii"))
    for contact, word in sorted(past.given.items()):
        file.write(f"# given {contact} {word}\n".encode("ascii"))
    if past.held is not None:
        file.write(f"# held {past.held}\n".encode("ascii"))
    if past.holds is not None:
        file.write(f"{holds_line(past.holds)}\n".encode("ascii"))


def keep_rights(file: int, known: os.stat_result) -> None:
    """Gives a file the owner, the group and the mode of another one; `OSError` if it can't have them."""
    here = os.fstat(file)
    if (here.st_uid, here.st_gid) != (known.st_uid, known.st_gid):
        os.fchown(file, known.st_uid, known.st_gid)
    os.fchmod(file, stat.S_IMODE(known.st_mode))


def compacted(path: str, file: int, size: int) -> Tuple[int, int]:
    """Writes a log that is open and locked anew, beside it, and puts the new one in its place, open and locked; returns
    it, and its bytes. `size` is that of the old one's whole lines. `Trouble` or `OSError` if that fails, and the log
    stays as it is."""
    past = past_of(path) if stat.S_ISREG(os.fstat(file).st_mode) else None
    if past is None or past.size != size:
        raise Trouble(f"{path}: no log of this program")
    place = os.path.realpath(path)
    beside = f"{place}.{os.getpid()}"
    descriptor = os.open(beside, os.O_RDWR | os.O_CREAT | os.O_EXCL | os.O_CLOEXEC, 0o600)
    is_there = False
    try:
        with open(os.dup(descriptor), "wb") as new:
            write(new, path, past)
        keep_rights(descriptor, os.fstat(file))
        os.fsync(descriptor)
        lock(beside, descriptor)
        os.rename(beside, place)
        is_there = True
    finally:
        if not is_there:
            os.close(descriptor)
            with contextlib.suppress(FileNotFoundError):
                os.unlink(beside)
    return descriptor, os.fstat(descriptor).st_size


def compact(path: str) -> None:
    """Rewrites a log; `Trouble` if that fails, and the log stays as it is."""
    try:
        file = locked(path, os.O_RDONLY)
    except OSError as fault:
        raise Trouble(f"cannot read {path}: {why(fault)}") from None
    try:
        past = past_of(path) if stat.S_ISREG(os.fstat(file).st_mode) else None
        if past is None:
            raise Trouble(f"{path}: no log of this program")
        os.close(compacted(path, file, past.size)[0])
    except OSError as fault:
        raise Trouble(f"cannot write {path}: {why(fault)}") from None
    finally:
        os.close(file)
