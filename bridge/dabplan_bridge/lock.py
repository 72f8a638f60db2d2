"""A file for one program alone."""
from __future__ import annotations

import errno
import fcntl
import os

from .faults import Trouble


def is_at(path: str, file: int) -> bool:
    """Whether an open file is the one at a path: another one may have been put there since it was opened."""
    try:
        there, known = os.stat(path), os.fstat(file)
    except FileNotFoundError:
        return False
    return (there.st_dev, there.st_ino) == (known.st_dev, known.st_ino)


def lock(path: str, file: int) -> None:
    """Locks an open file; `Trouble` if another program has it, `OSError` if that fails."""
    try:
        fcntl.flock(file, fcntl.LOCK_EX | fcntl.LOCK_NB)
    except OSError as fault:
        if fault.errno in (errno.EWOULDBLOCK, errno.EACCES):
            raise Trouble(f"{path}: another bridge writes it") from None
        raise


def locked(path: str, flags: int) -> int:
    """Opens a file for one program alone; `Trouble` if another one has it, `OSError` if it can't be opened."""
    while True:
        file = os.open(path, flags | os.O_CLOEXEC, 0o644)
        try:
            lock(path, file)
            if is_at(path, file):
                return file
        except (OSError, Trouble):
            os.close(file)
            raise
        os.close(file)
