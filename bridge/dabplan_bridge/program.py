"""Commands of `dabplan` that are run to their end."""
from __future__ import annotations

import errno
import os
import subprocess
from typing import List, Optional, Sequence

from .chain import END_SECONDS, Code
from .faults import Trouble, say_as_it_is, shown, why

COMPILE_SECONDS = 60.0
"""The seconds after which the compilation of a plan is given up."""
EXPLAINED = b"error: "
"""What stands before the explanation of a refusal."""
MOST_SHOWN = 400
"""The most bytes of a reason that are shown."""


def in_memory(data: bytes) -> int:
    """A descriptor of a file in memory that has these bytes; `Trouble` if there is no room for it."""
    file = -1
    try:
        file = os.memfd_create("dabplan")
        if os.write(file, data) < len(data):
            raise OSError(errno.EFBIG, os.strerror(errno.EFBIG))
        os.lseek(file, 0, os.SEEK_SET)
    except OSError as fault:
        if file >= 0:
            os.close(file)
        raise Trouble(f"no file in memory: {why(fault)}") from None
    return file


def path_of(file: int) -> str:
    """The path by which a child that has a descriptor opens it."""
    return f"/dev/fd/{file}"


def ended(program: str, words: List[str], data: bytes, files: Sequence[int],
          seconds: float) -> "subprocess.CompletedProcess[bytes]":
    """How a command ended whose standard input has these bytes; `Trouble` if it can't be run, or does not end."""
    try:
        return subprocess.run([program, *words], input=data, capture_output=True, check=False, pass_fds=tuple(files),
                              timeout=seconds)
    except subprocess.TimeoutExpired:
        raise Trouble(f"'dabplan {words[0]}' does not end") from None
    except OSError as fault:
        raise Trouble(f"cannot run {program}: {why(fault)}") from None


def run(program: str, words: List[str], data: bytes, files: Sequence[int] = ()) -> bytes:
    """What a command prints whose standard input has these bytes; `Trouble` if it fails."""
    done = ended(program, words, data, files, END_SECONDS)
    if done.returncode != 0:
        text = (done.stderr.splitlines() or [b"it says nothing"])[0]
        raise Trouble(f"'dabplan {words[0]}' fails: {shown(text, 200)}")
    return done.stdout


def compiled(program: str, script: bytes) -> Code:
    """The code of a script, in memory; `Trouble` if it is refused."""
    file = in_memory(run(program, ["compile", "-", "-"], script))
    return Code(path_of(file), file)


def changed(program: str, before: bytes, after: bytes) -> bytes:
    """The script of a plan that changes one configuration into another; `Trouble` if there is none."""
    files = [in_memory(before), in_memory(after)]
    try:
        return run(program, ["diff", path_of(files[0]), path_of(files[1])], b"", files)
    finally:
        for file in files:
            os.close(file)


def code_of(program: str, path: str, script: bytes, now: Optional[bytes] = None) -> bytes:
    """The code of the script at a path, which has these bytes; it begins with what the items of another script make,
    where one is given. What the compiler says of the script is written; `Trouble`, with its reason, where it is
    refused."""
    files = [in_memory(each) for each in (script, now) if each is not None]
    names = [path_of(file) for file in files]
    begun = [] if now is None else ["--from", names[1]]
    try:
        done = ended(program, ["compile", names[0], "-", *begun], b"", files, COMPILE_SECONDS)
    finally:
        for file in files:
            os.close(file)
    lines = done.stderr.replace(names[0].encode("ascii") + b":", os.fsencode(path) + b":").splitlines(True)
    for line in lines[done.returncode == 0:]:
        say_as_it_is(line)
    if done.returncode != 0:
        raise Trouble(f"{path} is refused: {reason_in(lines)}")
    return done.stdout


def reason_in(lines: List[bytes]) -> str:
    """Why a script is refused, of the lines that the compiler writes: the first one, with its explanation."""
    if not lines:
        return "the compiler says nothing"
    explained = next((line.split(EXPLAINED, 1)[1] for line in lines[1:] if EXPLAINED in line), b"")
    texts = [shown(line.rstrip(b"\n"), MOST_SHOWN) for line in (lines[0], explained) if line]
    return ": ".join(texts)
