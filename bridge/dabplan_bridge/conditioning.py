"""The command `condition`: events as a plan would get them, where contacts are conditioned."""
from __future__ import annotations

import os
import sys
from typing import BinaryIO, Iterable, Iterator, List

from .chain import frame_lines
from .conditions import Condition, Conditions
from .faults import Trouble, why
from .past import contact_line, contacts_in, steps_of


def passed(frames: int, at: int, conditions: Conditions) -> Iterator[bytes]:
    """The lines of frames from that of a number on, with what the conditions give between them."""
    end = at + frames
    while at < end:
        due = conditions.next()
        part = end - at if due is None else min(end, max(due, at)) - at
        yield from frame_lines(part)
        at += part
        if at < end:
            yield from (contact_line(*change) for change in conditions.at(at))


def conditioned(lines: Iterable[bytes], conditions: Conditions) -> Iterator[bytes]:
    """The lines of events that come of lines of events; `Trouble` where one is none."""
    at = 0
    for number, line in enumerate(lines, 1):
        try:
            steps = steps_of(line.rstrip(b"\r\n"))
        except ValueError:
            raise Trouble(f"line {number}: no events") from None
        for step in steps:
            if step.startswith(b"frames"):
                frames = int(step[7:])
                yield from passed(frames, at, conditions)
                at += frames
                continue
            ((contact, is_closed),) = contacts_in(step)
            if contact not in conditions:
                yield step
                continue
            conditions.give(contact, is_closed, at)
            yield from (contact_line(*change) for change in conditions.at(at))


def summed(lines: Iterable[bytes]) -> Iterator[bytes]:
    """Lines, with frames that follow frames counted together."""
    frames = 0
    for line in lines:
        if line.startswith(b"frames"):
            frames += int(line[7:])
            continue
        yield from frame_lines(frames)
        frames = 0
        yield line
    yield from frame_lines(frames)


def written(lines: BinaryIO, conditions: List[Condition]) -> int:
    """Writes to standard output what comes of lines; returns the exit status."""
    try:
        for line in summed(conditioned(lines, Conditions(conditions))):
            sys.stdout.buffer.write(line + b"\n")
        sys.stdout.buffer.flush()
    except OSError as fault:
        # What is left in the buffer is not tried again at the end.
        os.dup2(os.open(os.devnull, os.O_WRONLY), 1)
        raise Trouble(f"cannot write standard output: {why(fault)}") from None
    return 0
