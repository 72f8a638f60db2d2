"""Why the bridge ends, and how its messages are written.

Each exception has the exit status with which the bridge ends. Messages go to standard error, one line each.
"""
from __future__ import annotations

import os
import signal
import sys
from typing import Dict, List, Tuple

PROGRAM = "dabplan-bridge"


class Trouble(Exception):
    """A file, a child or the output failed: exit status 1."""

    status = 1


class BadCommand(Trouble):
    """The command line is invalid: exit status 2."""

    status = 2


class WillNotGuess(Trouble):
    """A count that can't be placed without guessing: exit status 4."""

    status = 4


class DoesNotFit(Trouble):
    """The plan does not fit the multiplexer: exit status 5."""

    status = 5


class Stopped(Exception):
    """SIGTERM or SIGINT was received: exit status 0."""

    status = 0


def say(text: object) -> None:
    """Writes a message as one line; one that can't be written is lost."""
    if sys.stderr is None:
        return
    try:
        # one call, so that what children write does not come between a line and its end
        sys.stderr.write(f"{PROGRAM}: {text}\n")
        sys.stderr.flush()
    except OSError:
        pass


def say_as_it_is(line: bytes) -> None:
    """Writes a line of a child; one that can't be written is lost."""
    try:
        os.write(2, line)
    except OSError:
        pass


def hold_signals() -> None:
    """From here on no signal ends the bridge: it is ending."""
    for each in (signal.SIGTERM, signal.SIGINT):
        signal.signal(each, signal.SIG_IGN)


def shown(data: bytes, most: int = 60) -> str:
    """Bytes of others as text that no terminal obeys: printable ASCII as it is, others by their numbers."""
    text = "".join(chr(byte) if 32 <= byte < 127 and byte != 0x5C else f"\\x{byte:02x}" for byte in data[:most])
    return text + ".." if len(data) > most else text


def why(fault: OSError) -> str:
    """The reason of a failed call, as `No such file or directory`."""
    return fault.strerror or type(fault).__name__


def reason_of(fault: Exception) -> str:
    """The reason of a failed call, or of a path that can be none."""
    return why(fault) if isinstance(fault, OSError) else str(fault)


def number_of(frames: int) -> str:
    """A number of frames, as text."""
    return f"{frames} frame{'' if frames == 1 else 's'}"


def listed(texts: List[str], most: int = 8) -> str:
    """Texts in one line; of many the first, and how many more there are."""
    rest = f"; and {len(texts) - most} more" if len(texts) > most else ""
    return "; ".join(texts[:most]) + rest


class Repeats:
    """Messages that may come frame by frame: a few of each kind are written, the others are counted.

    Of each kind at most `burst` messages are written within 250 frames (six seconds); the number of the others follows
    in a line when the 250 frames are over, and at the end.
    """

    WINDOW = 250

    def __init__(self) -> None:
        self._windows: Dict[str, Tuple[int, int, int]] = {}

    def add(self, kind: str, number: int, text: str, burst: int = 1) -> None:
        """Writes a message about frame `number`, or counts it. `kind` names what it counts: `frames without a FIC`."""
        first, written, kept = self._windows.get(kind, (number, 0, 0))
        if number - first >= self.WINDOW:
            self._tell(kind, kept)
            first, written, kept = number, 0, 0
        if written < burst:
            say(text)
            written += 1
        else:
            kept += 1
        self._windows[kind] = (first, written, kept)

    def look(self, number: int) -> None:
        """Writes the counts of those kinds whose 250 frames are over."""
        for kind, (first, _, kept) in list(self._windows.items()):
            if number - first >= self.WINDOW:
                self._tell(kind, kept)
                del self._windows[kind]

    def end(self) -> None:
        """Writes the counts that are left."""
        for kind, (_, _, kept) in self._windows.items():
            self._tell(kind, kept)
        self._windows.clear()

    @staticmethod
    def _tell(kind: str, kept: int) -> None:
        if kept:
            say(f"{kept} more {kind}")
