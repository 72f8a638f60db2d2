"""The commands `fic` and `insert`: FIBs out of a stream, and FIBs of a file into one."""
from __future__ import annotations

import os
from typing import Callable, List, Optional

from .addresses import Address, place_of, refuse_same
from .frames import Frame, Item, NoFrame
from .reader import Reader
from .faults import Repeats, Trouble, number_of, say, why
from .sinks import FileSink
from .sources import source_of
from .waiting import Waiter

STANDARD = Address("standard", "-")
Filled = Callable[[Frame], Optional[bytes]]
"""What a frame becomes; None if there is nothing more to put into it."""


class Converter:
    """What comes of the frames of a stream, on standard output."""

    def __init__(self, filled: Filled) -> None:
        self._filled = filled
        self._sink = FileSink(STANDARD)
        self._repeats = Repeats()
        self._number = -1
        self._absent = 0
        self._has_ended = False

    def items(self, items: List[Item]) -> None:
        """Writes what comes of frames; `Trouble` if it can't be written."""
        for item in items:
            self._number += 1
            self._repeats.look(self._number)
            if isinstance(item, NoFrame):
                self._absent += 1
                text = f"frame {self._number}: {item.reason}, {item.size} bytes: left out"
                self._repeats.add("that are no frames", self._number, text)
            else:
                self._frame(item)

    def end(self) -> None:
        """Says what was left out."""
        self._repeats.end()
        if self._absent:
            say(f"{number_of(self._absent)} left out")

    def status(self) -> int:
        """The exit status."""
        return 1 if self._absent or self._has_ended else 0

    def _frame(self, frame: Frame) -> None:
        written = self._filled(frame)
        if written is not None:
            self._sink.put(written)
        elif not self._has_ended:
            self._has_ended = True
            say(f"frame {self._number}: no FIC is left for it: from there on all are left out")


def convert(where: Address, name: Optional[str], filled: Filled) -> int:
    """Writes to standard output what comes of each frame of a stream; returns the exit status."""
    source = source_of(where, Waiter())
    converter = Converter(filled)
    try:
        for items in Reader(source, name).items():
            converter.items(items)
    finally:
        converter.end()
        source.close()
    return converter.status()


def fic(where: Address, name: Optional[str]) -> int:
    """The command `fic`: the FIBs of each frame; returns the exit status."""
    refuse_same([(where.name, place_of(where, 0)), ("standard output", 1)])
    return convert(where, name, Frame.fic)


class Fics:
    """The FICs of a file, one behind the other."""

    def __init__(self, path: str) -> None:
        self._path = path
        try:
            self._file = os.open(path, os.O_RDONLY | os.O_CLOEXEC)
        except (OSError, ValueError) as fault:
            raise Trouble(f"cannot read {path}: {why(fault) if isinstance(fault, OSError) else fault}") from None

    def into(self, frame: Frame) -> Optional[bytes]:
        """A frame with the next FIC; None if there is none. `Trouble` if it can't be read."""
        found = b""
        try:
            while len(found) < frame.size:
                more = os.read(self._file, frame.size - len(found))
                if not more:
                    return None
                found += more
        except OSError as fault:
            raise Trouble(f"cannot read {self._path}: {why(fault)}") from None
        return frame.with_fic(found)

    def close(self) -> None:
        """Closes the file."""
        os.close(self._file)


def insert(where: Address, path: str, name: Optional[str]) -> int:
    """The command `insert`: the stream with the FIC of a file; returns the exit status."""
    refuse_same([(where.name, place_of(where, 0)), (path, path), ("standard output", 1)])
    fics = Fics(path)
    try:
        return convert(where, name, fics.into)
    finally:
        fics.close()
