"""The frames of a stream of bytes, of either format."""
from __future__ import annotations

from typing import Iterator, List, Optional, Protocol, Union

from . import edi, eti
from .faults import Trouble
from .frames import Item
from .sources import Source

FORMATS = ("eti", "edi")
"""The formats of streams."""
ENOUGH = 6 * eti.FRAME
"""The format of a stream is found within so many bytes."""
Cutter = Union[eti.EtiCutter, edi.EdiCutter]


def cutter_of(name: str) -> Cutter:
    """What cuts a stream of this format into frames."""
    return eti.EtiCutter() if name == "eti" else edi.EdiCutter()


def format_of(data: bytes) -> Optional[str]:
    """The format of a stream that begins with these bytes; None if more of them, or others, are needed to tell.

    Where they begin within a frame, it is the format of the first undamaged frame in them.
    """
    if eti.looks_like(data):
        return "eti"
    if edi.looks_like(data):
        return "edi"
    for name in FORMATS:
        items = cutter_of(name).feed(data)
        if any(getattr(item, "wrong", 1) == 0 for item in items):
            return name
    return None


class Items(Protocol):
    """Frames as they come."""

    def items(self) -> Iterator[List[Item]]:
        """The frames, and what is none, some at a time, to the end of the stream."""


class Reader:
    """Reads the frames of a source, and finds its format where none is given."""

    def __init__(self, source: Source, name: Optional[str] = None) -> None:
        self._source = source
        self._cutter: Optional[Cutter] = cutter_of(name) if name else None
        self._first = b""
        self._joins = source.joins

    def items(self) -> Iterator[List[Item]]:
        """The frames as they come: those that are whole with each piece of bytes. `Trouble` if the stream is of neither
        format, or ends within a frame."""
        while True:
            data = self._source.read()
            if not data:
                break
            yield self.cut(data)
        yield self.finish()
        self.refuse_rest()

    def finish(self) -> List[Item]:
        """The frames of fragments that still waited at the end of the stream."""
        return self._cutter.finish() if isinstance(self._cutter, edi.EdiCutter) else []

    def refuse_rest(self) -> None:
        """Raises `Trouble` where the stream was of neither format, or ended within a frame."""
        if self._cutter is None and self._first:
            raise Trouble(f"{self._source.name}: neither ETI nor EDI")
        if self._cutter is not None and self._cutter.end():
            raise Trouble(f"{self._source.name}: not whole frames")

    def cut(self, data: bytes) -> List[Item]:
        """The frames that are whole with these bytes."""
        if self._cutter is None:
            first = data if self._source.is_of_datagrams else self._first + data
            name = format_of(first) if len(first) >= 4 else None
            if name is None:
                return self._without(first)
            self._cutter, data, self._first = cutter_of(name), first, b""
        elif self._joins != self._source.joins:
            self._cutter.begin()
        self._joins = self._source.joins
        return self._cutter.datagram(data) if self._source.is_of_datagrams else self._cutter.feed(data)

    def _without(self, first: bytes) -> List[Item]:
        """Keeps bytes that do not tell the format; `Trouble` where they are too many. A datagram tells it or not."""
        if self._source.is_of_datagrams:
            return []
        if len(first) >= ENOUGH:
            raise Trouble(f"{self._source.name}: neither ETI nor EDI: --format says which")
        self._first = first
        return []
