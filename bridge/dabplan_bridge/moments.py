"""When frames come: by the host's clock, or by the time stamps of the stream; and which frames come in real time.

A frame that waited in a buffer is processed long after it came: the clock says little about it, and much about the
frames before it and behind it. Such frames show by their lag: they are behind the last frame that came in real time by
more than the frames between them last.
"""
from __future__ import annotations

from dataclasses import dataclass
from typing import NamedTuple, Optional

from .fibs import FRAME_SECONDS

LATE = 1.0
"""The seconds by which a frame in real time may be behind."""
STEADY = 3.0
"""After so many seconds in which frames stay behind, and do not catch up, they count as being in real time."""
CATCH_UP = 0.25
"""Frames that gain so many seconds catch up."""
CREEP = 1e-5
"""How many seconds a frame a multiplexer may be too slow."""


class Moment(NamedTuple):
    """When a frame came."""

    host: float
    """By `time.monotonic`, in seconds."""
    wall: float
    """In seconds since 1970: by the time stamp of the frame, or by the host's clock."""
    is_stamped: bool = False
    """Whether `wall` is the time stamp of the frame."""

    def since(self, other: Moment) -> float:
        """The seconds since another moment: by the time stamps where both have one, else by the host's clock."""
        return self.wall - other.wall if self.is_stamped and other.is_stamped else self.host - other.host


@dataclass
class _Late:
    """A stretch of frames that are behind: where it began, or where it last caught up."""

    since: float
    offset: float


class Pace:
    """The last frame that came in real time.

    The offset of a frame is the moment at which it came less the length of all frames before it. It is least for frames
    that did not wait; so the least one of late is that of real time.
    """

    def __init__(self, number: int, moment: Moment) -> None:
        self.number = number
        """Its number in the plan."""
        self.moment = moment
        """When it came."""
        self.last = number, moment
        """The last frame, in real time or not."""
        self._offset = moment.host - number * FRAME_SECONDS
        self._late: Optional[_Late] = None

    def take(self, number: int, moment: Moment) -> None:
        """Takes the frame of a number."""
        self.last = number, moment
        offset = moment.host - number * FRAME_SECONDS
        if offset <= self._offset + LATE or moment.is_stamped:
            self._offset = min(offset, self._offset + CREEP)
            self.number, self.moment, self._late = number, moment, None
        elif self._is_steady(offset, moment.host):
            self._offset, self.number, self.moment, self._late = offset, number, moment, None

    def step(self, number: int, moment: Moment) -> None:
        """Takes the frame of a number whose count stepped a little. Right behind a frame in real time it can't have
        waited: the counts have another beginning now."""
        if self._late is None and moment.host - self.moment.host <= LATE:
            self._offset = moment.host - number * FRAME_SECONDS
        self.take(number, moment)

    def renumbered(self, frames: int) -> Pace:
        """The same, where each frame has a number that is less by so many."""
        found = Pace(self.number - frames, self.moment)
        found.last = self.last[0] - frames, self.last[1]
        found._offset, found._late = self._offset + frames * FRAME_SECONDS, self._late
        if found._late is not None:
            found._late = _Late(found._late.since, found._late.offset + frames * FRAME_SECONDS)
        return found

    def _is_steady(self, offset: float, now: float) -> bool:
        """Whether frames have been behind for long without catching up: the stream paused, and its pace is this one."""
        if self._late is None or offset < self._late.offset - CATCH_UP:
            self._late = _Late(now, offset)
        return now - self._late.since >= STEADY
