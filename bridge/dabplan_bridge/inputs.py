"""One of several inputs: its frames with their whole counts, and those that wait for the frames of others.

A position is a count that does not begin again after 5000: two frames of one position belong together.
"""
from __future__ import annotations

from collections import deque
from typing import Deque, Dict, List, Optional, Tuple

from .agreeing import Agreeing
from .faults import Trouble, say
from .feeds import Feed
from .follower import NEAR
from .frames import Frame, Item, NoFrame
from .moments import Moment
from .placing import Placer
from .reader import Reader
from .state import InputState

NO_MOMENT = Moment(0.0, 0.0)
"""Nobody asks when a packet of several inputs came."""
EARLY = NEAR + 50
"""The most frames that wait before the first one goes out."""
Counted = Tuple[int, Frame]
"""A count, or a position, and its frame."""


class Input:
    """An input. `delay`: the most frames of it that are kept while they are at no position that can go out."""

    def __init__(self, feed: Feed, delay: int, state: InputState) -> None:
        self.feed = feed
        self.state = state
        self.placer = Placer()
        """It knows the ensemble of the stream."""
        self.mode = 0
        """The transmission mode of the last frame; 0 before the first one."""
        self.wrong = ""
        """Why its frames are not of the plan's ensemble; empty where they are."""
        self.early: Deque[Counted] = deque(maxlen=EARLY)
        """The frames before the first one goes out, with their counts."""
        self.frames: Dict[int, Frame] = {}
        """The frames that wait, by position."""
        self.newest = -1
        """The highest position so far."""
        self.seen = -1
        """The position of the last frame, whether it can go out or not."""
        self.off: Deque[Counted] = deque(maxlen=delay)
        """The last frames at positions that can't go out, with their counts, since one of this input could."""
        self.idle = 0
        """How many of them came since a frame of any input went out."""
        self.is_apart = False
        """Whether the last frame was more than 250 from what was due."""
        self.is_present = False
        """Whether it is connected, and had a frame since it was that can go out, or is not too late to wait for."""
        self._reader = Reader(feed)
        self._agreeing = Agreeing() if feed.is_of_datagrams else None
        self._joins = feed.joins
        self._due = -1

    @property
    def name(self) -> str:
        """Its name on the command line."""
        return self.state.name

    @property
    def at(self) -> int:
        """The count at which it is before the first frame goes out: of a stream in real time the one that came last, of
        a regular file the first one."""
        return self.early[0 if self.feed.is_regular else -1][0]

    def read(self, has_begun: bool) -> Tuple[bool, List[Item], List[Counted]]:
        """Takes the next bytes; returns whether there were any, what is no frame in them, and the frames. A stream that
        is none is `Trouble`; where others go on with their frames already, it is left out."""
        try:
            data = self.feed.read()
        except BlockingIOError:
            self._look()
            return False, [], []
        except Trouble as fault:
            if not has_begun:
                raise
            say(f"input {self.name}: {fault}")
            self.feed.give_up()
            data = b""
        self._look()
        items = self._items(data, has_begun)
        damaged: List[Item] = []
        found: List[Counted] = []
        for item in items:
            found += self._taken(item, damaged)
        self.state.damaged += len(damaged)
        return True, damaged, found

    def _items(self, data: bytes, has_begun: bool) -> List[Item]:
        """What is in these bytes; none are the end of the stream."""
        items: List[Item] = []
        try:
            items = self._reader.cut(data) if data else self._reader.finish()
            if not data:
                self._reader.refuse_rest()
        except Trouble as fault:
            if not has_begun:
                raise
            say(f"input {self.name}: {fault}")
            self._reader = Reader(self.feed)
        return items

    def _look(self) -> None:
        """Takes note of a connection that came or went. What comes by another one may be of another ensemble."""
        self.state.is_connected = self.feed.is_connected
        if self._joins != self.feed.joins:
            self._joins, self.placer, self._due = self.feed.joins, Placer(), -1
            self.is_present = False
        self.is_present = self.is_present and self.feed.is_connected

    def _taken(self, item: Item, damaged: List[Item]) -> List[Counted]:
        """The frames whose counts are known by an item."""
        if isinstance(item, NoFrame) or (item.wrong and item.whole is not None and item.whole != self._due):
            # Nothing protects the count of a packet: where it is damaged it is believed if it is the one that is due.
            damaged.append(item if isinstance(item, NoFrame) else NoFrame("a damaged packet", len(item.data)))
            return []
        self.mode = item.mode
        if not (item.wrong and item.whole is not None):
            self.state.stc = item.stc
        found = []
        for frame, count in self.placer.place(item, item.fic()):
            found += self._agreed(frame, count)
        if found:
            self._due = (found[-1][0] + 1) % 5000
        return found

    def _agreed(self, frame: Frame, count: int) -> List[Counted]:
        """The frames that are believed by one more. Of datagrams, several have to agree where their count steps."""
        if self._agreeing is None:
            return [(count, frame)]
        return [(each, agreed) for agreed, each, _ in self._agreeing.take(frame, count, NO_MOMENT)]

    def put(self, position: int, frame: Frame) -> None:
        """Takes a frame at a position that can go out."""
        self.frames[position] = frame
        self.newest = max(self.newest, position)
        self.is_present, self.is_apart = True, False
        self.off.clear()

    def put_off(self, count: int, frame: Frame, is_apart: bool) -> None:
        """Takes a frame at a position that can't go out."""
        self.off.append((count, frame))
        self.idle += 1
        self.is_apart = is_apart

    def taken_off(self) -> List[Counted]:
        """The frames at positions that can't go out, which are given up; of a stream in real time those since a frame
        of any input went out, at least the last one."""
        found = list(self.off)
        self.off.clear()
        return found if self.feed.is_regular else found[-max(1, self.idle):]

    def wants(self, limit: Optional[int]) -> bool:
        """Whether it is to be read: not where its frames are at a position already, so that those of others are read
        first. A stream in real time whose frames can't go out is read all the same. None: nothing has gone out."""
        if self.feed.has_ended:
            return False
        if limit is None:
            return not (self.feed.is_regular and self.early)
        return self.newest < limit if not self.feed.is_regular else max(self.newest, self.seen) < limit

    def has(self, position: int) -> bool:
        """Whether a position need not be waited for: its frame is there, or a later one, or none will come."""
        may_come = not self.feed.has_ended if self.feed.is_regular else self.is_present
        return self.newest >= position or not may_come or self.is_apart
