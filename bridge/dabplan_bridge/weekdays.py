"""The calendar of a plan: contacts that are closed on a weekday, and on holidays.

A plan has a time of day, and no date. Its days have the dates that follow from the date, by the host's clock, when its
first frame on air came; they turn at its own midnights.
"""
from __future__ import annotations

import time
from datetime import date, datetime, timedelta
from typing import Dict, FrozenSet, List, Optional

from .conditions import Change
from .faults import BadCommand, reason_of
from .fibs import DAY_FRAMES, FRAME_SECONDS
from .past import HIGHEST, day_frame_of_start

HOLIDAY = HIGHEST
"""The contact that is closed on holidays."""
WEEK = 7
EPOCH = date(1970, 1, 1)
NEAR = 2500
"""Where the plan's time of day is within so many frames, a minute, of the clock's, its midnight is that of the
clock."""


def holidays_of(path: str) -> FrozenSet[date]:
    """The dates in a file, one a line, as 2026-12-25, with comments behind `#`; `BadCommand` if it has others."""
    try:
        with open(path, encoding="utf-8", errors="replace") as file:
            lines = [line.split("#")[0].strip() for line in file]
    except (OSError, ValueError) as fault:
        raise BadCommand(f"--holidays {path}: {reason_of(fault)}") from None
    return frozenset(date_of(path, number, text) for number, text in enumerate(lines, 1) if text)


def date_of(path: str, number: int, text: str) -> date:
    """The date in a line of a file; `BadCommand` if it is none."""
    try:
        return datetime.strptime(text, "%Y-%m-%d").date()
    except ValueError:
        raise BadCommand(f"--holidays {path}: line {number}: no date, as 2026-12-25") from None


def first_date(start: str, frame: int, wall: float, is_local: bool) -> date:
    """The date of the plan's first frame, whose time is spelled as in a log, where its frame of a number came at a wall
    time: in UTC, or in the host's zone."""
    zone = time.localtime(wall).tm_gmtoff if is_local else 0
    by_wall = round((wall + zone) / FRAME_SECONDS)
    by_plan = (day_frame_of_start(start) or 0) + frame
    ahead = (by_wall - by_plan + DAY_FRAMES // 2) % DAY_FRAMES - DAY_FRAMES // 2
    day = (by_wall - ahead if abs(ahead) <= NEAR else by_wall) // DAY_FRAMES
    return EPOCH + timedelta(days=day - by_plan // DAY_FRAMES)


class Calendar:
    """The contacts of a calendar: seven from `first` on, Monday's first, and one for holidays; none where these are
    None."""

    def __init__(self, first: Optional[int] = None, holidays: Optional[FrozenSet[date]] = None) -> None:
        self._first, self._holidays = first, holidays
        self._begin = 0
        self._date: Optional[date] = None
        self._from, self._until = 0, -1
        self._wanted: List[Change] = []

    @property
    def is_there(self) -> bool:
        """Whether there is one."""
        return self._first is not None or self._holidays is not None

    def __contains__(self, contact: int) -> bool:
        is_weekday = self._first is not None and self._first <= contact < self._first + WEEK
        return is_weekday or (self._holidays is not None and contact == HOLIDAY)

    def begin(self, start: str, first: date) -> None:
        """The plan's first frame has this date, and this time, spelled as in a log."""
        self._begin, self._date = day_frame_of_start(start) or 0, first
        self._from, self._until = 0, -1

    def date_of(self, frame: int) -> Optional[date]:
        """The date that the plan's frame of a number has; None where that is not known."""
        return None if self._date is None else self._date + timedelta(days=(self._begin + frame) // DAY_FRAMES)

    def next(self, frame: int) -> Optional[int]:
        """The frame of the plan's next midnight behind the frame of a number; None where there is no calendar."""
        if not self.is_there or self._date is None:
            return None
        return ((self._begin + frame) // DAY_FRAMES + 1) * DAY_FRAMES - self._begin

    def at(self, frame: int) -> List[Change]:
        """How its contacts are in the plan's frame of a number."""
        if self._date is None or not self.is_there:
            return []
        if not self._from <= frame < self._until:
            day = (self._begin + frame) // DAY_FRAMES
            self._from = day * DAY_FRAMES - self._begin
            self._until = self._from + DAY_FRAMES
            self._wanted = self._of(self._date + timedelta(days=day))
        return self._wanted

    def on(self, frame: int) -> List[Change]:
        """The same, in any thread."""
        day = self.date_of(frame)
        return [] if day is None or not self.is_there else self._of(day)

    def _of(self, day: date) -> List[Change]:
        """How the contacts are on a date."""
        found: Dict[int, bool] = {}
        if self._first is not None:
            found = {self._first + number: number == day.weekday() for number in range(WEEK)}
        if self._holidays is not None:
            found[HOLIDAY] = day in self._holidays
        return [Change(contact, is_closed) for contact, is_closed in found.items()]
