"""Which frame of the plan belongs to a frame of the stream: by its count, and for large steps by the clock, or none.

A step is the count of a frame less the one that was due, between -2500 and 2499; 0 is none. Counts begin again after
5000 frames, which are two minutes: so a large step does not tell how many of these went by. The time since the last
frame that came in real time does. The plan's frames have numbers, its first one 0.

| Phase | A frame comes | What it gets |
|---|---|---|
| waiting | any | nothing: `begin` or `hold` says how the plan begins |
| following | its count is the one that is due | the plan's next frame |
| following | a step of 1 to 250 | that frame of the plan; those before it are not sent |
| following | a step of -1 to -250 | the frame of the plan that has this count, again |
| following | another step, and the time agrees | the frame of the plan that the time gives; those before are not sent |
| following | any other | none: what is on air is held from here on |
| holding | 25 frames in a row, in real time, and the time agrees | that frame of the plan, once it can go on |
| holding | any other | none |

Where there is no clock, as for a regular file, no time agrees with a step; it is held until the count is near the one
that was due.
"""
from __future__ import annotations

from dataclasses import dataclass
from typing import Optional

from .faults import number_of
from .fibs import COUNTS, FRAME_SECONDS
from .moments import Moment, Pace
from .state import Phase
from .utc import UtcWatch

NEAR = 250
"""Steps up to this are what the count says."""
KEPT = 750
"""So many frames of the plan are kept, for those that go out again."""
ROW = 25
"""So many frames in a row have to agree before the plan goes on that was held."""
ROW_SECONDS = ROW * FRAME_SECONDS / 2
"""The seconds within which they may not all come: they would be out of a buffer."""


def step_of(count: int, due: int) -> int:
    """The step from the count that was due, -2500 to 2499."""
    return (count - due + COUNTS // 2) % COUNTS - COUNTS // 2


def frames_by_clock(step: int, seconds: float, tolerance: float) -> Optional[int]:
    """The number of frames with this step that last so many seconds, within a tolerance; None if there is none."""
    found = step + COUNTS * round((seconds - step * FRAME_SECONDS) / (COUNTS * FRAME_SECONDS))
    return found if abs(found * FRAME_SECONDS - seconds) <= tolerance else None


@dataclass(frozen=True)
class Step:
    """A frame with another count than the one that was due."""

    count: int
    due: int
    frames: Optional[int]
    """How many frames were missed; negative ones come again; None where that is not known."""
    seconds: Optional[float]
    """The time since the last frame in real time; None where there is no clock."""
    against: str = ""
    """Why the clock is not believed, where that decided."""

    def __str__(self) -> str:
        text = f"the count is {self.count}, {self.due} was due"
        if self.frames is not None:
            return f"{text}: {number_of(abs(self.frames))} {'missed' if self.frames > 0 else 'back'}"
        by_clock = "" if self.seconds is None else f", after {self.seconds:.1f} s by the clock"
        return f"{text}: a step of {step_of(self.count, self.due)}{by_clock}{self.against}"


class Follower:
    """Follows the counts of a stream. `first` is the count of the plan's first frame."""

    def __init__(self, first: int, tolerance: float, has_clock: bool, utc: UtcWatch) -> None:
        self.phase = Phase.WAITING
        self.due = 0
        """The number of the plan's frame that is due."""
        self.step: Optional[Step] = None
        """The step of the last frame; None if it had the count that was due."""
        self._first = first
        self._tolerance = tolerance
        self._has_clock = has_clock
        self._utc = utc
        self._pace: Optional[Pace] = None
        self._last = -1
        self._row = 0
        self._row_count = -1
        self._row_since: Optional[Moment] = None

    def begin(self, number: int, moment: Moment) -> None:
        """Follows from here on: the next frame gets the plan's frame of this number. `moment` is that of the frame
        before it."""
        self.phase, self.due, self._last = Phase.FOLLOWING, number, number - 1
        self._pace = Pace(number - 1, moment)

    def hold(self, number: int, moment: Moment) -> None:
        """Holds from here on. The plan's frame before that of this number came at a moment, which is that of a log."""
        self.begin(number, moment)
        self._to_hold()

    def handed_over(self, number: int) -> Follower:
        """What follows the counts of another plan, whose first frame has the count of this one's frame of a number,
        which is due."""
        found = Follower(self.count_of(number), self._tolerance, self._has_clock, self._utc)
        found.phase, found.due, found._last = Phase.FOLLOWING, self.due - number, self._last - number
        found._pace = self._anchor().renumbered(number)
        return found

    def count_of(self, number: int) -> int:
        """The count of the plan's frame of a number."""
        return (self._first + number) % COUNTS

    def number_of(self, count: int, moment: Moment) -> Optional[int]:
        """The number of the plan's frame that belongs to a frame of this count; None where that would be a guess."""
        if self.phase is Phase.HOLDING:
            return self._in_hold(count, moment)
        due = self.due
        if count == (self._first + due) % COUNTS:
            self.step = None
            if self._has_clock:
                self._anchor().take(due, moment)
            return self._follow(due)
        step = step_of(count, self.count_of(due))
        number = due + step if abs(step) <= NEAR else self._by_clock(count, moment)
        seconds = moment.since(self._anchor().moment) if self._has_clock else None
        if number is None or number <= self._last - KEPT:
            against = self._utc.against(moment) if number is None and self._has_clock else ""
            self.step = Step(count, self.count_of(due), None, seconds, against)
            self._to_hold()
            return None
        self.step = Step(count, self.count_of(due), number - due, seconds)
        if self._has_clock:
            self._anchor().step(number, moment)
        return self._follow(number)

    def go_on(self, number: int, moment: Moment) -> None:
        """The plan that was held goes on: this frame got its frame of this number."""
        self.phase = Phase.FOLLOWING
        self._pace = Pace(number, moment)
        self.due, self._last = number + 1, max(self._last, number)

    def by_clock(self, moment: Moment) -> int:
        """The number of the plan's frame that is due at a moment, by the clock alone; without one, the frame that was
        due."""
        anchor = self._anchor()
        return anchor.number + int(moment.since(anchor.moment) / FRAME_SECONDS) if self._has_clock else self.due

    def wall_behind(self, made: int, moment: Moment) -> float:
        """When the last of so many frames of the plan came, or comes, in seconds since 1970, where the frame before the
        one that is due came at a moment."""
        return moment.wall + (made - self.due) * FRAME_SECONDS

    def wall_of(self, number: int) -> float:
        """When the plan's frame of a number is due, in seconds since 1970."""
        anchor = self._anchor()
        return anchor.moment.wall + (number - anchor.number) * FRAME_SECONDS

    def _follow(self, number: int) -> int:
        """A frame of a number that was found."""
        self.due = number + 1
        if number > self._last:
            self._last = number
        return number

    def _by_clock(self, count: int, moment: Moment) -> Optional[int]:
        """The number with this count that agrees with the time since the last frame in real time; None if there is
        none.

        After a pause it is not known yet whether frames come in real time again. The time since the last frame is asked
        then too, and where the two give different numbers there is none.
        """
        if not self._has_clock:
            return None
        anchor = self._anchor()
        known = ((anchor.number, anchor.moment), anchor.last)
        found = {self._since(number, then, count, moment) for number, then in known} - {None}
        return found.pop() if len(found) == 1 else None

    def _since(self, number: int, then: Moment, count: int, moment: Moment) -> Optional[int]:
        """The number with this count that agrees with the time since a frame; None if there is none."""
        step = step_of(count, self.count_of(number))
        frames = frames_by_clock(step, moment.since(then), self._tolerance)
        return None if frames is None or (frames > NEAR and self._utc.against(moment)) else number + frames

    def _in_hold(self, count: int, moment: Moment) -> Optional[int]:
        """The number of a frame with which enough frames in a row agree."""
        if self._row_since is None or count != self._row_count:
            self._row, self._row_since = 0, moment
        self._row, self._row_count = self._row + 1, (count + 1) % COUNTS
        if self._has_clock:
            number = self._by_clock(count, moment)
            is_slow = moment.is_stamped or moment.host - self._row_since.host >= ROW_SECONDS
        else:
            step = step_of(count, self.count_of(self.due))
            number, is_slow = self.due + step if abs(step) <= NEAR else None, True
        return number if self._row >= ROW and is_slow and number is not None and number > self._last - KEPT else None

    def _to_hold(self) -> None:
        self.phase, self._row, self._row_since = Phase.HOLDING, 0, None

    def _anchor(self) -> Pace:
        assert self._pace is not None
        return self._pace
