"""The time of the multiplexer, by its FIG 0/10, against the host's clock."""
from __future__ import annotations

import time
from typing import Optional

from .fibs import utc_of
from .moments import Moment
from .state import Alarm, State

AGREES = 60.0
"""The seconds by which FIG 0/10 and the host's clock may differ: a clock that is more than this wrong may be wrong by
turns of counts."""


SOON = 500
"""Within so many frames a multiplexer that sends FIG 0/10 has sent one."""


def text_of_day(seconds: float) -> str:
    """A time in seconds since 1970 as text, date and time of day."""
    return time.strftime("%Y-%m-%d %H:%M:%S", time.gmtime(seconds))


class UtcWatch:
    """What the FIGs 0/10 of a stream say of the host's clock."""

    def __init__(self, state: State) -> None:
        self._state = state
        self._ahead: Optional[float] = None
        self._expected = 0

    @property
    def is_seen(self) -> bool:
        """Whether one has come."""
        return self._ahead is not None

    def expect(self) -> None:
        """One is to come soon: the multiplexer sent them before. Until it has come, or is overdue, the clock is not
        believed."""
        self._expected = SOON

    def look(self, fic: bytes, moment: Moment) -> None:
        """Looks for a FIG 0/10 in the FIC of a frame that came at a moment."""
        found = utc_of(fic)
        if found is None:
            self._expected = max(0, self._expected - 1)
            return
        self._ahead = found - moment.wall
        if abs(self._ahead) <= AGREES:
            self._state.clear(Alarm.CLOCK, "FIG 0/10 and the clock agree again")
        elif not self._state.is_on(Alarm.CLOCK):
            self._state.alarm(Alarm.CLOCK, f"FIG 0/10 says {text_of_day(found)}, the clock {text_of_day(moment.wall)}: "
                                           "no step above 250 frames is believed by this clock")

    def against(self, moment: Moment) -> str:
        """Why the clock is not believed, with a comma before it; nothing where it is. Without a FIG 0/10 it is."""
        if self._ahead is None and self._expected:
            return ", and no FIG 0/10 has come yet"
        if self._ahead is None or abs(self._ahead) <= AGREES:
            return ""
        return f", which says {text_of_day(moment.wall)}, and FIG 0/10 {text_of_day(moment.wall + self._ahead)}"
