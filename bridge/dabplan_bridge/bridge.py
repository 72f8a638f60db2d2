"""A plan, and the stream into which it is put: what becomes of each frame."""
from __future__ import annotations

import time
from typing import Optional

from .agreeing import Agreeing
from .air import Air
from .beginning import Arrival, Beginning, Wish
from .carried import Carried
from .checking import Check
from .composer import Composer
from .control import Control
from .faults import Repeats, Trouble, number_of, say
from .fifos import Monitor
from .fit import Fit
from .frames import Frame, Item, NoFrame
from .given import Given
from .log import Log
from .moments import Moment
from .placing import Placer
from .plan import Plan
from .reader import Items
from .reloading import Reloading
from .sinks import Sinks
from .state import State
from .statefile import StateFile


class Bridge:
    """Puts a plan into a stream, from which `read` gets the frames."""

    def __init__(self, wish: Wish, plan: Plan, log: Log, given: Given, monitor: Monitor, state: State,
                 file: StateFile, control: Control, check: Check, composer: Optional[Composer] = None) -> None:
        self.state = state
        self._plan, self._log = plan, log
        self._given, self._monitor = given, monitor
        self._file, self._control, self._check = file, control, check
        self._repeats = Repeats()
        self._placer = Placer()
        self._composer = composer
        self._fit = Fit(plan, self._placer, state) if composer is None else Carried(plan, self._placer, state, composer)
        self._beginning = Beginning(wish, plan, log, given, state, self._repeats)
        self._reloading = Reloading(wish.program, given.orders, log, state, self._fit, self._beginning)
        self._utc = self._beginning.utc
        self._has_clock = wish.has_clock
        self._air: Optional[Air] = None
        self._agreeing: Optional[Agreeing] = None
        self._sinks: Optional[Sinks] = None
        self._expected = -1
        self._moment = Moment(0.0, 0.0)

    @property
    def is_resumed(self) -> bool:
        """Whether the plan has a past: it goes on by its log."""
        return self._log.past is not None

    def run(self, name: str, reader: Items, sinks: Sinks, is_of_datagrams: bool) -> int:
        """Each frame of a stream of this name into the sinks; returns the exit status."""
        self._sinks = self._control.board.sinks = sinks
        self._agreeing = Agreeing() if is_of_datagrams else None
        for items in reader.items():
            self._moment = Moment(time.monotonic(), time.time())
            for item in items:
                self._item(item)
        if self._air is None:
            raise Trouble(f"{name}: {self._missing()}")
        return 1 if self.state.unfilled else 0

    def end(self) -> bool:
        """Ends the children, and closes all; returns whether that went well."""
        self._repeats.end()
        unfilled = self.state.unfilled
        if unfilled:
            say(f"{number_of(unfilled)} could not be filled: nothing went out for {'it' if unfilled == 1 else 'them'}")
        self._reloading.end()
        is_well = self._beginning.end() if self._air is None else self._air.end()
        self._monitor.close()
        self._check.close()
        self._given.close()
        self._control.close()
        is_well = self._log.close() and is_well
        self._file.close()
        return is_well

    def _missing(self) -> str:
        """Why the plan did not begin."""
        if not self.state.frames_in:
            return "no frames"
        return "no FIG 0/0" if self._placer.ensemble is None else self._beginning.missing()

    def _item(self, item: Item) -> None:
        """What comes of a frame, or of bytes that are none."""
        at = self.state.frames_in
        self.state.frames_in += 1
        self._repeats.look(at)
        if isinstance(item, NoFrame):
            self._unfill(f"{item.reason}, {item.size} bytes")
            return
        has_begun = self._air is not None
        if has_begun and item.mode != self._plan.mode:
            self._unfill(f"transmission mode {item.mode}")
            return
        if item.wrong and item.whole is not None and (not has_begun or item.whole != self._expected):
            # Nothing protects the count of this packet: it is believed where it is the one that is due.
            self._unfill("a damaged packet")
            return
        let_go, others = self._placer.dropped, self._placer.contradicting
        moment = self._moment if item.stamp is None else Moment(self._moment.host, item.stamp, True)
        fic = item.fic()
        if self._has_clock:
            self._utc.look(fic, moment)
        for frame, count in self._placer.place(item, fic):
            self._agreed(frame, count, moment)
        if self._placer.contradicting > others:
            self._repeats.add("FIG 0/0 that are passed over", at,
                              f"frame {at}: its FIG 0/0 has another count than the frame: it is passed over")
        self._tell_lost(self._placer.dropped - let_go, has_begun, "no FIG 0/0 tells its count")

    def _tell_lost(self, frames: int, has_begun: bool, reason: str) -> None:
        """Counts frames that were let go."""
        if frames and has_begun:
            self.state.unfilled += frames - 1
            self._unfill(reason)

    def _unfill(self, reason: str) -> None:
        """Counts a frame that can't be filled."""
        at = self.state.frames_in - 1
        self.state.unfilled += 1
        self._repeats.add("frames that can't be filled", at, f"frame {at}: {reason}: nothing goes out for it")

    def _agreed(self, frame: Frame, count: int, moment: Moment) -> None:
        """What comes of a frame whose count is known. Of datagrams, several have to agree where their count steps."""
        if self._agreeing is None:
            self._placed(frame, count, moment)
            return
        lost, has_begun = self._agreeing.lost, self._air is not None
        for each in self._agreeing.take(frame, count, moment):
            self._placed(*each)
        self._tell_lost(self._agreeing.lost - lost, has_begun, "no other packet has a count near its own")

    def _placed(self, frame: Frame, count: int, moment: Moment) -> None:
        """What comes of a frame whose count is believed."""
        assert self._sinks is not None
        at, state = self.state.frames_in - 1, self.state
        air = self._air
        is_first = air is None
        if air is None:
            self._reloading.refuse("the plan has not begun")
            if not self._beginning.is_in(frame, count):
                return
            air = self._air = self._beginning.begin(Arrival(frame, count, moment, at), self._fit)
        other = None if is_first else self._reloading.look(air, frame, count, moment, at)
        if other is not None:
            air = self._air = other
        fic = air.fic(frame, count, moment, at)
        self._expected = 0 if count == 4999 else count + 1
        if fic is None:
            self._unfill(f"its count {count} is before the plan's first frame")
            return
        composer = self._composer
        made = frame.with_fic(fic) if composer is None else composer.made(frame, count, fic, air.on_air())
        self._sinks.put(made)
        self._monitor.put(fic)
        self._check.put(fic)
        if is_first:
            self._log.open()
        air.record(moment)
        if is_first:
            air.begun(time.time() - self._moment.wall)
        if self._utc.is_seen:
            self._log.utc()
        self._fit.compare(frame, at, air.sub_channels, air.has_swapped)
        state.frames_out += 1
        state.count, state.last = count, moment.host
        state.swaps += air.has_swapped
        self._file.look(moment.host, air.swap_in)
        self._control.frame(fic, count, state, air)
