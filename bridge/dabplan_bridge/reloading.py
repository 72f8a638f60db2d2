"""A plan is replaced by another one without a gap.

The file of the plan is read anew by an order. What it says is compiled such that it begins with what is on air, is
compared with the sub-channels of the stream, and goes on air from a frame on that is due shortly: up to that one the
plan so far goes on, and what is in its way leaves it there. What takes its time is done by a thread of its own, so that
no frame waits for it.
"""
from __future__ import annotations

import functools
import os
import threading
from dataclasses import dataclass
from typing import Callable, Generic, List, Optional, TypeVar

from .air import Air
from .beginning import Arrival, Beginning
from .chain import END_SECONDS, Live, frame_lines, taken
from .copies import keep
from .faults import Trouble, listed, say, why
from .fibs import COUNTS, DAY_FRAMES, Listener, size_of
from .fit import Fit
from .follower import step_of
from .frames import Frame
from .holding import script_of
from .log import Log
from .moments import Moment
from .orders import Order, Orders
from .past import day_frame_of_start
from .plan import Plan, plan_of
from .player import Player, Start
from .priority import set_policy
from .state import Alarm, State

LEAD = 25
"""So many frames ahead it is said in which one the other plan begins: its children are started meanwhile."""
TRIES = 5
"""So often another frame is chosen, where that one did not come when it was due."""
Made = TypeVar("Made")


class Task(Generic[Made]):
    """Something that is made by a thread of its own."""

    def __init__(self, make: Callable[[], Made]) -> None:
        self._make = make
        self._made: Optional[Made] = None
        self._fault: Optional[Trouble] = None
        self._thread = threading.Thread(target=self._run, name="reloading", daemon=True)
        self._thread.start()

    @property
    def is_done(self) -> bool:
        """Whether it is made, or can't be."""
        return not self._thread.is_alive()

    def made(self, seconds: float) -> Made:
        """What was made; `Trouble` where it can't be, or not within so many seconds."""
        self._thread.join(seconds)
        if self._fault is not None:
            raise self._fault
        if self._made is None:
            raise Trouble("it takes too long")
        return self._made

    def _run(self) -> None:
        try:
            self._made = self._make()
        except Trouble as fault:
            self._fault = fault


@dataclass
class Beginner:
    """A plan that is to begin."""

    number: int
    """In the place of the frame of this number of the plan so far."""
    start: Start
    player: Task[Player]


def first_script(program: str, plan: Plan, like: Plan) -> bytes:
    """The script of what a plan begins with, with the header of another plan; `Trouble` where it can't be had."""
    live = Live(program, plan.code, [])
    live.feed(frame_lines(plan.history))
    found: List[bytes] = []
    listener, size = Listener(), size_of(plan.mode)
    for number in range(plan.history):
        fic = taken(live.output.fileno(), size)
        if len(fic) < size or listener.hear(fic, number):
            break
        found.append(fic)
    live.end()
    live.output.close()
    return script_of(program, like, found)


class Reloading:
    """The orders to replace the plan, one after the other."""

    def __init__(self, program: str, orders: Orders, log: Log, state: State, fit: Fit, beginning: Beginning) -> None:
        self._program, self._orders, self._log = program, orders, log
        self._state, self._fit, self._beginning = state, fit, beginning
        self._order: Optional[Order] = None
        self._plan: Optional[Task[Plan]] = None
        self._found: Optional[Plan] = None
        self._beginner: Optional[Beginner] = None
        self._swaps: object = None
        self._tries = 0
        self._ending: List[threading.Thread] = []

    def refuse(self, why: str) -> None:
        """Refuses what is asked for."""
        order = self._orders.reload()
        if order is not None:
            self._refuse(order, why)

    def look(self, air: Air, frame: Frame, count: int, moment: Moment, at: int) -> Optional[Air]:
        """Goes on with an order, before a frame of this count gets its FIC; returns the plan that goes on air with this
        frame, or None."""
        if self._order is None:
            self._order = self._orders.reload()
        else:
            self.refuse("it is being replaced")
        order = self._order
        if order is None:
            return None
        try:
            if self._go_on(air, frame, count, moment):
                return self._replaced(order, air, Arrival(frame, count, moment, at))
        except Trouble as fault:
            self._give_up()
            self._refuse(order, str(fault))
        return None

    def end(self) -> None:
        """Gives up what is under way, and waits for what ends."""
        if self._order is not None:
            self._refuse(self._order, "the bridge ends")
        self._give_up()
        for each in self._ending:
            each.join(END_SECONDS)

    def _go_on(self, air: Air, frame: Frame, count: int, moment: Moment) -> bool:
        """Does what is due for the order; returns whether the other plan begins with this frame."""
        refuse_other(air)
        if self._plan is None:
            self._read(air)
            return False
        if air.swaps != self._swaps:
            raise Trouble("what is on air has changed meanwhile")
        if self._beginner is not None:
            return self._is_due(self._beginner, air, count, moment)
        if self._plan.is_done:
            self._found = self._plan.made(0.0)
            self._compare(self._found, air, frame)
            self._begin(air, count, moment)
        return False

    def _read(self, air: Air) -> None:
        """Lets the file be read, and compiled, where it is known what is on air."""
        known = air.known()
        if known is not None:
            self._swaps, self._tries = air.swaps, 0
            self._plan = Task(functools.partial(self._planned, air.plan, known))

    def _planned(self, before: Plan, known: Callable[[], bytes]) -> Plan:
        """The other plan, at the path of the one before; `Trouble` where it does not begin with what is on air."""
        # Frames have a real-time priority, and this takes its time: it does without.
        set_policy(0, os.SCHED_OTHER, 0)
        now = known()
        found = plan_of(before.path, self._program, now)
        try:
            self._keep(found)
            if (found.mode, found.eid) != (before.mode, before.eid):
                raise Trouble(f"{found.path}: another ensemble")
            if found.script is None and first_script(self._program, found, before) != now:
                raise Trouble(f"{found.path} does not begin with what is on air")
        except Trouble:
            found.close()
            raise
        return found

    def _keep(self, plan: Plan) -> None:
        """Writes the copy of a plan's code that its log is to have."""
        try:
            if self._log.has_copies:
                keep(self._log.path or "", plan.data, True)
        except OSError as fault:
            raise Trouble(f"cannot write a copy of the code of {plan.path}: {why(fault)}") from None

    def _compare(self, plan: Plan, air: Air, frame: Frame) -> None:
        """Raises `Trouble` where the other plan does not fit the stream, or the log can't be written."""
        wrong = self._fit.against(plan, frame, air.sub_channels())
        if wrong:
            raise Trouble(f"{plan.path} does not fit: {listed(wrong)}")
        self._log.note()
        if self._log.path is not None and not self._log.is_written:
            raise Trouble(f"{self._log.path} can't be written")

    def _begin(self, air: Air, count: int, moment: Moment) -> None:
        """Chooses the frame with which the other plan begins, and starts it."""
        plan, program = self._found, self._program
        assert plan is not None
        if self._tries == TRIES:
            raise Trouble("the counts of the stream do not follow each other")
        self._tries += 1
        number = (air.number_by_clock(moment) if air.is_held else air.player.made) + LEAD
        due = count if air.is_held else air.player.due
        first = day_frame_of_start(air.player.start.time) or 0
        start = Start((due + LEAD) % COUNTS, f"day {(first + number) % DAY_FRAMES}", 0)
        told_from = 0 if self._beginning.is_told else None
        self._beginner = Beginner(number, start, Task(functools.partial(Player, program, plan, start, [], told_from)))

    def _is_due(self, beginner: Beginner, air: Air, count: int, moment: Moment) -> bool:
        """Whether the other plan begins with the frame of a count. Where that one is not due any more, another frame is
        chosen."""
        ahead = step_of(beginner.start.first, count)
        is_here = ahead == 0 and (air.is_held or (air.player.due, air.player.made) == (count, beginner.number))
        if not is_here and not 0 < ahead <= LEAD:
            self._drop(beginner)
            self._begin(air, count, moment)
        return is_here

    def _replaced(self, order: Order, air: Air, here: Arrival) -> Air:
        """The other plan, which begins with this frame."""
        beginner, plan = self._beginner, self._found
        assert beginner is not None and plan is not None
        player = beginner.player.made(END_SECONDS)
        was_held = air.is_held
        found = self._beginning.replaced(air, plan, player, here, beginner.number)
        self._fit.take(plan)
        self._order = self._plan = self._found = self._beginner = None
        self._ending = [each for each in self._ending if each.is_alive()]
        self._ending.append(threading.Thread(target=end_of, args=(air,), name="ending", daemon=True))
        self._ending[-1].start()
        text = f"{plan.path} takes its own place: its frame 0 is at count {here.count}"
        if was_held:
            self._state.clear(Alarm.HELD, "what was held is what the plan begins with")
        say(text)
        order.answer(200, frame=0, count=here.count, plan=plan.digest)
        return found

    def _give_up(self) -> None:
        """Ends what was begun for an order."""
        if self._beginner is not None:
            self._drop(self._beginner)
        plan, found = self._plan, self._found
        if found is not None:
            found.close()
        elif plan is not None:
            threading.Thread(target=close_of, args=(plan,), daemon=True).start()
        self._order = self._plan = self._found = None

    def _drop(self, beginner: Beginner) -> None:
        """Ends a plan that does not begin."""
        self._beginner = None
        ending = threading.Thread(target=end_of_player, args=(beginner.player,), name="ending", daemon=True)
        self._ending.append(ending)
        ending.start()

    @staticmethod
    def _refuse(order: Order, why: str) -> None:
        say(f"the plan is not replaced: {why}")
        order.answer(409, error=why)


def refuse_other(air: Air) -> None:
    """Raises `Trouble` where something else is under way."""
    if air.is_changing:
        raise Trouble("a swap is announced")
    if air.is_busy:
        raise Trouble("the plan is being taken up")


def end_of(air: Air) -> None:
    """Ends a plan that was on air."""
    air.end()
    air.plan.close()


def end_of_player(player: Task[Player]) -> None:
    """Ends a plan that was started."""
    try:
        player.made(END_SECONDS).end()
    except Trouble:
        pass


def close_of(plan: Task[Plan]) -> None:
    """Lets go of a plan that is not wanted any more."""
    try:
        plan.made(END_SECONDS).close()
    except Trouble:
        pass
