"""Several inputs as one stream: their frames in pairs, by their counts.

The first frame goes out when all inputs have one; where a plan is resumed, also when one of them has DELAY frames.
Later one goes out when each input that is present has it, or a later one; or when one in real time has the frame DELAY
frames later. All that has arrived is read before that is decided. A regular file is read as far as it takes, and is no
deadline for others.

An input is present from its first frame on that can go out, or is late by less than the delay, until its connection or
its stream ends. The first input that has the frame gives the clock: its header, its FIC, its time stamp. Frames more
than 250 from what is due belong to no frame of the others. Where no input has any other frames, the stream goes on
there, and the bridge sees a step.
"""
from __future__ import annotations

import time
from typing import Iterator, List, Optional, Sequence

from .faults import DoesNotFit, Trouble, WillNotGuess, listed, say
from .fibs import COUNTS
from .follower import NEAR, step_of
from .frames import Frame, Item
from .inputs import Counted, Input
from .plan import Plan
from .state import Alarm, State
from .waiting import Waiter

BASE = 1_000_000 * COUNTS
"""Positions are near this: none is below 0."""
WAIT_SECONDS = 5.0
"""After so many seconds it is said which inputs are waited for at the start."""
ABSENT = 25
"""An input without a frame in so many frames is an alarm."""


class Pairing:
    """The inputs of a plan. `delay`: how many frames of one are waited for another. `is_resumed`: the plan is on air
    already."""

    def __init__(self, inputs: Sequence[Input], plan: Plan, waiter: Waiter, state: State, delay: int, is_strict: bool,
                 is_resumed: bool) -> None:
        self._inputs = list(inputs)
        self._plan = plan
        self._waiter = waiter
        self._state = state
        self._delay = delay
        self._is_strict, self._is_resumed = is_strict, is_resumed
        self._next: Optional[int] = None
        self._absent = [0] * len(self._inputs)
        self._since = time.monotonic()
        self._is_told = False

    def items(self) -> Iterator[List[Item]]:
        """The frames in order, each with those of the other inputs beside it, and what was no frame in the only input
        that is connected; to the end of all inputs."""
        while True:
            damaged: List[Item] = []
            has_read = self._read(damaged)
            found = damaged + self._ready()
            if found:
                yield found
            if all(each.feed.has_ended for each in self._inputs) and not has_read and not found:
                break
            if not has_read and not found:
                self._wait()

    def close(self) -> None:
        """Closes the inputs."""
        for each in self._inputs:
            each.feed.close()

    def _read(self, damaged: List[Item]) -> bool:
        """Reads all that has arrived; returns whether that is anything."""
        now, has_read = time.monotonic(), False
        for each in self._inputs:
            each.feed.look(now)
            has_read = self._read_one(each, damaged) or has_read
        return has_read

    def _read_one(self, one: Input, damaged: List[Item]) -> bool:
        """Reads what has arrived at an input, as far as it can be used now."""
        has_read = False
        while one.wants(None if self._next is None else self._next + self._delay):
            has_now, bad, found = one.read(self._next is not None)
            if not has_now:
                break
            has_read = True
            if self._next is not None and self._is_alone(one):
                damaged += bad
            for count, frame in found:
                self._put(one, count, frame)
            if self._next is None or one.is_apart:
                break
        one.state.depth = len(one.frames)
        return has_read

    def _is_alone(self, one: Input) -> bool:
        """Whether no other input is connected, or has frames that wait."""
        return not any(each.feed.is_connected or each.frames for each in self._inputs if each is not one)

    def _wait(self) -> None:
        """Waits until something arrives, or something is to be done by the clock."""
        now = time.monotonic()
        moment = min(each.feed.next_look for each in self._inputs)
        if self._next is None:
            self._tell_waiting(now)
            moment = min(moment, now + WAIT_SECONDS)
        self._waiter.once(None if moment == float("inf") else max(0.0, moment - now))

    def _tell_waiting(self, now: float) -> None:
        """Says once which inputs are waited for."""
        if not self._is_told and now - self._since >= WAIT_SECONDS:
            self._is_told = True
            say(f"still waiting for input {listed([each.name for each in self._inputs if not each.early])}")

    def _put(self, one: Input, count: int, frame: Frame) -> None:
        """Takes a frame of an input."""
        if self._next is None:
            one.early.append((count, frame))
            return
        if not self._is_of_plan(one):
            return
        step = step_of(count, self._next % COUNTS)
        one.seen = self._next + step
        if 0 <= step <= NEAR:
            one.put(self._next + step, frame)
            return
        one.put_off(count, frame, abs(step) > NEAR)
        one.state.late += -NEAR <= step < 0
        # One that is only a little late is waited for from here on.
        one.is_present = one.is_present or -self._delay <= step < 0

    def _is_of_plan(self, one: Input) -> bool:
        """Whether the last frame of an input is of the ensemble of the plan; an alarm where it is not."""
        wrong = against(one, self._plan)
        if wrong != one.wrong:
            one.wrong = wrong
            texts = [f"input {each.name}: {each.wrong}" for each in self._inputs if each.wrong]
            if texts:
                self._state.alarm(Alarm.ENSEMBLE, f"{listed(texts)}: nothing of it goes out")
            else:
                self._state.clear(Alarm.ENSEMBLE, "all inputs are of the ensemble of the plan again")
        return not wrong

    def _ready(self) -> List[Item]:
        """The frames that can go out now."""
        if self._next is None and not self._begin():
            return []
        found: List[Item] = []
        while True:
            while self._can_go():
                found += self._go()
            if found or not self._resync():
                break
        return found

    def _begin(self) -> bool:
        """Begins where it can; returns whether it has begun."""
        ready = [each for each in self._inputs if each.early]
        if not ready or (len(ready) < len(self._inputs) and not self._may_begin(ready)):
            return False
        for each in ready:
            wrong = against(each, self._plan)
            if wrong:
                raise DoesNotFit(f"{self._plan.path}: input {each.name}: {wrong}")
        first = ready[0].early[0][0]
        near = [each for each in ready if self._is_near(each, ready[0].at)]
        self._next = BASE + first + max(step_of(each.early[0][0], first) for each in near)
        for each in ready:
            early = list(each.early)
            each.early.clear()
            each.is_present = each in near and each.feed.is_connected
            self._put_all(each, [counted for counted in early if each not in near or self._is_due(counted[0])])
        return True

    def _is_due(self, count: int) -> bool:
        """Whether a count is that of the frame that is due, or of a later one."""
        assert self._next is not None
        return step_of(count, self._next % COUNTS) >= 0

    def _put_all(self, one: Input, frames: Sequence[Counted]) -> None:
        """Takes frames of an input, with their counts."""
        for count, frame in frames:
            self._put(one, count, frame)

    def _may_begin(self, ready: List[Input]) -> bool:
        """Whether to begin without some inputs. `Trouble` where one has ended without a frame, and the plan is not on
        air yet."""
        missing = [each for each in self._inputs if each not in ready]
        if not self._is_resumed:
            ended = [each for each in missing if each.feed.has_ended]
            if ended:
                raise Trouble(f"input {ended[0].name}: no frames with a count")
            return False
        return all(each.feed.has_ended for each in missing) or \
            any(len(each.early) >= self._delay or each.feed.has_ended for each in ready)

    def _is_near(self, one: Input, first: int) -> bool:
        """Whether the counts of an input belong to those of the first one. `WillNotGuess` where they do not, if that is
        to end the bridge."""
        if abs(step_of(one.at, first)) <= NEAR:
            return True
        text = f"input {one.name}: its count is {one.at}, that of the first input is {first}"
        if self._is_strict:
            raise WillNotGuess(text)
        say(f"{text}: it is left out as long as they are more than {NEAR} apart")
        return False

    def _can_go(self) -> bool:
        """Whether the frame that is due can go out, or be passed over where no input has it."""
        assert self._next is not None
        due = self._next
        if all(each.newest < due for each in self._inputs):
            return False
        is_over = any(each.newest >= due + self._delay for each in self._inputs if not each.feed.is_regular)
        return all(each.has(due) or (is_over and not each.feed.is_regular) for each in self._inputs)

    def _go(self) -> List[Item]:
        """The frame that is due; none where no input has it."""
        assert self._next is not None
        due = self._next
        frames = tuple(each.frames.pop(due, None) for each in self._inputs)
        self._next = due + 1
        base = next((frame for frame in frames if frame is not None), None)
        if base is None:
            return []
        for each in self._inputs:
            each.idle = 0
            each.state.depth = len(each.frames)
        self._count_absent(frames)
        return [base._replace(beside=frames)]

    def _count_absent(self, frames: Sequence[Optional[Frame]]) -> None:
        """Counts frames that an input has not; an alarm where that goes on."""
        before = [absent >= ABSENT for absent in self._absent]
        for at, frame in enumerate(frames):
            self._inputs[at].state.missing += frame is None
            self._absent[at] = self._absent[at] + 1 if frame is None else 0
        now = [absent >= ABSENT for absent in self._absent]
        if now == before:
            return
        names = [each.name for each, is_absent in zip(self._inputs, now) if is_absent]
        if names:
            self._state.alarm(Alarm.INPUT, f"no frames in time of input {listed(names)}: others take over, or silence")
        else:
            self._state.clear(Alarm.INPUT, "all inputs have their frames in time again")

    def _resync(self) -> bool:
        """Where no input has a frame that can go out, and one has others, the stream goes on there; returns whether it
        does."""
        if any(each.frames for each in self._inputs):
            return False
        are_apart = all(each.is_apart or not each.is_present for each in self._inputs)
        one = next((each for each in self._inputs if each.off and
                    (each.idle >= self._delay or (each.is_apart and are_apart))), None)
        if one is None:
            return False
        assert self._next is not None
        off = [each.taken_off() for each in self._inputs]
        self._next += step_of(off[self._inputs.index(one)][0][0], self._next % COUNTS)
        for each, frames in zip(self._inputs, off):
            each.newest = each.seen = -1
            each.idle = 0
            self._put_all(each, frames)
        return True


def against(one: Input, plan: Plan) -> str:
    """Why the frames of an input are not of a plan's ensemble; empty where they are."""
    ensemble = one.placer.ensemble
    if one.mode != plan.mode:
        return f"transmission mode {one.mode}; that of the plan is {plan.mode}"
    if ensemble is not None and ensemble.eid != plan.eid:
        return f"ensemble {ensemble.eid:04X}; that of the plan is {plan.eid:04X}"
    return ""
