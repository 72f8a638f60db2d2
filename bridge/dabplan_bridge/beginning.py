"""How a plan begins, or goes on by its log: in which frame of the stream, with which of its own, and at which time of
day."""
from __future__ import annotations

import time
from dataclasses import dataclass
from typing import Iterable, Iterator, List, Optional, Tuple

from .air import TAKE_UP, Air
from .chain import Live, frame_lines, taken
from .faults import Repeats, WillNotGuess, number_of, say
from .fibs import COUNTS, DAY_FRAMES, FRAME_SECONDS, Listener, day_frame_of, size_of, utc_of
from .fit import Fit
from .follower import NEAR, Follower, Step, frames_by_clock, step_of
from .frames import Frame
from .given import Given
from .holding import script_of, settled
from .log import Log, date_line
from .moments import Moment
from .past import Past, steps_in
from .plan import Plan
from .player import Player, Start, moved, past_start
from .retaking import Retaking
from .state import Phase, State
from .utc import UtcWatch

HOUR_FRAMES = DAY_FRAMES // 24
"""The frames of an hour."""
FAR = 100_000
"""Where more frames were missed, the plan is played anew from its log: `dabplan live` skips them faster than they are
made."""


@dataclass(frozen=True)
class Wish:
    """What the command line asks of the beginning."""

    program: str
    time: Optional[str] = None
    """`HH:MM:SS`, or `now`."""
    is_local: bool = False
    """Whether `now` is that of the host's zone, not UTC."""
    clock_is_fig: bool = False
    offset: float = 0.0
    """Hours to be added to FIG 0/10."""
    skip: int = 0
    """The frames of the plan before the first one that goes out."""
    resume_at: Optional[int] = None
    """The count at which the plan of a log goes on."""
    tolerance: float = 3.0
    """The seconds by which count and clock may differ."""
    is_strict: bool = False
    is_told: bool = False
    """Whether notices and swaps are reported."""
    has_clock: bool = True
    """Whether the stream comes in real time."""


@dataclass(frozen=True)
class Arrival:
    """A frame of the stream, as it came."""

    frame: Frame
    count: int
    moment: Moment
    at: int
    """Its index, the first one 0."""


class Beginning:
    """A plan that has not begun. Where there is a log, its past is played at once, before any frame comes."""

    def __init__(self, wish: Wish, plan: Plan, log: Log, given: Given, state: State, repeats: Repeats) -> None:
        self._wish = wish
        self._plan = plan
        self._log, self._given = log, given
        self._state, self._repeats = state, repeats
        self._utc = UtcWatch(state)
        self._waited = 0
        self._player: Optional[Player] = None
        log.refuse_other_plan(plan.digest, plan.path)
        if log.past is not None and log.past.has_utc:
            self._utc.expect()
        if log.past is not None and wish.resume_at is None:
            self._player = self._played(past_start(log.past), log.past.frames)

    @property
    def utc(self) -> UtcWatch:
        """What FIG 0/10 says of the clock."""
        return self._utc

    def missing(self) -> str:
        """What the plan waits for."""
        if self._wish.resume_at is not None:
            return f"no frame of the count {self._wish.resume_at}"
        return "no FIG 0/10 with seconds" if self._wish.clock_is_fig else "no frame with a count"

    def is_in(self, frame: Frame, count: int) -> bool:
        """Whether the plan can begin in this frame."""
        wish, is_waiting = self._wish, False
        if wish.resume_at is not None:
            is_waiting = count != wish.resume_at
        elif wish.clock_is_fig and self._log.past is None:
            is_waiting = utc_of(frame.fic()) is None
        self._waited += is_waiting
        if self._waited == NEAR and is_waiting:
            say(f"still waiting for {'FIG 0/10 with seconds' if wish.resume_at is None else f'count {wish.resume_at}'}")
        return not is_waiting

    def begin(self, here: Arrival, fit: Fit) -> Air:
        """The plan begins, or goes on, in this frame. `DoesNotFit` where it does not fit the stream, `WillNotGuess`
        where its count is not explained and that is to end the bridge."""
        fit.refuse_ensemble(here.frame)
        past = self._log.past
        if past is None:
            return self._fresh(here, fit)
        if self._wish.resume_at is not None:
            return self._moved(past, here, fit)
        number, step = self._place(past, here)
        if number is None or past.is_held:
            return self._held(past, here, step)
        return self._resumed(past, here, number, fit)

    def end(self) -> bool:
        """Ends the children of a plan that did not begin; returns whether they ended well."""
        return self._player is None or self._player.end()

    def _played(self, start: Start, first: int) -> Player:
        """The plan, played so far. Where notices and swaps are reported, those of frames from `first` on are."""
        return Player(self._wish.program, self._plan, start, self._log.steps(), first if self._wish.is_told else None)

    def _fresh(self, here: Arrival, fit: Fit) -> Air:
        """A plan without a past."""
        skip = self._wish.skip
        start = Start((here.count - skip) % COUNTS, self._time_of(here), skip, skip)
        self._player = self._played(start, skip)
        fit.refuse(here.frame, self._player.coming, True)
        return self._following(self._player, skip, here, f"frame {here.at}: the plan begins at count {here.count}")

    def _moved(self, past: Past, here: Arrival, fit: Fit) -> Air:
        """A plan that is taken up at any count. The frames of the time since then belong to its day, and are not
        sent."""
        has_time = past.wall is not None and self._wish.has_clock
        seconds = here.moment.wall - (past.wall or 0.0) - FRAME_SECONDS if has_time else 0.0
        start = moved(past, here.count, max(0, round(seconds / FRAME_SECONDS)))
        self._player = self._played(start, past.frames)
        return self._going_on(past, self._player, start.frames, here, fit)

    def _resumed(self, past: Past, here: Arrival, number: int, fit: Fit) -> Air:
        """A plan that goes on by count and clock."""
        assert self._player is not None
        if number - self._player.made > FAR:
            self._player.end()
            self._player = self._played(Start(past.count, past.start, number, number - past.frames), past.frames)
        elif number > self._player.made:
            self._player.pass_over(number - self._player.made)
        return self._going_on(past, self._player, number, here, fit)

    def _going_on(self, past: Past, player: Player, number: int, here: Arrival, fit: Fit) -> Air:
        """The plan of a log goes on with its frame of a number."""
        fit.refuse(here.frame, player.coming, False)
        missed, behind = max(0, number - past.frames), max(0, past.frames - number)
        again = f"; {number_of(behind)} sent again" if behind else ""
        were = "was" if missed == 1 else "were"
        say(f"resumed after {number_of(past.frames)}; {number_of(missed)} {were} not sent{again}")
        return self._following(player, number, here, f"frame {here.at}: the plan goes on at count {here.count}")

    def _following(self, player: Player, number: int, here: Arrival, text: str) -> Air:
        follower = self._follower(player.start)
        follower.begin(number, here.moment)
        air = self._air(player, follower, here)
        self._state.phase = Phase.FOLLOWING
        say(text)
        return air

    def _held(self, past: Past, here: Arrival, step: Step) -> Air:
        """What was on air at the end of a log is held."""
        if self._wish.is_strict:
            raise WillNotGuess(f"{self._log.path}: {step}: {TAKE_UP}")
        player = self._player
        assert player is not None
        script, held = self._held_script(past, player)
        follower = self._follower(player.start)
        follower.hold(past.frames, self._end_of(past, here.moment))
        air = self._air(player, follower, here)
        air.hold(script, held, f"{self._log.path}: {step}")
        return air

    def _held_script(self, past: Past, player: Player) -> Tuple[bytes, Optional[int]]:
        """The script of what was on air at the end of a log, and the frame of the plan from which on it has that; None
        where none has it."""
        program, plan = self._wish.program, self._plan
        if past.holds is not None:
            return past.holds, None
        if past.held is not None:
            return script_of(program, plan, self._frames_from(past, past.held)), past.held
        found, held = settled(player, plan)
        return script_of(program, plan, found), held

    def _frames_from(self, past: Past, frame: int) -> List[bytes]:
        """The FICs of the plan of a log from one of its frames on, up to a swap, as many as a receiver needs."""
        live = Live(self._wish.program, self._plan.code, [*past_start(past).options(), "--skip", str(frame)])
        live.feed(first_steps(self._log.steps(), frame))
        live.feed(frame_lines(self._plan.history))
        found: List[bytes] = []
        listener, size = Listener(), size_of(self._plan.mode)
        for number in range(frame, frame + self._plan.history):
            fic = taken(live.output.fileno(), size)
            if len(fic) < size or (listener.hear(fic, (past.count + number) % COUNTS) and found):
                break
            found.append(fic)
        live.end()
        live.output.close()
        return found

    def _air(self, player: Player, follower: Follower, here: Arrival) -> Air:
        start = player.start
        if self._plan.script is not None:
            self._log.keep(self._plan.data, self._plan.script)
        self._log.start(start.first, start.time, self._plan.digest, here.moment.wall)
        past = self._log.past
        before = 0 if past is None else past.frames
        known = None if past is None else past.first_date
        self._log.dated(self._given.begin(start.time, follower.due, here.moment.wall, known))
        if player.made > before:
            self._log.count(player.made - before, here.moment.wall)
        return self._of(player, follower)

    def _of(self, player: Player, follower: Follower) -> Air:
        wish = self._wish
        retaking = Retaking(self._given.orders, self._log, self._plan, self._given, self._anew, self._retaken,
                            self._follower)
        return Air(wish.program, self._plan, player, follower, self._log, self._given, self._state, self._repeats,
                   retaking, wish.is_strict)

    @property
    def is_told(self) -> bool:
        """Whether notices and swaps are reported."""
        return self._wish.is_told

    def replaced(self, air: Air, plan: Plan, player: Player, here: Arrival, number: int) -> Air:
        """Another plan goes on in the place of one that is on air, or held, with this frame, which would have been that
        of a number: what it begins with is on air."""
        start, log, given = player.start, self._log, self._given
        if air.is_held:
            follower = self._follower(start)
            follower.begin(0, here.moment)
        else:
            follower = air.handed_over(number)
            player.come_after(air.player)
        closed = given.closed_lines()
        player.pass_over(0, closed)
        first = given.hand_over(start.time, number)
        lines = [line.decode("ascii") for line in closed] + ([] if first is None else [date_line(first)])
        self._plan = plan
        log.keep(plan.data, plan.script)
        log.begin_anew(start.first, start.time, plan.digest, here.moment.wall, [*lines, *given.remarks()])
        self._state.phase = Phase.FOLLOWING
        return self._of(player, follower)

    def _anew(self, frame: Frame, count: int, moment: Moment, at: int) -> Optional[Start]:
        """How the plan begins anew with a frame; None where it needs one with a FIG 0/10."""
        if self._wish.clock_is_fig and utc_of(frame.fic()) is None:
            return None
        skip = self._wish.skip
        return Start((count - skip) % COUNTS, self._time_of(Arrival(frame, count, moment, at)), skip, skip)

    def _retaken(self, start: Start, steps: List[bytes], is_anew: bool) -> Player:
        """A plan that is taken up: anew, with these steps, or from its log."""
        told_from = start.frames if self._wish.is_told else None
        given = steps if is_anew or self._log.path is None else steps_in(self._log.path)
        return Player(self._wish.program, self._plan, start, given, told_from)

    def _follower(self, start: Start) -> Follower:
        return Follower(start.first, self._wish.tolerance, self._wish.has_clock, self._utc)

    def _place(self, past: Past, here: Arrival) -> Tuple[Optional[int], Step]:
        """The number of the plan's frame that goes on, by count and clock; None where these do not agree."""
        step = step_of(here.count, past.due())
        if not self._wish.has_clock:
            frames, seconds, against = step if abs(step) <= NEAR else None, None, ""
        else:
            if past.wall is None:
                raise WillNotGuess(f"{self._log.path} tells no wall time: {TAKE_UP}")
            seconds = here.moment.wall - past.wall
            frames = frames_by_clock(step, seconds, self._wish.tolerance)
            against = self._utc.against(here.moment) if frames is not None and frames > NEAR else ""
        if frames is None or against or frames < -min(NEAR, past.frames):
            return None, Step(here.count, past.due(), None, seconds, against)
        return past.frames + frames, Step(here.count, past.due(), frames, seconds)

    @staticmethod
    def _end_of(past: Past, moment: Moment) -> Moment:
        """When the last frame of a log came."""
        wall = moment.wall if past.wall is None else past.wall
        return Moment(moment.host - (moment.wall - wall), wall, moment.is_stamped)

    def _time_of(self, here: Arrival) -> str:
        """The time of the plan's first frame."""
        wish = self._wish
        if wish.clock_is_fig:
            found = day_frame_of(utc_of(here.frame.fic()) or 0.0)
            day = round(found + wish.offset * HOUR_FRAMES - wish.skip) % DAY_FRAMES
            say(f"frame {here.at}: FIG 0/10 gives {text_of_frame(round(found))} UTC; the plan's first frame has "
                f"{text_of_frame(day)}")
            return f"day {day}"
        if wish.time == "now":
            wall = here.moment.wall
            zone = time.localtime(wall).tm_gmtoff if wish.is_local else 0
            day = round(day_frame_of(wall + zone) - wish.skip) % DAY_FRAMES
            name = "local time" if wish.is_local else "UTC"
            say(f"frame {here.at}: the plan's first frame has {text_of_frame(day)} {name}")
            return f"day {day}"
        return f"time {wish.time or '-'}"


def text_of_frame(day: int) -> str:
    """A frame of the day as its time, with milliseconds."""
    seconds, milliseconds = divmod(round(day * FRAME_SECONDS * 1000), 1000)
    return f"{seconds // 3600:02}:{seconds // 60 % 60:02}:{seconds % 60:02}.{milliseconds:03}"


def first_steps(steps: Iterable[bytes], frames: int) -> Iterator[bytes]:
    """The steps of so many frames."""
    left = frames
    for step in steps:
        if step.startswith(b"frames"):
            now = min(left, int(step[7:]))
            left -= now
            yield from frame_lines(now)
            if not left:
                return
        else:
            yield step
    yield from frame_lines(left)
