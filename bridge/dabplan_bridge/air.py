"""What goes on air: the FIC of each frame of the stream, by the plan or by what is held."""
from __future__ import annotations

from typing import Callable, Dict, Optional, Tuple, Union

from .faults import Repeats, WillNotGuess, number_of
from .fibs import FRAME_SECONDS
from .follower import Follower
from .frames import Frame
from .given import Given
from .holding import Holding, script_of, settled
from .layout import OnAir, SubChannel
from .log import Log
from .moments import Moment
from .plan import Plan
from .player import Player
from .retaking import Retaking
from .state import Alarm, Phase, State

TAKE_UP = ("--resume-at COUNT plays the log to its end and goes on in the first frame of that count, "
           "--anew begins the plan anew")
"""What takes up a plan that the bridge will not place by itself."""
PAUSE = 1.0
"""The seconds of a pause, or of a step, behind which a line of the log is written at once."""
SLICE = 2500
"""The most frames that a plan which is held makes for one frame of the stream, to catch up with the clock."""


class Air:
    """The frames of a plan that has begun. `is_strict`: a count that is not explained ends it, and nothing is held."""

    def __init__(self, program: str, plan: Plan, player: Player, follower: Follower, log: Log, given: Given,
                 state: State, repeats: Repeats, retaking: Retaking, is_strict: bool) -> None:
        self.plan = plan
        """The plan that is on air."""
        self.player = player
        self.has_swapped = False
        """Whether a swap fell into the last frame, or into those before it that were not sent."""
        self._program, self._plan = program, plan
        self._follower = follower
        self._log, self._given = log, given
        self._state, self._repeats = state, repeats
        self._retaking = retaking
        self._not_before = 0
        self._is_strict = is_strict
        self._holding: Optional[Holding] = None
        self._again: Optional[int] = None
        self._seen: Optional[bytes] = None
        self._seen_swaps = -1
        self._is_new = False
        self._wall = float("inf")
        self._late = 0.0

    def sub_channels(self) -> Dict[int, SubChannel]:
        """The sub-channels that receivers hold, by SubChId."""
        return self.player.sub_channels if self._holding is None else self._holding.sub_channels

    def on_air(self) -> OnAir:
        """What receivers have in the frame that was made last, and what is announced to them."""
        if self._again is not None:
            layout = self.player.layout_of(self._again)
            return OnAir(layout, layout, None)
        there: Union[Player, Holding] = self.player if self._holding is None else self._holding
        current, swap_in = there.sub_channels, there.swap_in
        return OnAir(current, current if swap_in is None else there.following, None if swap_in is None else swap_in + 1)

    def swap_in(self) -> Optional[int]:
        """The frames until the swap that is announced on air; None without one."""
        return self.player.swap_in if self._holding is None else self._holding.swap_in

    def fic(self, frame: Frame, count: int, moment: Moment, at: int) -> Optional[bytes]:
        """The FIC of a frame of the stream, the one of index `at`; None where the plan has none, before its first
        frame. `WillNotGuess` where its count is not explained, if that is to end the bridge."""
        self.has_swapped, self._again = False, None
        follower = self._follower
        number = follower.number_of(count, moment)
        if follower.step is not None and self._holding is None:
            self._tell_step(at, number)
        if follower.phase is Phase.HOLDING:
            return self._held(frame, number, count, moment, at)
        assert number is not None
        return self._planned(frame, number, moment)

    @property
    def is_held(self) -> bool:
        """Whether what is on air is held."""
        return self._holding is not None

    @property
    def is_changing(self) -> bool:
        """Whether a swap is announced, or is to be announced in the next frame."""
        return self.player.swap_in is not None if self._holding is None else self._holding.is_changing

    @property
    def is_busy(self) -> bool:
        """Whether the plan that is held is being taken up."""
        return self._retaking.is_wanted

    @property
    def swaps(self) -> Tuple[int, Optional[bytes]]:
        """Is another one where what is on air may be."""
        return (self.player.swaps, None) if self._holding is None else (-1, self._holding.script)

    def known(self) -> Optional[Callable[[], bytes]]:
        """What gives the script of the configuration that is on air, in any thread, where nothing else is announced;
        None where that is not known yet: a receiver needs some frames."""
        if self._holding is not None:
            script = self._holding.script
            return lambda: script
        found = self.player.since_swap()
        if len(found) < self._plan.history:
            return None
        return lambda: script_of(self._program, self._plan, found)

    def handed_over(self, number: int) -> Follower:
        """What follows the counts of a plan that takes the place of this one with its frame of a number, which is
        due."""
        return self._follower.handed_over(number)

    def number_by_clock(self, moment: Moment) -> int:
        """The number of the plan's frame that is due at a moment, by the clock."""
        return self._follower.by_clock(moment)

    def hold(self, script: bytes, frame: Optional[int], why: str) -> None:
        """Holds a configuration from here on, which the plan has from a frame on, and says why."""
        self._holding = Holding(self._program, self._plan, script, frame)
        self._log_held(self._holding)
        self._state.phase = Phase.HOLDING
        self._state.alarm(Alarm.HELD, f"{why}: what is on air is held until counts and clock agree")

    def record(self, moment: Moment) -> None:
        """Logs the frame that went out."""
        if self._is_new:
            self._is_new = False
            self._log.count(1, moment.wall)
        if self._holding is None:
            step = self._follower.step
            pause = moment.wall - self._wall - self._late
            if moment.wall != self._wall:
                self._late = 0.0
            if pause > PAUSE or (step is not None and abs(step.frames or 0) * FRAME_SECONDS > PAUSE):
                self._log.tell(self._follower.wall_behind(self.player.made, moment))
            self._wall = moment.wall
        if self.has_swapped:
            self._log.sync()
        self._given.acted(self._log.is_written)

    def begun(self, seconds: float) -> None:
        """It took so long to begin: the frames that came meanwhile came without a pause of the stream."""
        self._late = seconds

    def end(self) -> bool:
        """Ends the children; returns whether they ended well."""
        if self._holding is not None:
            self._holding.end()
        return self.player.end()

    def _planned(self, frame: Frame, number: int, moment: Moment) -> Optional[bytes]:
        """The FIC of the plan's frame of a number."""
        player, state = self.player, self._state
        self._retaking.refuse()
        ahead = number - player.made
        if ahead < 0:
            state.frame = number if number >= 0 else None
            self._again = number
            return player.kept(number)
        self.has_swapped = self._pass_over(ahead, lambda: moment.wall)
        lines = self._given.lines(number, player.due)
        self._log.contacts(lines, self._given.remarks())
        made = player.make(frame.fic(), lines)
        self.has_swapped = self.has_swapped or player.swapped
        state.frame = number
        self._is_new = True
        return made

    def _held(self, frame: Frame, number: Optional[int], count: int, moment: Moment, at: int) -> bytes:
        """The FIC of a frame while a configuration is held. `number` is that of the plan's frame where counts and clock
        agree."""
        holding = self._holding or self._begin_hold(at)
        if self._is_retaken(frame, count, moment, at):
            number = self._follower.number_of(count, moment)
        if self._retaking.is_busy:
            number = None
        else:
            self._catch_up(number if number is not None else self._follower.by_clock(moment))
        is_due = number is not None and number == self.player.made and number >= self._not_before
        if number is not None and is_due and not holding.is_changing:
            wanted = self._configuration()
            if wanted == holding.script:
                return self._go_on(frame, number, moment, at)
            if wanted is not None:
                holding.change_to(wanted, self.player.made - len(self.player.since_swap()))
        self._state.frame = None
        before = holding.script
        made = holding.make(frame.fic(), count)
        self._state.frames_held += 1
        if holding.script != before:
            self.has_swapped = True
            self._log_held(holding)
        return made

    def _log_held(self, holding: Holding) -> None:
        """Logs which configuration is held."""
        if holding.frame is None:
            self._log.holds(holding.script)
        else:
            self._log.held(holding.frame)

    def _is_retaken(self, frame: Frame, count: int, moment: Moment, at: int) -> bool:
        """Whether an order has taken up the plan with this frame."""
        self._retaking.look(self._follower.by_clock(moment), frame, count, moment, at)
        taken = self._retaking.done(None if self._holding is None else self._holding.script)
        if taken is None or taken.player is None:
            return False
        self.player.end()
        self.player, self._follower, self._seen_swaps = taken.player, taken.follower, -1
        if taken.is_anew and self._holding is not None:
            self._holding.forget_frames()
        self._not_before = taken.number + taken.later
        return True

    def _begin_hold(self, at: int) -> Holding:
        """Holds what receivers have, or have been told."""
        step = f"frame {at}: {self._follower.step}"
        made = self.player.made
        found, first = settled(self.player, self._plan)
        self._log.count(self.player.made - made, self._follower.wall_of(self.player.made - 1))
        self.hold(script_of(self._program, self._plan, found), first, step)
        assert self._holding is not None
        return self._holding

    def _catch_up(self, number: int) -> None:
        """Lets the plan make its frames before the one of a number, some at a time: it stays in its day, and gets its
        contacts."""
        frames = min(number - self.player.made, SLICE)
        lines = self._given.lines(self.player.made, self.player.due)
        self._log.contacts(lines, self._given.remarks())
        if lines:
            self.player.pass_over(0, lines)
        self._pass_over(frames, lambda: self._follower.wall_of(self.player.made - 1))

    def _pass_over(self, frames: int, wall: Callable[[], float]) -> bool:
        """Lets the plan make frames that are not sent, with what calendar and conditions give between them; returns
        whether a swap fell into one of them. `wall` tells when the last frame came."""
        has_swapped = False
        for part, lines in self._given.parts(self.player.made, frames):
            self._log.contacts(lines, self._given.remarks())
            has_swapped = self.player.pass_over(part, lines) or has_swapped
            self._log.count(part, wall())
        return has_swapped

    def _configuration(self) -> Optional[bytes]:
        """The script of what the plan has, where it has nothing else announced; None where that is not known."""
        player = self.player
        if player.swap_in is not None:
            return None
        if player.swaps != self._seen_swaps:
            found = player.since_swap()
            if len(found) < self._plan.history:
                return None
            self._seen, self._seen_swaps = script_of(self._program, self._plan, found), player.swaps
        return self._seen

    def _go_on(self, frame: Frame, number: int, moment: Moment, at: int) -> bytes:
        """The plan goes on with this frame."""
        assert self._holding is not None
        self._holding.end()
        self._holding = None
        self._follower.go_on(number, moment)
        self._state.phase = Phase.FOLLOWING
        text = f"frame {at}: counts and clock agree again: the plan goes on with its frame {number}"
        self._state.clear(Alarm.HELD, text)
        self._log.held(None)
        made = self._planned(frame, number, moment)
        assert made is not None
        return made

    def _tell_step(self, at: int, number: Optional[int]) -> None:
        """Says what a step is taken for."""
        step = self._follower.step
        if number is None:
            if self._is_strict:
                log = f": {TAKE_UP}" if self._log.path else ": the plan has to begin anew"
                raise WillNotGuess(f"frame {at}: {step}{log}")
            return
        self._state.steps += 1
        unsent, again = number - self.player.made, self.player.made - number
        text = f": the plan makes {number_of(unsent)} unsent" if unsent > 0 else ""
        text += f": {number_of(again)} of the plan {'goes' if again == 1 else 'go'} out again" if again > 0 else ""
        self._repeats.add("steps of the count", at, f"frame {at}: {step}{text}", burst=4)
