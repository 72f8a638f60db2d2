"""A plan that is held is taken up by an order: at the counts that come (`resume`), or anew.

What it is played from takes its time where the log is long, and is done by a thread of its own: meanwhile what is on
air is held, and the plan is given nothing. Then counts and clock agree, and the plan comes back as any that was held
does: what it has is announced, where it is something else.
"""
from __future__ import annotations

import threading
from dataclasses import dataclass, field
from typing import Callable, List, Optional

from .faults import Trouble, say
from .fibs import COUNTS, FRAME_SECONDS
from .follower import Follower
from .frames import Frame
from .given import Given
from .log import Log, date_line
from .moments import Moment
from .orders import Kind, Order, Orders
from .past import holds_line, past_of
from .plan import Plan
from .player import Player, Start

NOT_HELD = "nothing is held"
Opening = Callable[[Frame, int, Moment, int], Optional[Start]]
"""How a plan begins anew with a frame of the stream, its count, its moment and its index; None where another frame has
to be waited for."""
Made = Callable[[Start, List[bytes], bool], Player]
"""What plays a plan so far: from its log, or, where it begins anew, with these steps."""


@dataclass
class Taken:
    """A plan that is taken up: what it is, and from which frame on it may go on."""

    order: Order
    start: Start
    follower: Follower
    number: int
    """The plan's frame that was due when the order came."""
    count: int
    """The count of the frame that it belongs to."""
    later: int
    """So many frames later it goes on."""
    steps: List[bytes] = field(default_factory=list)
    """What the plan is given at its beginning, where it begins anew."""
    player: Optional[Player] = None
    """The plan, once it is played so far."""
    fault: Optional[Trouble] = None
    thread: Optional[threading.Thread] = None

    def play(self, made: Made) -> None:
        """Plays it so far, in a thread."""
        self.thread = threading.Thread(target=self._run, args=(made,), name="retaking", daemon=True)
        self.thread.start()

    @property
    def is_anew(self) -> bool:
        """Whether it begins anew."""
        return self.order.kind is Kind.ANEW

    @property
    def is_done(self) -> bool:
        """Whether it was played so far."""
        return self.thread is not None and not self.thread.is_alive()

    def _run(self, made: Made) -> None:
        try:
            self.player = made(self.start, self.steps, self.is_anew)
        except Trouble as fault:
            self.fault = fault


class Retaking:
    """The orders to take up a plan."""

    def __init__(self, orders: Orders, log: Log, plan: Plan, given: Given, opening: Opening, made: Made,
                 follower_of: Callable[[Start], Follower]) -> None:
        self._orders, self._log, self._plan, self._given = orders, log, plan, given
        self._opening, self._made, self._follower_of = opening, made, follower_of
        self._anew: Optional[Order] = None
        self._taken: Optional[Taken] = None

    @property
    def is_busy(self) -> bool:
        """Whether a plan is being played for an order: the one that is held is given nothing then."""
        return self._taken is not None

    @property
    def is_wanted(self) -> bool:
        """Whether an order is being carried out, or waits for a frame with which it can be."""
        return self._taken is not None or self._anew is not None

    def refuse(self) -> None:
        """Refuses what is asked for while nothing is held."""
        for order in filter(None, (self._anew, self._orders.other())):
            order.answer(409, error=NOT_HELD)
        self._anew = None

    def look(self, number: int, frame: Frame, count: int, moment: Moment, at: int) -> None:
        """Looks for an order, with the frame of a count, to which by the clock the plan's frame of this number
        belongs."""
        order = self._anew or self._orders.other()
        if order is None or self._taken is not None:
            return
        self._anew = None
        try:
            self._refuse_unwritten()
            if order.kind is Kind.ANEW:
                taken = self._begun_anew(order, self._opening(frame, count, moment, at), count, moment)
            else:
                taken = self._resumed(order, number, count, moment)
        except Trouble as fault:
            order.answer(409, error=str(fault))
            return
        if taken is None:
            self._anew = order
            return
        self._taken = taken
        taken.play(self._made)

    def done(self, held: Optional[bytes]) -> Optional[Taken]:
        """The plan that is taken up, once it is played; from here on the log is its log. None where there is none.
        `held` is the script of what is held."""
        taken = self._taken
        if taken is None or not taken.is_done:
            return None
        self._taken = None
        if taken.player is None:
            taken.order.answer(409, error=str(taken.fault or "the plan can't be played"))
            return None
        self._write(taken, held)
        taken.order.answer(200, frame=taken.number + taken.later, count=(taken.count + taken.later) % COUNTS)
        return taken

    def _write(self, taken: Taken, held: Optional[bytes]) -> None:
        """Writes the log of a plan that is taken up, with what is held meanwhile, and says so."""
        start, digest, place = taken.start, self._plan.digest, f"its frame {taken.number} is at count {taken.count}"
        if taken.order.kind is Kind.RESUME:
            self._log.move(start.first, start.time, digest, taken.follower.wall_of(start.frames - 1))
            say(f"the plan is taken up: {place}")
            return
        wall = taken.follower.wall_of(taken.number)
        first = self._given.begin(start.time, taken.number, wall, None)
        lines = [line.decode("ascii") for line in taken.steps] + ([] if first is None else [date_line(first)])
        lines += [] if held is None else [holds_line(held)]
        self._log.begin_anew(start.first, start.time, digest, wall, lines)
        self._log.count(start.frames, wall)
        say(f"the plan begins anew: {place}")

    def _refuse_unwritten(self) -> None:
        """Raises `Trouble` where the log can't be written."""
        self._log.note()
        if self._log.path is not None and not self._log.is_written:
            raise Trouble(f"{self._log.path} can't be written")

    def _resumed(self, order: Order, number: int, count: int, moment: Moment) -> Taken:
        """The plan goes on with the counts that come; `Trouble` where its log does not say how it went."""
        if self._log.path is None:
            raise Trouble("without a log the plan can't be played again: anew")
        past = past_of(self._log.path)
        if past is None:
            raise Trouble(f"{self._log.path}: no log of this program")
        start = Start((count - number) % COUNTS, past.start, past.frames)
        later = 0 if order.count is None else (order.count - count) % COUNTS
        return Taken(order, start, self._follower(start, number, moment), number, count, later)

    def _begun_anew(self, order: Order, start: Optional[Start], count: int, moment: Moment) -> Optional[Taken]:
        """The plan begins with this frame, and with the contacts that are closed."""
        if start is None:
            return None
        steps = self._given.closed_lines()
        return Taken(order, start, self._follower(start, start.frames, moment), start.frames, count, 0, steps)

    def _follower(self, start: Start, number: int, moment: Moment) -> Follower:
        """What follows the counts of a plan whose frame of a number belongs to a moment."""
        follower = self._follower_of(start)
        before = Moment(moment.host - FRAME_SECONDS, moment.wall - FRAME_SECONDS, moment.is_stamped)
        follower.hold(number, before)
        return follower
