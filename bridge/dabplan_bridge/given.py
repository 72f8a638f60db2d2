"""The contacts that a plan is given: lines of a FIFO, orders of a control port, and a calendar; as they are, or under
conditions."""
from __future__ import annotations

from datetime import date
from typing import Dict, Iterable, Iterator, List, Optional, Sequence, Tuple

from .conditions import Condition, Conditions
from .faults import say
from .fibs import COUNTS
from .fifos import MOST_LINES, Contacts
from .orders import Order, Orders
from .past import HIGHEST, Past, contact_line, contacts_in
from .weekdays import Calendar, first_date

CALENDARS = "contact {} is the calendar's"


class Given:
    """What contacts a plan has. `past` and `steps` are those of its log."""

    def __init__(self, fifo: Contacts, orders: Orders, conditions: Sequence[Condition] = (),
                 calendar: Optional[Calendar] = None, is_local: bool = False) -> None:
        self.closed = [False] * (HIGHEST + 1)
        """Which contacts are closed for the plan."""
        self.orders = orders
        """What others ask for."""
        self._fifo = fifo
        self._asked = conditions
        self._conditions = Conditions(conditions)
        self._calendar = calendar or Calendar()
        self._is_local = is_local
        self._words: Dict[int, str] = {}
        self._acting: List[Tuple[Order, int, int]] = []

    def take_up(self, past: Optional[Past], steps: Iterable[bytes]) -> None:
        """Takes the contacts that a log has so far."""
        for step in steps:
            if step.startswith(b"contact"):
                self._note(step)
        if past is not None:
            self._conditions = Conditions(self._asked, self.closed, past.given, past.frames)
            self._words = dict(past.given)

    def begin(self, start: str, frame: int, wall: float, first: Optional[date]) -> Optional[date]:
        """The plan goes on air with its frame of a number, at a wall time; the time of its first frame is spelled as in
        a log, which says its date too, or not. Returns this date where there is a calendar."""
        self._conditions = Conditions(self._asked, self.closed, self._conditions.words(), frame)
        if not self._calendar.is_there:
            return None
        found = first or first_date(start, frame, wall, self._is_local)
        self._calendar.begin(start, found)
        return found

    def hand_over(self, start: str, frame: int) -> Optional[date]:
        """Another plan goes on in the place of the frame of a number; the time of its first frame is spelled as in a
        log. Returns the date of that frame where there is a calendar."""
        self._conditions.renumber(frame)
        self._words = {}
        first = self._calendar.date_of(frame)
        if first is not None:
            self._calendar.begin(start, first)
        return first

    def closed_lines(self) -> List[bytes]:
        """The lines of the contacts that are closed."""
        return [contact_line(contact, True) for contact, is_closed in enumerate(self.closed) if is_closed]

    def lines(self, frame: int, count: int) -> List[bytes]:
        """The lines for the plan's frame of a number, which has this count; 16 at most are from others."""
        lines = [line for given in self._fifo.lines() for line in self._passed(given, frame)]
        for order in self.orders.contacts(max(0, MOST_LINES - len(lines))):
            lines += self._ordered(order, frame, count)
        return lines + self._due(frame)

    def parts(self, frame: int, frames: int) -> Iterator[Tuple[int, List[bytes]]]:
        """So many frames of the plan, from that of a number on, which are not sent: in parts, each behind the lines
        that calendar and conditions give for its first frame."""
        end = frame + frames
        while frame < end:
            lines = self._due(frame)
            turns = (self._conditions.next(), self._calendar.next(frame))
            stop = min([end, *(turn for turn in turns if turn is not None and turn > frame)])
            yield stop - frame, lines
            frame = stop

    def coming(self, frame: int, end: int) -> List[Tuple[int, bytes]]:
        """The contacts that the calendar will change before the plan's frames from one up to another, each with the
        number of its frame."""
        closed, found = list(self.closed), []
        while (turn := self._calendar.next(frame)) is not None and turn < end:
            for contact, is_closed in self._calendar.on(turn):
                if closed[contact] != is_closed:
                    closed[contact] = is_closed
                    found.append((turn, contact_line(contact, is_closed)))
            frame = turn
        return found

    def remarks(self) -> List[str]:
        """What the log has to say beside these lines: of contacts under conditions, how they were given."""
        before, self._words = self._words, self._conditions.words()
        return [f"# given {contact} {word}" for contact, word in self._words.items()
                if before.get(contact, "open") != word]

    def acted(self, is_logged: bool) -> None:
        """The lines act, and are in the log where there is one: answers the orders among them."""
        for order, frame, count in self._acting:
            order.answer(200, frame=frame, count=count, logged=is_logged)
        self._acting.clear()

    def close(self) -> None:
        """Takes nothing any more."""
        self._fifo.close()

    def _passed(self, line: bytes, frame: int) -> List[bytes]:
        """What the plan gets at once of a line of others."""
        changes = contacts_in(line)
        if not any(contact in self._conditions or contact in self._calendar for contact, _ in changes):
            self._note(line)
            return [line]
        found = []
        for contact, is_closed in changes:
            if contact in self._calendar:
                say(f"contacts: {CALENDARS.format(contact)}")
            elif contact in self._conditions:
                self._conditions.give(contact, is_closed, frame)
            else:
                found.append(self._changed(contact, is_closed))
        return found

    def _ordered(self, order: Order, frame: int, count: int) -> List[bytes]:
        """What the plan gets at once of an order."""
        contact, is_closed, acts = order.contact, order.is_closed, frame
        if contact in self._calendar:
            order.answer(409, error=CALENDARS.format(contact))
            return []
        if contact in self._conditions:
            self._conditions.give(contact, is_closed, frame)
            found = self._conditions.acts(contact, frame)
            if found is None:
                order.answer(409, error=f"contact {contact} was closed for the most frames: it has to be open first")
                return []
            acts = max(found, frame)
        self._acting.append((order, acts, (count + acts - frame) % COUNTS))
        # Of one that is as it was nothing is logged: whoever asks all the time fills no disk.
        is_changed = contact not in self._conditions and self.closed[contact] != is_closed
        return [self._changed(contact, is_closed)] if is_changed else []

    def _due(self, frame: int) -> List[bytes]:
        """What calendar and conditions give for the plan's frame of a number."""
        changes = self._conditions.at(frame)
        changes += [each for each in self._calendar.at(frame) if self.closed[each.contact] != each.is_closed]
        return [self._changed(*each) for each in changes]

    def _changed(self, contact: int, is_closed: bool) -> bytes:
        """The line of a contact that changes for the plan."""
        self.closed[contact] = is_closed
        return contact_line(contact, is_closed)

    def _note(self, line: bytes) -> None:
        for contact, is_closed in contacts_in(line):
            self.closed[contact] = is_closed
