"""Conditioned contacts: what a timer relay does, since a plan has no memory of how long a contact is closed.

`1:close=125,open=25000,most=450000`: the plan gets contact 1 closed once it has been closed for 125 frames, open once
it has been open for 25,000, and open after it had it closed for 450,000 frames, until the contact has been open, for
the 25,000 frames again.
"""
from __future__ import annotations

import re
from dataclasses import dataclass
from typing import Dict, Iterable, List, NamedTuple, Optional, Sequence

from .past import HIGHEST

TEXT = re.compile(r"(\d{1,2}):((?:close|open|most)=\d{1,9}(?:,(?:close|open|most)=\d{1,9})*)")
OVER = "over"
"""What a log says of a contact that was closed for the most frames, and has not been open since."""


class Change(NamedTuple):
    """A contact that closes or opens."""

    contact: int
    is_closed: bool


@dataclass(frozen=True)
class Condition:
    """What is asked of a contact, in frames of 24 ms."""

    contact: int
    close: int = 0
    """It has to be closed for so many."""
    open: int = 0
    """It has to be open for so many."""
    most: Optional[int] = None
    """It is closed for so many at most; None for no limit."""


def condition_of(text: str) -> Condition:
    """The condition that a text spells; `ValueError` if it spells none."""
    found = TEXT.fullmatch(text)
    parts = [part.partition("=") for part in found[2].split(",")] if found else []
    values = {name: int(value) for name, _, value in parts}
    if found is None or int(found[1]) > HIGHEST or len(values) < len(parts) or values.get("most") == 0:
        raise ValueError(f"expected CONTACT:close=FRAMES,open=FRAMES,most=FRAMES: {text}")
    return Condition(int(found[1]), values.get("close", 0), values.get("open", 0), values.get("most"))


class Conditioned:
    """A contact under a condition. Frames have the numbers of the plan."""

    def __init__(self, condition: Condition, is_closed: bool, given: str, frame: int) -> None:
        self.is_closed = is_closed
        """Whether it is closed for the plan."""
        self.is_given = given in ("closed", OVER)
        """Whether it was closed by those who give it."""
        self._is_over = given == OVER
        self._condition = condition
        self._given_since = self._closed_since = frame

    @property
    def word(self) -> str:
        """What a log says of it: `closed` or `open`, as it was given, or `over`."""
        return OVER if self._is_over and self.is_given else "closed" if self.is_given else "open"

    def give(self, is_closed: bool, frame: int) -> None:
        """It is closed, or opened, from the frame of a number on."""
        if is_closed == self.is_given:
            return
        if is_closed and frame - self._given_since >= self._condition.open:
            self._is_over = False
        self.is_given, self._given_since = is_closed, frame

    def due(self) -> Optional[int]:
        """The frame from which it is otherwise for the plan, if nothing else is given; None where it stays."""
        wanted = self._condition
        if not self.is_closed:
            return self._given_since + wanted.close if self.is_given and not self._is_over else None
        found = [] if self.is_given else [self._given_since + wanted.open]
        found += [] if wanted.most is None else [self._closed_since + wanted.most]
        return min(found, default=None)

    def step(self, frame: int) -> bool:
        """Whether it is otherwise for the plan from the frame of this number on."""
        due = self.due()
        if due is None or due > frame:
            return False
        self.is_closed = not self.is_closed
        if self.is_closed:
            self._closed_since = frame
        elif self.is_given:
            self._is_over = True
        return True

    def renumber(self, frames: int) -> None:
        """From here on each frame has a number that is less by so many."""
        self._given_since -= frames
        self._closed_since -= frames

    def acts(self, frame: int) -> Optional[int]:
        """The frame from which the plan has it as it was given; None where it will not have it so."""
        return frame if self.is_closed == self.is_given else self.due()


class Conditions:
    """All contacts under conditions. `closed` are those of the plan in the frame of a number, and `given` what a log
    says of them."""

    def __init__(self, conditions: Iterable[Condition], closed: Sequence[bool] = (),
                 given: Optional[Dict[int, str]] = None, frame: int = 0) -> None:
        self._contacts: Dict[int, Conditioned] = {}
        for each in conditions:
            is_closed = bool(closed) and closed[each.contact]
            word = (given or {}).get(each.contact, "closed" if is_closed else "open")
            self._contacts[each.contact] = Conditioned(each, is_closed, word, frame)

    def __contains__(self, contact: int) -> bool:
        return contact in self._contacts

    def give(self, contact: int, is_closed: bool, frame: int) -> None:
        """A contact is closed, or opened, from the frame of a number on."""
        self._contacts[contact].give(is_closed, frame)

    def acts(self, contact: int, frame: int) -> Optional[int]:
        """The frame from which the plan has a contact as it was given; None where it will not have it so."""
        return self._contacts[contact].acts(frame)

    def renumber(self, frames: int) -> None:
        """From here on each frame has a number that is less by so many: times that run go on."""
        for each in self._contacts.values():
            each.renumber(frames)

    def words(self) -> Dict[int, str]:
        """What a log says of each."""
        return {contact: each.word for contact, each in self._contacts.items()}

    def next(self) -> Optional[int]:
        """The next frame from which one is otherwise for the plan; None where all stay."""
        return min((due for due in (each.due() for each in self._contacts.values()) if due is not None), default=None)

    def at(self, frame: int) -> List[Change]:
        """What changes for the plan from the frame of a number on."""
        return [Change(contact, each.is_closed) for contact, each in self._contacts.items() if each.step(frame)]
