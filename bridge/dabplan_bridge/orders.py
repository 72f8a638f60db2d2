"""What others ask of a running bridge, and what it answers.

An order is given by a thread that serves somebody, and carried out by the thread of the frames, which waits for nobody:
it looks for orders when a frame comes. An order for which no frame comes in time is not carried out any more.
"""
from __future__ import annotations

import threading
from collections import deque
from enum import Enum
from typing import Deque, Dict, List, NamedTuple, Optional

WAIT_SECONDS = 10.0
"""The seconds for which an order waits for a frame."""
LONGEST_SECONDS = 120.0
"""The seconds for which the answer of an order is waited for that is being carried out."""


class Kind(Enum):
    """What is asked for."""

    CONTACT = "contact"
    """A contact is closed or opened."""
    RESUME = "resume"
    """The plan goes on by the counts that come."""
    ANEW = "anew"
    """The plan begins anew."""
    RELOAD = "reload"
    """The file of the plan is read anew, and takes its place."""


class Answer(NamedTuple):
    """What came of an order."""

    status: int
    """As of HTTP: 200 where it was carried out."""
    fields: Dict[str, object]
    """What is said of it."""


class Order:
    """Something that is asked for, once."""

    def __init__(self, kind: Kind, contact: int = 0, is_closed: bool = False, count: Optional[int] = None) -> None:
        self.kind = kind
        self.contact = contact
        """The contact, 0 to 15."""
        self.is_closed = is_closed
        self.count = count
        """The CIF count from which the plan is to go on; None for the next frame."""
        self._lock = threading.Lock()
        self._is_answered = threading.Event()
        self._is_taken = self._is_given_up = False
        self._answer = Answer(503, {"error": f"it takes more than {LONGEST_SECONDS:g} s"})

    def take(self) -> bool:
        """Begins to carry it out; returns False where it was given up."""
        with self._lock:
            self._is_taken = not self._is_given_up
        return self._is_taken

    def answer(self, status: int, **fields: object) -> None:
        """Says what came of it."""
        self._answer = Answer(status, fields)
        self._is_answered.set()

    def wait(self, seconds: float = WAIT_SECONDS) -> Answer:
        """What came of it; status 503 where no frame came within so many seconds: then it is given up."""
        if not self._is_answered.wait(seconds):
            with self._lock:
                self._is_given_up = not self._is_taken
            if self._is_given_up:
                return Answer(503, {"error": f"no frame came within {seconds:g} s"})
            self._is_answered.wait(LONGEST_SECONDS)
        return self._answer


class Orders:
    """Orders that wait for a frame."""

    def __init__(self) -> None:
        self._contacts: Deque[Order] = deque()
        self._others: Deque[Order] = deque()
        self._reloads: Deque[Order] = deque()
        self._queues = {Kind.CONTACT: self._contacts, Kind.RELOAD: self._reloads}

    def put(self, order: Order) -> None:
        """Gives an order."""
        self._queues.get(order.kind, self._others).append(order)

    def contacts(self, most: int) -> List[Order]:
        """Takes the next orders about contacts, at most so many."""
        found: List[Order] = []
        while self._contacts and len(found) < most:
            order = self._contacts.popleft()
            if order.take():
                found.append(order)
        return found

    def other(self) -> Optional[Order]:
        """Takes the next order about a plan that is held; None where there is none."""
        return next_of(self._others)

    def reload(self) -> Optional[Order]:
        """Takes the next order to replace the plan; None where there is none."""
        return next_of(self._reloads)

    def close(self) -> None:
        """Refuses those that wait: the bridge ends."""
        for order in [*self.contacts(len(self._contacts)), *filter(None, [self.other(), self.reload()])]:
            order.answer(503, error="the bridge ends")


def next_of(orders: Deque[Order]) -> Optional[Order]:
    """Takes the next one that was not given up; None where there is none."""
    while orders:
        order = orders.popleft()
        if order.take():
            return order
    return None
