"""What is shown of a bridge, made anew twice a second by a thread of its own, however many ask for it."""
from __future__ import annotations

import json
import os
import threading
import time
from typing import Tuple

from .board import Board
from .given import Given
from .metrics import text_of_metrics
from .priority import REAL_TIME, set_policy
from .state import State
from .status import Status

EVERY_SECONDS = 0.5
"""How often it is made."""


class Watch:
    """What is shown now."""

    def __init__(self, status: Status, board: Board, given: Given, state: State) -> None:
        self.is_over = False
        """Whether the bridge ends."""
        self._status = status
        self._board, self._given, self._state = board, given, state
        self._condition = threading.Condition()
        self._number = 0
        self._data = self._made()
        self._thread = threading.Thread(target=self._run, name="watch", daemon=True)
        self._thread.start()

    def status(self) -> bytes:
        """What `/status.json` says."""
        return self._data + b"\n"

    def metrics(self) -> bytes:
        """What `/metrics` says."""
        frames = self._board.frames()
        swap_in = frames[-1].swap_in if frames else None
        text = text_of_metrics(self._board.plan, self._state, swap_in, self._given.closed, time.monotonic())
        return text.encode("utf-8")

    def after(self, number: int) -> Tuple[int, bytes]:
        """The first one behind the one of a number, and its own number; where none comes in time the same one."""
        with self._condition:
            self._condition.wait_for(lambda: self._number > number or self.is_over, 2 * EVERY_SECONDS)
            return self._number, self._data

    def end(self) -> None:
        """Makes nothing any more."""
        self.is_over = True
        with self._condition:
            self._condition.notify_all()
        self._thread.join(EVERY_SECONDS)

    def _made(self) -> bytes:
        return json.dumps(self._status.fields(), separators=(",", ":")).encode("ascii")

    def _run(self) -> None:
        policy = os.sched_getscheduler(0)
        if policy in REAL_TIME:
            # This thread keeps the priority of the frames, which wait for it now and then; its children do without.
            set_policy(0, policy | os.SCHED_RESET_ON_FORK, os.sched_getparam(0).sched_priority)
        while not self.is_over:
            data = self._made()
            with self._condition:
                self._number, self._data = self._number + 1, data
                self._condition.notify_all()
            time.sleep(EVERY_SECONDS)
