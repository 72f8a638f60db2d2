"""`dabplan check` over what goes out: what a receiver would have to complain of is an alarm in the log of messages, and
its totals are in the state.

Nothing waits for it: frames wait for it, a minute of them; what it does not take then is left out, frame by whole
frame, and reported. Where it ends it is started again.
"""
from __future__ import annotations

import contextlib
import json
import os
import subprocess
import threading
import time
from collections import deque
from typing import IO, Deque, Dict, Optional

from .chain import Child
from .faults import Trouble, say, shown
from .fifos import BACKLOG
from .priority import set_policy
from .state import Checked, State

EVERY = 50
"""The frames after which it gives its totals."""
AGAIN_SECONDS = 10.0
"""The seconds after which it is started again."""
LONGEST = 65_536
"""The most bytes of a line of it."""
MOST_SHOWN = 300
"""The most bytes of a fault that are shown."""


class Check:
    """`dabplan check`, or none where it is not asked for."""

    def __init__(self, program: str, mode: int, is_wanted: bool, state: State) -> None:
        self._words = [program, "check", "-", "--mode", str(mode), "--json", "--every", str(EVERY)]
        self._state = state
        self._is_wanted = is_wanted
        self._child: Optional[Child] = None
        self._reader: Optional[threading.Thread] = None
        self._waiting: Deque[bytes] = deque()
        self._lost = 0
        self._again = 0.0
        if is_wanted:
            state.checked = Checked()
            self._start()

    def put(self, fic: bytes) -> None:
        """Takes the FIC of a frame that went out."""
        if not self._is_wanted:
            return
        if self._child is None and time.monotonic() >= self._again:
            self._start_again()
        if self._child is None:
            return
        self._waiting.append(fic)
        self._push()
        if len(self._waiting) > BACKLOG:
            self._waiting.popleft()
            self._lost += 1
            if self._lost == 1:
                say(f"'dabplan check' is {BACKLOG} frames behind: frames are left out")
        elif self._lost and not self._waiting:
            say(f"{self._lost} frames were left out for 'dabplan check'")
            self._lost = 0

    def close(self) -> None:
        """Gives it what waits, for at most a second, and ends it."""
        end = time.monotonic() + 1.0
        while self._waiting and self._child is not None and time.monotonic() < end:
            self._push()
            if self._waiting:
                time.sleep(0.005)
        self._end()

    def _start(self) -> None:
        """Starts it, without the priority of the frames."""
        child = self._child = Child(self._words, subprocess.PIPE, stderr=subprocess.DEVNULL)
        stdin, stdout = child.process.stdin, child.process.stdout
        assert stdin is not None and stdout is not None and self._state.checked is not None
        set_policy(child.process.pid, os.SCHED_OTHER, 0)
        os.set_blocking(stdin.fileno(), False)
        before = self._state.checked
        before.is_up = True
        self._reader = threading.Thread(target=self._read, args=(stdout, before.totals()), name="check", daemon=True)
        self._reader.start()

    def _start_again(self) -> None:
        try:
            self._start()
        except Trouble as fault:
            say(fault)
            self._again = time.monotonic() + AGAIN_SECONDS

    def _push(self) -> None:
        """Writes what there is room for."""
        assert self._child is not None and self._child.process.stdin is not None
        try:
            while self._waiting:
                # A pipe takes such a piece as a whole, or not at all.
                os.write(self._child.process.stdin.fileno(), self._waiting[0])
                self._waiting.popleft()
        except BlockingIOError:
            pass
        except OSError:
            say(f"{self._child.name} has ended: it is started again in {AGAIN_SECONDS:g} s")
            self._again = time.monotonic() + AGAIN_SECONDS
            self._end()

    def _end(self) -> None:
        """Ends its input, and waits for it and for what it says."""
        child, self._child = self._child, None
        self._waiting.clear()
        if child is None:
            return
        assert child.process.stdin is not None
        with contextlib.suppress(OSError):
            child.process.stdin.close()
        child.end()
        if self._reader is not None:
            self._reader.join(1.0)

    def _read(self, lines: IO[bytes], before: Dict[str, int]) -> None:
        """Takes its lines to their end; `before` are the totals of those that ran before it."""
        checked = self._state.checked
        assert checked is not None
        with contextlib.suppress(OSError, ValueError):
            for line in iter(lambda: lines.readline(LONGEST), b""):
                self._take(line, checked, before)
        checked.is_up = False

    @staticmethod
    def _take(line: bytes, checked: Checked, before: Dict[str, int]) -> None:
        """Takes a line."""
        try:
            found = json.loads(line)
        except (ValueError, RecursionError):
            return
        if not isinstance(found, dict):
            return
        if found.get("kind") in ("fault", "refused"):
            checked.last = shown(line.rstrip(b"\n"), MOST_SHOWN)
            say(f"ALARM {checked.last}")
        elif found.get("kind") in ("alive", "summary"):
            checked.take({name: before[name] + int(found.get(name, 0)) for name in before})
