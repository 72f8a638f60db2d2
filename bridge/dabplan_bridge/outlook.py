"""What comes: the changes of the next day, and the line of the script that is next.

`dabplan timeline` and `dabplan debug` play the plan from its first frame on, with the contacts that it was given so
far, in a thread of its own that no frame waits for: where something has changed, else once a minute. What is found is
shown as long as nothing has changed since.
"""
from __future__ import annotations

import contextlib
import functools
import json
import os
import re
import resource
import subprocess
import threading
import time
from collections import deque
from dataclasses import dataclass, field
from typing import Callable, Dict, Iterable, List, Optional, Sequence, Tuple

from .board import Board
from .chain import Code, frame_lines
from .faults import Trouble
from .fibs import DAY_FRAMES
from .given import Given
from .player import MOST_CONTACTS, Player
from .priority import REAL_TIME, set_policy
from .program import in_memory, path_of
from .state import Phase, State

EVERY_SECONDS = 60.0
"""How often it is looked for, where nothing has changed."""
LOOK_SECONDS = 0.25
"""How often it is looked whether something has changed."""
REST = 20.0
"""So many times as much processor time as it took passes before it is looked for again."""
LONGEST_SECONDS = 60.0
"""The seconds after which a child is given up."""
MOST_DEBUGGED = 14 * DAY_FRAMES
"""The most frames of a plan of which the line is looked for: each day of them takes a third of a second."""
MOST_CHANGES = 100
"""The most changes that are shown."""
NICE = 10
"""By so much the children are less urgent than others."""
NUMBERS, LISTS = ("frame", "count", "day", "line"), ("dropped", "added")
"""What a change has beside its time."""
ANSWER = re.compile(rb"frames (\d+) .* line (\d+) ")
"""What `dabplan debug` says of a command."""
FRAME = re.compile(rb'"frame": ?(\d{1,15})')
Change = Dict[str, object]
Kept = Callable[[Iterable[bytes]], List[bytes]]
"""What is kept of the lines of a child."""
Key = Tuple[int, int]
"""Which plan plays, and how many contacts it was given."""


@dataclass
class Found:
    """What was found of a plan that plays."""

    key: Key
    player: Optional[Player] = None
    """That plan; as long as it is here, no other one has its key."""
    changes: Optional[List[Change]] = None
    """The coming changes in order; None where they are not known."""
    lines: Dict[int, Tuple[int, int]] = field(default_factory=dict)
    """The line that is next, and the frame behind the last one of which it is known, by the frame from which it is."""


def events_of(player: Player, first: int, coming: Sequence[Tuple[int, bytes]], step: bytes) -> bytes:
    """The steps of the frames of a plan before the one of number `first`, and one more behind them; `coming` are the
    contacts that it gets still, each before the frame of a number."""
    at, lines = 0, []
    for frame, line in [*list(player.contacts), *coming]:
        lines += [*frame_lines(max(0, frame - at)), line]
        at = max(at, frame)
    return b"\n".join([*lines, *frame_lines(max(0, first - at)), step, b""])


def processor_time() -> float:
    """The processor time of the children that have ended, in seconds."""
    used = resource.getrusage(resource.RUSAGE_CHILDREN)
    return used.ru_utime + used.ru_stime


def change_of(line: bytes) -> Optional[Change]:
    """The change of a line of `dabplan timeline --json`; None where it has none."""
    try:
        found = json.loads(line)
    except (ValueError, RecursionError):
        return None
    if not isinstance(found, dict) or found.get("kind") != "swap" or not isinstance(found.get("time"), str):
        return None
    is_whole = all(isinstance(found.get(name), int) for name in NUMBERS) and all(
        isinstance(found.get(name), list) and all(isinstance(each, str) for each in found[name]) for name in LISTS)
    return {name: found[name] for name in ("time", *NUMBERS, *LISTS)} if is_whole else None


def lines_from(lines: Iterable[bytes], first: int) -> List[bytes]:
    """The first lines that `dabplan timeline` prints of frames from one on, as many as are shown: it prints those
    before it too, and maybe many behind."""
    found: List[bytes] = []
    for line in lines:
        frame = FRAME.search(line)
        if frame is not None and int(frame[1]) >= first:
            found.append(line)
            if len(found) == MOST_CHANGES:
                break
    return found


def last_two(lines: Iterable[bytes]) -> List[bytes]:
    """The last two lines."""
    return list(deque(lines, maxlen=2))


class Outlook:
    """Looks for what comes, while the bridge runs."""

    def __init__(self, program: str, board: Board, given: Given, state: State) -> None:
        self._program = program
        self._board, self._given, self._state = board, given, state
        self._found = Found((-1, -1))
        self._has_timeline = True
        self._is_over = threading.Event()
        self._job: Optional["subprocess.Popen[bytes]"] = None
        self._thread = threading.Thread(target=self._run, name="outlook", daemon=True)
        self._thread.start()

    def changes(self) -> Optional[List[Change]]:
        """The changes that come, the first one first; None where they are not known."""
        found, last = self._found, self._state.frame
        if found.changes is None or last is None or found.key != self._key():
            return None
        return [each for each in found.changes if isinstance(each["frame"], int) and each["frame"] > last]

    def line(self) -> Optional[int]:
        """The line of the script that is next, once what the plan waits for has come; None where it is not known."""
        found, last = self._found, self._state.frame
        if last is None or found.key != self._key():
            return None
        return next((line for first, (line, end) in found.lines.items() if first <= last + 1 < end), None)

    def end(self) -> None:
        """Looks no more."""
        self._is_over.set()
        job = self._job
        if job is not None:
            with contextlib.suppress(OSError):
                job.kill()
        self._thread.join(1.0)

    def _key(self) -> Optional[Key]:
        """Which plan is on air, and with which contacts; None where none is, something else is held, or not all of its
        contacts are known."""
        player = self._board.player
        if player is None or self._state.phase is not Phase.FOLLOWING or len(player.contacts) > MOST_CONTACTS:
            return None
        return id(player), len(player.contacts)

    def _run(self) -> None:
        policy = os.sched_getscheduler(0)
        if policy in REAL_TIME:
            # Frames wait for this thread now and then: it keeps their priority, and its children do without.
            set_policy(0, policy | os.SCHED_RESET_ON_FORK, os.sched_getparam(0).sched_priority)
        known: Tuple[Optional[Key], int] = (None, -1)
        again = rest = 0.0
        while not self._is_over.wait(LOOK_SECONDS):
            key, now, player = (self._key(), self._state.swaps), time.monotonic(), self._board.player
            is_due = key != known or now >= again or self._is_over_line()
            if key[0] is None or player is None or now < rest or not is_due:
                continue
            before = processor_time()
            self._look(key[0], player)
            end = time.monotonic()
            known, again, rest = key, end + EVERY_SECONDS, end + REST * (processor_time() - before)

    def _is_over_line(self) -> bool:
        """Whether another line is next by now than the one that was found."""
        last = self._state.frame
        return last is not None and any(last + 1 >= end for _, end in self._found.lines.values())

    def _look(self, key: Key, player: Player) -> None:
        """Looks for what comes of a plan that plays."""
        made, code = player.made, self._board.plan.code
        found = Found(key, player)
        try:
            found.changes = self._changes(player, code, made)
            if made <= MOST_DEBUGGED:
                found.lines = self._lines(player, code, made)
        except Trouble:
            # There is no room for a file in memory: it is looked for again.
            return
        self._found = found

    def _changes(self, player: Player, code: Code, made: int) -> Optional[List[Change]]:
        """The changes of a plan from its frame of a number on, for a day; None where the program does not say them."""
        if not self._has_timeline:
            return None
        events = events_of(player, made + DAY_FRAMES, self._given.coming(made, made + DAY_FRAMES), b"")
        words = [self._program, "timeline", code.path, *player.start.options(), "--json"]
        status, lines = self._ran(words, code, events, functools.partial(lines_from, first=made))
        self._has_timeline = status != 2
        return [change for change in map(change_of, lines) if change is not None] if status == 0 else None

    def _lines(self, player: Player, code: Code, made: int) -> Dict[int, Tuple[int, int]]:
        """The line that is next in a plan's frame of a number, and for how long."""
        commands = re.sub(rb"^frames ", b"run ", events_of(player, made, (), b"next"), flags=re.MULTILINE)
        words = [self._program, "debug", code.path, *player.start.options()]
        status, lines = self._ran(words, code, commands, last_two)
        answers = [ANSWER.match(line) for line in lines]
        if status != 0 or len(answers) != 2 or answers[0] is None or answers[1] is None:
            return {}
        # A line 0 is none: the code file was not compiled from a script.
        line, frames = int(answers[0][2]), int(answers[1][1])
        return {made: (line, made + frames)} if line else {}

    def _ran(self, words: List[str], code: Code, steps: bytes, kept: Kept) -> Tuple[int, List[bytes]]:
        """The status of a command that plays a code file over these steps, and what is kept of its lines; 1 and nothing
        where it can't be run, or does not end."""
        file = in_memory(steps)
        try:
            self._job = job = subprocess.Popen([*words[:3], path_of(file), *words[3:]], stdin=subprocess.DEVNULL,
                                               stdout=subprocess.PIPE, stderr=subprocess.DEVNULL,
                                               pass_fds=(*code.files, file))
        except (OSError, ValueError):
            return 1, []
        finally:
            os.close(file)
        try:
            return self._ended(job, kept)
        finally:
            self._job = None

    @staticmethod
    def _ended(job: "subprocess.Popen[bytes]", kept: Kept) -> Tuple[int, List[bytes]]:
        """The status of a child, which has no more than its time, and what is kept of its lines. Where these are enough
        before its end, it is ended."""
        with contextlib.suppress(OSError):
            os.setpriority(os.PRIO_PROCESS, job.pid, os.getpriority(os.PRIO_PROCESS, 0) + NICE)
        late = threading.Timer(LONGEST_SECONDS, job.kill)
        late.start()
        assert job.stdout is not None
        try:
            found = kept(job.stdout)
            if len(found) == MOST_CHANGES:
                job.kill()
                job.wait()
                return 0, found
            return job.wait(), found
        finally:
            late.cancel()
            job.stdout.close()
