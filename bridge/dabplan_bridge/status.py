"""What the bridge does, as one object of JSON: for a page, and for programs."""
from __future__ import annotations

import os
import time
from typing import Dict, List, Optional

from .board import Board, Shown, last_row
from .decoded import Decoder
from .fibs import COUNTS, DAY_FRAMES
from .given import Given
from .labels import Labels
from .outlook import Outlook
from .overlays import holding
from .past import day_frame_of_start, text_of
from .state import State

Fields = Dict[str, object]


def day_of_frame(start: str, frame: Optional[int]) -> Optional[int]:
    """The frame of the day of a plan's frame; None where the plan has no time."""
    first = day_frame_of_start(start)
    return None if first is None or frame is None else (first + frame) % DAY_FRAMES


def time_of_frame(start: str, frame: Optional[int]) -> Optional[str]:
    """The time of day of a plan's frame, `HH:MM:SS`; None where the plan has none."""
    day = day_of_frame(start, frame)
    if day is None:
        return None
    seconds = day * 24 // 1000
    return f"{seconds // 3600:02}:{seconds // 60 % 60:02}:{seconds % 60:02}"


class Status:
    """Makes the object. Not for several threads at once."""

    def __init__(self, program: str, source: str, board: Board, given: Given, state: State, outlook: Outlook,
                 needs_token: bool) -> None:
        self._plan = board.plan
        self._needs_token = needs_token
        self._source = source
        self._board, self._given, self._state = board, given, state
        self._outlook = outlook
        self._labels = Labels()
        self._program = program
        self._decoder = Decoder(program, self._plan.history)
        self._seen = -1

    def fields(self) -> Fields:
        """What is so at this moment."""
        state, plan, frames = self._state, self._board.plan, self._board.frames()
        if plan is not self._plan:
            self._plan, self._decoder = plan, Decoder(self._program, plan.history)
        self._look(frames)
        current, following = self._decoder.configurations(self._labels)
        last = frames[-1] if frames else None
        return {
            "ensemble": {"eid": f"{plan.eid:04X}", "label": self._labels.ensemble}, "mode": plan.mode,
            "time": text_of(time.time()), "frame": state.frame, "count": state.count,
            "day_time": time_of_frame(self._board.start[0], state.frame), "state": state.phase.value,
            "configuration": current, "next": following,
            "swap": self._swap(last), "changes": self._outlook.changes(),
            "plan": {"path": plan.path, "name": os.path.basename(plan.path), "digest": plan.digest,
                     "line": self._outlook.line(), "overlays": self._overlays()},
            "contacts": ["closed" if each else "open" for each in self._given.closed],
            "inputs": [self._input()], "outputs": self._outputs(), "fits": state.fits,
            "alarms": [{"alarm": alarm.value, "text": text} for alarm, text in list(state.alarms.items())],
            "frames": {"in": state.frames_in, "out": state.frames_out, "held": state.frames_held,
                       "unfilled": state.unfilled},
            "check": self._checked(),
            "steps": state.steps, "swaps": state.swaps, "needs_token": self._needs_token}

    def _look(self, frames: List[Shown]) -> None:
        """Takes labels and configurations of new frames."""
        for each in frames:
            if each.number > self._seen:
                self._seen = each.number
                self._labels.take(each.fic)
        if frames:
            last, most, period = frames[-1], 2 * self._plan.history, self._plan.header.period
            row = last_row(frames, most)
            announced = sum(each.swap_in is not None for each in row[-period:])
            key = (last.swaps, last.swap_in is None, last.is_held, row[0].number if len(row) < most else -1)
            self._decoder.look(key, [each.fic for each in row], announced == period)

    def _overlays(self) -> Optional[List[str]]:
        """The overlays that hold now, with the contacts as they are."""
        day = day_of_frame(self._board.start[0], self._state.frame)
        return holding(self._board.plan.overlays, self._given.closed, day)

    @staticmethod
    def _swap(last: Optional[Shown]) -> Optional[Fields]:
        if last is None or last.swap_in is None:
            return None
        return {"in_frames": last.swap_in, "count": (last.cif + 1 + last.swap_in) % COUNTS}

    def _checked(self) -> Optional[Fields]:
        """What the check of what goes out found; None where there is none."""
        checked = self._state.checked
        return None if checked is None else {**checked.totals(), "is_up": checked.is_up, "last": checked.last}

    def _input(self) -> Fields:
        last = self._state.last
        return {"name": self._source, "age": None if last is None else round(max(0.0, time.monotonic() - last), 1)}

    def _outputs(self) -> List[Fields]:
        sinks = self._board.sinks
        return [] if sinks is None else [{"name": name, "clients": clients} for name, clients in sinks.outputs()]
