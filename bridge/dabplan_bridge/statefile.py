"""The state of the bridge in a textfile, for the node exporter of Prometheus.

It is written beside its place and renamed, each six seconds, and where the phase or an alarm changes. Its age shows
whether the bridge is there; `dab_input_age_seconds` whether the multiplexer is.
"""
from __future__ import annotations

import os
import time
from typing import Callable, List, Optional, Tuple

from .faults import say, why
from .state import Alarm, Phase, State

EVERY_SECONDS = 6.0
"""How often it is written."""


def composed_lines(state: State) -> List[str]:
    """The lines of inputs and streams; none without `--compose`."""
    lines: List[str] = []
    for each in state.inputs:
        label = f'{{input="{each.name}"}}'
        lines += [f"dab_input_connected{label} {each.is_connected:d}", f"dab_input_depth_frames{label} {each.depth}",
                  f"dab_input_late_total{label} {each.late}", f"dab_input_missing_total{label} {each.missing}",
                  f"dab_input_damaged_total{label} {each.damaged}"]
    for sub, stream in sorted(state.streams.items()):
        label = f'{{sub="{sub}"}}'
        lines += [f'dab_stream_source{{sub="{sub}",input="{stream.source}"}} {bool(stream.source):d}',
                  f"dab_stream_silent_total{label} {stream.silent}",
                  f"dab_stream_fallbacks_total{label} {stream.fallbacks}"]
    return lines


def lines_of(state: State, now: float) -> List[str]:
    """The lines of a state at a moment, by `time.monotonic`."""
    counts = {"in": state.frames_in, "out": state.frames_out, "held": state.frames_held, "unfilled": state.unfilled}
    lines = [f'dab_frames_total{{where="{where}"}} {count}' for where, count in counts.items()]
    lines += [f'dab_state{{state="{phase.value}"}} {phase is state.phase:d}' for phase in Phase]
    lines += [f'dab_alarm{{alarm="{alarm.value}"}} {alarm in state.alarms:d}' for alarm in Alarm]
    lines += [f"dab_steps_total {state.steps}", f"dab_swaps_on_air_total {state.swaps}", f"dab_clients {state.clients}"]
    lines += composed_lines(state)
    if state.fits is not None:
        lines.append(f"dab_fits {state.fits:d}")
    if state.last is not None:
        lines.append(f"dab_input_age_seconds {max(0.0, now - state.last):.1f}")
    if state.swap_in is not None:
        lines.append(f"dab_swap_frames {state.swap_in}")
    if state.checked is not None:
        lines += [f"dab_checked_{name}_total {value}" for name, value in state.checked.totals().items()]
    return lines + [f"dab_bridge_timestamp_seconds {time.time():.1f}"]


class StateFile:
    """The textfile at a path, or none."""

    def __init__(self, path: Optional[str], state: State) -> None:
        self._path = path
        self._state = state
        self._written = float("-inf")
        self._known: Tuple[object, ...] = ()
        self._is_told = False

    def look(self, now: float, swap_in: Callable[[], Optional[int]]) -> None:
        """Writes it where it is time, or where something has changed; `swap_in` gives the frames until a swap."""
        if self._path is None:
            return
        state = self._state
        known = (state.phase, state.fits, *state.alarms)
        if now - self._written < EVERY_SECONDS and known == self._known:
            return
        state.swap_in = swap_in()
        self._known = known
        self.write(now)

    def write(self, now: float) -> None:
        """Writes it. Where that fails it is reported once, and tried again when it is time."""
        if self._path is None:
            return
        self._written = now
        beside = f"{self._path}.{os.getpid()}"
        try:
            with open(beside, "w", encoding="ascii") as file:
                file.write("\n".join(lines_of(self._state, now)) + "\n")
            os.replace(beside, self._path)
            self._is_told = False
        except OSError as fault:
            if not self._is_told:
                say(f"cannot write {self._path}: {why(fault)}")
            self._is_told = True

    def close(self) -> None:
        """Writes it for the last time."""
        self.write(time.monotonic())
