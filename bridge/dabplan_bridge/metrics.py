"""What the bridge does, as text for Prometheus, each line with the labels of ensemble and plan."""
from __future__ import annotations

import os
from typing import List, Optional, Sequence, Tuple

from .fibs import FRAME_SECONDS
from .plan import Plan
from .state import Alarm, Phase, State

Labels = Tuple[Tuple[str, str], ...]
"""Names and values of labels."""
Value = Tuple[Labels, float]
"""A value, and the labels that it has beside the common ones."""


def escaped(text: str) -> str:
    """A text as the value of a label."""
    return text.replace("\\", "\\\\").replace('"', '\\"').replace("\n", "\\n")


def lines_of(name: str, kind: str, common: Labels, values: Sequence[Value]) -> List[str]:
    """The lines of a metric of a kind, `counter` or `gauge`; none where it has no value."""
    lines = [f"# TYPE {name} {kind}"] if values else []
    for own, value in values:
        labels = ",".join(f'{key}="{escaped(text)}"' for key, text in (*own, *common))
        lines.append(f"{name}{{{labels}}} {float(value):.10g}")
    return lines


def text_of_metrics(plan: Plan, state: State, swap_in: Optional[int], closed: Sequence[bool], now: float) -> str:
    """All metrics at a moment, by `time.monotonic`: of a swap in so many frames, and which contacts are closed."""
    frames = {"in": state.frames_in, "out": state.frames_out, "unfilled": state.unfilled, "held": state.frames_held}
    on, checked = list(state.alarms), state.checked
    known: List[Tuple[str, str, List[Value]]] = [
        ("dab_frames_total", "counter", [((("where", where),), count) for where, count in frames.items()]),
        ("dab_steps_total", "counter", [((), state.steps)]),
        ("dab_swaps_on_air_total", "counter", [((), state.swaps)]),
        ("dab_fits", "gauge", [] if state.fits is None else [((), state.fits)]),
        ("dab_state", "gauge", [((("state", each.value),), each is state.phase) for each in Phase]),
        ("dab_alarm", "gauge", [((("alarm", each.value),), each in on) for each in Alarm]),
        ("dab_input_age_seconds", "gauge", [] if state.last is None else [((), round(max(0.0, now - state.last), 3))]),
        ("dab_clients", "gauge", [((), state.clients)]),
        ("dab_contact", "gauge", [((("n", str(number)),), each) for number, each in enumerate(closed)]),
        ("dab_swap_seconds", "gauge", [] if swap_in is None else [((), round(swap_in * FRAME_SECONDS, 3))]),
    ]
    if checked is not None:
        known += [(f"dab_{name}_total", "counter", [((), value)]) for name, value in checked.totals().items()
                  if name != "frames"]
        known += [("dab_checked_frames_total", "counter", [((), checked.frames)]),
                  ("dab_up", "gauge", [((), checked.is_up)])]
    known += composed(state)
    common = (("ensemble", f"{plan.eid:04X}"), ("plan", os.path.basename(plan.path)))
    return "\n".join(line for name, kind, values in known for line in lines_of(name, kind, common, values)) + "\n"


def composed(state: State) -> List[Tuple[str, str, List[Value]]]:
    """The metrics of inputs and streams; without values where there is one input."""
    inputs = [((("input", each.name),), each) for each in list(state.inputs)]
    streams = [((("sub", str(sub)),), each) for sub, each in sorted(state.streams.copy().items())]
    return [
        ("dab_input_connected", "gauge", [(own, each.is_connected) for own, each in inputs]),
        ("dab_input_depth_frames", "gauge", [(own, each.depth) for own, each in inputs]),
        ("dab_input_late_total", "counter", [(own, each.late) for own, each in inputs]),
        ("dab_input_missing_total", "counter", [(own, each.missing) for own, each in inputs]),
        ("dab_input_damaged_total", "counter", [(own, each.damaged) for own, each in inputs]),
        ("dab_stream_source", "gauge", [((*own, ("input", each.source)), bool(each.source)) for own, each in streams]),
        ("dab_stream_silent_total", "counter", [(own, each.silent) for own, each in streams]),
        ("dab_stream_fallbacks_total", "counter", [(own, each.fallbacks) for own, each in streams]),
    ]
