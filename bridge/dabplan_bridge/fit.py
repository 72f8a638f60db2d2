"""Whether the plan fits the multiplexer: its sub-channels against the header of each frame, and its ensemble against
FIG 0/0."""
from __future__ import annotations

from typing import Callable, Dict, List, Optional

from .faults import DoesNotFit, listed
from .frames import Frame
from .layout import SubChannel, differences, sub_channels
from .placing import Placer
from .plan import Plan
from .state import Alarm, State


class Fit:
    """Compares plan and multiplexer where one of them has changed."""

    def __init__(self, plan: Plan, placer: Placer, state: State) -> None:
        self._plan = plan
        self._placer = placer
        self._state = state
        self._stc = b""
        self._others: List[str] = []

    def refuse(self, frame: Frame, current: Dict[int, SubChannel], is_first: bool) -> None:
        """Raises `DoesNotFit` where the plan's configuration is not that of the multiplexer. Where the plan begins, all
        its configurations have to be; later the others are an alarm."""
        there = sub_channels(frame.stc)
        wrong = differences(current, there)
        self._others = self._differences(there)
        if is_first and not wrong:
            wrong = self._others
        if wrong:
            raise DoesNotFit(f"{self._plan.path} does not fit the multiplexer: {listed(wrong)}")
        self._stc = frame.stc
        self._state.fits = not self._others
        if self._others:
            self._state.alarm(Alarm.UNFIT, f"{self._plan.path} will not fit the multiplexer: {listed(self._others)}")

    def against(self, plan: Plan, frame: Frame, current: Dict[int, SubChannel]) -> List[str]:
        """What the multiplexer has otherwise than another plan, in any of its configurations but the current one."""
        there = sub_channels(frame.stc)
        return differing(plan, there, current)

    def take(self, plan: Plan) -> None:
        """From the next frame on it is about another plan."""
        self._plan, self._stc = plan, b""

    def refuse_ensemble(self, frame: Frame) -> None:
        """Raises `DoesNotFit` where the stream is of another mode or ensemble than the plan."""
        plan, ensemble = self._plan, self._placer.ensemble
        if frame.mode != plan.mode:
            raise DoesNotFit(f"{plan.path}: transmission mode {plan.mode}; that of the stream is {frame.mode}")
        if ensemble is not None and ensemble.eid != plan.eid:
            raise DoesNotFit(f"{plan.path}: ensemble {plan.eid:04X}; that of the stream is {ensemble.eid:04X}")

    def compare(self, frame: Frame, at: int, current: Callable[[], Dict[int, SubChannel]], has_swapped: bool) -> None:
        """Compares a frame, the one of index `at`, with the sub-channels that receivers hold."""
        if frame.wrong and frame.whole is not None:
            # Nothing protects what this packet says of its streams: the next one says it again.
            self._stc = b"" if has_swapped else self._stc
            return
        self._compare_ensemble(at)
        if not has_swapped and frame.stc == self._stc:
            return
        self._stc = frame.stc
        there = sub_channels(frame.stc)
        wrong = differences(current(), there)
        others = wrong or self._differences(there)
        self._state.fits = not others
        if wrong:
            what = "from the swap on " if has_swapped else ""
            self._state.alarm(Alarm.UNFIT, f"frame {at}: {what}the plan does not fit the multiplexer: {listed(wrong)}")
        elif others:
            self._state.alarm(Alarm.UNFIT, f"frame {at}: the plan will not fit the multiplexer: {listed(others)}")
        else:
            self._state.clear(Alarm.UNFIT, f"frame {at}: the plan fits the multiplexer again")

    def _compare_ensemble(self, at: int) -> None:
        """An alarm where the stream is of another ensemble."""
        ensemble, plan = self._placer.ensemble, self._plan
        if ensemble is None:
            return
        if ensemble.eid == plan.eid:
            if self._state.alarms:
                self._state.clear(Alarm.ENSEMBLE, f"frame {at}: the ensemble of the stream is that of the plan again")
        elif not self._state.is_on(Alarm.ENSEMBLE):
            self._state.alarm(Alarm.ENSEMBLE, f"frame {at}: the ensemble of the stream is {ensemble.eid:04X}; "
                                              f"that of the plan is {plan.eid:04X}")

    def _differences(self, there: Dict[int, SubChannel]) -> List[str]:
        """What the multiplexer has otherwise than any configuration of the plan; each once."""
        return differing(self._plan, there, None)


def differing(plan: Plan, there: Dict[int, SubChannel], but: Optional[Dict[int, SubChannel]]) -> List[str]:
    """What a multiplexer has otherwise than any configuration of a plan, but for one of them; each once."""
    found: Dict[str, None] = {}
    for each in plan.configurations:
        if each != but:
            found.update(dict.fromkeys(differences(each, there)))
    return list(found)
