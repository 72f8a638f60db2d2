"""Whether the inputs carry what a plan needs, where the transmission follows the plan."""
from __future__ import annotations

from typing import Callable, Dict, List, Mapping, Optional, Tuple

from .arrangement import ForOdrDabmod, filler_of, sizes_of
from .composer import Composer
from .faults import DoesNotFit, listed
from .fit import Fit
from .frames import Frame
from .layout import SubChannel, entries_of, sub_channels
from .placing import Placer
from .plan import Plan
from .state import Alarm, State

Headers = Tuple[Mapping[int, SubChannel], ...]
"""What each input has, by SubChId."""


class Carried(Fit):
    """Compares plan and inputs where one of them has changed. The place of a sub-channel is the plan's."""

    def __init__(self, plan: Plan, placer: Placer, state: State, composer: Composer) -> None:
        super().__init__(plan, placer, state)
        self._composer = composer
        self._stcs: List[bytes] = []

    def refuse(self, frame: Frame, current: Dict[int, SubChannel], is_first: bool) -> None:
        """Raises `DoesNotFit` where no input carries a sub-channel of the plan. Where the plan begins, all its
        configurations are looked at; later the others are an alarm, and so is what an input may carry that is not
        there."""
        wrong = self._against_modulator(self._plan, frame)
        if wrong:
            raise DoesNotFit(f"{self._plan.path} does not fit odr-dabmod: {listed(wrong)}")
        self._look(frame)
        headers = self._headers()
        wrong = self._missing(current, headers)
        self._others = self._missing_ever(self._plan, headers, None)
        if is_first and not wrong:
            wrong = self._others
        if wrong and (is_first or b"" not in self._stcs):
            raise DoesNotFit(f"{self._plan.path} does not fit the inputs: {listed(wrong)}")
        self._state.fits = not self._others
        if self._others:
            self._state.alarm(Alarm.UNFIT, f"{self._plan.path} does not fit the inputs: {listed(self._others)}")

    def compare(self, frame: Frame, at: int, current: Callable[[], Dict[int, SubChannel]], has_swapped: bool) -> None:
        """Compares a frame, the one of index `at`, with the sub-channels that receivers hold."""
        self._compare_ensemble(at)
        before = self._stcs
        self._look(frame)
        if not has_swapped and before == self._stcs:
            return
        headers = self._headers()
        wrong = self._missing(current(), headers)
        others = wrong or self._missing_ever(self._plan, headers, None)
        self._state.fits = not others
        if wrong:
            what = "from the swap on " if has_swapped else ""
            self._state.alarm(Alarm.UNFIT, f"frame {at}: {what}the plan does not fit the inputs: {listed(wrong)}")
        elif others:
            self._state.alarm(Alarm.UNFIT, f"frame {at}: the plan will not fit the inputs: {listed(others)}")
        else:
            self._state.clear(Alarm.UNFIT, f"frame {at}: the plan fits the inputs again")

    def against(self, plan: Plan, frame: Frame, current: Dict[int, SubChannel]) -> List[str]:
        """What no input carries of any configuration of another plan but the current one, and what the modulator does
        not take of it."""
        return self._missing_ever(plan, self._headers(), current) + self._against_modulator(plan, frame)

    def take(self, plan: Plan) -> None:
        """From the next frame on it is about another plan."""
        super().take(plan)
        self._stcs = []

    def _compare_ensemble(self, at: int) -> None:
        """An alarm where the stream is of another ensemble. Of several inputs each is looked at as it comes."""
        if not self._state.inputs:
            super()._compare_ensemble(at)

    def _look(self, frame: Frame) -> None:
        """Takes note of what each input has, by its last frame; nothing where there was none."""
        if self._state.inputs:
            self._stcs = [each.stc for each in self._state.inputs]
        elif not (frame.wrong and frame.whole is not None):
            self._stcs = [frame.stc]

    def _headers(self) -> Headers:
        """What each input has."""
        return tuple(sub_channels(stc) for stc in self._stcs)

    def _missing(self, subs: Mapping[int, SubChannel], headers: Headers) -> List[str]:
        return self._composer.naming.missing(subs, headers)

    def _missing_ever(self, plan: Plan, headers: Headers, but: Optional[Dict[int, SubChannel]]) -> List[str]:
        """What no input carries of any configuration of a plan, but for one of them; each once."""
        found: Dict[str, None] = {}
        for each in plan.configurations:
            if each != but:
                found.update(dict.fromkeys(self._missing(each, headers)))
        return list(found)

    def _against_modulator(self, plan: Plan, frame: Frame) -> List[str]:
        """Where odr-dabmod would end, or put out what is wrong: by EDI where a sub-channel has another size or start in
        another configuration; by ETI where there is no room for the sub-channel that comes and goes."""
        if not isinstance(self._composer.arrangement, ForOdrDabmod):
            return []
        if self._composer.form_of(frame) == "edi":
            wrong = changing(plan.configurations)
            what = "odr-dabmod takes no such change by EDI; by ETI it does"
        else:
            wrong = [text for text in map(without_room, plan.configurations) if text] \
                if moves(plan.configurations) else []
            what = "odr-dabmod does not see a move by itself, and there is no room for a sub-channel that shows it"
        return [f"{listed(wrong)}: {what}"] if wrong else []


def changing(configurations: Tuple[Dict[int, SubChannel], ...]) -> List[str]:
    """Of each sub-channel that has different places or sizes in two configurations, a text that says so."""
    found: Dict[str, None] = {}
    known: Dict[int, SubChannel] = {}
    for sub, there in (item for subs in configurations for item in sorted(subs.items())):
        if known.setdefault(sub, there) != there:
            found[f"sub {sub}: {known[sub]} and {there}"] = None
    return list(found)


def moves(configurations: Tuple[Dict[int, SubChannel], ...]) -> bool:
    """Whether two configurations have as many sub-channels of the same sizes, one behind the other, at other places or
    under other SubChIds."""
    known: Dict[object, object] = {}
    entries = [entries_of(subs) for subs in configurations]
    return any(known.setdefault(sizes_of(each), each) != each for each in entries)


def without_room(subs: Dict[int, SubChannel]) -> str:
    """A text that says that a configuration has no room for another sub-channel; empty where it has."""
    if filler_of(entries_of(subs)) is not None:
        return ""
    return f"a configuration of {len(subs)} sub-channels has no 4 capacity units or no SubChId left"
