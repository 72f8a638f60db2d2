"""The configurations that receivers have, current and next, as `dabplan listen` decodes them from what went out."""
from __future__ import annotations

import json
from typing import Dict, List, Optional, Tuple

from .faults import Trouble
from .labels import Labels
from .layout import SET_A, SET_B
from .program import run

SETS = {"A": SET_A, "B": SET_B}
Parts = Dict[str, List[Dict[str, object]]]
"""A configuration: its `subs` and its `services`, as objects for JSON."""


def sub_of(entry: Dict[str, object]) -> Dict[str, object]:
    """A sub-channel; of unequal error protection size and rate are not told by FIG 0/1."""
    found: Dict[str, object] = {"id": entry["sub"], "start": entry["start"]}
    if "protection" in entry:
        return {**found, "size": entry.get("size"), "protection": f"eep {entry['protection']}",
                "kbits": entry.get("kbits")}
    return {**found, "size": None, "protection": f"switch {entry.get('switch')} table {entry.get('table')}",
            "kbits": None}


def components_of(service: Dict[str, object], packets: Dict[object, object]) -> List[Dict[str, object]]:
    """The components of a service, each with its sub-channel where that is known; `packets` has those of packet
    components."""
    found = service["components"]
    assert isinstance(found, list)
    return [{**each, "sub": packets[each["packet"]]} if each.get("packet") in packets else each for each in found]


def parts_of(entries: List[Dict[str, object]], labels: Labels) -> Optional[Parts]:
    """The configuration that a list of `dabplan listen --json` describes; None where it has no sub-channel."""
    subs = [sub_of(entry) for entry in entries if "sub" in entry and "start" in entry]
    packets = {entry["packet"]: entry["sub"] for entry in entries if "packet" in entry and "sub" in entry}
    services = [{"sid": entry["service"], "label": labels.services.get(str(entry["service"]), ""),
                 "components": components_of(entry, packets)} for entry in entries if "service" in entry]
    return {"subs": subs, "services": services} if subs else None


class Decoder:
    """Decodes what goes out. `dabplan` is run where something has changed alone. `history` is the frames after which a
    receiver knows all of a configuration: nothing is said of it before."""

    def __init__(self, program: str, history: int) -> None:
        self._program = program
        self._history = history
        self._key: Tuple[object, ...] = ()
        self._frames = -1
        self._current: List[Dict[str, object]] = []
        self._next: List[Dict[str, object]] = []

    def look(self, key: Tuple[object, ...], fics: List[bytes], has_next: bool) -> None:
        """Takes the last frames that went out, in a row; `key` is other where something has changed, and `has_next`
        says whether the next configuration was announced for long enough."""
        known = (key, has_next)
        if known == self._key and self._frames in (len(fics), 2 * self._history):
            return
        self._key, self._frames = known, len(fics)
        self._current, self._next = [], []
        if len(fics) < self._history:
            return
        try:
            found = json.loads(run(self._program, ["listen", "-", "--json"], b"".join(fics)))
            self._current, self._next = list(found["current"]), list(found["next"]) if has_next else []
        except (Trouble, ValueError, KeyError, TypeError):
            # Nothing is shown that is not known.
            self._current, self._next = [], []

    def configurations(self, labels: Labels) -> Tuple[Optional[Parts], Optional[Parts]]:
        """The current and the next configuration; None where it is not known, or there is none."""
        return parts_of(self._current, labels), parts_of(self._next, labels)
