"""Which sub-channels the header of each frame has: those of the plan's configuration, or what is due before a swap."""
from __future__ import annotations

from typing import Dict, Optional, Tuple

from .fibs import COUNTS
from .layout import Entry, OnAir, SubChannel, entries_of, entry_of, from_stc

LEAD = 4
"""So many frames before a swap at a count that 8 divides odr-dabmod gets the sub-channels behind it."""
PHASES = 8
"""odr-dabmod begins again in a frame whose count this divides."""
FILLER = SubChannel(0, 4, "eep 4-A")
"""The sub-channel of 8 kbit/s that comes and goes for odr-dabmod, wherever there is room."""
UNITS = 864
"""The capacity units of a frame."""
SUBS = 64
"""SubChIds are below this."""


class Arrangement:
    """The sub-channels of the current configuration. `shrink`: one that shrinks at the swap has its new size, at its
    old start, so many frames ahead; the bits of a frame go out within 16 (EN 300 401, 12)."""

    def __init__(self, shrink: int = 0) -> None:
        self.filler: Optional[int] = None
        """The SubChId of a sub-channel that has no stream; None without one."""
        self._shrink = shrink
        self._known: Tuple[Dict[int, SubChannel], Tuple[Entry, ...]] = {}, ()

    def entries(self, on_air: OnAir, count: int) -> Tuple[Entry, ...]:
        """The sub-channels of the frame of a count, in the order of their first capacity units."""
        entries = self._entries_of(on_air.current)
        if on_air.swap_in is None or on_air.swap_in > self._shrink:
            return entries
        return tuple(shrunk(entry, on_air) for entry in entries)

    def _entries_of(self, subs: Dict[int, SubChannel]) -> Tuple[Entry, ...]:
        """The entries of a configuration; those of the last one are known."""
        if subs != self._known[0]:
            self._known = dict(subs), entries_of(subs)
        return self._known[1]


def shrunk(entry: Entry, on_air: OnAir) -> Entry:
    """An entry of the current configuration, with the rate behind the swap where it is smaller there."""
    there = on_air.following.get(entry.sub)
    if there is None or there.size >= on_air.current[entry.sub].size:
        return entry
    return entry_of(entry.sub, there)._replace(start=entry.start)


class ForOdrDabmod(Arrangement):
    """What odr-dabmod needs: it restarts its modulation where the number or a size of sub-channels changes, and begins
    again in a frame whose count 8 divides; where they move alone it does not restart, and puts out what is wrong.

    So the sub-channels change some frames before the swap, and where they move alone, a sub-channel without a stream
    comes or goes with them.
    """

    def __init__(self) -> None:
        super().__init__()
        self._before: Optional[Tuple[Entry, ...]] = None
        self._made: Tuple[Entry, ...] = ()

    def entries(self, on_air: OnAir, count: int) -> Tuple[Entry, ...]:
        """The sub-channels of the frame of a count, in the order of their first capacity units."""
        is_ahead = on_air.swap_in is not None and on_air.swap_in <= lead_of((count + on_air.swap_in) % COUNTS)
        entries = self._entries_of(on_air.following if is_ahead else on_air.current)
        if entries != self._before:
            self._made = self._changed(entries) if self._before is not None else entries
            self._before = entries
        return self._made

    def _changed(self, entries: Tuple[Entry, ...]) -> Tuple[Entry, ...]:
        """The sub-channels of another configuration, such that odr-dabmod sees that it is another one."""
        self.filler = None
        if sizes_of(entries) != sizes_of(self._made):
            return entries
        filler = filler_of(entries)
        if filler is None:
            return entries
        self.filler = filler.sub
        return tuple(sorted((*entries, filler), key=lambda entry: (entry.start, entry.sub)))


def lead_of(swap: int) -> int:
    """How many frames before a swap at a count odr-dabmod gets the sub-channels behind it: such that the first frame
    that it puts out again is that of the swap, or one shortly before it."""
    return swap % PHASES + 1 if swap % PHASES else LEAD


def sizes_of(entries: Tuple[Entry, ...]) -> Tuple[Tuple[int, int], ...]:
    """The protection and the words of each sub-channel, in their order."""
    return tuple((entry.level, entry.words) for entry in entries)


def filler_of(entries: Tuple[Entry, ...]) -> Optional[Entry]:
    """A sub-channel of 8 kbit/s beside others; None where there is no room for it."""
    taken = {entry.sub for entry in entries}
    sub = next((sub for sub in reversed(range(SUBS)) if sub not in taken), None)
    start = room_in(entries, FILLER.size)
    return None if sub is None or start is None else entry_of(sub, FILLER)._replace(start=start)


def room_in(entries: Tuple[Entry, ...], size: int) -> Optional[int]:
    """The first capacity unit of so many that are free; None where there are none."""
    at = 0
    for entry in entries:
        if entry.start - at >= size:
            return at
        at = max(at, entry.start + size_of(entry))
    return at if UNITS - at >= size else None


def size_of(entry: Entry) -> int:
    """The capacity units of an entry."""
    return from_stc(entry.start, entry.level, entry.words).size
