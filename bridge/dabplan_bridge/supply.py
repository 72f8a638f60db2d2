"""From which input the stream of each sub-channel comes."""
from __future__ import annotations

from collections import deque
from dataclasses import dataclass, field
from typing import Callable, Deque, Dict, Iterator, List, Mapping, Optional, Sequence, Tuple

from . import edi, eti
from .fibs import COUNTS
from .frames import Frame, Place
from .layout import Entry, SubChannel
from .state import State, StreamState

DEPTH = 5
"""So many frames are kept: a superframe of DAB+ has five."""


def places_of(frame: Frame) -> Mapping[int, Place]:
    """Where the sub-channels of a frame of either format are, by SubChId."""
    return eti.places_of(frame) if frame.whole is None else edi.places_of(frame)


@dataclass
class Taken:
    """A frame of an input, and where its sub-channels are."""

    frame: Frame
    places: Mapping[int, Place] = field(init=False)

    def __post_init__(self) -> None:
        self.places = places_of(self.frame)

    def data(self, sub: int, entry: Entry) -> Optional[bytes]:
        """The bytes of its sub-channel of this SubChId, where that has the protection and the rate of an entry; else
        None."""
        place = self.places.get(sub)
        if place is None or place.level != entry.level or place.words != entry.words:
            return None
        return self.frame.data[place.at:place.at + 8 * place.words]


Bundle = Tuple[Optional[Taken], ...]
"""What each input has of a count."""


class Recent:
    """What the inputs had of the last counts."""

    def __init__(self) -> None:
        self.count = 0
        """The count of the last frame."""
        self._bundles: Deque[Tuple[int, Bundle]] = deque(maxlen=DEPTH)

    @property
    def bundle(self) -> Bundle:
        """What the inputs have of the last count."""
        return self._bundles[-1][1]

    def add(self, count: int, frames: Sequence[Optional[Frame]]) -> None:
        """Takes the frames of a count, one of each input or None."""
        self.count = count
        self._bundles.append((count, tuple(None if frame is None else Taken(frame) for frame in frames)))

    def of(self, source: int, back: int) -> Optional[Taken]:
        """What an input had so many frames ago, 0 to 4; None if it had nothing."""
        if not back:
            return self.bundle[source]
        wanted = (self.count - back) % COUNTS
        return next((bundle[source] for count, bundle in reversed(self._bundles) if count == wanted), None)


@dataclass(frozen=True)
class Naming:
    """Under which SubChId an input has a sub-channel of the plan."""

    names: Tuple[str, ...]
    """The names of the inputs, in their order."""
    maps: Mapping[int, Mapping[str, int]] = field(default_factory=dict)
    """By SubChId of the plan and name of the input, where `--map` says it: such a sub-channel comes from no other
    input, and that one of the input is no other sub-channel of the plan."""

    def sub_of(self, source: int, sub: int) -> Optional[int]:
        """The SubChId in an input of a sub-channel of the plan; None if it is not there."""
        name = self.names[source]
        if sub in self.maps:
            return self.maps[sub].get(name)
        is_other = any(there.get(name) == sub for there in self.maps.values())
        return None if is_other else sub

    def missing(self, subs: Mapping[int, SubChannel], headers: Sequence[Mapping[int, SubChannel]]) -> List[str]:
        """Of each sub-channel that no input carries, a text that says so. `headers`: what each input has, by
        SubChId."""
        found = []
        for sub, wanted in sorted(subs.items()):
            theirs = [headers[at].get(there) for at, there in enumerate(self._subs_of(sub)) if there is not None]
            if not any(each is not None and is_same(each, wanted) for each in theirs):
                found.append(f"sub {sub}: {wanted} in the plan, carried by no input")
        return found

    def _subs_of(self, sub: int) -> List[Optional[int]]:
        return [self.sub_of(source, sub) for source in range(len(self.names))]


def is_same(one: SubChannel, other: SubChannel) -> bool:
    """Whether two sub-channels have the same size and protection, wherever they begin."""
    return (one.size, one.protection) == (other.size, other.protection)


class Supply:
    """The streams of the sub-channels that go out. `delay_of` says by how many frames the stream of an input's
    sub-channel is delayed; None where it is silent for now."""

    def __init__(self, naming: Naming, state: State, repeats_last: bool,
                 delay_of: Callable[[int, int], Optional[int]]) -> None:
        self._naming = naming
        self._state = state
        self._repeats_last = repeats_last
        self._delay_of = delay_of
        self._sources: Dict[int, Tuple[Entry, int]] = {}
        self._last: Dict[int, bytes] = {}
        self._subs: Dict[Tuple[int, int], Optional[int]] = {}

    def data(self, entry: Entry, recent: Recent) -> Tuple[bytes, Optional[Taken]]:
        """The bytes of a sub-channel in the last frame, and the frame of an input from which they are."""
        stream = self._state.streams.get(entry.sub)
        if stream is None:
            stream = self._state.streams[entry.sub] = StreamState()
        before = self._sources.get(entry.sub)
        for source in self._order(before):
            found = self._from(source, entry, recent)
            if found is not None:
                self._take(entry, source, before, stream)
                if self._repeats_last:
                    self._last[entry.sub] = found[0]
                return found
        stream.silent += 1
        last = self._last.get(entry.sub, b"")
        return (last if len(last) == 8 * entry.words else bytes(8 * entry.words)), None

    def keep(self, entries: Sequence[Entry]) -> None:
        """Forgets where others than these sub-channels came from: where one comes back, it is a new one."""
        subs = {entry.sub for entry in entries}
        for sub in [sub for sub in self._sources if sub not in subs]:
            del self._sources[sub]
            self._last.pop(sub, None)
            self._state.streams[sub].source = ""

    def _order(self, before: Optional[Tuple[Entry, int]]) -> Iterator[int]:
        """The inputs in the order in which they are asked: the one that had the sub-channel, then from the first."""
        last = None if before is None else before[1]
        if last is not None:
            yield last
        yield from (source for source in range(len(self._naming.names)) if source != last)

    def _sub_of(self, source: int, sub: int) -> Optional[int]:
        """The SubChId in an input of a sub-channel of the plan; None if it is not there."""
        key = source, sub
        if key not in self._subs:
            self._subs[key] = self._naming.sub_of(source, sub)
        return self._subs[key]

    def _from(self, source: int, entry: Entry, recent: Recent) -> Optional[Tuple[bytes, Optional[Taken]]]:
        """The bytes of a sub-channel from an input; None if it has none."""
        sub = self._sub_of(source, entry.sub)
        if sub is None:
            return None
        delay = self._delay_of(source, sub)
        taken = recent.of(source, delay or 0)
        data = None if taken is None else taken.data(sub, entry)
        if data is None:
            return None
        return (data, taken) if delay is not None else (bytes(len(data)), None)

    def _take(self, entry: Entry, source: int, before: Optional[Tuple[Entry, int]], stream: StreamState) -> None:
        """Stays with an input from here on."""
        if before is not None and before[1] != source and has_rate_of(before[0], entry):
            stream.fallbacks += 1
        stream.source = self._naming.names[source]
        self._sources[entry.sub] = entry, source


def has_rate_of(one: Entry, other: Entry) -> bool:
    """Whether two entries have the same protection and the same rate."""
    return (one.level, one.words) == (other.level, other.words)
