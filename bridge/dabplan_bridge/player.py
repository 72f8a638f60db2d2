"""A plan that runs: how it starts, its frames in order, and the last of them."""
from __future__ import annotations

import contextlib
from collections import deque
from dataclasses import dataclass
from itertools import chain, islice
from typing import Deque, Dict, Iterable, Iterator, List, Optional, Set, Tuple

from .chain import Chain, Live, Progress, frame_lines
from .faults import Stopped, Trouble, number_of
from .fibs import COUNTS, Listener
from .follower import KEPT
from .layout import SubChannel
from .past import Past, contacts_in
from .plan import Plan, opening
from .priority import ordinary

MANY = 5000
"""Where more frames are passed over, it is said that this takes its time."""
MOST_CONTACTS = 100_000
"""So many changes of contacts are noted."""


@dataclass(frozen=True)
class Start:
    """How a plan begins, or goes on."""

    first: int
    """The count of the plan's first frame."""
    time: str
    """The time of the plan's first frame: `time -`, `time HH:MM:SS` or `day N`."""
    frames: int
    """The frames of the plan before the first one that goes out."""
    missed: int = 0
    """Those of them that no log has."""

    def options(self) -> List[str]:
        """The options of `dabplan live` for it."""
        option, value = self.time.split(" ")
        return ["--count", str(self.first)] + ([] if value == "-" else [f"--{option}", value])


def past_start(past: Past) -> Start:
    """How the plan of a log is played to the end of the log."""
    return Start(past.count, past.start, past.frames)


def moved(past: Past, count: int, missed: int) -> Start:
    """How the plan of a log goes on in a frame of any count, so many frames behind its end."""
    return Start((count - past.frames - missed) % COUNTS, past.start, past.frames + missed, missed)


class Player:
    """The frames of a plan, in order, and the last 750 of them. `told_from`: the frame from which on notices and swaps
    are reported; None for none."""

    def __init__(self, program: str, plan: Plan, start: Start, steps: Iterable[bytes],
                 told_from: Optional[int]) -> None:
        self.start = start
        self.made = start.frames
        """How many frames were made: the number of the plan's next frame."""
        self.swapped = False
        """Whether a swap fell into the last frame that was made."""
        self.swaps = 0
        """The swaps of the frames that were made here."""
        self.contacts: List[Tuple[int, bytes]] = []
        """The lines of contacts that changed something, each with the number of the frame before which it came; more
        than `MOST_CONTACTS` where some are not there."""
        self._closed: Set[int] = set()
        self._plan = plan
        self._listener = Listener()
        self._kept: Deque[bytes] = deque(maxlen=KEPT)
        self._since_swap = 0
        self._layouts: Deque[Tuple[int, Dict[int, SubChannel]]] = deque(maxlen=KEPT)
        noted = self._noted(steps)
        lines = [*noted] if start.frames < plan.history else noted
        again = min(start.frames, KEPT)
        code = plan.code
        known: Optional[Dict[int, SubChannel]] = None
        if isinstance(lines, list):
            given = [*lines, *frame_lines(start.missed)]
            known = opening(Live(program, code, start.options()), plan, start.first, given, start.frames)
        options = [*start.options(), "--skip", str(start.frames - again)]
        self._chain = Chain(program, code, plan.mode, options, told_from)
        try:
            self._take_up(lines, again)
        except (Trouble, Stopped):
            self._chain.end()
            raise
        self._known = known
        if known is not None:
            self._listener.current = known
            self._layouts.clear()

    @property
    def due(self) -> int:
        """The count of the plan's next frame."""
        return (self.start.first + self.made) % COUNTS

    @property
    def sub_channels(self) -> Dict[int, SubChannel]:
        """The sub-channels of the plan in the last frame that was made, by SubChId."""
        return self._listener.current

    @property
    def coming(self) -> Dict[int, SubChannel]:
        """The sub-channels of the plan in its next frame."""
        is_start = self._known is not None and self.made == self.start.frames
        return self._known if is_start and self._known is not None else self._listener.coming(self.due)

    @property
    def swap_in(self) -> Optional[int]:
        """The frames until the swap that is announced, from the next frame on; None without one."""
        return self._listener.swap_in(self.due)

    def make(self, fic: bytes, lines: List[bytes]) -> bytes:
        """The FIC of the plan's next frame, after these lines of contacts, with FIGs of another FIC."""
        self._note(self.made, lines)
        made = self._chain.frame(fic, lines)
        self._keep(made)
        return made

    def pass_over(self, frames: int, lines: Iterable[bytes] = ()) -> bool:
        """Lets the plan make frames that are not sent, after these lines; returns whether a swap fell into one of
        them."""
        before, lines = self.swaps, [*lines]
        self._note(self.made, lines)
        text = f"{number_of(frames)} of the plan are made, and not sent"
        with (Progress(text) if frames > MANY else contextlib.nullcontext()):  # type: ignore[attr-defined]
            for made in self._chain.pass_over(frames, lines):
                self._keep(made)
        return self.swaps > before

    def kept(self, number: int) -> Optional[bytes]:
        """The FIC of the plan's frame of a number; None if it is not there."""
        back = self.made - number
        return self._kept[-back] if 0 < back <= len(self._kept) else None

    def layout_of(self, number: int) -> Dict[int, SubChannel]:
        """The sub-channels of the plan in its frame of a number, one of those that are kept."""
        return next((subs for first, subs in reversed(self._layouts) if first <= number), self.sub_channels)

    @property
    def following(self) -> Dict[int, SubChannel]:
        """The sub-channels of the plan behind the swap that is announced; those of now without one."""
        return self._listener.following

    def since_swap(self) -> List[bytes]:
        """The FICs of the last frames that were made, from the last swap on, as far as they are kept."""
        frames = min(self._since_swap, len(self._kept))
        return list(islice(self._kept, len(self._kept) - frames, None))

    def come_after(self, other: Player) -> None:
        """Its first frame comes behind the last one that another plan made, which had what this one begins with: those
        frames are kept too, under numbers below 0."""
        self._kept.extend(other._kept)
        self._layouts.extend((number - other.made, subs) for number, subs in other._layouts)

    def end(self) -> bool:
        """Ends the children; returns whether they ended well."""
        return self._chain.end()

    def _noted(self, steps: Iterable[bytes]) -> Iterator[bytes]:
        """The steps of what was, whose contacts are noted as they are taken."""
        at = 0
        for step in steps:
            if step.startswith(b"frames"):
                at += int(step[7:])
            else:
                self._note(at, [step])
            yield step

    def _note(self, frame: int, lines: Iterable[bytes]) -> None:
        """Notes lines of contacts that come before the frame of a number."""
        for line in lines:
            before = set(self._closed)
            for contact, is_closed in contacts_in(line):
                (self._closed.add if is_closed else self._closed.discard)(contact)
            if self._closed != before and len(self.contacts) <= MOST_CONTACTS:
                self.contacts.append((frame, line))

    def _take_up(self, lines: Iterable[bytes], again: int) -> None:
        """Plays what was, and keeps the last frames of it, so many."""
        self.made -= again
        with ordinary() as also, Progress(f"{number_of(self.start.frames)} of the plan are made again"):
            for process in self._chain.processes:
                also(process)
            for fic in self._chain.take_up(chain(lines, frame_lines(self.start.missed)), again):
                self._keep(fic)

    def _keep(self, fic: bytes) -> None:
        self._kept.append(fic)
        self.swapped = self._listener.hear(fic, self.due)
        self.made += 1
        if self.swapped:
            self.swaps += 1
            self._since_swap = 0
        if self.swapped or not self._layouts:
            self._layouts.append((self.made - 1, self._listener.current))
        self._since_swap += 1
