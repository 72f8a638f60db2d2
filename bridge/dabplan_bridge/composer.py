"""The frames that go out where the transmission follows the plan: the sub-channels of its configuration, with the
streams of the inputs, under a header of their own."""
from __future__ import annotations

from typing import List, Optional, Sequence, Tuple

from . import edi, eti
from .arrangement import Arrangement
from .frames import Frame, Head, Part
from .layout import OnAir
from .superframes import Superframes
from .supply import Naming, Recent, Supply, Taken
from .state import State

BEFORE = {eti.FSYNCS[0]: eti.FSYNCS[1], eti.FSYNCS[1]: eti.FSYNCS[0]}
"""The word of synchronisation that follows another one."""


class Composer:
    """Makes frames. `form`: the format of what goes out; that of the first frame where it is None."""

    def __init__(self, naming: Naming, arrangement: Arrangement, state: State, form: Optional[str] = None,
                 is_aligned: bool = False, repeats_last: bool = False) -> None:
        self.naming = naming
        self.arrangement = arrangement
        self.form = form
        """`eti` or `edi`; None before the first frame."""
        self._recent = Recent()
        self._superframes = Superframes() if is_aligned else None
        delay_of = undelayed if self._superframes is None else self._superframes.delay_of
        self._supply = Supply(naming, state, repeats_last, delay_of)
        self._sequence: Optional[int] = None
        self._sync = b""

    def form_of(self, frame: Frame) -> str:
        """The format of what goes out, where this is the first frame."""
        return self.form or ("eti" if frame.whole is None else "edi")

    def made(self, frame: Frame, count: int, fic: bytes, on_air: OnAir) -> bytes:
        """The bytes of the frame that goes out: this FIC with the sub-channels that it is about. `frame` is the one of
        the input that gives the clock; those of the others are beside it."""
        self.form = self.form_of(frame)
        self._recent.add(count, frame.beside or (frame,))
        if self._superframes is not None:
            self._superframes.look(self._recent)
        parts, taken = self._parts(on_air, count)
        wrong = next((each.frame.wrong for each in taken if each.frame.wrong), 0)
        if not frame.beside:
            wrong = frame.wrong
        return self._as_eti(frame, fic, parts, wrong) if self.form == "eti" else \
            self._as_edi(frame, count, fic, parts, wrong)

    def _parts(self, on_air: OnAir, count: int) -> Tuple[List[Part], List[Taken]]:
        """The sub-channels of a frame, and the frames of inputs from which they are."""
        entries = self.arrangement.entries(on_air, count)
        self._supply.keep(entries)
        parts, used = [], []
        for entry in entries:
            if entry.sub == self.arrangement.filler:
                parts.append(Part(entry, bytes(8 * entry.words)))
                continue
            data, taken = self._supply.data(entry, self._recent)
            parts.append(Part(entry, data))
            if taken is not None:
                used.append(taken)
        return parts, used

    def _as_eti(self, frame: Frame, fic: bytes, parts: Sequence[Part], wrong: int) -> bytes:
        is_eti = frame.whole is None
        own = eti.sync_of(frame) if is_eti else eti.FSYNCS[frame.low % 2]
        is_alone = is_eti and not frame.beside
        self._sync = own if is_alone or not self._sync else BEFORE[self._sync]
        return eti.built(head_of(frame), frame.low, self._sync, fic, parts, wrong)

    def _as_edi(self, frame: Frame, count: int, fic: bytes, parts: Sequence[Part], wrong: int) -> bytes:
        is_edi = frame.whole is not None
        if self._sequence is None or (is_edi and not frame.beside):
            self._sequence = edi.sequence_of(frame) if is_edi else 0
        else:
            self._sequence = (self._sequence + 1) % 65536
        if is_edi:
            return edi.rebuilt(frame, fic, parts, self._sequence, wrong)
        return edi.built(head_of(frame), count, fic, parts, self._sequence, wrong)


def head_of(frame: Frame) -> Head:
    """What a frame of either format has beside its FIC and its sub-channels."""
    return eti.head_of(frame) if frame.whole is None else edi.head_of(frame)


def undelayed(_source: int, _sub: int) -> int:
    """No stream is delayed."""
    return 0
