"""What a code file says that the bridge has to know: its header, and the sub-channels of each configuration of the
plan.

`dabplan live` verifies the file, and plays it; here the sub-channels of all configurations are wanted before the first
of them goes out. The table of labels has the current and the next configuration wherever ways meet; from each label on
instructions follow in order, each edits the next configuration, and a commit makes it one that goes on air.
"""
from __future__ import annotations

from dataclasses import dataclass
from typing import Dict, List, Tuple

from .layout import SubChannel

MAGIC = b"DABP"
SERVICE_SIZES = (2, 4)
"""The bytes of an SId, by its kind."""
SIMPLE = {0x01: 2, 0x02: 4, 0x03: 2, 0x04: 2, 0x05: 2, 0x06: 0, 0x07: 0, 0x08: 0, 0x09: 10, 0x18: 8, 0x19: 2,
          0x20: 3, 0x21: 2, 0x22: 3, 0x23: 3, 0x24: 10}
"""The bytes of operands, by the opcode, of instructions that change no sub-channel and name no service."""
NAMES_SERVICE = {0x14: 0, 0x15: 0, 0x16: 3, 0x17: 3}
"""The bytes behind the SId, of instructions that name a service."""
COMMITS = (0x04, 0x05)
ADD_SUB, DROP_SUB, MOVE_SUB, RATE_SUB = 0x10, 0x11, 0x12, 0x13
Subs = Dict[int, Tuple[int, int, int, int]]
"""Sub-channels by SubChId: start, set (0 A, 1 B), level and rate in kbit/s."""


class NoCode(ValueError):
    """These bytes are no code file."""


@dataclass(frozen=True)
class Header:
    """The header of a code file."""

    mode: int
    """The transmission mode, 1 to 4."""
    reserve: int
    """The FIBs of each frame that carry no FIG of the plan."""
    eid: int
    period: int
    """In so many frames each entry of a configuration is sent."""
    notice: int
    """The frames for which a swap is announced."""
    budget: int
    """The instructions of a frame, at most."""


class Fields:
    """Reads fields one behind the other; `NoCode` where the bytes end."""

    def __init__(self, data: bytes, at: int = 0) -> None:
        self._data = data
        self.at = at
        """The offset of the next field."""

    def number(self, size: int) -> int:
        """The number of so many bytes."""
        self.skip(size)
        return int.from_bytes(self._data[self.at - size:self.at], "big")

    def skip(self, size: int) -> None:
        """Passes over so many bytes."""
        self.at += size
        if self.at > len(self._data):
            raise NoCode("it ends too early")


def header_of(fields: Fields) -> Header:
    """The header, up to the numbers of what follows; `NoCode` if it is none."""
    if fields.number(4) != int.from_bytes(MAGIC, "big"):
        raise NoCode("it does not begin as one")
    version = fields.number(1)
    if version not in (1, 2, 3):
        raise NoCode(f"version {version}")
    mode = fields.number(1) if version > 1 else 1
    reserve = fields.number(1) if version == 3 else 0
    if mode not in (1, 2, 3, 4):
        raise NoCode(f"transmission mode {mode}")
    return Header(mode, reserve, fields.number(2), fields.number(1), fields.number(1), fields.number(1))


def record_of(fields: Fields) -> Subs:
    """The sub-channels of a configuration's record."""
    subs, services, packets = fields.number(1), fields.number(1), fields.number(1)
    found = {}
    for _ in range(subs):
        sub = fields.number(1)
        found[sub] = (fields.number(2), fields.number(1), fields.number(1), fields.number(2))
    for _ in range(services):
        fields.skip(SERVICE_SIZES[fields.number(1) & 1])
        fields.skip(3 * fields.number(1))
    fields.skip(7 * packets)
    return found


class Walk:
    """The configurations that a plan commits, instruction by instruction."""

    def __init__(self, records: List[Subs], labels: Dict[int, int]) -> None:
        self._records = records
        self._labels = labels
        self._subs: Subs = {}
        self.found: List[Subs] = []
        """The configurations so far, each once."""

    def add(self, subs: Subs) -> None:
        """A configuration that goes on air."""
        if subs not in self.found:
            self.found.append(dict(subs))

    def step(self, pc: int, fields: Fields) -> None:
        """Takes the instruction of an index."""
        if pc in self._labels:
            self._subs = dict(self._records[self._labels[pc]])
        fields.skip(2)
        opcode = fields.number(1)
        if opcode in SIMPLE:
            fields.skip(SIMPLE[opcode])
        elif opcode in NAMES_SERVICE:
            fields.skip(SERVICE_SIZES[fields.number(1) & 1] + NAMES_SERVICE[opcode])
        else:
            self._edit(opcode, fields)
        if opcode in COMMITS:
            self.add(self._subs)

    def _edit(self, opcode: int, fields: Fields) -> None:
        if opcode not in (ADD_SUB, DROP_SUB, MOVE_SUB, RATE_SUB):
            raise NoCode(f"no such instruction: {opcode:02X}")
        sub = fields.number(1)
        if opcode == DROP_SUB:
            self._subs.pop(sub, None)
            return
        if opcode == ADD_SUB:
            self._subs[sub] = (fields.number(2), fields.number(1), fields.number(1), fields.number(2))
            return
        start, kind, level, rate = self._subs.get(sub, (0, 0, 1, 0))
        number = fields.number(2)
        self._subs[sub] = (number, kind, level, rate) if opcode == MOVE_SUB else (start, kind, level, number)


def configurations_of(data: bytes) -> List[Dict[int, SubChannel]]:
    """The sub-channels of each configuration that a plan may bring on air, those of its first one first; `NoCode` if
    these bytes are no code file."""
    fields = Fields(data)
    header_of(fields)
    configs, labels, instructions = fields.number(2), fields.number(2), fields.number(2)
    records = [record_of(fields) for _ in range(configs)]
    nexts = {}
    for _ in range(labels):
        pc, _, following = fields.number(2), fields.number(2), fields.number(2)
        if following >= configs:
            raise NoCode("no such configuration")
        fields.skip(7)
        nexts[pc] = following
    walk = Walk(records, nexts)
    if records:
        walk.add(records[nexts.get(0, 0)])
    for pc in range(instructions):
        walk.step(pc, fields)
    return [{sub: SubChannel.of_rate(*entry) for sub, entry in subs.items()} for subs in walk.found]
