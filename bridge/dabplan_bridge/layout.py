"""Sub-channels: those of a plan, and those of a multiplexer's stream characterization (STC).

ETI(NI) (ETS 300 799, 5.4.1) and EDI (TS 102 693, 5.1.3) say of each sub-channel its number, its first capacity unit, a
protection level of six bits and how many words of 64 bits it has a frame. FIG 0/1 says the size in capacity units
instead.
"""
from __future__ import annotations

import re
from dataclasses import dataclass
from functools import lru_cache
from typing import Dict, List, NamedTuple, Optional, Tuple

SET_A = (12, 8, 6, 4)
"""The capacity units of each 8 kbit/s at 1-A to 4-A (EN 300 401, 6.2.1)."""
SET_B = (27, 21, 18, 15)
"""The capacity units of each 32 kbit/s at 1-B to 4-B."""
ENTRY = 4
"""The bytes of an entry of the STC, as in ETI."""


@dataclass(frozen=True)
class SubChannel:
    """Where a sub-channel is, its capacity units (0 where its protection alone tells them), and its protection."""

    start: int
    size: int
    protection: str

    @staticmethod
    def equal(start: int, size: int, option: int, level: int) -> SubChannel:
        """A sub-channel of equal error protection; option 0 is set A, 1 set B, level 1 to 4."""
        name = f"eep {level}-{'AB'[option]}" if option < 2 else f"option {option} level {level}"
        return SubChannel(start, size, name)

    @staticmethod
    def of_rate(start: int, option: int, level: int, kbits: int) -> SubChannel:
        """A sub-channel of equal error protection and a rate in kbit/s."""
        size = kbits * SET_B[level - 1] // 32 if option else kbits * SET_A[level - 1] // 8
        return SubChannel.equal(start, size, option, level)

    def __str__(self) -> str:
        size = f" size {self.size}" if self.size else ""
        return f"at {self.start}{size} {self.protection}"


class Entry(NamedTuple):
    """A sub-channel as the header of a frame has it."""

    sub: int
    """Its SubChId, 0 to 63 (SCID)."""
    start: int
    """Its first capacity unit, 0 to 863 (SAD)."""
    level: int
    """Its protection, six bits (TPL)."""
    words: int
    """Its words of 64 bits a frame (STL)."""

    def stc(self) -> bytes:
        """The entry in the form of ETI: SCID 6, SAD 10, TPL 6, STL 10 bits."""
        return (self.sub << 26 | self.start << 16 | self.level << 10 | self.words).to_bytes(ENTRY, "big")

    def sstc(self) -> bytes:
        """The entry in the form of EDI: SCID 6, SAD 10, TPL 6, RFA 2 bits."""
        return (self.sub << 18 | self.start << 8 | self.level << 2).to_bytes(3, "big")


class OnAir(NamedTuple):
    """The sub-channels that receivers have in a frame, and those that are announced to them."""

    current: Dict[int, SubChannel]
    """By SubChId, in this frame."""
    following: Dict[int, SubChannel]
    """Those behind the swap that is announced; the same where none is, or where it changes none."""
    swap_in: Optional[int]
    """The frames from this one to the swap, 1 or more; None without one."""


PROTECTION = re.compile(r"eep ([1-4])-([AB])")
"""How a sub-channel of equal error protection names it."""


@lru_cache(maxsize=1024)
def entry_of(sub: int, there: SubChannel) -> Entry:
    """The entry of a sub-channel of a plan, by its size and its protection; `ValueError` if it has no equal error
    protection of set A or B, or a size that no rate has."""
    found = PROTECTION.fullmatch(there.protection)
    if found is None:
        raise ValueError(f"sub {sub}: no equal error protection: {there}")
    number, is_b = int(found[1]) - 1, found[2] == "B"
    words, rest = divmod(12 * there.size, SET_B[number]) if is_b else divmod(3 * there.size, SET_A[number])
    if rest or not words:
        raise ValueError(f"sub {sub}: no rate has this size: {there}")
    return Entry(sub, there.start, 0x20 | is_b << 2 | number, words)


def entries_of(subs: Dict[int, SubChannel]) -> Tuple[Entry, ...]:
    """The entries of a configuration, in the order of their first capacity units; `ValueError` as for one of them."""
    found = (entry_of(sub, there) for sub, there in subs.items())
    return tuple(sorted(found, key=lambda entry: (entry.start, entry.sub)))


def from_stc(start: int, level: int, words: int) -> SubChannel:
    """A sub-channel from its STC: its first capacity unit, the six bits TPL, and the words of 64 bits a frame."""
    if not level & 0x20:
        return SubChannel(start, 0, f"uep level {(level & 7) + 1} of {words * 8 // 3} kbit/s")
    option, number = level >> 2 & 7, level & 3
    size = (words * SET_A[number] // 3, words * SET_B[number] // 12)[option] if option < 2 else 0
    return SubChannel.equal(start, size, option, number + 1)


def stc_entries(stc: bytes) -> List[Entry]:
    """The entries of an STC in the form of ETI, in their order."""
    found = []
    for at in range(0, len(stc), ENTRY):
        bits = int.from_bytes(stc[at:at + ENTRY], "big")
        found.append(Entry(bits >> 26, bits >> 16 & 0x3FF, bits >> 10 & 0x3F, bits & 0x3FF))
    return found


def sub_channels(stc: bytes) -> Dict[int, SubChannel]:
    """The sub-channels of an STC in the form of ETI: SCID 6, SAD 10, TPL 6, STL 10 bits each."""
    return {each.sub: from_stc(each.start, each.level, each.words) for each in stc_entries(stc)}


SCRIPT_LINE = re.compile(rb"sub (\d+) at (\d+) eep ([1-4])-([AB]) (\d+)")
"""How a script names a sub-channel."""


def from_script(script: bytes) -> Dict[int, SubChannel]:
    """The sub-channels of a script that `dabplan listen` prints."""
    found = {}
    for sub, start, level, option, kbits in SCRIPT_LINE.findall(script):
        found[int(sub)] = SubChannel.of_rate(int(start), int(option == b"B"), int(level), int(kbits))
    return found


def differences(plan: Dict[int, SubChannel], multiplexer: Dict[int, SubChannel]) -> List[str]:
    """Of each sub-channel of a plan that the multiplexer has otherwise, or not at all, a text that says so, by
    SubChId."""
    found = []
    for sub, wanted in sorted(plan.items()):
        there: Optional[SubChannel] = multiplexer.get(sub)
        if there is None:
            found.append(f"sub {sub}: {wanted} in the plan, not there in the multiplexer")
        elif there != wanted:
            found.append(f"sub {sub}: {wanted} in the plan, {there} in the multiplexer")
    return found
