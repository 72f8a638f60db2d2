"""The overlays of a schedule, and whether they hold: what is shown of a plan, not what goes on air.

`dabplan` has compiled the script before it is read here, so nothing is said of a fault: a text that is no schedule has
no overlays.
"""
from __future__ import annotations

import re
from dataclasses import dataclass
from typing import List, Optional, Sequence, Tuple, Union

WORD = re.compile(r"#[^\n]*|[{}]|[^\s;{}#]+")
"""A comment, a brace or a word of a script."""


@dataclass(frozen=True)
class Level:
    """A test of a contact."""

    contact: int
    is_closed: bool

    def holds(self, closed: Sequence[bool], _day: int) -> bool:
        """Whether the contact has this level."""
        return closed[self.contact] == self.is_closed


@dataclass(frozen=True)
class Window:
    """A test of the time of day: from one frame of the day up to another one, over midnight too."""

    begin: int
    end: int

    def holds(self, _closed: Sequence[bool], day: int) -> bool:
        """Whether the frame of the day is in the window."""
        if self.begin <= self.end:
            return self.begin <= day < self.end
        return day >= self.begin or day < self.end


Test = Union[Level, Window]
Alternatives = Tuple[Tuple[Test, ...], ...]


@dataclass(frozen=True)
class Overlay:
    """An overlay: its name, and its condition."""

    name: str
    condition: Alternatives

    def holds(self, closed: Sequence[bool], day: int) -> bool:
        """Whether the condition holds with these contacts in this frame of the day."""
        return any(all(test.holds(closed, day) for test in tests) for tests in self.condition)


def words_of(script: str) -> List[str]:
    """The words and braces of a script, without its comments."""
    return [word for word in WORD.findall(script) if not word.startswith("#")]


def frame_of(time: str) -> int:
    """The first frame of the day at a time `HH:MM:SS` or after it."""
    hours, minutes, seconds = map(int, time.split(":"))
    return -(-((hours * 60 + minutes) * 60 + seconds) * 125 // 3)


def test_of(words: Sequence[str]) -> Test:
    """The test of these words, `contact N closed` or `time A to B`."""
    if words[0] == "contact":
        return Level(int(words[1]), words[2] == "closed")
    return Window(frame_of(words[1]), frame_of(words[3]))


def split_at(words: Sequence[str], mark: str) -> List[List[str]]:
    """The parts of some words between those that are this one."""
    parts: List[List[str]] = [[]]
    for word in words:
        if word == mark:
            parts.append([])
        else:
            parts[-1].append(word)
    return parts


def condition_of(words: Sequence[str]) -> Alternatives:
    """The condition of these words."""
    return tuple(tuple(test_of(test) for test in split_at(tests, "and")) for tests in split_at(words, "or"))


def overlays_of(script: bytes) -> Tuple[Overlay, ...]:
    """The overlays of a script, in their order; none where it is no schedule."""
    words, found = words_of(script.decode("utf-8", "replace")), []
    for at, word in enumerate(words):
        if word == "overlay" and words[at + 2:at + 3] == ["while"]:
            end = words.index("{", at)
            found.append(Overlay(words[at + 1], condition_of(words[at + 3:end])))
    return tuple(found)


def holding(overlays: Sequence[Overlay], closed: Sequence[bool], day: Optional[int]) -> Optional[List[str]]:
    """The names of the overlays that hold with these contacts in this frame of the day; None where the plan has none,
    or its time of day is not known."""
    if not overlays or day is None:
        return None
    return [each.name for each in overlays if each.holds(closed, day)]
