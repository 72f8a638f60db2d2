"""`run --compose`: what its options ask for, and the parts that follow from them."""
from __future__ import annotations

import argparse
import re
from dataclasses import dataclass, field
from typing import Callable, Dict, List, Mapping, Optional, Tuple

from .addresses import Address, of_source
from .arrangement import Arrangement, ForOdrDabmod
from .beginning import Wish
from .composer import Composer
from .faults import BadCommand, Stopped, Trouble
from .feeds import feed_of
from .inputs import Input
from .pairing import Pairing
from .plan import Plan
from .state import InputState, State
from .supply import Naming
from .waiting import Waiter

NAMED = re.compile(r"([A-Za-z][A-Za-z0-9_-]{0,30})=(.+)", re.DOTALL)
"""An input with a name."""
MAP = re.compile(r"(\d{1,2})=([A-Za-z][A-Za-z0-9_-]{0,30}):(\d{1,2})")
"""A sub-channel of the plan, and the one of an input that is it."""
ALONE = "in"
"""The name of an only input that has none."""
DELAY = 50
"""The frames of one input that are waited for those of others."""
MOST_DELAY = 250
MOST_SHRINK = 15
MODULATORS = ("odr-dabmod",)
OPTIONS = ("map", "delay", "missing", "align5", "shrink", "modulator")
"""The options of `--compose`."""


@dataclass(frozen=True)
class Compose:
    """What the command line asks of the transmission."""

    inputs: Tuple[Tuple[str, Address], ...]
    """Each with its name, in the order of the command line."""
    maps: Mapping[int, Mapping[str, int]] = field(default_factory=dict)
    """By SubChId of the plan and name of the input, the SubChId there."""
    delay: int = DELAY
    """The frames of one input that are waited for those of others."""
    repeats_last: bool = False
    """Whether the last frame of a stream that is missing is repeated; else it is silence."""
    is_aligned: bool = False
    """Whether superframes of DAB+ begin at counts that 5 divides."""
    shrink: int = 0
    """So many frames ahead a sub-channel has the smaller size behind a swap."""
    modulator: Optional[str] = None
    """The modulator for which swaps are made."""

    def composer(self, state: State, form: Optional[str]) -> Composer:
        """What makes the frames, in a format or in that of the first input."""
        naming = Naming(tuple(name for name, _ in self.inputs), self.maps)
        arrangement = ForOdrDabmod() if self.modulator else Arrangement(self.shrink)
        return Composer(naming, arrangement, state, form, self.is_aligned, self.repeats_last)

    def pairing(self, plan: Plan, waiter: Waiter, state: State, wish: Wish, is_resumed: bool) -> Pairing:
        """The inputs as one stream; `Trouble` if one can't be opened."""
        state.inputs = [InputState(name) for name, _ in self.inputs]
        inputs: List[Input] = []
        try:
            for (_, address), each in zip(self.inputs, state.inputs):
                inputs.append(Input(feed_of(address, waiter), self.delay, each))
        except (Trouble, Stopped):
            close(inputs)
            raise
        return Pairing(inputs, plan, waiter, state, self.delay, wish.is_strict, is_resumed)


def close(inputs: List[Input]) -> None:
    """Closes inputs."""
    for each in inputs:
        each.feed.close()


def source_words(text: str) -> str:
    """The words of an input, with a name or without one; `ValueError` if they are none."""
    found = NAMED.fullmatch(text)
    try:
        of_source(text)
    except ValueError:
        if found is None:
            raise
        of_source(found[2])
    return text


def named(text: str) -> Tuple[str, Address]:
    """The name of an input, and its address; an empty name where it has none."""
    found = NAMED.fullmatch(text)
    return ("", of_source(text)) if found is None else (found[1], of_source(found[2]))


def add_compose(one: argparse.ArgumentParser, whole: Callable[[int, int, str], Callable[[str], int]]) -> None:
    """The options of `run` by which the transmission follows the plan. `whole` makes readers of whole numbers."""
    group = one.add_argument_group("a transmission that follows the plan")
    group.add_argument("--compose", action="store_true",
                       help="make the frames from streams of several inputs, --in NAME=IN each: the sub-channels are "
                            "those of the plan's configuration, at its places")
    group.add_argument("--map", metavar="SUB=NAME:SUB", action="append",
                       help="the plan's sub-channel SUB is another one of the input NAME; once or more")
    group.add_argument("--delay", metavar="N", type=whole(1, MOST_DELAY, "a number of frames"),
                       help=f"the frames that a late input is waited for [default: {DELAY}]")
    group.add_argument("--missing", choices=("silence", "last"),
                       help="what a stream is that no input has: zeros, or its last frame again [default: silence]")
    group.add_argument("--align5", action="store_true",
                       help="delay streams of DAB+ by 0 to 4 frames: superframes begin at counts that 5 divides")
    group.add_argument("--shrink", metavar="N", type=whole(0, MOST_SHRINK, "a number of frames"),
                       help="a sub-channel that shrinks has its new size so many frames ahead [default: 0]")
    group.add_argument("--modulator", choices=MODULATORS, help="change the sub-channels as this modulator needs it")


def only_source(words: argparse.Namespace) -> Address:
    """The input of a command line without --compose; `BadCommand` where it has others, or options of --compose."""
    given = [name for name in OPTIONS if getattr(words, name) not in (None, False)]
    if given:
        raise BadCommand(f"--{given[0]} is an option of --compose")
    if len(words.source) > 1:
        raise BadCommand("several inputs are for --compose")
    return address_of(words.source[0])


def address_of(text: str) -> Address:
    """The address of an input without a name; `BadCommand` if it is none."""
    try:
        return of_source(text)
    except ValueError as fault:
        raise BadCommand(f"--in {text}: {fault}") from None


def compose_of(words: argparse.Namespace) -> Optional[Compose]:
    """What a command line asks of the transmission; None without --compose. `BadCommand` where it makes no sense."""
    if not words.compose:
        return None
    inputs = [named(text) for text in words.source]
    if len(inputs) == 1:
        inputs = [(inputs[0][0] or ALONE, inputs[0][1])]
    names = [name for name, _ in inputs]
    if "" in names:
        raise BadCommand("each of several inputs has a name: --in NAME=IN")
    if len(set(names)) < len(names):
        raise BadCommand("two inputs have the same name")
    if words.shrink and words.modulator:
        raise BadCommand("--shrink and --modulator exclude each other")
    return Compose(tuple(inputs), maps_of(words.map or [], names), words.delay or DELAY, words.missing == "last",
                   words.align5, words.shrink or 0, words.modulator)


def maps_of(texts: List[str], names: List[str]) -> Dict[int, Dict[str, int]]:
    """What several --map say; `BadCommand` where one says nothing, or two contradict each other."""
    found: Dict[int, Dict[str, int]] = {}
    for text in texts:
        words = MAP.fullmatch(text)
        if words is None or int(words[1]) > 63 or int(words[3]) > 63:
            raise BadCommand(f"--map {text}: expected SUB=NAME:SUB, with SubChIds of 0 to 63")
        if words[2] not in names:
            raise BadCommand(f"--map {text}: no input {words[2]}")
        if found.setdefault(int(words[1]), {}).setdefault(words[2], int(words[3])) != int(words[3]):
            raise BadCommand(f"--map {text}: sub-channel {int(words[1])} is another one of {words[2]} already")
    return found
