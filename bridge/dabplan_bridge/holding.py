"""What goes out while a count is not explained: frames of the configuration that receivers hold, at the counts that
come.

The configuration is decoded from the plan's own frames by `dabplan listen --script`, compiled, and played by `dabplan
live`. Where a change was announced it is the one that was announced: receivers take it over when the change flags go.
"""
from __future__ import annotations

import os
from typing import Dict, List, Optional, Tuple

from .chain import Chain, Code
from .faults import Trouble, say
from .fibs import COUNTS, Listener
from .follower import NEAR, step_of
from .layout import SubChannel, from_script
from .plan import Plan
from .player import Player
from .program import changed, compiled, run


def script_of(program: str, plan: Plan, fics: List[bytes]) -> bytes:
    """The script of the configuration that a receiver of these FICs holds; `Trouble` if it can't be had."""
    header = plan.header
    words = ["listen", "-", "--script", "--mode", str(header.mode), "--period", str(header.period),
             "--notice", str(header.notice), "--budget", str(header.budget)]
    return run(program, words + (["--reserve", str(header.reserve)] if header.reserve else []), b"".join(fics))


def settled(player: Player, plan: Plan) -> Tuple[List[bytes], int]:
    """The FICs that say the configuration of a plan, and the number of the first of these frames: that of its last
    frame, or, where a change is announced there, the next one. The plan makes frames for it that are not sent: to the
    swap, and from there as many as a receiver needs, up to the next swap."""
    swap = player.swap_in
    if swap is not None:
        player.pass_over(swap + 1)
    swaps, found = player.swaps, player.since_swap()
    first = player.made - len(found)
    while len(found) < plan.history:
        player.pass_over(1)
        if player.swaps > swaps:
            break
        found = player.since_swap()
    return found, first


class Holding:
    """A configuration that is on air, and the way from it to another one. `frame` is that of the plan from which on it
    has this configuration; None where it is of no frame of the plan."""

    def __init__(self, program: str, plan: Plan, script: bytes, frame: Optional[int]) -> None:
        self.script = script
        """The script of the configuration that receivers hold."""
        self.frame = frame
        """The plan's frame from which on it has that configuration, up to a swap; None where no frame has it."""
        self._program = program
        self._plan = plan
        self._next: Optional[Tuple[bytes, Optional[int]]] = None
        self._refused: Optional[bytes] = None
        self._listener = Listener()
        self._code: Optional[Code] = None
        self._chain: Optional[Chain] = None
        self._count = 0
        self._compile(script)

    @property
    def is_changing(self) -> bool:
        """Whether a change to another configuration is under way."""
        return self._next is not None

    @property
    def sub_channels(self) -> Dict[int, SubChannel]:
        """The sub-channels of the configuration."""
        return from_script(self.script)

    @property
    def swap_in(self) -> Optional[int]:
        """The frames until a swap that is announced; None without one."""
        return self._listener.swap_in(self._count)

    @property
    def following(self) -> Dict[int, SubChannel]:
        """The sub-channels behind a swap that is announced; those of now without one."""
        return self.sub_channels if self.swap_in is None else self._listener.following

    def make(self, fic: bytes, count: int) -> bytes:
        """The FIC of the frame of this count, with FIGs of another FIC."""
        step = step_of(count, self._count)
        if self._chain is not None and step and not 0 < step <= NEAR:
            self._break_off()
        elif self._chain is not None and step:
            for number, made in enumerate(self._chain.pass_over(step)):
                self._hear(made, (self._count + number) % COUNTS)
        if self._chain is None:
            assert self._code is not None
            self._listener = Listener()
            self._chain = Chain(self._program, self._code, self._plan.mode, ["--count", str(count)])
        made = self._chain.frame(fic, [])
        self._hear(made, count)
        self._count = (count + 1) % COUNTS
        return made

    def change_to(self, script: bytes, frame: int) -> None:
        """Announces a change to another configuration, which the plan has from a frame on, and makes it. Where there is
        no such change the configuration stays."""
        if script == self._refused:
            return
        try:
            self._compile(changed(self._program, self.script, script))
            self._next = script, frame
        except Trouble as fault:
            self._refused = script
            say(f"what is held can't become what the plan has: {fault}")

    def forget_frames(self) -> None:
        """Another plan is to go on: its frames have other numbers."""
        self.frame = None
        if self._next is not None:
            self._next = self._next[0], None

    def end(self) -> None:
        """Ends the children."""
        self._end_chain()
        if self._code is not None and self._code.file is not None:
            os.close(self._code.file)
        self._code = None

    def _hear(self, made: bytes, count: int) -> None:
        """Takes note of a frame that was made."""
        if self._listener.hear(made, count):
            self._take_over()

    def _take_over(self) -> bool:
        """Receivers hold what was announced to them; returns whether something was."""
        if self._next is None:
            return False
        (self.script, self.frame), self._next = self._next, None
        return True

    def _break_off(self) -> None:
        """The counts step: what was announced is what receivers hold."""
        self._end_chain()
        if self._take_over():
            self._compile(self.script)

    def _compile(self, script: bytes) -> None:
        """The frames that follow are those of a script; `Trouble` if it is refused, and they go on as before."""
        code = compiled(self._program, script)
        self.end()
        self._code = code

    def _end_chain(self) -> None:
        if self._chain is not None:
            self._chain.end()
            self._chain = None
