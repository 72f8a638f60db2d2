"""What the bridge has to know of a plan: its ensemble, and the sub-channels that it has in a frame. A plan is a code
file, or a script, which is compiled here."""
from __future__ import annotations

import hashlib
import os
from dataclasses import dataclass
from typing import Dict, Iterable, List, Optional, Tuple

from .chain import Code, Live, frame_lines, taken
from .code_file import MAGIC, Fields, Header, NoCode, configurations_of, header_of
from .faults import Trouble, reason_of
from .fibs import COUNTS, Listener, size_of
from .layout import SubChannel
from .overlays import Overlay, overlays_of
from .program import code_of, in_memory, path_of


@dataclass(frozen=True)
class Plan:
    """What a code file says of its ensemble."""

    path: str
    """That of the code file, or of the script."""
    header: Header
    digest: str
    """The first 16 digits of the SHA-256 of the code file."""
    configurations: Tuple[Dict[int, SubChannel], ...]
    """The sub-channels of each configuration that it may bring on air; none where `dabplan` has to say what is wrong
    with the file."""
    data: bytes
    """The bytes of the code file."""
    code: Code
    """The code file, in memory, where there is room: whatever becomes of the one at the path, this one is played."""
    script: Optional[str] = None
    """The same digits of the script that it was compiled from; None where the path is that of a code file."""
    overlays: Tuple[Overlay, ...] = ()
    """Those of that script, where it is a schedule and its text is known."""

    def close(self) -> None:
        """Lets go of the code file in memory."""
        if self.code.file is not None:
            os.close(self.code.file)

    @property
    def mode(self) -> int:
        """The transmission mode, 1 to 4."""
        return self.header.mode

    @property
    def eid(self) -> int:
        """The EId of the ensemble."""
        return self.header.eid

    @property
    def history(self) -> int:
        """After so many frames a listener knows all of a configuration, whatever swap falls into them: an entry is sent
        once in a period, and a FIG 0/0 in each fourth frame."""
        return max(2 * self.header.period, 8)


def configurations_in(data: bytes) -> List[Dict[int, SubChannel]]:
    """The sub-channels of all configurations of a plan; none where the code file is damaged: `dabplan` refuses it."""
    try:
        return configurations_of(data)
    except NoCode:
        return []


def digest_of(data: bytes) -> str:
    """The first 16 digits of a SHA-256."""
    return hashlib.sha256(data).hexdigest()[:16]


def bytes_of(path: str) -> bytes:
    """The bytes of a file; `Trouble` if it can't be read."""
    try:
        with open(path, "rb") as file:
            return file.read()
    except (OSError, ValueError) as fault:
        raise Trouble(f"cannot read {path}: {reason_of(fault)}") from None


def is_script(data: bytes) -> bool:
    """Whether these bytes may be a script: text, and not the beginning of a code file."""
    try:
        data.decode("utf-8")
    except UnicodeDecodeError:
        return False
    return b"\0" not in data and not data.startswith(MAGIC) and not MAGIC.startswith(data)


def of_code(path: str, data: bytes, script: Optional[str] = None, text: bytes = b"") -> Plan:
    """The plan of the bytes of a code file, by its header; `dabplan` verifies the rest. `text` is that of the script
    that it was compiled from, where it is known. `Trouble` if it is none."""
    try:
        header = header_of(Fields(data))
    except NoCode:
        raise Trouble(f"{path}: no code file") from None
    code = Code(path)
    try:
        file = in_memory(data)
        code = Code(path_of(file), file)
    except Trouble:
        if script is not None:
            raise
    configurations = tuple(configurations_in(data))
    return Plan(path, header, digest_of(data), configurations, data, code, script, overlays_of(text))


def plan_of(path: str, program: str, now: Optional[bytes] = None) -> Plan:
    """The plan at a path, a code file or a script; one of a script begins with what the items of the script `now` make,
    where it is given. `Trouble` if it can't be read, or is neither, or is refused."""
    data = bytes_of(path)
    if not is_script(data):
        return of_code(path, data)
    return of_code(path, code_of(program, path, data, now), digest_of(data), data)


def opening(live: Live, plan: Plan, count: int, steps: Iterable[bytes], at: int) -> Dict[int, SubChannel]:
    """The sub-channels that a plan has in its frame `at`, one of the first, to which these steps lead; its first frame
    has this count.

    The frames from the first one on are decoded, and those behind `at` up to the next swap.
    """
    listener, size = Listener(), size_of(plan.mode)
    last = at + plan.history
    live.feed(steps)
    live.feed(frame_lines(last - at))
    found = listener.current
    for number in range(last):
        fic = taken(live.output.fileno(), size)
        if len(fic) < size:
            break
        before = dict(listener.current)
        if listener.hear(fic, (count + number) % COUNTS) and number > at:
            found = before
            break
        found = listener.current
    else:
        number = last
    live.end()
    live.output.close()
    if not number and last:
        raise Trouble("'dabplan live' makes no frame of the plan")
    return found
