"""What a log says: the lines of it, and the run so far.

A log is an event file of `dabplan play`: contacts as they came and the frames between them. Its first line is a comment
that has the count and the time of the plan's first frame, and the wall time of the first one that went out; behind the
frames a comment has the count that comes next, the frames so far, and the wall time of the last one. Where a count was
not explained a comment says which frame of the plan has what was held, and another one that the plan went on:

    # dabplan-bridge: count 2080 time 21:59:53 code 0123456789abcdef at 2026-01-31T20:59:54.123Z
    frames 250 # count 2330 frames 250 at 2026-01-31T21:00:00.123Z
    contact 3 closed
    # utc
    # date 2026-01-31
    # given 1 closed
    # held 250
    # not held
    # script fedcba9876543210
    # holds ZW5zZW1ibGUg

`# utc` says that the multiplexer sends FIG 0/10, `# date` which date the day of the plan's first frame has, where there
is a calendar, and `# given` how a contact under conditions was given last, `over` if it was closed too long. `# script`
has the first digits of the SHA-256 of the script of the plan, and `# holds` the script, in base64, of what is held
where no frame of the plan has it. A last line without its line feed was cut short, and is passed over.
"""
from __future__ import annotations

import base64
import binascii
import re
from dataclasses import dataclass, field, replace
from datetime import date, datetime, timezone
from typing import Dict, Iterator, List, Optional, Tuple

from .chain import MOST_FRAMES, frame_lines
from .faults import Trouble, shown, why
from .fibs import COUNTS, DAY_FRAMES

HEAD_TEXT = "# dabplan-bridge: "
"""How a log begins."""
HEAD = re.compile(rb"# dabplan-bridge: count (\d{1,4}) (time -|time \d\d:\d\d:\d\d|day \d{1,7}) "
                  rb"code ([0-9a-f]{16})(?: at (\S+))?")
NOTE = re.compile(rb"# count (\d{1,4}) frames (\d{1,15}) at (\d{4}-\d\d-\d\dT\d\d:\d\d:\d\d\.\d{3}Z)")
UTC_TEXT = "# utc"
"""The line that says that the multiplexer sends FIG 0/10."""
HELD = re.compile(rb"# (?:held (\d{1,15})|not held)")
HOLDS = re.compile(rb"# holds ([A-Za-z0-9+/]{1,65536}={0,2})")
SCRIPT = re.compile(rb"# script ([0-9a-f]{16})")
DATE = re.compile(rb"# date (\d{4}-\d\d-\d\d)")
GIVEN = re.compile(rb"# given (\d{1,2}) (closed|open|over)")
STEP = re.compile(rb"contact (\d{1,2}) (?:closed|open)|frames (\d{1,7})")
PLAIN = re.compile(rb"(frames \d{1,7})(?: #.*)?")
"""Nearly every line."""
HIGHEST = 15
"""The highest contact."""
FORM = "%Y-%m-%dT%H:%M:%S.%f"


def text_of(wall: float) -> str:
    """A wall time, in seconds since 1970, as text in UTC with milliseconds."""
    return datetime.fromtimestamp(wall, timezone.utc).strftime(FORM)[:-3] + "Z"


def day_frame_of_start(start: str) -> Optional[int]:
    """The frame of the day of a plan's first frame, of how a log spells its time; None where it was given none."""
    kind, _, value = start.partition(" ")
    if kind == "day":
        return int(value)
    if kind != "time" or value == "-":
        return None
    hours, minutes, seconds = map(int, value.split(":"))
    # The first frame of that time: 125 thirds of its seconds, rounded up.
    return -(-((hours * 60 + minutes) * 60 + seconds) * 125 // 3)


def contact_line(contact: int, is_closed: bool) -> bytes:
    """The step that gives a contact."""
    return b"contact %d %s" % (contact, b"closed" if is_closed else b"open")


def contacts_in(step: bytes) -> List[Tuple[int, bool]]:
    """The contacts of a line of them, or of a step, each with whether it is closed."""
    words = step.split()
    return [(int(number), state == b"closed") for number, state in zip(words[1::3], words[2::3])]


def wall_of(text: bytes) -> float:
    """The wall time that `text_of` spells; `ValueError` if it is no date."""
    return datetime.strptime(text.decode("ascii"), FORM + "Z").replace(tzinfo=timezone.utc).timestamp()


@dataclass
class Past:
    """What a log says of the run so far."""

    count: int
    """The count of the plan's first frame."""
    start: str
    """The time of the plan's first frame: `time -`, `time HH:MM:SS` or `day N`."""
    digest: str
    """What `plan.Plan.digest` was."""
    frames: int = 0
    """The frames so far."""
    wall_text: bytes = b""
    """When the last of them came, as the log says it; nothing if it does not."""
    held: Optional[int] = None
    """The frame of the plan whose configuration was held at the end; None if none was."""
    holds: Optional[bytes] = None
    """The script of the configuration that was held at the end, where no frame of the plan has it."""
    script: Optional[str] = None
    """What `plan.Plan.script` was."""
    has_utc: bool = False
    """Whether the multiplexer sent FIG 0/10."""
    first_date: Optional[date] = None
    """The date of the day of the plan's first frame; None if it does not say it."""
    given: Dict[int, str] = field(default_factory=dict)
    """How contacts under conditions were given last."""
    size: int = 0
    """The bytes of the whole lines."""

    @property
    def is_held(self) -> bool:
        """Whether a configuration was held at the end."""
        return self.held is not None or self.holds is not None

    def due(self) -> int:
        """The count of the frame behind the last one."""
        return (self.count + self.frames) % COUNTS

    @property
    def wall(self) -> Optional[float]:
        """When the last frame came, in seconds since 1970; None if the log does not tell."""
        return wall_of(self.wall_text) if self.wall_text else None


def has_range(step: bytes) -> bool:
    """Whether the number of a step is in its range."""
    found = STEP.fullmatch(step)
    if found is None:
        return False
    return int(found[1]) <= HIGHEST if found[1] is not None else 0 < int(found[2]) <= MOST_FRAMES


def steps_of(line: bytes) -> List[bytes]:
    """The steps of a line: `contact 3 closed`, `frames 250`; `ValueError` if it has something else, or a number out of
    range."""
    plain = PLAIN.fullmatch(line)
    if plain:
        steps = [plain[1]]
    else:
        words = line.split(b"#", 1)[0].split()
        steps = [match[0] for match in STEP.finditer(b" ".join(words))]
        if b" ".join(steps) != b" ".join(words):
            raise ValueError("no line of a log")
    if not all(map(has_range, steps)):
        raise ValueError("a number out of range")
    return steps


def head_of(head: "re.Match[bytes]", past: Optional[Past]) -> Past:
    """What the first line of a log says, or a later one like it: then the plan was taken up at another count, and its
    first frame then had this one. `ValueError` if a number is out of range."""
    start = head[2].decode("ascii")
    is_day = start.startswith("day ")
    if int(head[1]) >= COUNTS or (is_day and int(start[4:]) >= DAY_FRAMES):
        raise ValueError("a number out of range")
    if not is_day and start != "time -":
        datetime.strptime(start, "time %H:%M:%S")
    count, digest = int(head[1]), head[3].decode("ascii")
    fresh = Past(count, start, digest) if past is None else replace(past, count=count, start=start, digest=digest)
    fresh.wall_text = head[4] or fresh.wall_text
    return fresh


def note_of(past: Optional[Past], line: bytes) -> Optional[Past]:
    """What a log says with its next line; `ValueError` if the line can't be there."""
    head = HEAD.match(line) if line[:1] == b"#" else None
    if head:
        past = head_of(head, past)
    elif past is None:
        raise ValueError("no log of this program")
    past.frames += sum(int(step[7:]) for step in steps_of(line) if step.startswith(b"frames"))
    note = NOTE.search(line)
    if note:
        past.wall_text = note[3]
        if int(note[2]) != past.frames:
            raise ValueError(f"{int(note[2])} frames so far, but there are {past.frames}")
        if int(note[1]) != past.due():
            raise ValueError(f"count {int(note[1])}, but {past.due()} follows")
    past.has_utc = past.has_utc or line == UTC_TEXT.encode("ascii")
    if line[:1] == b"#":
        take_held(past, line)
        take_remark(past, line)
    return past


def holds_line(script: bytes) -> str:
    """The comment that says that the configuration of a script is held."""
    return f"# holds {base64.b64encode(script).decode('ascii')}"


def take_held(past: Past, line: bytes) -> None:
    """Takes the comments about what is held; `ValueError` if a script of it is none."""
    held, holds = HELD.fullmatch(line), HOLDS.fullmatch(line)
    if held:
        past.held, past.holds = None if held[1] is None else int(held[1]), None
    elif holds:
        try:
            past.held, past.holds = None, base64.b64decode(holds[1], validate=True)
        except binascii.Error:
            raise ValueError("no script of what is held") from None


def take_remark(past: Past, line: bytes) -> None:
    """Takes the comments about the script, calendar and conditions; `ValueError` if a date is none."""
    day, given, script = DATE.fullmatch(line), GIVEN.fullmatch(line), SCRIPT.fullmatch(line)
    if script:
        past.script = script[1].decode("ascii")
    if day:
        past.first_date = date.fromisoformat(day[1].decode("ascii"))
    elif given and int(given[1]) <= HIGHEST:
        past.given[int(given[1])] = given[2].decode("ascii")


def lines_of(path: str) -> Iterator[bytes]:
    """The whole lines of a file; `Trouble` if it can't be read."""
    try:
        with open(path, "rb") as file:
            yield from (line for line in file if line.endswith(b"\n"))
    except OSError as fault:
        raise Trouble(f"cannot read {path}: {why(fault)}") from None


def past_of(path: str) -> Optional[Past]:
    """What a log says; None if there is none, or nothing is in it. `Trouble` if it is no log."""
    past: Optional[Past] = None
    size = 0
    for number, line in enumerate(lines_of(path), 1):
        try:
            past = note_of(past, line.rstrip(b"\n"))
        except ValueError as fault:
            raise Trouble(f"{path}: line {number}: {fault}") from None
        size += len(line)
    if past is not None:
        past.size = size
        refuse_times(path, past)
    return past


def refuse_times(path: str, past: Past) -> None:
    """Raises `Trouble` where the wall time of a log is none."""
    try:
        if past.wall is not None and past.wall < 0:
            raise ValueError("before 1970")
    except (ValueError, OverflowError, UnicodeDecodeError):
        raise Trouble(f"{path}: no such time: {shown(past.wall_text)}") from None


def steps_in(path: str) -> Iterator[bytes]:
    """The steps of a log, in order; frames that follow frames are counted together."""
    frames = 0
    for line in lines_of(path):
        for step in steps_of(line.rstrip(b"\n")):
            if step.startswith(b"frames"):
                frames += int(step[7:])
                continue
            yield from frame_lines(frames)
            frames = 0
            yield step
    yield from frame_lines(frames)
