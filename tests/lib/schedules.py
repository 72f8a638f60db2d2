"""A second reading of schedules, written from their meaning alone: what is due by contacts and time, and which swaps come of it.

A schedule is made here as a value, not read from a text. `commits` follows the schedule's own machine: in each frame a swap
that is due is made; then, if none is pending and what is due is not on air, it is committed for a notice. `steps` writes a
plan of steps that does the same frame by frame, by waits, edits, commits and joins alone: its FIBs are those that the
schedule has to have."""
import dataclasses

DAY = 3_600_000
"""The frames of a day."""

COUNTS = 5000
"""The CIF counts, 0 to 4,999."""

STEPS = {1: 4, 2: 1, 3: 1, 4: 2}
"""The counts on which a swap can fall, by transmission mode: its multiples."""


@dataclasses.dataclass(frozen=True)
class Contact:
    """Whether a contact, 0 to 15, is closed or open."""

    number: int
    closed: bool

    def holds(self, contacts, _day):
        """Whether it has this level; `contacts` is the set of closed ones."""
        return (self.number in contacts) == self.closed

    def __str__(self):
        return f"contact {self.number} {'closed' if self.closed else 'open'}"


@dataclasses.dataclass(frozen=True)
class Window:
    """Whether it is at one time of the day or later, and before another one; times are whole seconds since midnight."""

    begin: int
    end: int

    def holds(self, _contacts, day):
        """Whether a frame of the day is in it; over midnight where its end is before its beginning."""
        begin, end = frame_of(self.begin), frame_of(self.end)
        return begin <= day < end if begin <= end else day >= begin or day < end

    def __str__(self):
        return f"time {clock(self.begin)} to {clock(self.end)}"


def frame_of(seconds):
    """The first frame of the day that begins at this second or after it; a frame takes 24 ms."""
    return -(-seconds * 1000 // 24)


def clock(seconds):
    """A time of the day as it is written."""
    return f"{seconds // 3600:02}:{seconds // 60 % 60:02}:{seconds % 60:02}"


@dataclasses.dataclass(frozen=True)
class Programme:
    """A sub-channel with protection 3-A, and a service with one audio component on it."""

    sub: int
    start: int
    rate: int
    service: str

    def items(self):
        """What adds it."""
        return [f"sub {self.sub} at {self.start} eep 3-A {self.rate}", f"service {self.service}",
                f"audio 63 sub {self.sub} in {self.service}"]

    def removal(self):
        """What takes it away."""
        return [f"drop component sub {self.sub} in {self.service}", f"drop service {self.service}", f"drop sub {self.sub}"]


@dataclasses.dataclass(frozen=True)
class Overlay:
    """Programmes that are added while a condition holds, and rates that sub-channels have then."""

    name: str
    condition: tuple
    """Alternatives, each of tests that hold together."""
    added: tuple = ()
    rates: tuple = ()
    """Pairs of a sub-channel and a rate in kbit/s."""

    def holds(self, contacts, day):
        """Whether its condition holds for these closed contacts in this frame of the day."""
        return any(all(test.holds(contacts, day) for test in tests) for tests in self.condition)

    def text(self):
        """The overlay as it is written."""
        tests = " or ".join(" and ".join(map(str, tests)) for tests in self.condition)
        edits = [line for programme in self.added for line in programme.items()]
        edits += [f"rate sub {sub} {rate}" for sub, rate in self.rates]
        return f"overlay {self.name} while {tests} {{\n" + "".join(f"  {edit}\n" for edit in edits) + "}\n"


@dataclasses.dataclass(frozen=True)
class Schedule:
    """The programmes of the items, and the overlays in the order of the text."""

    items: tuple
    overlays: tuple
    mode: int = 1
    notice: int = 24
    period: int = 10
    budget: int = 255

    def header(self, budget=None):
        """The header, without the items."""
        mode = f" mode {self.mode}" if self.mode != 1 else ""
        return f"ensemble E1C5{mode}\nperiod {self.period} notice {self.notice} budget {budget or self.budget}\n"

    def text(self):
        """The schedule as it is written."""
        items = "".join(f"{line}\n" for programme in self.items for line in programme.items())
        return f"{self.header()}{items}schedule\n" + "".join(overlay.text() for overlay in self.overlays)

    def due_of_items(self):
        """The programmes of the items: by sub-channel."""
        return {programme.sub: programme for programme in self.items}

    def due(self, contacts, day):
        """The programmes that are due for these closed contacts in this frame of the day: by sub-channel."""
        then = (day + self.notice) % DAY
        found = self.due_of_items()
        for overlay in self.overlays:
            if overlay.holds(contacts, then):
                found |= {programme.sub: programme for programme in overlay.added}
                found |= {sub: dataclasses.replace(found[sub], rate=rate) for sub, rate in overlay.rates}
        return found


@dataclasses.dataclass(frozen=True)
class Start:
    """The CIF count and the frame of the day of the first frame, and the contacts that are closed then."""

    count: int = 0
    day: int = 0
    contacts: frozenset = frozenset()


def commits(schedule, start, events, frames):
    """The commits of a schedule's machine: for each the frame, the frames until its swap, and what it brings. `events` are
    triples of a frame, a contact and whether it is closed before that frame."""
    contacts, current, coming, left, found = set(start.contacts), schedule.due_of_items(), None, 0, []
    for frame in range(frames):
        for _at, contact, closed in (event for event in events if event[0] == frame):
            (contacts.add if closed else contacts.discard)(contact)
        if coming is not None and left == 0:
            current, coming = coming, None
        if coming is None:
            due = schedule.due(contacts, (start.day + frame) % DAY)
            if due != current:
                coming, left = due, delay(schedule, (start.count + frame) % COUNTS)
                found.append((frame, left, due))
        left -= 1
    return found


def delay(schedule, count):
    """The frames from a commit at this count until its swap: a notice, and on to a count on which a swap can fall."""
    return schedule.notice + -(count + schedule.notice) % STEPS[schedule.mode]


def events_text(events, frames):
    """The event file of these contacts and frames."""
    lines, at = [], 0
    for frame, contact, closed in sorted(events, key=lambda event: event[0]):
        if frame > at:
            lines.append(f"frames {frame - at}")
            at = frame
        lines.append(f"contact {contact} {'closed' if closed else 'open'}")
    return "\n".join(lines + [f"frames {frames - at}"]) + "\n"


def steps(schedule, found):
    """A plan of steps with these commits in their frames: all is dropped and added anew in each."""
    lines = [schedule.header(255).rstrip()]
    lines += [line for programme in schedule.items for line in programme.items()] + ["begin"]
    current, at = schedule.due_of_items(), 0
    for frame, left, due in found:
        if frame > at:
            lines.append(f"wait {frame - at}")
        lines += [line for programme in current.values() for line in programme.removal()]
        lines += [line for programme in due.values() for line in programme.items()]
        lines += [f"commit in {schedule.notice}", "join"]
        current, at = due, frame + left
    return "\n".join(lines + ["end"]) + "\n"


def start_words(start):
    """The options of a start."""
    closed = sum(1 << contact for contact in start.contacts)
    return ["--count", str(start.count), "--day", str(start.day), "--contacts", f"{closed:04X}"]
