#!/usr/bin/env python3
"""What the plans of examples/ have on air is what their comments say, whenever they are started and whenever a contact
changes.

    shipped_plans.py                   in some of the frames in which a plan decides
    shipped_plans.py --whole [NAME ..] in each of 800 frames around each hour, and of 600 behind a change; of these plans

Each plan is started at seconds around its hours, as far as its comment allows it, and its contact is closed, opened, and
closed for a while, in frames around each hour; or, where it has no hours, around the swap that its contact brings. What is
on air at noon and at three in the night, and in the whole table at times of the plan's own, has to be the configuration that
the comment of the plan gives for that time and that level of its contact, with no change announced. So has to be what is on
air six seconds after the end of a schedule's window, however shortly before it was started or its contact changed. The last
line is 'N passed, M failed'.
"""
import os
import pathlib
import re
import subprocess
import sys
import tempfile
import typing
from concurrent.futures import ThreadPoolExecutor

import common

DAY = 3_600_000
NOON, THREE = "12:00:00", "03:00:00"
FRAMES = 24
"""So many frames are decoded: more than the period of each plan."""
AROUND = range(-490, 310)
"""The frames around an hour: two notices of a schedule before it, in which its contact still brings a change, to one behind it."""
SOME = (-481, -480, -241, -240, -239, -1, 0)
"""Those of the default run: around the frames in which two notices still fit in before the hour, or one does."""
SOME_BEHIND = (1, 25, 26, 250, 252, 255)
"""The frames behind a change of a contact in which it changes back, in the default run."""
BEFORE = 1000
"""The frames for which a plan runs before the first frame around an hour."""
PULSE = 100
"""The frames for which a contact is closed that does not stay so."""
SECONDS = range(-15, 16)
"""The seconds around an hour at which a plan is started."""
SOME_SECONDS = (-12, -6, -5, 0)
"""Those of the default run."""


def audio(sub, start, size, sid, protection="3-A"):
    """The lines of `dabplan listen` for a sub-channel and a service on it."""
    return {f"sub {sub} at {start} size {size} eep {protection}", f"service {sid}"}


# 8 kbit/s at 3-A have 6 capacity units (EN 300 401, clause 6.2.1): 128 kbit/s have 96, 96 have 72.
FULL, LOWER = audio(1, 0, 96, "C221"), audio(1, 0, 72, "C221")
REGION, ALARM, SECOND = (audio(2, 96, 96, "C222"), audio(2, 96, 96, "C2FF"), audio(2, 96, 72, "C223"))
NORTH, SOUTH, BESIDE = (audio(2, 96, 72, "C222"), audio(3, 168, 72, "C223"), audio(4, 240, 72, "C224"))
MANY = {"sub 2 at 96 size 96 eep 2-A", "sub 5 at 192 size 30 eep 4-B", "sub 63 at 222 size 24 eep 1-A", "service C222",
        "service C224", "service E1C20001"}


class Row(typing.NamedTuple):
    """A plan, and what its comment says."""

    name: str
    contact: typing.Optional[int]
    hours: typing.Tuple[str, ...]
    """When it changes by itself."""
    starts: typing.Tuple[str, str]
    """From when and until when it may be started; the same twice for any time."""
    own: typing.Tuple[str, ...]
    """Times of its own at which it is looked at."""
    wanted: typing.Callable[[int, bool], typing.Set[str]]
    """The configuration at a second of the day, where the contact is closed or not."""
    ended: typing.Tuple[str, ...] = ()
    """Six seconds after the end of each window behind which the items alone are due, whatever the contact does."""


def second_of(text):
    """The second of the day of a time."""
    hours, minutes, seconds = map(int, text.split(":"))
    return 3600 * hours + 60 * minutes + seconds


def frame_of(text):
    """The first frame of the day at or after a time."""
    return -(-second_of(text) * 125 // 3)


def is_between(second, first, last):
    """Whether a second of the day is in a window that may run over midnight."""
    return (second - second_of(first)) % 86_400 < (second_of(last) - second_of(first)) % 86_400


def by_night(second, _):
    """A lower rate from ten in the evening to six in the morning."""
    return LOWER if is_between(second, "22:00:00", "06:00:00") else FULL


def by_night_or_alarm(second, is_closed):
    """The same, and an emergency programme while the contact is closed, at the higher rate."""
    return FULL | ALARM if is_closed else by_night(second, is_closed)


def from_six_to_nine(second, is_closed):
    """A programme of a region while the contact is closed, from six to nine."""
    return FULL | REGION if is_closed and is_between(second, "06:00:00", "09:00:00") else FULL


def by_day_or_night(second, _):
    """A sub-channel by night, and one of a higher rate by day, beside one that stays."""
    service = audio(1, 0, 48, "C221") if is_between(second, "22:00:00", "06:00:00") else audio(3, 0, 72, "C221")
    return service | audio(2, 72, 48, "C222")


def by_night_or_region(second, is_closed):
    """A lower rate by night, and a region's programme from six to nine while the contact is closed."""
    return by_night(second, is_closed) | (from_six_to_nine(second, is_closed) - FULL)


def in_the_evening(second, is_closed):
    """A lower rate from six to ten in the evening while the contact is closed."""
    return LOWER if is_closed and is_between(second, "18:00:00", "22:00:00") else FULL


def by_night_or(added, first, last):
    """A lower rate by night, and a programme from one time to another while the contact is closed."""
    return lambda second, is_closed: by_night(second, is_closed) | (added if is_closed and is_between(second, first, last) else set())


def by_night_or_beside(second, is_closed):
    """A lower rate by night, and a programme for emergencies beside it while the contact is closed."""
    return by_night(second, is_closed) | (BESIDE if is_closed else set())


def by_contact(closed):
    """A configuration while the contact is closed."""
    return lambda _, is_closed: closed if is_closed else FULL


ROWS = (
    Row("any_hour", None, ("22:00:00", "06:00:00"), (NOON, NOON), ("23:00:00",), by_night, ("06:00:06",)),
    Row("opt_out_hours", 5, ("06:00:00", "09:00:00"), (NOON, NOON), ("07:30:00",), from_six_to_nine, ("09:00:06",)),
    Row("emergency", 9, ("22:00:00", "06:00:00"), (NOON, NOON), ("23:00:00",), by_night_or_alarm),
    Row("weekdays", 5, ("18:00:00", "22:00:00"), (NOON, NOON), ("19:00:00",), in_the_evening, ("22:00:06",)),
    Row("night_and_region", 5, ("22:00:00", "06:00:00", "09:00:00"), (NOON, NOON), ("07:30:00",), by_night_or_region,
        ("09:00:06",)),
    Row("two_regions", 9, ("22:00:00", "06:00:00"), (NOON, NOON), ("23:00:00",), by_night_or_beside),
    Row("two_regions", 1, ("09:00:00",), (NOON, NOON), ("08:00:00",), by_night_or(NORTH, "06:00:00", "09:00:00"), ("09:00:06",)),
    Row("two_regions", 2, ("12:00:00",), (NOON, NOON), ("11:00:00",), by_night_or(SOUTH, "06:00:00", NOON), ("12:00:06",)),
    Row("night_rate", None, ("22:00:00", "06:00:00"), ("05:59:54", "21:59:54"), ("23:00:00",), by_night),
    Row("room_for_labels", None, ("22:00:00", "06:00:00"), ("05:59:54", "21:59:54"), ("23:00:00",),
        lambda second, closed: by_night(second, closed) | MANY),
    Row("part_time_service", None, ("06:00:00", "20:00:00"), ("19:59:54", "05:59:54"), ("19:00:00",),
        lambda second, _: FULL | SECOND if is_between(second, "06:00:00", "20:00:00") else FULL),
    Row("day_night", None, ("22:00:00", "06:00:00"), ("05:59:54", "21:59:54"), ("23:00:00",), by_day_or_night),
    Row("contact_rate", 3, (), (NOON, NOON), ("18:00:00",), by_contact(LOWER)),
    Row("regional_opt_out", 3, (), (NOON, NOON), ("18:00:00",), by_contact(FULL | REGION)),
    Row("bouncing_contact", 3, (), (NOON, NOON), ("18:00:00",), by_contact(LOWER)),
    Row("settled_change", 3, (), (NOON, NOON), ("18:00:00",), by_contact(LOWER)),
    Row("drill", 9, (), (NOON, NOON), ("18:00:00",), lambda *_: FULL),
    Row("short_notice", None, (), (NOON, NOON), ("18:00:00",), lambda *_: LOWER),
)


class Run(typing.NamedTuple):
    """A run of a plan to a time at which it is looked at."""

    row: Row
    start: int
    """The frame of the day at which it is started."""
    is_closed: bool
    """Whether the contact is closed then."""
    events: typing.Tuple[typing.Tuple[int, bool], ...]
    """In which frames of the run the contact changes, and to what."""
    at: str
    """The time at which it is looked at."""
    behind: int
    """So many frames at least after the last change of the contact."""

    def __str__(self):
        seconds = self.start * 3 // 125
        changes = "".join(f", {'closed' if level else 'open'} in frame {frame}" for frame, level in self.events)
        return (f"{self.row.name} from {seconds // 3600:02}:{seconds // 60 % 60:02}:{seconds % 60:02} (frame "
                f"{self.start}), contact {'closed' if self.is_closed else 'open'}{changes}: at {self.at}")

    def level(self):
        """The level of the contact at the end."""
        return self.events[-1][1] if self.events else self.is_closed

    def on_air(self, program, folder):
        """What `dabplan listen` prints of the frames from that time on: the lines of sub-channels and services, and
        whether a swap is announced."""
        ahead = (frame_of(self.at) - self.start) % DAY
        while ahead < (self.events[-1][0] if self.events else 0) + self.behind:
            ahead += DAY
        lines, made = [], 0
        for frame, level in self.events:
            lines += [f"frames {frame - made}", f"contact {self.row.contact} {'closed' if level else 'open'}"]
            made = frame
        lines += [f"frames {min(DAY, ahead - at)}" for at in range(made, ahead, DAY)] + [f"frames {FRAMES}"]
        contacts = f"{1 << self.row.contact:04X}" if self.is_closed else "0000"
        words = [program, "live", f"{self.row.name}.code", "--day", str(self.start), "--count", str(self.start % 4999),
                 "--contacts", contacts, "--skip", str(ahead)]
        made = subprocess.run(words, cwd=folder, input="\n".join(lines).encode(), check=True, capture_output=True)
        done = subprocess.run([program, "listen", "-"], input=made.stdout, check=True, capture_output=True)
        current, following = done.stdout.decode().split("\nnext\n")
        return set(re.findall(r"(?m)^(?:sub|service) .*", current)), "no swap" not in following

    def wanted(self):
        """What has to be on air."""
        return self.row.wanted(second_of(self.at), self.level()), False


def starts(row, is_whole):
    """The runs of a plan that is started around its hours, its contact open or closed."""
    for hour in row.hours or (NOON,):
        for second in SECONDS if is_whole else SOME_SECONDS:
            at = (second_of(hour) + second) % 86_400
            if row.starts[0] == row.starts[1] or is_between(at, *row.starts):
                for is_closed in (False, True) if row.contact is not None else (False,):
                    yield Run(row, -(-at * 125 // 3), is_closed, (), NOON, BEFORE)


def changes(row, is_whole):
    """The runs of a plan whose contact changes around its hours; or, where it has none, around the swap that another
    change brings."""
    for hour in row.hours:
        start = (frame_of(hour) + AROUND[0] - BEFORE) % DAY
        for frame in AROUND if is_whole else SOME:
            at = BEFORE + frame - AROUND[0]
            yield Run(row, start, False, ((at, True),), NOON, BEFORE)
            yield Run(row, start, True, ((at, False),), NOON, BEFORE)
            yield Run(row, start, False, ((at, True), (at + PULSE, False)), NOON, BEFORE)
    if not row.hours:
        start = frame_of("11:40:00")
        for frame in range(1, 601) if is_whole else SOME_BEHIND:
            yield Run(row, start, False, ((10, True), (10 + frame, False)), NOON, BEFORE)
            yield Run(row, start, True, ((1000, False), (1000 + frame, True)), NOON, BEFORE)


def runs(row, is_whole):
    """All runs of a plan, to each time at which it is looked at."""
    found = list(starts(row, is_whole))
    if row.contact is not None:
        found += changes(row, is_whole)
    times = (NOON, THREE, *row.own) if is_whole else (NOON,) if row.ended else (NOON, THREE)
    return ([run._replace(at=at) for run in found for at in times]
            + [run._replace(at=at, behind=0) for run in found for at in row.ended])


def main():
    """The main program."""
    tally = common.Tally()
    program = common.dabplan()
    is_whole = sys.argv[1:2] == ["--whole"]
    names = sys.argv[2:] or [row.name for row in ROWS]
    shipped = {path.stem for path in common.EXAMPLES.glob("*.plan") if not path.read_text().rstrip().endswith("begin")}
    tally.same("the plans", shipped, {row.name for row in ROWS})
    with tempfile.TemporaryDirectory() as name:
        folder = pathlib.Path(name)
        for plan in shipped:
            words = [program, "compile", common.EXAMPLES / f"{plan}.plan", folder / f"{plan}.code"]
            subprocess.run(words, check=True, capture_output=True)
        wanted = [run for row in ROWS if row.name in names for run in runs(row, is_whole)]
        with ThreadPoolExecutor(os.cpu_count() if is_whole else 1) as pool:
            for run, found in zip(wanted, pool.map(lambda run: run.on_air(program, folder), wanted)):
                tally.same(str(run), run.wanted(), found)
    tally.end()


if __name__ == "__main__":
    main()
