#!/usr/bin/env python3
"""'dabplan debug' and 'play': in which frames waits with alternatives end, and which branch a window of the day takes. The last line
is 'N passed, M failed'."""
import re

import rows
from codes import code
from rows import hexadecimal
from texts import HEAD, OPENED

# The opt-out of contact 5, at most from 06:00:00 to 08:59:59.
OPT_OUT = OPENED + """forever {
wait contact 5 closed
if time 06:00:00 to 08:59:59 {
rate sub 1 96
commit in 24
join
wait contact 5 open or until 08:59:59
rate sub 1 128
commit in 24
join
} else {
wait contact 5 open or until 06:00:00
}
}
"""


def steps(rows, plan, frames, contacts=(), options=""):
    """The frames in which instructions run, with their number: of a script, or of a code in bytes. A contact changes before the
    frame that is named with it."""
    files = {"x.code": plan}
    if isinstance(plan, str):
        rows.run("compile x.plan x.code", {"x.plan": plan})
        files = {"x.code": rows.made("x.code") or b""}
    changes = dict(contacts)
    files["x.commands"] = "".join(f"{'contact ' + changes[frame] if frame in changes else ''} run 1\n" for frame in range(frames))
    printed = rows.run(f"debug x.code x.commands {options}", files).printed.decode()
    found = [int(each[1]) for each in re.finditer(r"^frames 1 steps (\d+) ", printed, re.M)]
    return {frame: count for frame, count in enumerate(found) if count}


def begins(rows, what, wanted, plan, frames=60, contacts=(), options=""):
    """Counts that just these frames have these numbers of instructions."""
    rows.tally.same(what, wanted, steps(rows, plan, frames, contacts, options))


def ends_of_waits(rows):
    """Each alternative ends a wait, in a later frame than its own."""
    wait = HEAD + "begin\nwait contact 3 closed or until 00:00:01 or 750"
    begins(rows, "until", {0: 1, 42: 1}, wait)
    begins(rows, "contact", {0: 1, 5: 1}, wait, contacts=[(5, "3 closed")])
    begins(rows, "closed at the start", {0: 1, 1: 1}, wait, options="--contacts 0008")
    begins(rows, "closed and open again", {0: 1, 42: 1}, wait, contacts=[(5, "3 closed contact 3 open")])
    begins(rows, "frames", {0: 1, 750: 1}, wait, 800, options="--day 1000")
    begins(rows, "all at once", {0: 1, 42: 1}, wait.replace("750", "42"), contacts=[(42, "3 closed")])
    begins(rows, "both levels", {0: 1, 1: 1}, HEAD + "begin wait contact 3 closed or contact 3 closed or contact 3 open")
    begins(rows, "no alternative", {0: 1}, code("any 0 0 none 0, end"))
    two = HEAD + "begin\nwait until 00:00:00 or 2\nwait until 00:00:00 or 3"
    for day, wanted in ((3_599_998, {0: 1, 2: 1, 5: 1}), (3_599_999, {0: 1, 1: 1, 4: 1}), (3_599_997, {0: 1, 2: 1, 3: 1}),
                        (0, {0: 1, 2: 1, 5: 1})):
        begins(rows, f"from day frame {day}", wanted, two, options=f"--day {day}")


def windows(rows):
    """The first moment belongs to a window, the last one does not; it runs over midnight."""
    branches = " {\nwait 3\n} else {\nwait 2\n}\nwait 9\n"
    inside, outside = {0: 2, 3: 2, 12: 1}, {0: 2, 2: 1, 11: 1}
    night = HEAD + "begin\nif time 22:00:00 to 06:00:00" + branches
    for day in (3_299_999, 900_000, 1_800_000):
        begins(rows, f"outside at {day}", outside, night, options=f"--day {day}")
    for day in (3_300_000, 3_599_999, 0, 899_999):
        begins(rows, f"inside at {day}", inside, night, options=f"--day {day}")
    never = night.replace("06:00:00", "22:00:00")
    first = night.replace("22:00:00", "00:00:00").replace("06:00:00", "00:00:01")
    for day in (3_299_999, 3_300_000, 0):
        begins(rows, f"never, at {day}", outside, never, options=f"--day {day}")
    for day, wanted in ((0, inside), (41, inside), (42, outside), (3_599_999, outside)):
        begins(rows, f"a second after midnight, at {day}", wanted, first, options=f"--day {day}")


def swaps(rows):
    """Waits while a swap is pending; an opt-out that ends with its contact or its hour."""
    settled = OPENED + ("rate sub 1 64\ncommit in 24\nwait contact 3 closed or until 22:00:00\n"
                        "if time 22:00:00 to 06:00:00 { wait 1 }\nsettle\n")
    begins(rows, "in the frame of the swap", {0: 3, 24: 3}, settled, contacts=[(24, "3 closed")], options="--day 1800000")
    begins(rows, "by the time", {0: 3, 20: 2, 21: 1, 24: 1}, settled, options="--day 3299980")
    day = "--day 1349899"
    begins(rows, "the hour ends it", {0: 1, 2: 4, 28: 1, 60: 3, 84: 3, 85: 2}, OPT_OUT, 100, [(2, "5 closed")], day)
    begins(rows, "the contact ends it", {0: 1, 2: 4, 28: 1, 59: 3, 84: 3}, OPT_OUT, 100, [(2, "5 closed"), (59, "5 open")], day)


def frames(rows):
    """What the opt-out puts on air: the announcement, the swap, and the next announcement."""
    rows.run("compile x.plan x.code", {"x.plan": OPT_OUT})
    files = {"x.code": rows.made("x.code"), "x.events": "frames 2 contact 5 closed frames 98"}
    rows.answers("play x.code x.events x.fib --day 1349899", 0, "played 100 frames\n", files)
    made = rows.made("x.fib")
    for count, wanted in ((4, "06 00 E1 C5 40 04 1C 05 01 04 00 88 60 06 02 C2 21 01 3F 06 05 81 04 00 88 48 FF"),
                          (28, "05 00 E1 C5 00 1C 05 01 04 00 88 48"), (60, "06 00 E1 C5 40 3C 54 05 01 04 00 88 48")):
        bytes_of = hexadecimal(wanted)
        rows.tally.same(f"count {count}", bytes_of, made[96 * count:96 * count + len(bytes_of)])
    lines = "frames 2\ncontact 5 closed\nframes 98\n"
    rows.tally.same("live", (0, made), rows.run("live x.code --day 1349899", {"x.code": files["x.code"]}, stdin=lines.encode()).lines())


if __name__ == "__main__":
    rows.main([ends_of_waits, windows, swaps, frames])
