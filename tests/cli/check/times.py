#!/usr/bin/env python3
"""'dabplan check --time': the times of findings in streams that begin with any FIB, in thousandths of a second, and as
'timeline' has them. The last line is 'N passed, M failed'."""
import re

import rows
from streams import stream

# Sub-channel 1 at 0 by 3-A: 128 kbit/s, and 96. Service C221 with audio of type 63 on it.
AT_128, AT_96, RADIO = "05 01 04 00 88 60", "05 01 04 00 88 48", "06 02 C2 21 01 3F 06"
SECOND = 1000
MINUTE = 60 * SECOND
HOUR = 60 * MINUTE

SCRIPT = """\
ensemble E1C5
period 4 notice 24 budget 20
sub 1 at 0 eep 3-A 128
service C221
audio 63 sub 1 in C221
begin
wait 5
rate sub 1 96
commit in 24
join
"""


def ensemble(count, low=None):
    """A FIG 0/0 of a frame with this CIF count; with a low part of a count it announces a swap of sub-channels."""
    if low is None:
        return f"05 00 E1 C5 00 {count:02X}"
    return f"06 00 E1 C5 40 {count:02X} {low:02X}"


def air(frames, fibs=3, step=4):
    """Frames of so many FIBs from count 0 on, with FIG 0/0 at each count that the step divides."""
    out = b""
    for count in range(frames):
        first = ensemble(count) if count % step == 0 else ""
        out += stream(f"{first} {AT_128} {RADIO} FF", *["FF"] * (fibs - 1))
    return out


def changed():
    """Forty frames with a swap in frame 28, which is announced from frame 4 on; the second FIB has what comes next."""
    out = b""
    for count in range(40):
        is_notice = 4 <= count < 28
        first = ensemble(count, 28 if is_notice else None) if count % 4 == 0 else ""
        second = "05 81 04 00 88 48 06 82 C2 21 01 3F 06 FF" if is_notice else "FF"
        out += stream(f"{first} {AT_128 if count < 28 else AT_96} {RADIO} FF", second, "FF")
    return out


def clock(milliseconds):
    """A time of the day as a finding has it."""
    rest = milliseconds % (24 * HOUR)
    return f"{rest // HOUR:02}:{rest // MINUTE % 60:02}:{rest // SECOND % 60:02}.{rest % SECOND:03}"


def totals(frames, skipped, swaps=0):
    """The last line of a check without a fault."""
    return f"frames {frames} skipped {skipped} left over 0 damaged 0 swaps {swaps} faults 0\n"


def cut_anywhere(rows):
    """The time is that of the file's first frame, be it whole or not: wherever a stream is cut, each frame has the same
    time if the first one has its own. The first FIG 0/0 comes with it, or up to three frames later."""
    data = changed()
    for cut in range(13):
        begins = 21 * HOUR + 59 * MINUTE + 54 * SECOND - cut // 3 * 24  # where the whole stream begins
        first = 0 if cut == 0 else 4
        wanted = f"{clock(begins + first * 24)} 0 {first} ensemble E1C5\n"
        wanted += f"{clock(begins + 4 * 24)} {4 - first} 4 announced 1 swap at low 28\n"
        wanted += f"{clock(begins + 28 * 24)} {28 - first} 28 swap\n" + totals(40 - first, 3 * first - cut, 1)
        rows.answers("check x.fib --time 21:59:54", 0, wanted, {"x.fib": data[32 * cut:]})


def modes(rows):
    """What is skipped is counted in frames of the mode: of four FIBs in mode III, else of three."""
    for mode, fibs, step, skipped, late in ((1, 3, 4, 0, 0), (1, 3, 4, 1, 24), (1, 3, 4, 3, 24), (1, 3, 4, 4, 48),
                                            (1, 3, 4, 126, 1008), (2, 3, 1, 3, 24), (2, 3, 1, 4, 48), (3, 4, 1, 4, 24),
                                            (3, 4, 1, 5, 48), (3, 4, 1, 8, 48), (4, 3, 2, 3, 24), (4, 3, 2, 1, 24)):
        rows.answers(f"check x.fib --mode {mode} --time 12:00:00", 0,
                     f"{clock(12 * HOUR + late)} 0 0 ensemble E1C5\n" + totals(8, skipped),
                     {"x.fib": stream("FF") * skipped + air(8, fibs, step)})


def thousandths(rows):
    """Thousandths of a second, as text and as JSON; no time is rounded to a frame of the day."""
    for value, printed in (("00:00:00.000", "00:00:00.000"), ("00:00:00.001", "00:00:00.001"),
                           ("21:59:54.007", "21:59:54.007"), ("23:59:59.999", "23:59:59.999"),
                           ("23:59:59", "23:59:59.000"), ("03:00:01.008", "03:00:01.008")):
        rows.answers(f"check x.fib --time {value}", 0, f"{printed} 0 0 ensemble E1C5\n" + totals(8, 0),
                     {"x.fib": air(8)})
        rows.answers(f"check x.fib --json --time {value}", 0,
                     f'{{"kind":"ensemble","time":"{printed}","frame":0,"count":0,"eid":"E1C5"}}\n'
                     '{"kind":"summary","frames":8,"skipped":0,"left_over":0,"damaged":0,"swaps":0,"faults":0}\n',
                     {"x.fib": air(8)})


def next_day(rows):
    """Frames behind midnight: behind the last thousandth of a day, and where FIG 0/0 is on the next day."""
    rows.answers("check x.fib --time 23:59:59.999", 0, "00:00:00.071 0 4 ensemble E1C5\n" + totals(4, 9),
                 {"x.fib": air(8)[96:]})
    rows.answers("check x.fib --time 23:59:59.999 --until-fault", 3,
                 "23:59:59.999 0 0 ensemble E1C5\n00:00:01.007 42 42 fault: damaged 3\n"
                 "frames 43 skipped 0 left over 0 damaged 3 swaps 0 faults 1\n", {"x.fib": air(42) + b"\0" * 96})


def refused_times(rows):
    """Values that are no time of the day."""
    for value in ("24:00:00", "24:00:00.000", "23:59:60.000", "23:60:00.000", "12:00:00.", "12:00:00.1", "12:00:00.12",
                  "12:00:00.1234", "12:00:00,123", "12:00:00.12a", "12:00:00.+12", "12:00:00 123", "12:00", "12:00.000",
                  "2:00:00.000", ".000", "now", ""):
        rows.answers(["check", "x.fib", "--time", value], 2, f"error: invalid value '{value}' for '--time <HH:MM:SS>': "
                     "expected 00:00:00 to 23:59:59.999\n", {"x.fib": air(1)})


def with_timelines(rows):
    """The swap in what `play` writes is at the time at which `timeline` has it, whichever count the first frame has."""
    rows.tally.same("compiled", 0, rows.run("compile x.plan x.code", {"x.plan": SCRIPT}).status)
    files = {"x.code": rows.made("x.code") or b"", "x.events": "frames 100"}
    found = set()
    for count in (0, 1, 2, 3, 4997, 4999):
        for time in ("12:00:00", "21:59:53.016", "23:59:59.880"):
            options = f"--count {count} --time {time}"
            printed = rows.run(f"timeline x.code x.events {options}", files).printed.decode()
            dry = re.findall(r"(\S+) frame \d+ line 9: ", printed)
            rows.answers(f"play x.code x.events x.fib {options}", 0, "played 100 frames\n", files)
            printed = rows.run(f"check x.fib --time {time}", {"x.fib": rows.made("x.fib") or b""}).printed.decode()
            swaps = re.findall(r"^(\S+) \d+ \d+ swap$", printed, re.M)
            rows.tally.same(f"the swap, {options}", dry, swaps)
            found.update(swaps)
    rows.tally.same("different times: a swap is at a count that four divides", 12, len(found))


if __name__ == "__main__":
    rows.main([cut_anywhere, modes, thousandths, next_day, refused_times, with_timelines])
