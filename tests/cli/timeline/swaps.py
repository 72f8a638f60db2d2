#!/usr/bin/env python3
"""'dabplan timeline': the swaps of runs as text, as objects and as drawings, and its refusals.

The last line is 'N passed, M failed'."""
import json
import time
import xml.etree.ElementTree as tree

import rows
from rows import NOTHING, NOTHING_FILE, RATES, RATES_FILE, REFUSED_FILE, hexadecimal

SVG = "{http://www.w3.org/2000/svg}"
HIGH, LOW = "sub 1 at 0 size 96 eep 3-A", "sub 1 at 0 size 72 eep 3-A"
SERVICE = "service C221 audio 63 sub 1"
EVENTS = "frames 1 contact 3 closed frames 300 contact 3 open frames 300"
# From a contact to its swap: the notice of 24 frames, and up to 3 more to a count that 4 divides.
SWAPS = f"""\
00:00:00.672 frame 28 line 10: - {HIGH}, + {LOW}
00:00:07.872 frame 328 line 14: - {LOW}, + {HIGH}
00:00:14.424 frame 601 on air
  {HIGH}
  {SERVICE}
"""

# A lower rate from ten in the evening to six, on air when the minute begins: a notice of 250 frames is six seconds.
NIGHT = """\
ensemble E1C5
period 4 notice 240 budget 20
sub 1 at 0 eep 3-A 128
service C221
audio 63 sub 1 in C221
begin
forever {
until 21:59:54
rate sub 1 96
commit in 250
join
until 05:59:54
rate sub 1 128
commit in 250
join
}
"""

# Four changes a day, the last of which brings the first configuration back.
MONTH = NIGHT[:NIGHT.index("forever")] + "forever {\n" + "".join(
    f"until {hour}:59:54\nrate sub 1 {rate}\ncommit in 250\njoin\n"
    for hour, rate in (("21", 96), ("01", 64), ("05", 112), ("11", 128))) + "}\n"


def files(plan, events=EVENTS):
    """The files of a run: of a code, or of a script."""
    is_code = plan.startswith("\n44") or plan.startswith("44")
    return {"x.plan": hexadecimal(plan) if is_code else plan, "x.events": events}


def swaps_as_lines(rows):
    """A line a swap, and what is on air at the end, of a code and of its script."""
    for plan in (RATES_FILE, RATES):
        rows.answers("timeline x.plan x.events", 0, SWAPS, files(plan))
    rows.answers("timeline - x.events", 0, SWAPS, {"x.events": EVENTS}, RATES.encode())
    rows.answers("timeline - x.events", 0, SWAPS, {"x.events": EVENTS}, hexadecimal(RATES_FILE))
    rows.answers("timeline x.plan x.events", 0, "00:00:00.000 frame 0 on air\n  " + HIGH + "\n  " + SERVICE + "\n",
                 files(RATES, ""))
    rows.answers("timeline x.plan x.events", 0, "00:00:00.072 frame 3 on air\n", files(NOTHING, "frames 3"))


def starts(rows):
    """The time of the first frame, its count, and the contacts that are closed at the start."""
    rows.answers("timeline x.plan x.events --time 12:00:00.048 --contacts 0008", 0,
                 f"12:00:00.720 frame 28 line 10: - {HIGH}, + {LOW}\n"
                 f"12:00:01.248 frame 50 on air\n  {LOW}\n  {SERVICE}\n",
                 files(RATES, "frames 50"))
    rows.answers("timeline x.plan x.events --day 1800000 --count 4999 --contacts 0008", 0,
                 f"12:00:00.600 frame 25 line 10: - {HIGH}, + {LOW}\n"
                 f"12:00:01.200 frame 50 on air\n  {LOW}\n  {SERVICE}\n",
                 files(RATES, "frames 50"))


def days(rows):
    """The day stands before the time where midnight is reached, and only there."""
    rows.answers("timeline x.plan x.events --time 12:00:00", 0,
                 f"day 0 22:00:00.000 frame 1500000 line 10: - {HIGH}, + {LOW}\n"
                 f"day 1 06:00:00.000 frame 2700000 line 14: - {LOW}, + {HIGH}\n"
                 f"day 1 12:00:00.000 frame 3600000 on air\n  {HIGH}\n  {SERVICE}\n", files(NIGHT, "frames 3600000"))
    for frames, shown in ((1799999, "23:59:59.976"), (1800000, "day 1 00:00:00.000")):
        ended = rows.run("timeline x.plan x.events --time 12:00:00", files(NIGHT, f"frames {frames}"))
        lines = ended.printed.decode().splitlines()
        rows.tally.same(f"the end of {frames} frames", f"{shown} frame {frames} on air", lines[1])
        days = {line.startswith("day") for line in lines[:2]}
        rows.tally.same("the days of all lines", {shown.startswith("day")}, days)


def a_month(rows):
    """Thirty days with four changes a day in less than a second."""
    begun = time.monotonic()
    ended = rows.run("timeline x.plan x.events", files(MONTH, "frames 3600000 " * 30))
    lasted = time.monotonic() - begun
    lines = ended.printed.decode().splitlines()
    rows.tally.same("status", 0, ended.status)
    rows.tally.same("times of the third day", [f"day 2 {clock}:00:00.000" for clock in ("02", "06", "12", "22")],
                    [line.split(" frame ")[0] for line in lines if line.startswith("day 2 ")])
    rows.tally.same("swaps", 29 * 4 + 1, sum(" line " in line for line in lines))
    rows.tally.hold(lasted < 1, f"30 days took {lasted:.1f} s")


def objects(rows):
    """With --json each line is an object, those of failures too."""
    ended = rows.run("timeline x.plan x.events --json", files(RATES))
    first, second, last = (json.loads(line) for line in ended.printed.decode().splitlines())
    rows.tally.same("status", (0, b""), (ended.status, ended.messages))
    rows.tally.same("first", {"kind": "swap", "time": "00:00:00.672", "day": 0, "frame": 28, "count": 28, "line": 10,
                              "dropped": [HIGH], "added": [LOW]}, first)
    rows.tally.same("second", ("swap", 328, [LOW], [HIGH]),
                    tuple(second[name] for name in ("kind", "frame", "dropped", "added")))
    rows.tally.same("last", {"kind": "on-air", "time": "00:00:14.424", "day": 0, "frame": 601,
                             "parts": [HIGH, SERVICE]}, last)
    rows.answers("timeline x.plan x.events --json", 1, '{"kind":"refused","cause":"cannot read x.events"}\n',
                 {"x.plan": RATES})


def drawings(rows):
    """A drawing is a document with the sub-channels, the times of the swaps, and the contacts."""
    given = files(RATES)
    rows.answers("timeline x.plan x.events --svg x.svg", 0, SWAPS, given)
    document = tree.fromstring(rows.made("x.svg"))
    titles = [title.text for title in document.iter(f"{SVG}title")]
    texts = ["".join(text.itertext()) for text in document.iter(f"{SVG}text")]
    bars = [bar for bar in document.iter(f"{SVG}rect") if bar.find(f"{SVG}title") is not None]
    rows.tally.same("title", "The timeline of ensemble E1C5: 2 swaps", titles[0])
    rows.tally.same("sub-channels", ["Sub-channel 1: CU 0 to 95, 128 kbit/s, service C221"] * 2,
                    [title for title in titles if title.startswith("Sub-channel") and " 128 " in title])
    rows.tally.same("the lower one", ["Sub-channel 1: CU 0 to 71, 96 kbit/s, service C221"],
                    [title for title in titles if title.startswith("Sub-channel") and " 96 " in title])
    rows.tally.same("swaps", ["Swap at 00:00:00.672", "Swap at 00:00:07.872"],
                    [title for title in titles if title.startswith("Swap")])
    rows.tally.hold({"contact 3", "CU 0", "CU 864", "00:00:00.672", "00:00:07.872"} <= set(texts), f"texts: {texts}")
    # 1,780 units are 601 frames; 648 are 864 capacity units.
    lowered = next(bar for bar in bars if " 96 " in bar.find(f"{SVG}title").text)
    rows.tally.same("its place", ("192", "889", "54"), tuple(lowered.get(name) for name in ("x", "width", "height")))
    rows.tally.same("contact 3", ("112", "889"), tuple(bars[-1].get(name) for name in ("x", "width")))


def refusals(rows):
    """What `play` and `compile` refuse is refused, with the same lines."""
    rows.answers("timeline x.plan x.events", 1, "refused at 0 line 1: JoinIdle\n", files(REFUSED_FILE))
    rows.answers("timeline x.plan x.events", 1, "1:1: Expected\n", files("DABQ"))
    rows.answers("timeline x.plan x.events", 1, "refused line 7: JoinIdle\n",
                 files(RATES.replace("forever {", "join forever {")))
    rows.answers("timeline x.plan x.events", 1, "events 1:8: Number\n", files(RATES, "frames 0"))
    rows.answers("timeline x.plan x.events --count 5000", 1, "start: Count\n", files(RATES))
    rows.answers("timeline x.plan x.events --day 3600000", 1, "start: Day\n", files(RATES))
    rows.answers("timeline x.plan x.events", 1, "cannot read x.plan\n", {"x.events": EVENTS})
    rows.answers("timeline x.plan x.events", 1, "cannot read x.events\n", {"x.plan": RATES})
    rows.answers("timeline x.plan x.events --svg no/x.svg", 1, SWAPS + "cannot write no/x.svg\n", files(RATES))
    rows.answers("timeline x.plan x.events --svg -", 2,
                 "error: invalid value '-' for '--svg <OUT>': standard output has the timeline\n", files(RATES))
    for path, name in (("x.plan", "CODE"), ("x.events", "EVENTS")):
        rows.answers(f"timeline x.plan x.events --svg {path}", 2,
                     f"error: {name} and --svg <OUT> are the same file: '{path}'\n", files(RATES))
    damaged = hexadecimal(NOTHING_FILE)[:-1]
    cut = rows.run("timeline x.plan x.events", {"x.plan": damaged, "x.events": ""})
    rows.tally.same("a code that is cut", 1, cut.status)


if __name__ == "__main__":
    rows.main([swaps_as_lines, starts, days, a_month, objects, drawings, refusals])
