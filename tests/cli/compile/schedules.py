#!/usr/bin/env python3
"""'dabplan compile' of schedules: what is on air, and when, the refusals in their order, and texts with a fault. The last line is
'N passed, M failed'."""
import rows
from rows import hexadecimal
from schedules import COUNTS, STEPS

# Six lines of a schedule with one programme; overlays follow from line 7 on.
HEAD = """\
ensemble E1C5
period 4 notice 24 budget 100
sub 1 at 0 eep 3-A 128
service C221
audio 63 sub 1 in C221
schedule
"""
LOW = "overlay low while contact 3 closed { rate sub 1 96 }\n"
LOWER = "overlay lower while contact 4 closed { rate sub 1 64 }\n"

# A rate at night, and a region from six to nine, as the guide has them.
REGION = """\
ensemble E1C5
period 4 notice 240 budget 40 reserve 1
sub 1 at 0 eep 3-A 128
service C221
audio 63 sub 1 in C221

schedule
overlay night while time 22:00:00 to 06:00:00 {
  rate sub 1 96
}
overlay region while contact 5 closed and time 06:00:00 to 09:00:00 {
  sub 2 at 96 eep 3-A 128
  service C222
  audio 63 sub 2 in C222
}
"""

# FIG 0/0, then all of the items, and of the items with the rates of the overlays.
ITEMS = "05 01 04 00 88 60 06 02 C2 21 01 3F 06 FF"


def announcements(fibs, mode, count):
    """The swaps that FIBs announce: for each the first frame that does, and the frame of the swap (EN 300 401 clause 6.4)."""
    size, found = 128 if mode == 3 else 96, []
    for frame in range(len(fibs) // size):
        first = fibs[frame * size:frame * size + 8]
        if (count + frame) % COUNTS % STEPS[mode] != 0 or first[4] >> 6 == 0:
            continue
        swap = frame + (first[6] - first[5]) % 250
        if not found or found[-1][1] != swap:
            found.append((frame, swap))
    return found


def announced(commits, mode, count):
    """The same of commits, each a frame and the frames until its swap: they are announced from the next FIG 0/0 on."""
    return [(frame + -(count + frame) % STEPS[mode], frame + left) for frame, left in commits]


def events(changes, frames):
    """The event file of changes of contacts, each as '3 closed at 40', over so many frames."""
    text, at = "", 0
    for change in changes:
        contact, level, _at, frame = change.split()
        text += f"frames {int(frame) - at} " * (int(frame) > at) + f"contact {contact} {level} "
        at = int(frame)
    return text + f"frames {frames - at}\n"


def plays(rows, text, changes, commits, options="", mode=1, frames=600, now=None):
    """A plan has these commits, in these frames, and so many frames until each swap; returns its FIBs. It takes over from the
    items of the script `now` if there is one."""
    files = {"x.plan": text, "x.events": events(changes, frames)} | ({"now.plan": now} if now else {})
    ended = rows.run("compile x.plan x.code" + " --from now.plan" * (now is not None), files)
    files["x.code"] = rows.made("x.code") or b""
    rows.tally.same(f"compile {text[-80:]}", (0, b"instructions "), (ended.status, ended.printed[:13]))
    ended = rows.run(f"play x.code x.events x.fib {options}", files)
    rows.tally.same(f"play {options}", (0, f"played {frames} frames\n".encode()), ended.lines())
    words = options.split()
    count = int(words[words.index("--count") + 1]) if "--count" in words else 0
    fibs = rows.made("x.fib") or b""
    rows.tally.same(f"{text[len(HEAD):]} {changes} {options}", announced(commits, mode, count), announcements(fibs, mode, count))
    return fibs


def at_count(rows, fibs, frame, wanted):
    """The first FIB of a frame begins with these bytes."""
    wanted = hexadecimal(wanted)
    rows.tally.same(f"frame {frame}", wanted, fibs[frame * 96:frame * 96 + len(wanted)])


def nothing_to_do(rows):
    """Items alone, and overlays that change nothing."""
    fibs = plays(rows, HEAD, [], [])
    at_count(rows, fibs, 0, f"05 00 E1 C5 00 00 {ITEMS}")
    for overlay in ("overlay a while contact 3 closed { }", "overlay a while contact 3 closed { rate sub 1 128 }",
                    "overlay a while contact 3 closed and contact 3 open { rate sub 1 96 }"):
        plays(rows, HEAD + overlay, ["3 closed at 1"], [])


def contacts(rows):
    """What was announced is made; what ends meanwhile is announced in the frame of the swap; the later edit counts."""
    fibs = plays(rows, HEAD + LOW, ["3 closed at 1", "3 open at 40"], [(1, 27), (40, 24)])
    at_count(rows, fibs, 4, "06 00 E1 C5 40 04 1C 05 01 04 00 88 60 06 02 C2 21 01 3F 06 05 81 04 00 88 48 FF")
    plays(rows, HEAD + LOW, [], [(0, 24)], "--contacts 0008")
    fibs = plays(rows, HEAD + LOW, ["3 closed at 1", "3 open at 2"], [(1, 27), (28, 24)])
    at_count(rows, fibs, 28, "06 00 E1 C5 40 1C 34 05 01 04 00 88 48 06 02 C2 21 01 3F 06 05 81 04 00 88 60 FF")
    plays(rows, HEAD + LOW, ["3 closed at 1", "3 open at 2", "3 closed at 20"], [(1, 27)])
    plays(rows, HEAD + LOW, ["3 open at 1"], [(0, 27), (27, 24)], "--contacts 0008 --count 4997")
    plays(rows, HEAD + LOW + LOWER, ["3 closed at 1", "3 open at 2", "4 closed at 2"], [(1, 27), (28, 24)])
    both = ["3 closed at 1", "4 closed at 1"]
    for overlays, size in ((LOW + LOWER, "30"), (LOWER + LOW, "48")):
        fibs = plays(rows, HEAD + overlays, both, [(1, 27)])
        at_count(rows, fibs, 28, f"05 00 E1 C5 00 1C 05 01 04 00 88 {size}")


def conditions(rows):
    """Alternatives, and contacts that are to be open."""
    text = (HEAD + "overlay a while contact 3 closed { rate sub 1 96 }\n"
            "overlay b while contact 4 closed or contact 5 closed and contact 6 open { rate sub 1 64 }\n")
    changes = ["3 closed at 40", "6 closed at 80", "4 closed at 120", "3 open at 160"]
    fibs = plays(rows, text, changes, [(0, 24), (80, 24), (120, 24)], "--contacts 0020")
    at_count(rows, fibs, 24, "05 00 E1 C5 00 18 05 01 04 00 88 30")


def windows(rows):
    """A window's changes fall on its frames, or on the next count on which a swap can fall; over midnight, too."""
    window = HEAD + "overlay w while time 00:00:01 to 00:00:03 { rate sub 1 96 }\n"
    plays(rows, window, [], [(18, 26), (101, 27)])
    plays(rows, window, [], [(18, 24), (101, 25)], "--count 2")
    fast = window.replace("E1C5", "E1C5 mode 2")
    plays(rows, fast, [], [(18, 24), (101, 24)], mode=2)
    plays(rows, fast, [], [(1, 24), (84, 24)], "--day 17", mode=2)
    for day, commits in ((18, [(0, 24), (83, 25)]), (100, [(0, 24), (24, 24)]), (101, [])):
        plays(rows, window, [], commits, f"--day {day}")
    midnight = HEAD + "overlay w while time 23:59:59 to 00:00:01 { rate sub 1 96 }\n"
    for day, commits in ((3_599_900, [(35, 25), (118, 26)]), (3_599_935, [(0, 24), (83, 25)]), (0, [(0, 24), (24, 24)]),
                         (17, [(0, 24), (24, 24)]), (18, [])):
        plays(rows, midnight, [], commits, f"--day {day}")
    plays(rows, midnight.replace("00:00:01", "23:59:59"), [], [], "--day 3599900")
    other = midnight.replace("23:59:59 to 00:00:01", "00:00:01 to 23:59:59")
    plays(rows, other, [], [(0, 24), (35, 25), (118, 26)], "--day 3599900")


def region(rows):
    """A contact that was forgotten, or closes at the wrong moment, is no case of its own."""
    for day, commits in ((1_349_584, [(0, 240), (240, 240)]), (1_349_759, [(0, 240), (240, 240)]), (1_349_760, []),
                         (899_584, [(0, 240), (240, 240)]), (3_450_000, [(0, 240)])):
        plays(rows, REGION, [], commits, f"--contacts 0020 --day {day}")


# What is on air when a plan takes over: another programme, in another place.
NOW = """\
ensemble E1C5 period 9 notice 99 budget 9 sub 9 at 300 eep 2-A 64 service C229 data 5 sub 9 in C229
begin
"""


def taken_over(rows):
    """A schedule goes from what is on air straight to what is due; steps lead to their own items first."""
    fibs = plays(rows, HEAD + LOW, [], [(0, 24)], "--contacts 0008", now=NOW)
    at_count(rows, fibs, 0, "06 00 E1 C5 C0 00 18 05 01 25 2C 84 40 06 02 C2 29 01 45 26 05 81 04 00 88 48 FF")
    at_count(rows, fibs, 24, "05 00 E1 C5 00 18 05 01 04 00 88 48 06 02 C2 21 01 3F 06 FF")
    plays(rows, HEAD + LOW, ["3 open at 10"], [(0, 25), (25, 24)], "--contacts 0008 --count 3", now=NOW)
    low = HEAD.replace("128", "96").replace("schedule", "begin")
    plays(rows, HEAD + LOW, [], [], "--contacts 0008", now=low)
    plays(rows, HEAD + LOW, [], [(0, 24)], now=low)
    plays(rows, HEAD + LOW, ["3 closed at 1"], [(1, 27)], now=HEAD)
    steps = steps_of_rates()
    fibs = plays(rows, steps, ["3 closed at 40"], [(0, 24), (40, 24)], now=NOW.replace("begin", "schedule"))
    at_count(rows, fibs, 24, "05 00 E1 C5 00 18 05 01 04 00 88 60 06 02 C2 21 01 3F 06 FF")
    plays(rows, steps, ["3 closed at 30"], [(30, 26)], now=HEAD)
    for now, printed in ((NOW.replace("E1C5", "E1C6"), "refused: another ensemble"),
                         (NOW.replace("E1C5", "E1C5 mode 2"), "refused: another ensemble"),
                         (NOW.replace("begin", ""), "now.plan:3:1: Expected"),
                         (NOW.replace("data 5 sub 9", "data 5 sub 8"), "now.plan: refused line 2: Config Orphan"),
                         (NOW.replace("service C229", "sub 9 at 0 eep 3-A 8 service C229"),
                          "now.plan: refused line 1: Edit IdUsed")):
        for text in (HEAD + LOW, steps):
            ended = rows.run("compile x.plan x.code --from now.plan --quiet", {"x.plan": text, "now.plan": now})
            rows.tally.same(now, (1, f"{printed}\n", None), (ended.status, ended.printed.decode(), rows.made("x.code")))
    one = {"x.plan": HEAD.replace("budget 100", "budget 1").replace("schedule", "begin"), "now.plan": NOW}
    for line, wanted in (("compile x.plan x.code", (0, "instructions 1 labels 1 configurations 1\n")),
                         ("compile x.plan x.code --from now.plan --quiet", (1, "refused line 6: Cost\n"))):
        ended = rows.run(line, one)
        rows.tally.same(f"a budget of 1: {line}", wanted, (ended.status, ended.printed.decode()))


def steps_of_rates():
    """A plan of steps that lowers the rate while contact 3 is closed."""
    return HEAD.replace("schedule\n", "begin\n") + """forever {
wait contact 3 closed
rate sub 1 96
commit in 24
join
wait contact 3 open
rate sub 1 128
commit in 24
join
}
"""


def items_alone(rows):
    """`diff` and `frame --script` read the items of a schedule, as those of a script."""
    steps = HEAD.replace("schedule", "begin")
    files = {"a.plan": NOW, "s.plan": HEAD + LOW, "b.plan": steps}
    for line in ("diff a.plan {}", "diff {} a.plan", "frame {} --script --count 4", "frame {} --script --count 4 --raw"):
        wanted = rows.run(line.format("b.plan"), files)
        rows.tally.same(f"{line} of steps", 0, wanted.status)
        found = rows.run(line.format("s.plan"), files)
        rows.tally.same(f"{line} of a schedule", (0, wanted.printed), (found.status, found.printed))
    rows.answers("diff s.plan a.plan", 1, "", files | {"s.plan": HEAD + "drop"}, messages="s.plan:7:1: Expected\n")


def refused(rows, text, printed):
    """A schedule is refused with this line, and no file is made."""
    ended = rows.run("compile x.plan x.code --quiet", {"x.plan": text})
    found = (ended.status, ended.printed.decode(), rows.made("x.code"))
    rows.tally.same(text[len(HEAD) - 1:], (1, f"{printed}\n", None), found)


def refusals(rows):
    """The first fault of the first combination of overlays; pages; sizes and costs."""
    first = "overlay a while contact 3 closed { sub 2 at 96 eep 3-A 64 ; service C222 ; audio 63 sub 2 in C222 }\n"
    second = "overlay b while contact 4 closed { sub 3 at 100 eep 3-A 64 ; service C223 ; audio 63 sub 3 in C223 }\n"
    orphan = "overlay a while contact 3 closed {\n  drop sub 1\n"
    six = "".join(f"overlay o{at} while contact {at} closed {{ sub {at + 2} at {96 + 24 * at} eep 3-A 32\n"
                  f"service C2{at + 30} audio 63 sub {at + 2} in C2{at + 30} }}\n" for at in range(6))
    for text, printed in (
            (orphan + "}", "refused line 7: Config Orphan"),
            (orphan + "  drop sub 2\n}", "refused line 9: Edit IdAbsent"),
            (first + second, "refused line 8: Config Overlap 2 3"),
            (first.replace("contact 3 closed", "time 06:00:00 to 09:00:01")
             + second.replace("contact 4 closed", "time 09:00:00 to 12:00:00"), "refused line 8: Config Overlap 2 3"),
            (first + first.replace("overlay a", "overlay b").replace("contact 3", "contact 4"), "refused line 8: Edit IdUsed"),
            (orphan + "}\noverlay b while contact 4 closed { drop sub 7 }", "refused line 7: Config Orphan"),
            (six, "refused: Limit")):
        refused(rows, HEAD + text, printed)
    refused(rows, HEAD.replace("budget 100", "budget 2") + LOW, "refused line 6: Cost")
    apart = first + second.replace("contact 4 closed", "contact 4 closed and contact 3 open")
    plays(rows, HEAD + apart, ["3 closed at 1"], [(1, 27)])
    hours = (first.replace("contact 3 closed", "time 06:00:00 to 09:00:00")
             + second.replace("contact 4 closed", "time 09:00:00 to 12:00:00"))
    plays(rows, HEAD + hours, [], [], "--day 0")


def hints(rows):
    """The condition with which an overlay excludes another one, if the schedule compiles with it."""
    first = "overlay a while {} {{ sub 2 at 96 eep 3-A 64 ; service C222 ; audio 63 sub 2 in C222 }}\n"
    second = "overlay b while {} {{ sub 3 at 100 eep 3-A 64 ; service C223 ; audio 63 sub 3 in C223 }}\n"
    for one, other, condition in (
            ("contact 3 closed", "contact 4 closed", "contact 4 closed and contact 3 open"),
            ("time 06:00:00 to 09:00:01", "time 09:00:00 to 12:00:00", "time 09:00:00 to 12:00:00 and time 09:00:01 to 06:00:00"),
            ("contact 3 open and contact 5 closed", "contact 4 closed",
             "contact 4 closed and contact 3 closed or contact 4 closed and contact 5 open"),
            ("contact 3 closed", "contact 4 closed or contact 5 open",
             "contact 4 closed and contact 3 open or contact 5 open and contact 3 open")):
        text = HEAD + first.format(one) + second.format(other)
        rows.answers("compile x.plan x.code --explain", 1, "refused line 8: Config Overlap 2 3\nx.plan:8: with a and b: Config Overlap 2 3\n"
                     f"hint: overlay b while {condition}\n", {"x.plan": text})
        lines = text.splitlines()
        corrected = lines[:7] + [f"overlay b while {condition}" + lines[7][lines[7].index(" {"):]]
        made = rows.run("compile x.plan x.code --quiet", {"x.plan": "\n".join(corrected)})
        rows.tally.same(condition, 0, made.status)
    either = first.format("contact 3 closed or contact 5 closed") + second.format("contact 4 closed")
    rows.answers("compile x.plan x.code --explain", 1, "refused line 8: Config Overlap 2 3\nx.plan:8: with a and b: Config Overlap 2 3\n",
                 {"x.plan": HEAD + either})


def texts(rows):
    """Texts with a fault, each at its position."""
    tests = " and ".join(["contact 1 closed"] * 32)
    for text, printed in (
            ("overlay low while contact 3 closed { wait 5 }", "7:38: Expected"),
            ("overlay low while 22:00:00 to 06:00:00 { }", "7:19: Expected"),
            ("overlay Low", "7:9: Expected"), ("overlay while", "7:9: Expected"), ("overlay night {", "7:15: Expected"),
            (LOW + "overlay low", "8:9: NameUsed"), ("overlay low while time 22:00 to 06:00:00 { }", "7:24: Number"),
            ("overlay low while contact 16 closed { }", "7:27: Number"),
            ("overlay low while contact 3 closed and { }", "7:40: Expected"), ("begin", "7:1: Expected"),
            (f"overlay low while {tests} and contact 1 closed {{ }}", f"7:{24 + len(tests)}: Limit"),
            (f"overlay low while {tests} and {{ }}", f"7:{24 + len(tests)}: Expected"),
            ("".join(f"overlay o{at} while contact 1 closed {{ }}\n" for at in range(64)) + "overlay", "71:1: Limit")):
        refused(rows, HEAD + text, printed)
    refused(rows, HEAD.replace("schedule", "define x { }\nschedule"), "7:1: Expected")
    for word in ("schedule", "overlay", "while", "and"):
        refused(rows, HEAD.replace("schedule", f"define {word} {{ }}"), "6:8: Expected")


if __name__ == "__main__":
    rows.main((nothing_to_do, contacts, conditions, windows, region, taken_over, items_alone, refusals, hints, texts))
