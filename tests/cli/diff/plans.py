#!/usr/bin/env python3
"""'dabplan diff': the plan between two configurations, its order and its waits, and its refusals. Printed plans are compiled,
also at the limits. The last line is 'N passed, M failed'."""
import rows

HEADER = "ensemble E1C5\nperiod 4 notice 24 budget 20\n"
ONE = "sub 1 at 0 eep 3-A 128\nservice C221\naudio 63 sub 1 in C221\n"
WIDE = "ensemble E1C5 mode 3\nperiod 60 notice 248 budget {budget}\n"


def script(items, header=HEADER):
    return header + items + "begin\n"


def plan(items, edits, header=HEADER, notice=24):
    return header + items + "begin\n" + edits + f"commit in {notice}\njoin\n"


def plans(rows):
    """The edits of each kind, one after another."""
    packets = "sub 5 at 200 eep 3-A 64\npacket 1 groups type 60 sub 5 address 1\n"
    for old, new, edits in (
        (ONE, ONE.replace("128", "96"), "rate sub 1 96\n"),
        # A lower rate comes before the move; a higher one after it.
        (ONE, ONE.replace("at 0", "at 768").replace("128", "96"), "rate sub 1 96\nmove sub 1 at 768\n"),
        (ONE.replace("at 0", "at 768"), ONE.replace("128", "160"), "move sub 1 at 0\nrate sub 1 160\n"),
        # A change of profile removes the sub-channel and adds it again.
        (ONE, ONE.replace("3-A", "2-A"), "drop sub 1\nsub 1 at 0 eep 2-A 128\n"),
        # A component of another type is another one.
        (ONE, ONE.replace("audio 63", "audio 0"), "drop component sub 1 in C221\naudio 0 sub 1 in C221\n"),
        (ONE, ONE.replace("audio", "data"), "drop component sub 1 in C221\ndata 63 sub 1 in C221\n"),
        # A short SId is not the long one of its number.
        (ONE, ONE.replace("C221", "0000C221"), "drop service C221\nservice 0000C221\naudio 63 sub 1 in 0000C221\n"),
        # After the longest common prefix components are dropped, the last first, and added.
        ("sub 2 at 96 eep 3-A 64\nsub 3 at 144 eep 3-A 64\n" + ONE + "data 5 sub 2 in C221\ndata 5 sub 3 in C221\n",
         "sub 2 at 96 eep 3-A 64\nsub 3 at 144 eep 3-A 64\n" + ONE + "data 5 sub 3 in C221\n",
         "drop component sub 3 in C221\ndrop component sub 2 in C221\ndata 5 sub 3 in C221\n"),
        # The data group flag of a packet component.
        (ONE + packets + "carry 1 in C221\n", ONE + packets.replace("groups", "raw") + "carry 1 in C221\n",
         "drop packet 1\npacket 1 raw type 60 sub 5 address 1\n"),
        ("", ONE, "sub 1 at 0 eep 3-A 128\nservice C221\naudio 63 sub 1 in C221\n"),
        (ONE, "", "drop service C221\ndrop sub 1\n"),
    ):
        ordered = in_order(old)
        rows.answers("diff a.plan b.plan", 0, plan(ordered, edits), {"a.plan": script(old), "b.plan": script(new)})


def in_order(items):
    """Items by SubChId, then services with their components, then packet components."""
    lines = items.splitlines(keepends=True)
    subs = sorted((line for line in lines if line.startswith("sub ")), key=lambda line: int(line.split()[1]))
    packets = [line for line in lines if line.startswith("packet ")]
    return "".join(subs + [line for line in lines if not line.startswith(("sub ", "packet "))] + packets)


def paces(rows):
    """After each edit whose number is a multiple of one less than the budget comes 'wait 1'."""
    old = "".join(f"sub {n} at {6 * n} eep 3-A 8\n" for n in range(6))
    new = "".join(f"sub {n} at {6 * n} eep 3-A 8\n" for n in range(6, 8))
    edits = [f"drop sub {n}\n" for n in range(6)] + [f"sub {n} at {6 * n} eep 3-A 8\n" for n in (6, 7)]
    for budget in (2, 3, 4, 5, 8, 9, 10, 255):
        header = HEADER.replace("budget 20", f"budget {budget}")
        paced = "".join(edit + ("wait 1\n" if number % (budget - 1) == 0 else "") for number, edit in enumerate(edits, 1))
        rows.answers("diff a.plan b.plan", 0, plan(old, paced, header),
                     {"a.plan": script(old), "b.plan": script(new, header)})


def refusals(rows):
    """All faults of FROM, then those of TO, then those of the change between them."""
    good = script(ONE)
    other = script(ONE.replace("128", "96"))
    many = script("".join(f"sub {n} at {4 * n} eep 4-A 8\n" for n in range(64))
                  + "".join(f"service {n:04X}\naudio 63 sub {n} in {n:04X}\n" for n in range(64)),
                  "ensemble E1C5 period 1 notice 24 budget 20\n")
    for old, new, wanted in (
        (None, None, "cannot read a.plan\n"),
        ("ensemble", None, "a.plan:1:9: Expected\n"),
        (script("service C221\nservice C221\n"), None, "a.plan: refused line 4: Edit IdUsed\n"),
        (script("service C221\n"), None, "a.plan: refused line 4: Config EmptyService\n"),
        (many, None, "cannot read b.plan\n"),
        (good, "ensemble", "b.plan:1:9: Expected\n"),
        (good, script("service C221\n"), "b.plan: refused line 4: Config EmptyService\n"),
        (good, many, f"b.plan: refused line {many.count(chr(10))}: Round\n"),
        (good, other.replace("E1C5", "E1C6"), "refused: another ensemble\n"),
        (good, other.replace("E1C5", "E1C5 mode 2"), "refused: another ensemble\n"),
        (good, good.replace("budget 20", "budget 1"), "refused: NoChange\n"),
        (many.replace("period 1", "period 9"), other.replace("period 4", "period 1").replace("20", "1"), "refused: Round\n"),
        (many.replace("period 1", "period 9"), other.replace("period 4", "period 60").replace("24", "12"), "refused: Round\n"),
        (good, other.replace("budget 20", "budget 1"), "refused: Cost\n"),
    ):
        files = {name: text for name, text in (("a.plan", old), ("b.plan", new)) if text is not None}
        rows.refuses("diff a.plan b.plan", wanted, files)


def full(kind):
    """64 sub-channels, 64 services of 12 components each and 64 packet components, in two variants with the same identifiers
    only."""
    subs = "".join(f"sub {n} at {12 * n} eep {'34'[kind]}-A 16\n" for n in range(64))
    services = "".join(f"service {n:04X}\n" + "".join(f"audio {kind} sub {(n + k) % 64} in {n:04X}\n" for k in range(12))
                       for n in range(64))
    packets = "".join(f"packet {n} {('groups', 'raw')[kind]} type 60 sub {n} address {n + 1}\n" for n in range(64))
    return subs + services + packets


def many_components(order):
    """A service with 12 components in an order."""
    subs = "".join(f"sub {n} at {6 * n} eep 3-A 8\n" for n in range(12))
    return subs + "service C221\n" + "".join(f"data 5 sub {n} in C221\n" for n in order)


def limits(rows):
    """Pairs at the limits: printed plans are compiled."""
    profiles = [f"{level}-{letter}" for letter in "AB" for level in range(1, 5)]
    pairs = [
        (full(0), full(1), WIDE.format(budget=255)),
        (full(0), full(1), WIDE.format(budget=2)),
        ("", full(1), WIDE.format(budget=20)),
        (full(1), "", WIDE.format(budget=20)),
        # A full multiplex, and two sub-channels that are swapped.
        ("sub 1 at 0 eep 3-A 576\nsub 2 at 432 eep 3-A 576\n", "sub 1 at 432 eep 3-A 576\nsub 2 at 0 eep 3-A 576\n", HEADER),
        (many_components(range(12)), many_components(range(11, -1, -1)), HEADER),
    ]
    pairs += [(f"sub 1 at 0 eep {one} 64\n", f"sub 1 at 0 eep {two} 64\n", HEADER)
              for one in profiles for two in profiles if one != two]
    for old, new, header in pairs:
        files = {"a.plan": script(old, header), "b.plan": script(new, header)}
        ended = rows.run("diff a.plan b.plan", files)
        rows.tally.same("diff at a limit", (0, b""), (ended.lines()[0], ended.messages))
        made = rows.run("compile c.plan c.code --quiet", {"c.plan": ended.lines()[1]})
        rows.tally.same("compile of a plan at a limit", (0, b""), (made.lines()[0], made.messages))


def command_lines(rows):
    """Two scripts are required."""
    for line in ("diff", "diff a.plan", "diff a.plan b.plan c.plan", "diff --mode 1 a.plan b.plan"):
        rows.tally.same(line, 2, rows.run(line, {"a.plan": script(ONE)}).lines()[0])


if __name__ == "__main__":
    rows.main([plans, paces, refusals, limits, command_lines])
