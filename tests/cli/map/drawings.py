#!/usr/bin/env python3
"""'dabplan map': the rows of plans as text and as drawings. The last line is 'N passed, M failed'."""
import re
import xml.etree.ElementTree as tree

import rows
from mapped import PARTS, WAYS
from rows import RATES

SVG = "{http://www.w3.org/2000/svg}"


def row(label, bar, free, *changes):
    """A row of a map: its heading, its two lines of cells, and what changes."""
    return "".join(line + "\n" for line in (f"{label}: free {free}", f"    0 {bar[:72]}", f"  432 {bar[72:]}",
                                            *(f"  {change}" for change in changes)))


def cells(*runs):
    """The cells of a bar, from pairs of a text and a number of cells; the rest is free."""
    text = "".join(text * count for text, count in runs)
    return text + "." * (144 - len(text))


def changed(before, after):
    """The lines of a part that changes."""
    return f"- {before}", f"+ {after}"


def rows_of_plans(rows):
    """The lines of a map: the opening, and each commit in the order of the text with its blocks."""
    high, low = cells((" 1", 8)), cells((" 1", 6))
    high_line, low_line = "sub 1 at 0 size 96 eep 3-A", "sub 1 at 0 size 72 eep 3-A"
    rows.answers("map x.plan", 0,
                 row("begin 6", high, 768) + row("commit 10 (contact 3 closed)", low, 792, *changed(high_line, low_line))
                 + row("commit 14 (contact 3 open)", high, 768, *changed(low_line, high_line)),
                 {"x.plan": RATES})
    full = " 2" + ".." * 70 + "63"
    short = " 1" + ".." * 70 + "63"
    moved = " 2" + ".." + "63" + ".." * 69
    two = ("sub 2 at 4 size 8 eep 4-A", "sub 2 at 4 size 4 eep 4-A")
    last = ("sub 63 at 860 size 4 eep 4-A", "sub 63 at 24 size 4 eep 4-A")
    rows.answers("map x.plan", 0,
                 row("begin 11", full, 848) + row("commit 10 in lower (begin)", short, 852, *changed(*two))
                 + row("commit 10 in lower (join)", full, 848, *changed(*two[::-1]))
                 + row("commit 13 (contact 3 closed)", moved, 848, *changed(*last))
                 + row("commit 13 (join)", full, 848, *changed(*last[::-1]))
                 + row("commit 10 in lower", short, 852, *changed(*two)) + row("commit 10 in lower (join)", full, 848, *changed(*two[::-1])),
                 {"x.plan": WAYS})
    rows.answers("map x.plan", 0, row("begin 1", cells(), 864),
                 {"x.plan": "ensemble E1C5 period 4 notice 24 budget 20 begin"})


def headings(rows, script):
    """The headings of the rows of a script's map, without the number of free units."""
    ended = rows.run("map x.plan --quiet", {"x.plan": script})
    return [line.rsplit(":", 1)[0] for line in ended.printed.decode().splitlines() if line.startswith(("begin ", "commit "))]


HEAD = "ensemble E1C5\nperiod 4 notice 24 budget 20\nsub 1 at 0 eep 3-A 128\nservice C221\naudio 63 sub 1 in C221\n"
LOW = "rate sub 1 96; commit in 24; join"
HIGH = "rate sub 1 128; commit in 24; join"


def blocks_by_place(rows):
    """A commit is in the block that has its statement, wherever the lines of the text begin."""
    text = HEAD + f"define low {{ {LOW} }} define high {{ {HIGH} }}\nbegin\napply low\napply high\n{LOW}\n"
    rows.tally.same("two blocks in one line",
                    ["begin 7", "commit 6 in low (begin)", "commit 6 in high (join)", "commit 10 (join)"], headings(rows, text))
    rows.tally.same("a script in one line",
                    ["begin 1", "commit 1 in low (begin)", "commit 1 in high (join)", "commit 1 (join)"],
                    headings(rows, text.replace("\n", " ")))
    text = HEAD + f"define low {{ {LOW} }} define both {{ apply low; if contact 1 {{ wait 5 }} {HIGH}; apply low; {HIGH} }} begin\n"
    text += f"{LOW}\nrepeat 2 {{ {HIGH}; apply both; {LOW} }}\n"
    rows.tally.same("a block in a block, and in braces",
                    ["begin 6", "commit 7 (begin)", "commit 8 (join)", "commit 6 in low (join)", "commit 6 in both",
                     "commit 6 in low (join)", "commit 6 in both (join)", "commit 8 (join)"], headings(rows, text))


def leads_of_paths(rows):
    """What leads to a commit, if that is the same on each path there."""
    for statements, lead in (
        ("if contact 3 { wait 5 } else { wait 9; end }", " (wait 5)"),
        ("if contact 3 { wait 9; end } else { wait 5 }", " (wait 5)"),
        ("if contact 3 { wait 9; end }", " (contact 3 open)"),
        ("if contact 3 { end } else { wait 65535 }", " (wait 65535)"),
        ("if contact 3 { } else { end }", " (contact 3 closed)"),
        ("if contact 3 { wait 5 } else { wait 5 }", " (wait 5)"),
        ("if contact 3 { wait 5 } else { wait 6 }", ""),
        ("if contact 3 { wait 5 }", ""),
        ("if contact 3 { }", ""),
        ("if contact 3 { until 22:00:00 } else { until 22:00:00 }", " (until 22:00:00)"),
        ("if contact 3 { until 22:00:00 } else { until 22:00:01 }", ""),
        ("if contact 3 { wait contact 4 open } else { wait contact 4 open }", " (contact 4 open)"),
        ("if contact 3 { wait contact 4 open } else { wait contact 4 closed }", ""),
        ("if contact 3 { wait contact 4 open } else { wait contact 5 open }", ""),
        ("if contact 3 { wait 5 } else { until 00:00:05 }", ""),
        ("if contact 3 { settle } else { settle }", " (settle)"),
        ("if contact 3 { if contact 4 { wait 5 } else { wait 5 } } else { wait 7; wait 5 }", " (wait 5)"),
        ("if contact 3 { if contact 4 { wait 5 } else { wait 6 } } else { wait 5 }", ""),
        ("if contact 3 { if contact 4 { wait 5 } else { forever { wait 1 } } } else { wait 5 }", " (wait 5)"),
        ("repeat 3 { wait 5 }", " (wait 5)"),
        ("wait contact 2 open or until 08:59:54", " (contact 2 open or until 08:59:54)"),
        ("wait contact 3 open or 750", " (contact 3 open or 750 frames)"),
        ("wait 5 or until 22:00:00 early 250 or contact 15 closed or contact 0 open or contact 0 closed",
         " (contact 0 closed or contact 0 open or contact 15 closed or until 21:59:54 or 5 frames)"),
        ("wait contact 2 open or contact 2 open", " (contact 2 open)"),
        ("until 22:00:00 early 250", " (until 21:59:54)"),
        ("if time 22:00:00 to 06:00:00 { } else { end }", " (time 22:00:00 to 06:00:00)"),
        ("if time 22:00:00 to 06:00:00 { end }", " (time 06:00:00 to 22:00:00)"),
        ("if time 22:00:00 to 22:00:00 { end }", " (any time)"),
        ("if time 22:00:00 to 06:00:00 { wait 5 or contact 1 open } else { wait contact 1 open or 5 }", " (contact 1 open or 5 frames)"),
        ("if contact 3 { wait 5 or contact 1 open } else { wait 5 or contact 1 closed }", ""),
        ("if contact 3 { wait 5 or contact 1 open } else { wait 6 or contact 1 open }", ""),
        ("if contact 3 { if time 22:00:00 to 06:00:00 { } else { end } } else { if time 22:00:00 to 06:00:01 { } else { end } }", ""),
    ):
        rows.tally.same(statements, ["begin 6", f"commit 8{lead}"], headings(rows, HEAD + f"begin\n{statements}\n{LOW}\n"))


def parts_are_marked(rows):
    """What changes from row to row, in the words of a script, and what leads there."""
    ended = rows.run("map x.plan", {"x.plan": PARTS})
    lines = [line for line in ended.printed.decode().splitlines() if not re.match("    0 |  432 ", line)]
    rows.tally.same("the parts", [
        "begin 10: free 732",
        "commit 13 (begin): free 732",
        "  - service C221 audio 63 sub 1", "  + service C221 data 5 sub 2",
        "commit 17 (settle): free 732",
        "  - packet 7 raw type 60 sub 2 address 9", "  + packet 7 groups type 59 sub 2 address 9",
        "commit 22 (wait 65535): free 732",
        "  + service C222 audio 0 sub 1",
        "commit 26 (until 23:59:59): free 732",
        "  - service C222 audio 0 sub 1",
        "commit 28 (contact 15 closed): free 732",
        "  - service C221 data 5 sub 2",
        "commit 28 (join): free 732",
        "  + service C221 data 5 sub 2",
        "commit 29 (contact 15 open): free 732",
        "  + service C222 audio 0 sub 1",
        "commit 29 (join): free 732",
        "  - service C222 audio 0 sub 1",
        "commit 32 (contact 0 open): free 828",
        "  - sub 1 at 0 size 96 eep 3-A",
        "commit 36: free 816",
        "  + sub 1 at 0 size 12 eep 1-A"], lines)
    rows.tally.hold(all(len(line) <= 80 for line in ended.printed.decode().splitlines()), "no line has more than 80 columns")


def unnamed(*subs):
    """The warnings about sub-channels without components, from pairs of a line and a SubChId."""
    return "".join(f"x.plan:{line}: warning: no component names sub {sub}\n" for line, sub in subs)


def layouts(rows):
    """The one layout of all configurations, or what is against it."""
    rows.answers("map x.plan --layout", 1, "no one layout: sub 1 at 0 size 96 eep 3-A and at 0 size 72 eep 3-A\n", {"x.plan": RATES})
    rows.answers("map x.plan --layout", 1, "no one layout: sub 2 at 4 size 8 eep 4-A and at 4 size 4 eep 4-A\n", {"x.plan": WAYS})
    rows.answers("map x.plan --layout", 0, "", {"x.plan": "ensemble E1C5 period 4 notice 24 budget 20 begin"})
    head = "ensemble E1C5\nperiod 4 notice 24 budget 20\nsub 5 at 96 eep 4-A 64\nsub 7 at 400 eep 3-B 32\nbegin\n"
    once = head + "drop sub 7\nsub 1 at 0 eep 3-A 128\ncommit in 24\njoin\ndrop sub 5\nsub 63 at 128 eep 2-A 8\ncommit in 24\njoin\n"
    lines = "sub 1 at 0 size 96 eep 3-A\nsub 5 at 96 size 32 eep 4-A\nsub 7 at 400 size 18 eep 3-B\nsub 63 at 128 size 8 eep 2-A\n"
    opening = ((5, 5), (5, 7))
    later = (*opening, (8, 1), (12, 63))
    rows.answers("map x.plan --layout", 0, lines, {"x.plan": once}, messages=unnamed(*later))
    again = once + "drop sub 1\nsub 7 at 400 eep 3-B 32\ncommit in 24\njoin\nsub 1 at 0 eep 3-A 128\ncommit in 24\n"
    rows.answers("map x.plan --layout", 0, lines, {"x.plan": again}, messages=unnamed(*later, (16, 7), (19, 1)))
    for edit, wanted in (
        ("sub 5 at 97 eep 4-A 64", "sub 5 at 96 size 32 eep 4-A and at 97 size 32 eep 4-A"),
        ("sub 5 at 96 eep 3-A 64", "sub 5 at 96 size 32 eep 4-A and at 96 size 48 eep 3-A"),
        ("sub 5 at 96 eep 2-A 32", "sub 5 at 96 size 32 eep 4-A and at 96 size 32 eep 2-A"),
        ("sub 6 at 127 eep 4-A 8", "sub 5 at 96 size 32 eep 4-A and sub 6 at 127 size 4 eep 4-A"),
        ("sub 4 at 417 eep 4-A 8", "sub 4 at 417 size 4 eep 4-A and sub 7 at 400 size 18 eep 3-B"),
    ):
        script = head + f"drop sub 5\ndrop sub 7\n{edit}\ncommit in 24\n"
        new = int(edit.split()[1])
        messages = unnamed(*opening, *(((9, new),) if new != 5 else ()))
        rows.answers("map x.plan --layout", 1, f"no one layout: {wanted}\n", {"x.plan": script}, messages=messages)
    for edit in ("sub 6 at 128 eep 4-A 8", "sub 6 at 92 eep 4-A 8", "sub 4 at 418 eep 4-A 8"):
        script = head + f"drop sub 5\ndrop sub 7\n{edit}\ncommit in 24\n"
        rows.tally.same(edit, 0, rows.run("map x.plan --layout", {"x.plan": script}).status)
    ended = rows.run("map x.plan --layout --svg x.svg", {"x.plan": once})
    rows.tally.same("a drawing too", (0, lines.encode(), True), (*ended.lines(), (rows.made("x.svg") or b"").startswith(b"<svg")))


def colours_of(drawing):
    """The colours of the sub-channels of a drawing, each with the numbers in its titles."""
    colours = {}
    for shape in drawing.iter(f"{SVG}rect"):
        title = shape.find(f"{SVG}title")
        found = title is not None and re.match(r"Sub-channel (\d+)", title.text)
        if found:
            colours.setdefault(found[1], set()).add(shape.get("fill"))
    return colours


def drawings(rows):
    """A drawing is a document of its own, in which a sub-channel has one colour, and no two have the same."""
    ended = rows.run("map x.plan --svg x.svg", {"x.plan": WAYS})
    rows.tally.same("the lines are printed too", 7 * 3 + 12, len(ended.printed.splitlines()))
    drawing = tree.fromstring(rows.made("x.svg") or b"<svg/>")
    titles = [title.text for title in drawing.iter(f"{SVG}title")]
    rows.tally.same("a title for all", "The multiplex of ensemble E1C5: 7 configurations", titles[0])
    rows.tally.same("a title for each row", 1, titles.count("begin, line 11: 848 CU free"))
    whole = "Sub-channel 2: CU 4 to 11, 16 kbit/s, 4-A, service C221"
    rows.tally.same("sub-channel 2, and where it is changed", (3, 2), (titles.count(whole), titles.count(f"{whole}, changed")))
    rows.tally.same("free units", True, "848 CU free: 12 to 859" in titles)
    colours = colours_of(drawing)
    rows.tally.same("one colour each", ["1", "2", "63"], sorted(colours))
    rows.tally.same("for all rows", [1, 1, 1], [len(of) for of in colours.values()])
    rows.tally.same("and no other's", 3, len(set().union(*colours.values())))


def moves_are_framed(rows):
    """A sub-channel that a service leaves, or comes to, is changed, and so is one that is new; another one is not."""
    rows.run("map x.plan --svg x.svg", {"x.plan": PARTS})
    found = []
    for group in tree.fromstring(rows.made("x.svg") or b"<svg/>").iter(f"{SVG}g"):
        title = group.find(f"{SVG}title")
        if title is not None and "CU free" in title.text:
            shapes = [(shape.find(f"{SVG}title").text, shape.get("stroke")) for shape in group.iter(f"{SVG}rect")]
            found.append("".join(text.split()[1].strip(":") for text, stroke in shapes
                                 if text.endswith(", changed") and stroke == "#b00000"))
    rows.tally.same("what is framed", ["", "12", "", "1", "1", "2", "2", "1", "1", "", "1"], found)


def colours_of_all(rows):
    """64 sub-channels have 64 colours."""
    script = "ensemble E1C5 period 60 notice 248 budget 255\n"
    script += "".join(f"sub {i} at {12 * i} eep 3-A 16\nservice D{i:03X}\naudio 63 sub {i} in D{i:03X}\n" for i in range(64))
    ended = rows.run("map x.plan --svg x.svg", {"x.plan": script + "begin\n"})
    bar = "".join(f"{i:2}" for i in range(64)) + "." * 16
    rows.tally.same("64 sub-channels", row("begin 194", bar, 96).encode(), ended.printed)
    colours = colours_of(tree.fromstring(rows.made("x.svg") or b"<svg/>"))
    rows.tally.same("64 colours", (64, 64), (len(colours), len(set().union(*colours.values()))))


def refused(rows):
    """Scripts that are refused, as `compile` does, and inaccessible files; no drawing is created."""
    pending = RATES.replace("join\n", "", 1)
    for line, script, wanted, *messages in (
        ("map x.plan --svg x.svg", "ensemble e1c5", "1:10: Number\n"),
        ("map x.plan --svg x.svg", pending, "refused line 12: Pending\n"),
        ("map y.plan --svg x.svg", RATES, "cannot read y.plan\n", "y.plan: error: No such file or directory\n"),
        ("map x.plan --svg y/x.svg", RATES, "cannot write y/x.svg\n"),
    ):
        rows.answers(line, 1, wanted, {"x.plan": script}, messages="".join(messages))
        rows.tally.same("no drawing is made", None, rows.made("x.svg"))


if __name__ == "__main__":
    rows.main([rows_of_plans, blocks_by_place, leads_of_paths, parts_are_marked, layouts, drawings, moves_are_framed, colours_of_all, refused])
