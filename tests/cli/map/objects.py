#!/usr/bin/env python3
"""'dabplan map --json': rows, warnings, layouts and refusals as objects, which say what the text says. The last line is
'N passed, M failed'."""
import json
import re

import common
import rows
from mapped import PARTS, WAYS
from rows import RATES

HIGH, LOW = "sub 1 at 0 size 96 eep 3-A", "sub 1 at 0 size 72 eep 3-A"
SERVICE = "service C221 audio 63 sub 1"
FIELDS = ["kind", "line", "block", "lead", "free", "dropped", "added", "layout", "parts"]
HEAD = "ensemble E1C5\nperiod 4 notice 24 budget 20\n"


def sub(number, start, size, protection, kbits):
    """A sub-channel of a layout."""
    return {"sub": number, "start": start, "size": size, "protection": protection, "kbits": kbits}


def objects(rows, line, script, status=0):
    """The objects that a command line prints, one a line, without a blank outside of strings."""
    ended = rows.run(line, {"x.plan": script})
    rows.tally.same(f"dabplan {line}", status, ended.status)
    lines = ended.printed.decode().splitlines()
    found = [json.loads(each) for each in lines]
    rows.tally.same("written without blanks", lines, [json.dumps(each, separators=(",", ":")) for each in found])
    return found


def each_byte(rows):
    """The objects of a plan with two rates, as they are printed."""
    rows.answers("map x.plan --json", 0, "".join(line + "\n" for line in (
        '{"kind":"begin","line":6,"block":null,"lead":null,"free":768,"dropped":[],"added":[],'
        f'"layout":[{{"sub":1,"start":0,"size":96,"protection":"3-A","kbits":128}}],"parts":["{HIGH}","{SERVICE}"]}}',
        '{"kind":"commit","line":10,"block":null,"lead":"contact 3 closed","free":792,'
        f'"dropped":["{HIGH}"],"added":["{LOW}"],'
        f'"layout":[{{"sub":1,"start":0,"size":72,"protection":"3-A","kbits":96}}],"parts":["{LOW}","{SERVICE}"]}}',
        '{"kind":"commit","line":14,"block":null,"lead":"contact 3 open","free":768,'
        f'"dropped":["{LOW}"],"added":["{HIGH}"],'
        f'"layout":[{{"sub":1,"start":0,"size":96,"protection":"3-A","kbits":128}}],"parts":["{HIGH}","{SERVICE}"]}}')),
        {"x.plan": RATES})
    rows.answers("map x.plan --json", 0, '{"kind":"begin","line":1,"block":null,"lead":null,"free":864,'
                 '"dropped":[],"added":[],"layout":[],"parts":[]}\n',
                 {"x.plan": "ensemble E1C5 period 4 notice 24 budget 20 begin"})


def blocks_and_places(rows):
    """Names of blocks, what leads to a row, and sub-channels in the order of their capacity units."""
    found = objects(rows, "map x.plan --json", WAYS)
    rows.tally.same("blocks and leads", [
        ("begin", 11, None, None), ("commit", 10, "lower", "begin"), ("commit", 10, "lower", "join"),
        ("commit", 13, None, "contact 3 closed"), ("commit", 13, None, "join"), ("commit", 10, "lower", None),
        ("commit", 10, "lower", "join")], [tuple(row[name] for name in FIELDS[:4]) for row in found])
    rows.tally.same("the one that moved", (sub(63, 860, 4, "4-A", 8), sub(63, 24, 4, "4-A", 8)),
                    (found[2]["layout"][2], found[3]["layout"][2]))
    name = "a" * 32
    script = (f"{HEAD}sub 3 at 300 eep 3-A 24\n"
              f"define {name} {{ sub 9 at 0 eep 1-B 32; commit in 24; join }}\nbegin\napply {name}\n")
    found = objects(rows, "map x.plan --json --quiet", script)
    rows.tally.same("a long name", name, found[1]["block"])
    rows.tally.same("in the order of places", [sub(9, 0, 27, "1-B", 32), sub(3, 300, 18, "3-A", 24)],
                    found[1]["layout"])
    subs = "".join(f"sub {(number * 37) % 64} at {13 * number} eep 3-A 16\n" for number in range(64))
    script = f"ensemble E1C5\nperiod 60 notice 248 budget 255\n{subs}begin\n"
    rows.tally.same("64 places", [sub(number * 37 % 64, 13 * number, 12, "3-A", 16) for number in range(64)],
                    objects(rows, "map x.plan --json --quiet", script)[0]["layout"])


def as_text(row):
    """The lines of a row as text, without its cells, and with what is left out and new in alphabetical order."""
    words = f"{row['kind']} {row['line']}" + (f" in {row['block']}" if row["block"] else "")
    words += f" ({row['lead']})" if row["lead"] else ""
    changes = [f"  - {part}" for part in row["dropped"]] + [f"  + {part}" for part in row["added"]]
    return [f"{words}: free {row['free']}", *sorted(changes)]


def text_rows(printed):
    """The rows of a map that is printed as text, as `as_text` has them."""
    found = []
    for line in printed.decode().splitlines():
        if line.startswith(("begin ", "commit ")):
            found.append([line])
        elif not re.match("    0 |  432 ", line):
            found[-1].append(line)
    return [[each[0], *sorted(each[1:])] for each in found]


def subs_of(parts):
    """The sub-channels among texts of parts, by their first capacity units, without rates."""
    found = [re.fullmatch(r"sub (\d+) at (\d+) size (\d+) eep (.*)", part) for part in parts]
    return sorted((int(each[2]), int(each[1]), int(each[3]), each[4]) for each in found if each)


def agrees(rows, name, found):
    """Counts that the changes of each row lead from the parts of the row above to its own, and that its layout has the
    sub-channels among these."""
    parts = set(found[0]["parts"])
    for number, row in enumerate(found):
        parts = parts - set(row["dropped"]) | set(row["added"])
        layout = [(each["start"], each["sub"], each["size"], each["protection"]) for each in row["layout"]]
        rows.tally.same(f"fields of {name} {number}", FIELDS, list(row))
        rows.tally.same(f"parts of {name} {number}", sorted(parts), sorted(row["parts"]))
        rows.tally.same(f"layout of {name} {number}", subs_of(row["parts"]), layout)
        rows.tally.same(f"free units of {name} {number}", 864 - sum(size for _, _, size, _ in layout), row["free"])


def same_as_text(rows):
    """The objects of plans say what their text says."""
    scripts = {path.name: path.read_text(encoding="utf-8") for path in sorted(common.EXAMPLES.glob("*.plan"))}
    rows.tally.hold(len(scripts) >= 5, f"shipped plans: {sorted(scripts)}")
    for name, script in {"RATES": RATES, "WAYS": WAYS, "PARTS": PARTS, **scripts}.items():
        ended = rows.run("map x.plan --quiet", {"x.plan": script})
        found = objects(rows, "map x.plan --quiet --json", script)
        rows.tally.same(f"the text of {name}", text_rows(ended.printed), [as_text(row) for row in found])
        agrees(rows, name, found)


def warnings(rows):
    """Warnings are objects behind the rows, and not on standard error; --quiet leaves them out."""
    script = HEAD + "sub 3 at 300 eep 3-A 32\nbegin\nuntil 22:00:00\n"
    wanted = [{"kind": "warning", "line": 4, "warning": "no component names sub 3"},
              {"kind": "warning", "line": 5, "warning": "the plan begins with 'until 22:00:00': started at any time, "
               "it stays in the configuration of 'begin' until then"}]
    found = objects(rows, "map x.plan --json", script)
    rows.tally.same("warnings", ["begin"] + wanted, [found[0]["kind"], *found[1:]])
    rows.tally.same("nothing else", b"", rows.run("map x.plan --json", {"x.plan": script}).messages)
    rows.tally.same("quiet", 1, len(objects(rows, "map x.plan --json --quiet", script)))
    # of a layout they stay on standard error
    printed = '{"kind":"layout","layout":[{"sub":3,"start":300,"size":24,"protection":"3-A","kbits":32}]}\n'
    lines = [f"x.plan:{each['line']}: warning: {each['warning']}\n" for each in wanted]
    rows.answers("map x.plan --json --layout", 0, printed, {"x.plan": script}, messages="".join(lines))


def layouts(rows):
    """The one layout as an object, or the two sub-channels that are against it."""
    head = HEAD + "sub 5 at 96 eep 4-A 64\nsub 7 at 400 eep 3-B 32\nbegin\n"
    later = "drop sub 5\nsub 63 at 128 eep 2-A 8\ncommit in 24\njoin\n"
    script = head + "drop sub 7\nsub 1 at 0 eep 3-A 128\ncommit in 24\njoin\n" + later
    layout = [sub(1, 0, 96, "3-A", 128), sub(5, 96, 32, "4-A", 64), sub(63, 128, 8, "2-A", 8),
              sub(7, 400, 18, "3-B", 32)]
    rows.tally.same("a layout", [{"kind": "layout", "layout": layout}],
                    objects(rows, "map x.plan --layout --json --quiet", script))
    rows.tally.same("nothing", [{"kind": "layout", "layout": []}],
                    objects(rows, "map x.plan --json --layout", HEAD + "begin"))
    refused = {"kind": "refused", "cause": "no one layout"}
    pair = {"first": sub(1, 0, 96, "3-A", 128), "second": sub(1, 0, 72, "3-A", 96)}
    rows.tally.same("two rates", [refused | pair], objects(rows, "map x.plan --json --layout", RATES, 1))
    pair = {"first": sub(5, 96, 32, "4-A", 64), "second": sub(6, 127, 4, "4-A", 8)}
    rows.tally.same("shared units", [refused | pair],
                    objects(rows, "map x.plan --json --layout --quiet",
                            head + "drop sub 5\ndrop sub 7\nsub 6 at 127 eep 4-A 8\ncommit in 24\n", 1))


def refusals(rows):
    """Refused scripts and failures as objects; what is wrong with a script is on standard error."""
    pending = RATES.replace("join\n", "", 1)
    for line, script, cause in (
        ("map x.plan --json", "ensemble e1c5", "1:10: Number"),
        ("map x.plan --json --layout", pending, "refused line 12: Pending"),
        ("map y.plan --json", RATES, "cannot read y.plan"),
        ("map x.plan --json --svg y/x.svg", RATES, "cannot write y/x.svg"),
        ('map a"b.plan --json', RATES, 'cannot read a\\"b.plan'),
    ):
        rows.answers(line, 1, f'{{"kind":"refused","cause":"{cause}"}}\n', {"x.plan": script})
    text, found = (rows.run(f"map x.plan {option}", {"x.plan": pending}).messages for option in ("", "--json"))
    rows.tally.same("explained alike", (True, text), (b"error: " in text, found))
    rows.tally.same("quiet", b"", rows.run("map x.plan --json --quiet", {"x.plan": pending}).messages)
    rows.answers("map x.plan --json --json", 2, "error: the argument '--json' cannot be used multiple times\n",
                 {"x.plan": RATES})


def with_a_drawing(rows):
    """The drawing is that of the map as text."""
    rows.run("map x.plan --svg x.svg", {"x.plan": WAYS})
    drawing = rows.made("x.svg")
    found = objects(rows, "map x.plan --json --svg x.svg", WAYS)
    rows.tally.same("rows and a drawing", (7, True, True), (len(found), bool(drawing), rows.made("x.svg") == drawing))


if __name__ == "__main__":
    rows.main([each_byte, blocks_and_places, same_as_text, warnings, layouts, refusals, with_a_drawing])
