#!/usr/bin/env python3
"""The keywords of the grammar in docs/guide/SCRIPTS.md, as 'dabplan compile --explain' knows them: each is named where it is
expected, or else is one of the statements that are, and is suggested where two of its letters are exchanged. The last line is
'N passed, M failed'."""
import re

import common
import rows

# A text with every keyword of the grammar, in a place where it may stand.
TEXT = """\
ensemble E1C5 mode 3 period 8 notice 48 budget 20 reserve 1
sub 1 at 0 eep 3-A 128
service C221
audio 63 sub 1 in C221
data 5 sub 1 in C221
packet 3 groups type 5 sub 1 address 7
packet 4 raw type 5 sub 1 address 8
carry 3 in C221
define other { settle }
begin
drop component sub 1 in C221
move sub 1 at 10
rate sub 1 96
wait contact 3 closed
wait contact 3 open
until 06:00:00 early 5
wait contact 3 open or until 07:00:00
if time 06:00:00 to 07:00:00 { wait 1 }
commit in 60
join
if contact 3 { end } else { apply other }
repeat 2 { wait 1 }
forever { wait 1 }
"""

# The keywords that begin a statement and no item: 'a statement' stands for them.
STATEMENTS = ("drop", "move", "rate", "wait", "until", "commit", "join", "settle", "end", "if", "repeat", "forever", "apply")

# The keywords that may go on with a statement that could end there, too: what is expected is named without them.
GOING_ON = ("or", "early")

# The keywords of schedules: what is wrong with one is said without naming what is expected.
SCHEDULES = ("schedule", "overlay", "while", "and")


def keywords():
    """The keywords of the grammar of steps, in the order in which it names them."""
    text = (common.TOP / "docs/guide/SCRIPTS.md").read_text(encoding="utf-8")
    grammar = text.split("## Grammar\n")[1].split("\n| Value |")[0]
    return [word for word in dict.fromkeys(re.findall(r'"([a-z]+)"', grammar)) if word not in SCHEDULES]


def exchanged(word):
    """The word with its last two different letters that are next to each other exchanged; a letter put behind it if it is short."""
    if len(word) < 4:
        return word + "x"
    at = max(i for i in range(len(word) - 1) if word[i] != word[i + 1])
    return word[:at] + word[at + 1] + word[at] + word[at + 2:]


def each_keyword(rows):
    """Each keyword, at each of its places, is expected there; and suggested."""
    words = keywords()
    rows.tally.hold(len(words) == 43, f"43 keywords: {words}")
    for word in words:
        places = list(re.finditer(rf"\b{word}\b", TEXT))
        rows.tally.hold(len(places) > 0, f"the text has {word}")
        for place in places:
            wrong = exchanged(word)
            text = TEXT[:place.start()] + wrong + TEXT[place.end():]
            ended = rows.run("compile x.plan x.code --explain", {"x.plan": text})
            first, *rest = ended.printed.decode().splitlines()
            line = text.count("\n", 0, place.start()) + 1
            column = place.start() - (text.rfind("\n", 0, place.start()) + 1) + 1
            is_here = first in (f"{line}:{column}: Expected", f"{line}:{column}: Number")
            rows.tally.hold(ended.status == 1 and is_here, f"{wrong}, line {line}, column {column}: {ended.status} {first}")
            named = f"'{word}'" in rest[0] or (word in STATEMENTS + GOING_ON and "a statement" in rest[0])
            rows.tally.hold(named, f"{wrong}, line {line}: {rest[0]}")
            rows.tally.hold(any(f"write '{word}'" in each for each in rest), f"{wrong}, line {line}: {rest}")


if __name__ == "__main__":
    rows.main([each_keyword])
