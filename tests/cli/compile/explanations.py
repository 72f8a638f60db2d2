#!/usr/bin/env python3
"""'--explain' of 'compile' and 'verify': each fault and each cause once. The last line is 'N passed, M failed'."""
import pathlib

import rows
from codes import AT_64, PROGRAMME, code
from rows import NOTHING_FILE, RATES_FILE, REFUSED_FILE, hexadecimal

EXAMPLES = pathlib.Path(__file__).resolve().parents[3] / "examples"

HEAD = """\
ensemble E1C5
period 4 notice 240 budget 20
sub 1 at 0 eep 3-A 128
service C221
audio 63 sub 1 in C221
"""

# A line of the text, and the caret under a column of it.
EID = "an EId: four digits 0-9 A-F, in capitals and without 0x"
ORDER = "hint: the header's order: 'ensemble', 'mode', which may be left out, 'period', 'notice', 'budget'"
SID = "an SId: four or eight digits 0-9 A-F, in capitals and without 0x"


def explained(rows, script, first, *rest):
    """Counts that a script is refused with this line, and explained with these; and that without `--explain` only the
    first line is printed."""
    text = "".join(f"{line}\n" for line in rest)
    rows.answers("compile x.plan x.code --explain", 1, f"{first}\n{text}", {"x.plan": script})
    rows.answers("compile x.plan x.code", 1, f"{first}\n", {"x.plan": script})


def after(statements, head=HEAD):
    """A script with these statements after `begin`, which is in line 6."""
    return f"{head}begin\n{statements}\n"


def faults(rows):
    """Texts that are not scripts: the position, what is valid there, and what may have been meant."""
    for script, first, *rest in (
        ("ensemble 0xE1C5\n", "1:10: Number", f"x.plan:1:10: expected {EID}; found '0xE1C5'",
         "    ensemble 0xE1C5", "             ^", "hint: write 'E1C5'"),
        (f"{HEAD}service c222\n", "6:9: Number", f"x.plan:6:9: expected {SID}; found 'c222'",
         "    service c222", "            ^", "hint: write 'C222'"),
        (HEAD.replace("3-A", "3-a"), "3:16: Number",
         "x.plan:3:16: expected a protection profile, 1-A to 4-A or 1-B to 4-B; found '3-a'",
         "    sub 1 at 0 eep 3-a 128", "                   ^", "hint: write '3-A'"),
        (after("until 06:00"), "7:7: Number",
         "x.plan:7:7: expected a time HH:MM:SS, 00:00:00 to 23:59:59; found '06:00'",
         "    until 06:00", "          ^", "hint: write '06:00:00'; then it is accepted"),
        (after("rate sub 01 96"), "7:10: Number", "x.plan:7:10: expected a SubChId, 0 to 63; found '01'",
         "    rate sub 01 96", "             ^", "hint: write '1'; then it is accepted"),
        (after("wait 70000"), "7:6: Number", "x.plan:7:6: expected a number of frames, 1 to 65535, 'contact' or 'until'; found '70000'",
         "    wait 70000", "         ^",
         "hint: write 'repeat 2 { wait 35000 }' in place of 'wait 70000' in line 7; then it is accepted"),
        ("ensemble E1C5\nnotice 240 period 4 budget 20\nbegin\n", "2:1: Expected",
         "x.plan:2:1: expected 'mode' or 'period'; found 'notice'", "    notice 240 period 4 budget 20", "    ^", ORDER),
        ("ensemble E1C5\nperiod 4 mode 1 notice 240 budget 20\nbegin\n", "2:10: Expected",
         "x.plan:2:10: expected 'notice'; found 'mode'", "    period 4 mode 1 notice 240 budget 20", "             ^", ORDER),
        ("mode 1 ensemble E1C5\nperiod 4 notice 240 budget 20\nbegin\n", "1:1: Expected",
         "x.plan:1:1: expected 'ensemble'; found 'mode'", "    mode 1 ensemble E1C5", "    ^", ORDER),
        (f"{HEAD}budget 20\nbegin\n", "6:1: Expected",
         "x.plan:6:1: expected 'sub', 'service', 'audio', 'data', 'carry', 'packet', 'define' or 'begin'; found 'budget'",
         "    budget 20", "    ^"),
        (after("comit in 250"), "7:1: Expected", "x.plan:7:1: expected a statement or the end of the script; found 'comit'",
         "    comit in 250", "    ^", "hint: write 'commit'"),
        (after("forever {\n  wait 5"), "9:1: Expected",
         "x.plan:9:1: expected a statement or '}'; the script ends here", "    forever {", "            ^",
         "hint: the brace opened in line 7 is not closed"),
        (after("forever {\n  if contact 3 {\n    wait 5\n  wait 6\n}"), "12:1: Expected",
         "x.plan:12:1: expected a statement, 'else' or '}'; the script ends here", "    forever {", "            ^",
         "hint: the brace opened in line 7 is not closed; by its indentation, the block of line 8 ends before line 10"),
        (after("wait contact 5 on"), "7:16: Expected",
         "x.plan:7:16: expected 'closed' or 'open'; found 'on'", "    wait contact 5 on", "                   ^",
         "hint: write 'closed' where the input's circuit is closed, 'open' where it is not"),
        (f"{HEAD}service E20\n", "6:9: Number", f"x.plan:6:9: expected {SID}; found 'E20'",
         "    service E20", "            ^"),
        (after("wait 5, 6"), "7:7: Byte", "x.plan:7:7: the byte 2C is not allowed in a script outside comments",
         "    wait 5, 6", "          ^",
         "hint: letters, digits, '_', ':', '-', '{', '}', blanks and ';' are allowed there; '#' begins a comment"),
        (after("wait 5, 6\r\nwait 7\r"), "7:7: Byte", "x.plan:7:7: the byte 2C is not allowed in a script outside comments",
         "    wait 5, 6", "          ^",
         "hint: letters, digits, '_', ':', '-', '{', '}', blanks and ';' are allowed there; '#' begins a comment"),
        (after(" " * 300 + "wait 5, 6" + " " * 300), "7:307: Byte",
         "x.plan:7:307: the byte 2C is not allowed in a script outside comments",
         "    " + " " * 74 + "wait 5, 6" + " " * 77, "    " + " " * 80 + "^",
         "hint: letters, digits, '_', ':', '-', '{', '}', blanks and ';' are allowed there; '#' begins a comment"),
        (after("apply night"), "7:7: NameUnknown", "x.plan:7:7: 'night' is not the name of a block that is defined before",
         "    apply night", "          ^",
         "hint: 'define' the block above the line that applies it; a block does not apply itself"),
        (f"{HEAD}define night {{ wait 1 }}\nbegin\napply nigth\n", "8:7: NameUnknown",
         "x.plan:8:7: 'nigth' is not the name of a block that is defined before", "    apply nigth", "          ^",
         "hint: write 'night'; then it is accepted"),
        (HEAD.replace("notice 240", "240") + "begin\n", "2:10: Expected", "x.plan:2:10: expected 'notice'; found '240'",
         "    period 4 240 budget 20", "             ^", "hint: put 'notice' before '240' in line 2; then it is accepted"),
        (after("wait contact 5\nwait 1"), "8:1: Expected",
         "x.plan:8:1: expected 'closed' or 'open' to go on from line 7; found 'wait'", "    wait 1", "    ^"),
        (f"{HEAD}define a {{ wait 1 }}\ndefine a {{ wait 2 }}\nbegin\n", "7:8: NameUsed",
         "x.plan:7:8: 'a' is the name of a block that is defined before", "    define a { wait 2 }", "           ^",
         "hint: give one of both another name"),
        (after("if contact 1 " + "{ repeat 2 " * 16 + "{ }"), "7:190: Depth",
         "x.plan:7:190: '{' would be more than 16 braces deep",
         "    " + ("if contact 1 " + "{ repeat 2 " * 16 + "{ }")[109:], "    " + " " * 80 + "^",
         "hint: put an inner block into a 'define' and 'apply' it"),
        (after("apply " + "a" * 33), "7:7: Limit", "x.plan:7:7: a token of 33 bytes; the longest has 32",
         "    apply " + "a" * 33, "          ^"),
    ):
        explained(rows, script, first, *rest)


def meant(rows):
    """Common mistakes, of which it is said what was meant."""
    frames = "a number of frames, 1 to 65535, 'contact' or 'until'"
    for script, first, *rest in (
        (f"ensemble E1C5 mode 1\nperiod 4 notice 240 budget 20\nbegin\n", "1:20: Number",
         "x.plan:1:20: expected a transmission mode, 2 to 4; found '1': mode I is the default", "    ensemble E1C5 mode 1",
         "                       ^", "hint: leave out 'mode 1' in line 1; then it is accepted"),
        (after("wait 3s"), "7:6: Number",
         f"x.plan:7:6: expected {frames}; found '3s': a frame is 24 ms, so 3 s are 125 frames", "    wait 3s", "         ^",
         "hint: write '125'; then it is accepted"),
        (after("rate sub 1 96\ncommit in 6s"), "8:11: Number",
         "x.plan:8:11: expected a number of frames, 1 to 60000; found '6s': a frame is 24 ms, so 6 s are 250 frames",
         "    commit in 6s", "              ^", "hint: write '250'; then it is accepted"),
        (after("rate sub 1 96\ncommit at 22:00:00"), "8:11: Number",
         "x.plan:8:11: expected a CIF count, 0 to 65535; found '22:00:00': a commit is at a CIF count, and 'until' waits for a"
         " time of day", "    commit at 22:00:00", "              ^",
         "hint: write 'until 22:00:00 early 250; commit in 250' in place of 'commit at 22:00:00' in line 8; then it is accepted"),
        (after("wait until 06:00:00"), "8:1: Expected",
         "x.plan:8:1: expected 'or' or 'early' to go on from line 7; the script ends here", "    wait until 06:00:00", "               ^",
         "hint: write 'until 06:00:00' in place of 'wait until 06:00:00' in line 7; then it is accepted"),
        (after("wait until 06:00:00 early 250\nwait 1"), "8:1: Expected",
         "x.plan:8:1: expected 'or' to go on from line 7; found 'wait'", "    wait 1", "    ^",
         "hint: write 'until 06:00:00 early 250' in place of 'wait until 06:00:00 early 250' in line 7; then it is accepted"),
        (after("wait 5 or x"), "7:11: Expected", "x.plan:7:11: expected 'contact' or 'until'; found 'x'",
         "    wait 5 or x", "              ^"),
        (after("if time 22:00:00 { }"), "7:18: Expected", "x.plan:7:18: expected 'to'; found '{'",
         "    if time 22:00:00 { }", "                     ^"),
        (after("until 22:00:00 early 0"), "7:22: Number",
         "x.plan:7:22: expected a number of frames, 1 to 65535; found '0'", "    until 22:00:00 early 0", "                         ^"),
        (after("if x"), "7:4: Expected", "x.plan:7:4: expected 'contact' or 'time'; found 'x'", "    if x", "       ^"),
        (after("rate sub 1 96\ncommit 250"), "8:8: Expected", "x.plan:8:8: expected 'at' or 'in'; found '250'",
         "    commit 250", "           ^", "hint: put 'in' before '250' in line 8; then it is accepted"),
        (after("rate sub 1 to 96"), "7:12: Number", "x.plan:7:12: expected a rate in kbit/s, 0 to 65535; found 'to'",
         "    rate sub 1 to 96", "               ^", "hint: leave out 'to' in line 7; then it is accepted"),
        (after("rate sub 1 96kbps"), "7:12: Number", "x.plan:7:12: expected a rate in kbit/s, 0 to 65535; found '96kbps'",
         "    rate sub 1 96kbps", "               ^", "hint: write '96'; then it is accepted"),
        (f"{HEAD}sub 2 at 96 uep 3 64\nbegin\n", "6:13: Expected",
         "x.plan:6:13: expected 'eep'; found 'uep': plans have equal error protection only", "    sub 2 at 96 uep 3 64",
         "                ^", "hint: write 'eep'"),
        ("\ufeff" + after("wait 1"), "1:1: Byte", "x.plan:1:1: a byte-order mark of UTF-8 stands before the text",
         "hint: leave it out; then it is accepted"),
        (f"{HEAD}packet 3 groups type 5 sub 9 address 7\nbegin\n", "refused line 7: Config Orphan",
         "x.plan:7: packet 3 groups type 5 sub 9 address 7 names sub 9, which is not there",
         "hint: leave out 'packet 3 groups type 5 sub 9 address 7' in line 6; then it is accepted"),
        (HEAD.replace("service C221\naudio 63 sub 1 in C221\n", "audio 63 sub 1 in C221\nservice C221\n") + "begin\n",
         "refused line 4: Edit IdAbsent", "x.plan:4: service C221 is not there; it comes in line 5",
         "hint: move line 4 behind line 5; then it is accepted"),
    ):
        explained(rows, script, first, *rest)


def meant_elsewhere(rows):
    """Words that mean something elsewhere: what is meant by them here."""
    frames = "a number of frames, 1 to 65535, 'contact' or 'until'"
    statement = "a statement or the end of the script"
    joined = ": the alternatives of a wait are joined by 'or'"
    for statements, first, sentence, shown, caret, hint in (
        ("wait contact 3 closed and until 22:00:00", "7:23: Expected", f"expected {statement}; found 'and'{joined}", None, 22,
         "write 'or'; then it is accepted"),
        ("wait 10 s", "7:9: Expected", f"expected {statement}; found 's': a frame is 24 ms, so 10 s are 417 frames", None, 8,
         "write '417' in place of '10 s' in line 7; then it is accepted"),
        ("loop {\nwait 5\n}", "7:1: Expected", f"expected {statement}; found 'loop'", "loop {", 0, "write 'forever'; then it is accepted"),
        ("loop 3 {\nwait 5\n}", "7:1: Expected", f"expected {statement}; found 'loop'", "loop 3 {", 0, "write 'repeat'; then it is accepted"),
        ("wait 450000", "7:6: Number", f"expected {frames}; found '450000'", None, 5,
         "write 'repeat 8 { wait 56250 }' in place of 'wait 450000' in line 7; then it is accepted"),
        ("wait 00:10:00", "7:6: Number", f"expected {frames}; found '00:10:00': a frame is 24 ms, so 00:10:00 is 25000 frames;"
         " 'until' waits for a time of day", None, 5, "write '25000'; then it is accepted"),
        ("wait 22:00:00", "7:6: Number", f"expected {frames}; found '22:00:00': a frame is 24 ms, so 22:00:00 is 3300000 frames;"
         " 'until' waits for a time of day", None, 5, "write 'until 22:00:00' in place of 'wait 22:00:00' in line 7; then it is accepted"),
        ("wait contact 3 open or 22:00:00", "7:24: Number", f"expected {frames}; found '22:00:00': a frame is 24 ms, so 22:00:00 is 3300000"
         " frames; 'until' waits for a time of day", None, 23, "put 'until' before '22:00:00' in line 7; then it is accepted"),
        ("if contact 3 closed {\nwait 5\n}", "7:14: Expected", "expected '{'; found 'closed'", "if contact 3 closed {", 13,
         "leave out 'closed' in line 7; then it is accepted"),
        ("if contact 3 open {\nwait 5\n}", "7:14: Expected", "expected '{'; found 'open'", "if contact 3 open {", 13,
         "write '{ } else {' in place of 'open {' in line 7; then it is accepted"),
        ("repeat 2 to { if time 22:00:00 to 06:00:00 { wait 1 } }", "7:10: Expected", "expected '{'; found 'to'", None, 9,
         "leave out 'to' at 7:10"),
        ("rate sub 1 96\ncommit in 6 s", "8:13: Expected", f"expected {statement}; found 's': a frame is 24 ms, so 6 s are 250 frames",
         "commit in 6 s", 12, "write '250' in place of '6 s' in line 8; then it is accepted"),
    ):
        explained(rows, after(statements), first, f"x.plan:{first.rpartition(':')[0]}: {sentence}", f"    {shown or statements}",
                  f"    {' ' * caret}^", f"hint: {hint}")
    for script, first, *rest in (
        (HEAD + "forever {\nwait 5\n}\n", "6:1: Expected",
         "x.plan:6:1: expected 'sub', 'service', 'audio', 'data', 'carry', 'packet', 'define' or 'begin'; found 'forever'",
         "    forever {", "    ^", "hint: put 'begin' before line 6; then it is accepted"),
        (HEAD.replace("1 at", "1 At") + "begin\n", "3:7: Expected", "x.plan:3:7: expected 'at'; found 'At'",
         "    sub 1 At 0 eep 3-A 128", "          ^", "hint: write 'at'; then it is accepted"),
        (HEAD + "sub 2 at 96 eep 3-A 64\nservice C222\naudio 63 sub 2 in C222\nbegin\nmove sub 2 to 200\ncommit in 250\n", "10:12: Expected",
         "x.plan:10:12: expected 'at'; found 'to'", "    move sub 2 to 200", "               ^", "hint: write 'at'; then it is accepted"),
        (HEAD.replace("in C221", "to C221") + "begin\n", "5:16: Expected", "x.plan:5:16: expected 'in'; found 'to'",
         "    audio 63 sub 1 to C221", "                   ^", "hint: write 'in'; then it is accepted"),
        (after("wait\u00a05"), "7:5: Byte", "x.plan:7:5: a no-break space (U+00A0) is not allowed in a script outside comments",
         "    wait??5", "        ^", "hint: write a blank in its place; then it is accepted"),
        (HEAD.replace("3-A", "3\u2013A") + "begin\n", "3:17: Byte", "x.plan:3:17: an en dash (U+2013) is not allowed in a script outside comments",
         "    sub 1 at 0 eep 3???A 128", "                    ^", "hint: write '-' in its place; then it is accepted"),
        (after("wait 5\u200b"), "7:7: Byte", "x.plan:7:7: a zero-width space (U+200B) is not allowed in a script outside comments",
         "    wait 5???", "          ^", "hint: leave it out; then it is accepted"),
        (after("wait \u00e4"), "7:6: Byte", "x.plan:7:6: the character U+00E4 is not allowed in a script outside comments",
         "    wait ??", "         ^",
         "hint: letters, digits, '_', ':', '-', '{', '}', blanks and ';' are allowed there; '#' begins a comment"),
        (after("rate\rsub 1 100"), "refused line 7: Edit BadRate",
         "x.plan:7: a rate of 100 kbit/s is no multiple of 8, as those of the profile are",
         "hint: write 'rate sub 1 96' in place of 'rate\\x0Dsub 1 100' in line 7; then it is accepted"),
    ):
        explained(rows, script, first, *rest)


def edits(rows):
    """Edits that are refused."""
    components = "".join(f"sub {i} at {90 + 6 * i} eep 3-A 8\n" for i in range(2, 14))
    components += "".join(f"data 5 sub {i} in C221\n" for i in range(2, 14))
    subs = "".join(f"sub {i} at {4 * i} eep 4-A 8\n" for i in range(64))
    services = subs + "".join(f"service D{i:03X}\naudio 63 sub {i} in D{i:03X}\n" for i in range(63))
    for script, first, *rest in (
        (after("sub 1 at 200 eep 3-A 64"), "refused line 7: Edit IdUsed",
         "x.plan:7: sub 1 at 0 eep 3-A 128 is there already; line 3 added it",
         "hint: put 'drop sub 1' before line 7; then it is accepted"),
        (after("drop component sub 1 in C221\ndrop sub 1\nrate sub 1 96"), "refused line 9: Edit IdAbsent",
         "x.plan:9: sub 1 is not there; line 8 dropped it"),
        (after("rate sub 2 96"), "refused line 7: Edit IdAbsent",
         "x.plan:7: sub 2 is not there; the sub-channels there are 1",
         "hint: write 'rate sub 1 96' in place of 'rate sub 2 96' in line 7; then it is accepted"),
        (after("drop component sub 1 in C221\ndrop component sub 1 in C221"), "refused line 8: Edit IdAbsent",
         "x.plan:8: service C221 (no component) has no component on sub 1; line 7 dropped it",
         "hint: leave out 'drop component sub 1 in C221' in line 8; then it is accepted"),
        (after("drop component sub 2 in C221"), "refused line 7: Edit IdAbsent",
         "x.plan:7: service C221 (audio 63 sub 1) has no component on sub 2",
         "hint: leave out 'drop component sub 2 in C221' in line 7; then it is accepted"),
        (after("drop service C222"), "refused line 7: Edit IdAbsent",
         "x.plan:7: service C222 is not there; the services there are C221",
         "hint: leave out 'drop service C222' in line 7; then it is accepted"),
        (after("drop component sub 1 in C222"), "refused line 7: Edit IdAbsent",
         "x.plan:7: service C222 is not there; the services there are C221",
         "hint: leave out 'drop component sub 1 in C222' in line 7; then it is accepted"),
        (after("data 5 sub 1 in C222"), "refused line 7: Edit IdAbsent",
         "x.plan:7: service C222 is not there; the services there are C221",
         "hint: put 'service C222' before line 7; then it is accepted"),
        (after("move sub 1 at 800"), "refused line 7: Edit PastEnd",
         "x.plan:7: sub 1 at 800 eep 3-A 128 has 96 CU, so CU 800 to 895; the last one is 863",
         "hint: write 'move sub 1 at 768' in place of 'move sub 1 at 800' in line 7; then it is accepted"),
        (after("rate sub 1 100"), "refused line 7: Edit BadRate",
         "x.plan:7: a rate of 100 kbit/s is no multiple of 8, as those of the profile are",
         "hint: write 'rate sub 1 96' in place of 'rate sub 1 100' in line 7; then it is accepted"),
        (after("rate sub 1 0"), "refused line 7: Edit BadRate",
         "x.plan:7: a rate of 0 kbit/s has no size", "hint: 'drop sub' takes a sub-channel away"),
        (after("rate sub 1 2000"), "refused line 7: Edit BadRate",
         "x.plan:7: 2000 kbit/s at 3-A would take 1500 CU; a multiplex has 864",
         "hint: write 'rate sub 1 1152' in place of 'rate sub 1 2000' in line 7; then it is accepted"),
        (after("packet 7 groups type 60 sub 1 address 0"), "refused line 7: Edit BadAddress",
         "x.plan:7: 0 is no packet address", "hint: packet addresses are 1 to 1023"),
        (f"{HEAD}{components}begin\n", "refused line 29: Edit TooManyComponents",
         "x.plan:29: service C221 has 12 components; one with such an SId has 12 at most",
         "hint: put some of them into another service"),
        (f"{HEAD[:44]}{services}service E001\naudio 63 sub 63 in E001\nservice E002\nbegin\n", "refused line 195: Edit TableFull",
         "x.plan:195: there are 64 services, the most of a configuration", "hint: 'drop' one first"),
    ):
        explained(rows, script, first, *rest)


def configurations(rows):
    """Configurations that are not sound."""
    packets = "packet 7 groups type 60 sub 1 address 9\npacket 8 raw type 60 sub 1 address 9\n"
    for script, first, *rest in (
        (after("sub 2 at 90 eep 3-A 64\nservice C222\naudio 63 sub 2 in C222\ncommit in 250"),
         "refused line 10: Config Overlap 1 2",
         "x.plan:10: sub 1 at 0 eep 3-A 128 has CU 0 to 95, sub 2 at 90 eep 3-A 64 has CU 90 to 137: they share CU 90 to 95",
         "hint: write 'sub 2 at 96 eep 3-A 64' in place of 'sub 2 at 90 eep 3-A 64' in line 7; then it is accepted"),
        (after("sub 2 at 96 eep 3-A 64\nservice C222\naudio 63 sub 2 in C222\nmove sub 2 at 90\ncommit in 250"),
         "refused line 11: Config Overlap 1 2",
         "x.plan:11: sub 1 at 0 eep 3-A 128 has CU 0 to 95, sub 2 at 90 eep 3-A 64 has CU 90 to 137: they share CU 90 to 95;"
         " line 10 changed sub 2",
         "hint: put 'move sub 2 at 96' before line 11; then it is accepted"),
        (after("sub 2 at 96 eep 3-A 64\nsub 3 at 144 eep 3-A 64\nrate sub 2 128\ncommit in 250"),
         "refused line 10: Config Overlap 2 3",
         "x.plan:10: sub 2 at 96 eep 3-A 128 has CU 96 to 191, sub 3 at 144 eep 3-A 64 has CU 144 to 191: they share CU 144 to"
         " 191; line 9 changed sub 2",
         "hint: write 'sub 3 at 192 eep 3-A 64' in place of 'sub 3 at 144 eep 3-A 64' in line 8; then it is accepted"),
        (after("sub 2 at 96 eep 3-A 64\nif contact 1 {\nmove sub 2 at 90\n} else {\nmove sub 2 at 90\n}\ncommit in 250"),
         "refused line 13: Config Overlap 1 2",
         "x.plan:13: sub 1 at 0 eep 3-A 128 has CU 0 to 95, sub 2 at 90 eep 3-A 64 has CU 90 to 137: they share CU 90 to 95;"
         " line 11 changes sub 2",
         "hint: put 'move sub 2 at 96' before line 13; then it is accepted"),
        (after("drop sub 1\ncommit in 250"), "refused line 8: Config Orphan",
         "x.plan:8: service C221 has a component on sub 1, which is not there; line 7 dropped it",
         "hint: put 'drop service C221' before line 8; then it is accepted"),
        (after("sub 2 at 96 eep 3-A 8\ndata 5 sub 2 in C221\ndrop sub 1\ncommit in 250"), "refused line 10: Config Orphan",
         "x.plan:10: service C221 has a component on sub 1, which is not there; line 9 dropped it",
         "hint: put 'drop component sub 1 in C221' before line 10; then it is accepted"),
        (after(f"{packets}commit in 250"), "refused line 9: Config AddressUsed",
         "x.plan:9: packet 7 groups type 60 sub 1 address 9 and packet 8 raw type 60 sub 1 address 9 have one address on one"
         " sub-channel",
         "hint: write 'packet 8 raw type 60 sub 1 address 1' in place of 'packet 8 raw type 60 sub 1 address 9' in line 8;"
         " then it is accepted"),
        (after("service C222\ncommit in 250"), "refused line 8: Config EmptyService",
         "x.plan:8: service C222 has no component", "hint: 'drop service C222', or add a component"),
        (f"{HEAD}service C222\nbegin\n", "refused line 7: Config EmptyService",
         "x.plan:7: service C222 has no component", "hint: leave out 'service C222' in line 6; then it is accepted"),
    ):
        explained(rows, script, first, *rest)


def swaps(rows):
    """Commits and waits that are refused."""
    for script, first, *rest in (
        (after("rate sub 1 96\ncommit in 250\nrate sub 1 128"), "refused line 9: Pending",
         "x.plan:9: a swap is pending that comes after 250 to 253 frames, by the commit in line 8; until then the next"
         " configuration stays as it is",
         "hint: put 'join' before line 9; then it is accepted"),
        (after("rate sub 1 96; commit in 250; rate sub 1 128"), "refused line 7: Pending",
         "x.plan:7: a swap is pending that comes after 250 to 253 frames, by the commit in line 7; until then the next"
         " configuration stays as it is",
         "hint: put 'join' before 'rate sub 1 128' in line 7; then it is accepted"),
        (after("rate sub 1 96\ncommit in 250\nwait contact 3 closed\nrate sub 1 128"), "refused line 10: Pending",
         "x.plan:10: a swap may be pending, that comes after 252 frames at most, by the commit in line 8; until then the next"
         " configuration stays as it is",
         "hint: put 'settle' before line 10; then it is accepted"),
        (after("commit in 250"), "refused line 7: NoChange",
         "x.plan:7: nothing differs: the next configuration is the current one",
         "hint: leave out 'commit in 250' in line 7; then it is accepted"),
        (after("rate sub 1 96\ncommit in 100"), "refused line 8: Notice",
         "x.plan:8: the swap would come after 100 frames; the notice is 240 frames",
         "hint: write 'commit in 240' in place of 'commit in 100' in line 8; then it is accepted"),
        (after("rate sub 1 96\ncommit at 4001"), "refused line 8: Count",
         "x.plan:8: no swap falls on count 4001: in this mode swaps fall on the multiples of 4 from 0 to 4999",
         "hint: write 'commit at 4000' in place of 'commit at 4001' in line 8; then it is accepted"),
        (after("join"), "refused line 7: JoinIdle",
         "x.plan:7: no swap is pending here, so that there is none to wait for",
         "hint: leave out 'join' in line 7; then it is accepted"),
        (after("rate sub 1 96\ncommit in 250\nwait 251"), "refused line 9: SwapUncertain",
         "x.plan:9: after 251 frames the swap has come or not, as the count allows: it comes after 250 to 253 frames, by the"
         " commit in line 8",
         "hint: write 'wait 253' in place of 'wait 251' in line 9; then it is accepted"),
    ):
        explained(rows, script, first, *rest)


def ways(rows):
    """Paths that can't be merged, and unreachable statements."""
    for script, first, *rest in (
        (after("forever {\n  wait 100\n  rate sub 1 96\n  commit in 250\n  join\n}"), "refused line 7: Mismatch",
         "x.plan:7: the loop does not come back as it began: in the current configuration sub 1 at 0 eep 3-A 96 at its end,"
         " sub 1 at 0 eep 3-A 128 at its beginning",
         "hint: put 'rate sub 1 128; commit in 240; join' before line 12; then it is accepted"),
        (after("forever {\n  wait 100\n  rate sub 1 96\n  commit in 250\n}"), "refused line 7: Mismatch",
         "x.plan:7: the loop does not come back as it began: a swap is pending that comes after 250 to 253 frames at its end;"
         " no swap is pending at its beginning",
         "hint: put 'join; rate sub 1 128; commit in 240; join' before line 11; then it is accepted"),
        (after("if contact 3 {\n  rate sub 1 96\n}\nwait 5"), "refused line 7: Mismatch",
         "x.plan:7: the two paths through the 'if' differ: in the next configuration sub 1 at 0 eep 3-A 96 on one path, sub 1 at"
         " 0 eep 3-A 128 on the other",
         "hint: leave both ways through lines 7 to 9 with the same configurations, 'commit' and 'join' included"),
        (after("end\nwait 5"), "refused line 8: Table",
         "x.plan:8: it can't be reached: the statement in line 7 does not continue to it",
         "hint: leave out 'wait 5' in line 8; then it is accepted"),
    ):
        explained(rows, script, first, *rest)


def branches(rows):
    """Refusals behind an `if`: what is told was done on the path to the refused line, and not in the other branch."""
    pending = "rate sub 1 96\ncommit in 250\nif contact 3 {\n  join\n  rate sub 1 128\n  commit in 250\n"
    swap = "a swap is pending that comes after 250 to 253 frames, by the commit in line 8; until then the next configuration"
    two = f"{HEAD}sub 2 at 200 eep 3-A 64\n"
    for script, first, *rest in (
        (after(pending + "} else {\n  rate sub 1 80\n}"), "refused line 14: Pending",
         f"x.plan:14: {swap} stays as it is", "hint: put 'join' before line 14"),
        (after(pending + "  end\n}\nrate sub 1 80"), "refused line 15: Pending",
         f"x.plan:15: {swap} stays as it is", "hint: put 'join' before line 15; then it is accepted"),
        (after(pending + "  join\n  end\n}\nrate sub 1 80"), "refused line 16: Pending",
         f"x.plan:16: {swap} stays as it is", "hint: put 'join' before line 16; then it is accepted"),
        (after("if contact 3 {\n  rate sub 1 96\n  commit in 250\n} else {\n  rate sub 1 96\n  commit in 250\n}\nrate sub 1 80"),
         "refused line 14: Pending",
         "x.plan:14: a swap is pending that comes after 250 to 253 frames; until then the next configuration stays as it is",
         "hint: put 'join' before line 14; then it is accepted"),
        (after("if contact 3 {\n  sub 2 at 200 eep 3-A 64\n  drop sub 2\n} else {\n  drop sub 2\n}"),
         "refused line 11: Edit IdAbsent", "x.plan:11: sub 2 is not there; the sub-channels there are 1",
         "hint: leave out 'drop sub 2' in line 11; then it is accepted"),
        (after("if contact 3 {\n  drop sub 2\n  sub 2 at 200 eep 3-A 64\n} else {\n  sub 2 at 300 eep 3-A 64\n}", two),
         "refused line 12: Edit IdUsed",
         "x.plan:12: sub 2 at 200 eep 3-A 64 is there already; line 6 added it",
         "hint: put 'drop sub 2' before line 12"),
        (after("if contact 3 {\n  sub 2 at 200 eep 3-A 64\n  drop sub 2\n}\ndrop sub 2"), "refused line 11: Edit IdAbsent",
         "x.plan:11: sub 2 is not there; line 9 drops it",
         "hint: leave out 'drop sub 2' in line 11; then it is accepted"),
        (after("if contact 3 {\n  drop sub 2\n  sub 2 at 200 eep 3-A 64\n}\nsub 2 at 200 eep 3-A 64", two),
         "refused line 12: Edit IdUsed",
         "x.plan:12: sub 2 at 200 eep 3-A 64 is there already; line 10 adds it",
         "hint: leave out 'sub 2 at 200 eep 3-A 64' in line 12; then it is accepted"),
    ):
        explained(rows, script, first, *rest)


def loops(rows):
    """Loops that begin with a swap pending, and iterations without a wait."""
    entered = "rate sub 1 96\ncommit in 250\nforever {\n  wait 1\n"
    hint = "hint: put 'join' before line 9; then it is accepted"
    for script, first, *rest in (
        (after(entered + "}"), "refused line 9: Mismatch",
         "x.plan:9: the loop does not come back as it began: a swap is pending that comes after 249 to 252 frames at its end; a"
         " swap is pending that comes after 250 to 253 frames at its beginning", hint),
        (after(entered + "  join\n}"), "refused line 9: Mismatch",
         "x.plan:9: the loop does not come back as it began: no swap is pending at its end; a swap is pending that comes after"
         " 250 to 253 frames at its beginning", "hint: put 'join' before line 9"),
        (after(entered + "  settle\n}"), "refused line 9: Mismatch",
         "x.plan:9: the loop does not come back as it began: no swap is pending at its end; a swap is pending that comes after"
         " 250 to 253 frames at its beginning", hint),
        (after("rate sub 1 96\ncommit in 250\nforever {\n  join\n  rate sub 1 128\n  commit in 240\n  wait 1\n}"),
         "refused line 9: Mismatch",
         "x.plan:9: the loop does not come back as it began: a swap is pending that comes after 239 to 242 frames at its end; a"
         " swap is pending that comes after 250 to 253 frames at its beginning",
         "hint: put 'join' before line 9"),
        (after("repeat 2 {\n  move sub 1 at 200\n  move sub 1 at 0\n}"), "refused line 7: Cost",
         "x.plan:7: an iteration of the loop of lines 7 to 10 can run without a wait: that is refused, however few iterations it"
         " has", "hint: put 'wait 1' before line 10; then it is accepted"),
        (after("forever {\n  if contact 3 {\n    wait 1\n    wait 2\n  }\n}"), "refused line 7: Cost",
         "x.plan:7: the loop of lines 7 to 12 can repeat without a wait, so that its instructions in one frame have no bound",
         "hint: put 'wait 1' before line 12; then it is accepted"),
    ):
        explained(rows, script, first, *rest)


def costs(rows):
    """Budgets and periods that are too small."""
    moves = "".join(f"move sub 1 at {n}\n" for n in (10, 20, 30, 40, 50))
    many = "".join(f"sub {i} at {90 + 6 * i} eep 3-A 8\nservice C3{i:02X}\naudio 63 sub {i} in C3{i:02X}\n" for i in range(2, 30))
    long = after(f"wait 100\nrate sub 1 96\n{moves}commit in 250\njoin", HEAD.replace("budget 20", "budget 6"))
    for script, first, *rest in (
        (long, "refused line 8: Cost", "x.plan:8: the longest path runs 8 instructions in one frame, from line 8 to line 15; the budget is 6",
         "hint: write 'budget 8' in place of 'budget 6' in line 2; then it is accepted"),
        (after("forever {\n  if contact 3 { wait 1 }\n}"), "refused line 7: Cost",
         "x.plan:7: the loop of lines 7 to 9 can repeat without a wait, so that its instructions in one frame have no bound",
         "hint: put 'wait 1' before line 9; then it is accepted"),
        (after("".join(f"move sub 1 at {10 + n % 2}\n" for n in range(260))), "refused line 7: Cost",
         "x.plan:7: from line 7 on more than 255 instructions can run in one frame, which no budget allows; the budget is 20",
         "hint: a 'wait 1' among the statements from line 7 on"),
        (after("forever { repeat 2 {\n  move sub 1 at 10\n  move sub 1 at 0\n} wait 1 }"), "refused line 7: Cost",
         "x.plan:7: a loop that begins in line 7 can repeat without a wait, so that its instructions in one frame have no bound",
         "hint: a 'wait 1' on each path through the loops that begin in line 7"),
        (after("wait 1\n" + "move sub 1 at 10\nmove sub 1 at 0\n" * 9 + "if contact 3 {\nrate sub 1 96\nrate sub 1 128\n}\nwait 1"),
         "refused line 8: Cost",
         "x.plan:8: the longest path runs 22 instructions in one frame, from line 8 to line 30; the budget is 20",
         "hint: write 'budget 22' in place of 'budget 20' in line 2; then it is accepted"),
        (HEAD.replace("period 4", "period 1") + f"{many}begin\n", "refused line 90: Round",
         "x.plan:90: the configuration takes 4 pages, a frame each; the period is 1 frames",
         "hint: write 'period 4' in place of 'period 1' in line 2; then it is accepted"),
        (HEAD.replace("notice 240", "notice 12") + f"{many}begin\nrate sub 1 96\ncommit in 250", "refused line 92: Round",
         "x.plan:92: the current configuration takes 4 pages, a frame each, the next 4, and both together, in the notice, 8;"
         " the period is 4 frames and the notice 12",
         "hint: write 'period 8' in place of 'period 4' in line 2, and write 'notice 24' in place of 'notice 12' in line 2;"
         " then it is accepted"),
    ):
        explained(rows, script, first, *rest)


def further(rows):
    """Further faults of the header and of the items, each with its own line."""
    for script, first, *rest in (
        ("ensemble E1C5\nperiod 4 notice 240 budget 20\nsub 70 at 0 eep 3-A 128\nsub 2 at 1100 eep 3-A 64\nbegin\n", "3:5: Number",
         "x.plan:3:5: expected a SubChId, 0 to 63; found '70'", "    sub 70 at 0 eep 3-A 128", "        ^",
         "x.plan:4:10: expected a start address in capacity units, 0 to 863; found '1100'", "    sub 2 at 1100 eep 3-A 64", "             ^"),
        (f"{HEAD}sub 1 at 200 eep 3-A 64\nsub 3 at 300 eep 3-A 100\nservice C333\nbegin\n", "refused line 6: Edit IdUsed",
         "x.plan:6: sub 1 at 0 eep 3-A 128 is there already; line 3 added it",
         "hint: write 'sub 0 at 200 eep 3-A 64' in place of 'sub 1 at 200 eep 3-A 64' in line 6",
         "x.plan:7: a rate of 100 kbit/s is no multiple of 8, as those of the profile are", "x.plan:8: service C333 has no component"),
        (f"{HEAD}sub 2 at 90 eep 3-A 64\nsub 3 at 100 eep 3-A 64\naudio 63 sub 2 in C221\naudio 63 sub 3 in C221\naudio 63 sub 4 in C221\n"
         "begin\n", "refused line 11: Config Overlap 1 2",
         "x.plan:11: sub 1 at 0 eep 3-A 128 has CU 0 to 95, sub 2 at 90 eep 3-A 64 has CU 90 to 137: they share CU 90 to 95",
         "hint: sub 2 has room at 148",
         "x.plan:7: sub 2 at 90 eep 3-A 64 has CU 90 to 137, sub 3 at 100 eep 3-A 64 has CU 100 to 147: they share CU 100 to 137",
         "x.plan:10: service C221 has a component on sub 4, which is not there"),
    ):
        explained(rows, script, first, *rest)


def limits(rows):
    """Codes that would exceed a limit: which, its value, and the line that exceeds it."""
    moves = "".join(f"move sub 1 at {n}\ncommit in 250\njoin\nif contact 1 {{ }}\nwait 1\n" for n in range(1, 257))
    for script, *rest in (
        (after("wait 1\n" * 4097),
         "x.plan:4103: the code has 4096 instructions before this line is done, the most of a code: number 4097 would come here",
         "hint: 'repeat' in place of copies; each 'apply' adds the instructions of its block again"),
        (after("wait 1\n" * 4095 + "wait 1"),
         "x.plan:4102: the code has 4096 instructions before this line is done, the most of a code: number 4097 would come here",
         "hint: 'repeat' in place of copies; each 'apply' adds the instructions of its block again"),
        (after("if contact 1 { }\nwait 1\n" * 1024),
         "x.plan:2053: the code has 1024 labels before this line is done, the most of a code: number 1025 would come here",
         "hint: 'repeat' in place of copies; each 'if', 'repeat' and 'forever' has a label or two, again with each 'apply'"),
        (after(moves),
         "x.plan:1285: the code has 256 configurations at its labels before this line is done, the most of a code: number 257"
         " would come here",
         "hint: go back to earlier configurations, which count once; or fewer 'if', 'repeat' and 'forever' among the edits"),
        (after("repeat 2 { wait 1\n" * 9 + "} " * 9),
         "x.plan:15: this 'repeat' is inside 8 others, and a code has 8 counters, one for each",
         "hint: one 'repeat' in place of two, as 'repeat 6' for a 'repeat 3' in a 'repeat 2'"),
    ):
        explained(rows, script, "refused: Limit", *rest)


def without(name, line, count=1):
    """An example without its comments and without these lines, from the first line that begins with a text on."""
    lines = [text for text in (EXAMPLES / name).read_text(encoding="utf-8").splitlines() if not text.startswith("#")]
    at = next(number for number, text in enumerate(lines) if text.strip().startswith(line))
    return "\n".join(lines[:at] + lines[at + count:]) + "\n"


def first_mistakes(rows):
    """Plans of the examples with common first mistakes."""
    night = without("night_rate.plan", "begin", 0)
    busy = without("regional_opt_out.plan", "begin", 0).replace("budget 20", "budget 6")
    busy = busy.replace("  audio 63 sub 2 in C222\n",
                        "  audio 63 sub 2 in C222\n  sub 3 at 192 eep 3-A 32\n  data 5 sub 3 in C222\n  rate sub 1 96\n")
    busy = busy.replace("  drop sub 2\n", "  drop sub 2\n  drop sub 3\n  rate sub 1 128\n")
    for script, first, *rest in (
        (without("night_rate.plan", "join"), "refused line 12: Pending",
         "x.plan:12: a swap may be pending, that comes after 252 frames at most, by the commit in line 10; until then the next"
         " configuration stays as it is",
         "hint: put 'settle' before line 12; then it is accepted"),
        (without("part_time_service.plan", "drop service"), "refused line 15: Config Orphan",
         "x.plan:15: service C223 has a component on sub 2, which is not there; line 14 dropped it",
         "hint: put 'drop service C223' before line 15; then it is accepted"),
        (night.replace("period 4 notice 240", "notice 240 period 4"), "2:1: Expected",
         "x.plan:2:1: expected 'mode' or 'period'; found 'notice'", "    notice 240 period 4 budget 20", "    ^", ORDER),
        (night.replace("06:00:00 early 250", "06:00"), "12:9: Number",
         "x.plan:12:9: expected a time HH:MM:SS, 00:00:00 to 23:59:59; found '06:00'",
         "      until 06:00", "            ^", "hint: write '06:00:00'; then it is accepted"),
        (without("regional_opt_out.plan", "wait contact 3 open", 5), "refused line 7: Mismatch",
         "x.plan:7: the loop does not come back as it began: in the current configuration sub 2 at 96 eep 3-A 128 at its end,"
         " no sub 2 at its beginning",
         "hint: undo before line 14 what the loop did, then 'commit' and 'join'; or do it before line 7"),
        (busy, "refused line 9: Cost", "x.plan:9: the longest path runs 8 instructions in one frame, from line 9 to line 16; the budget is 6",
         "hint: write 'budget 8' in place of 'budget 6' in line 2; then it is accepted"),
    ):
        explained(rows, script, first, *rest)


def jumps_back():
    """Codes that jump back before the refused instruction: what was executed before is on some paths only."""
    there, hint = "sub 2 at 400 eep 3-A 64 is there already", "hint: 'drop' it first, or take another number"
    add, wide = "sub 2 at 400 eep 3-A 64", f"{PROGRAMME}, sub 2 at 400 eep 3-A 64"
    maybe = "a swap may be pending, that comes after 60 frames at most"
    stays = "until then the next configuration stays as it is"
    return (
        (code(f"{add}, test 3 6, drop sub 2, {add}, wait 1, jump 1, {add}, end",
              "0 of 0 0 cost 19, 1 of 0 1 cost 15, 6 of 0 1 cost 5", [PROGRAMME, wide]),
         "refused at 6 line 7: Edit IdUsed", f"x.code:7: {there}; line 4 adds it", hint),
        (code(f"{add}, set 0 3, wait 1, loop 0 2, {add}, end",
              "0 of 0 0 cost 19, 2 of 0 1 counters 01 cost 15", [PROGRAMME, wide]),
         "refused at 4 line 5: Edit IdUsed", f"x.code:5: {there}; line 1 adds it", hint),
        (code(f"set 0 3, wait 1, loop 0 1, {add}, {add}, end",
              "0 of 0 0 cost 19, 1 of 0 0 counters 01 cost 15", [PROGRAMME]),
         "refused at 4 line 5: Edit IdUsed", f"x.code:5: {there}; line 4 adds it", hint),
        (code("rate sub 1 64, commit in 24, test 3 11, settle, rate sub 1 128, commit in 24, join, rate sub 1 64, commit in 24, "
              "wait 1, jump 2, rate sub 1 32, end",
              "0 of 0 0 cost 19, 2 of 0 1 perhaps 60 cost 9, 11 of 0 1 perhaps 60 cost 3", [PROGRAMME, AT_64]),
         "refused at 11 line 12: Pending", f"x.code:12: {maybe}; {stays}", "hint: 'settle' before this line"),
    )


def codes(rows):
    """Codes that are refused: the line is the script's."""
    late = hexadecimal(RATES_FILE.replace("04 00 18  00 0B 06", "04 00 17  00 0B 06"))
    for code, first, *rest in (
        (hexadecimal(REFUSED_FILE), "refused at 0 line 1: JoinIdle",
         "x.code:1: no swap is pending here, so that there is none to wait for",
         "hint: leave it out, or 'commit' before it"),
        (late, "refused at 2 line 10: Notice", "x.code:10: the swap would come after 23 frames; the notice is 24 frames",
         "hint: 'commit in 24' or more"),
        (hexadecimal(RATES_FILE.replace("04 18 14", "04 18 02")), "refused at 3 line 11: Cost",
         "x.code:11: no more instructions may run in this frame before instruction 3, by the budget since the wait before; the"
         " budget is 2"),
        (hexadecimal(RATES_FILE.replace("00 0D 13 01 00 80", "00 0D 13 01 00 90")), "refused at 8 line 7: Mismatch",
         "x.code:7: at the label of instruction 0: what is known does not fit the label: in the current configuration sub 1 at 0"
         " eep 3-A 144 as it is known, sub 1 at 0 eep 3-A 128 as the label declares"),
        (hexadecimal(RATES_FILE.replace("21 00 00", "21 00 01")), "refused at 8 line 7: Target",
         "x.code:7: instruction 8 jumps to 1, which has no label"),
        (hexadecimal(RATES_FILE.replace("00 07 21 00 00", "00 07 01 00 01")), "refused at 8 line 7: FallsOff",
         "x.code:7: the last instruction, 8, continues to one that is not there"),
        (hexadecimal(RATES_FILE.replace("\n00 00 00 00 00", "\n00 01 00 00 00")), "refused at 0 line 8: Table",
         "x.code:8: instruction 0, where a code begins, has no label"),
        (b"DABP", "code: Truncated"),
        *jumps_back(),
    ):
        text = "".join(f"{line}\n" for line in rest)
        rows.answers("verify x.code --explain", 1, f"{first}\n{text}", {"x.code": code})
        rows.answers("verify x.code", 1, f"{first}\n", {"x.code": code})


def accepted(rows):
    """Accepted input prints the usual output."""
    rows.answers("compile x.plan x.code --explain", 0, "instructions 1 labels 1 configurations 1\n", {"x.plan": after("end")})
    rows.answers("verify x.code --explain", 0, "accepted\n", {"x.code": hexadecimal(NOTHING_FILE)})


if __name__ == "__main__":
    rows.main([faults, meant, meant_elsewhere, edits, configurations, swaps, ways, branches, loops, costs, further, limits, first_mistakes, codes, accepted])
