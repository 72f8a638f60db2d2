#!/usr/bin/env python3
"""'dabplan compile' and 'verify': waits with alternatives, windows of the day, and moments that are early. The last line is 'N passed,
M failed'."""
import rows
from codes import AT_64, PROGRAMME, code
from rows import hexadecimal
from texts import HEAD, OPENED, compiled

# 64 kbit/s, announced; the same behind other statements.
LOWERED = OPENED + "rate sub 1 64\ncommit in 24\n"

# The opt-out of contact 5, at most from 06:00:00 to 08:59:59.
OPT_OUT = OPENED + """forever {
wait contact 5 closed
if time 06:00:00 to 08:59:59 {
rate sub 1 96
commit in 24
join
wait contact 5 open or until 08:59:59
rate sub 1 128
commit in 24
join
} else {
wait contact 5 open or until 06:00:00
}
}
"""


def line(instructions, labels=1, configurations=1):
    """The line for a code of these sizes."""
    return f"instructions {instructions} labels {labels} configurations {configurations}\n"


def waits(rows):
    """The bytes of waits: sets of contacts, a frame of the day, and frames."""
    file = hexadecimal("44 41 42 50 01 E1 C5 04 18 14 00 01 00 01 00 02 00 00 00 00 00 00 00 00 00 00 00 00 00 00 00 01"
                       "00 03 09 00 08 00 00 00 00 00 2A 02 EE 00 03 07")
    compiled(rows, HEAD + "begin\nwait contact 3 closed or until 00:00:01 or 750", file)
    last = "any 8000 0001 3599959 5"
    for words in ("wait 5 or contact 0 open or contact 15 closed or until 23:59:59",
                  "wait until 23:59:59 or contact 15 closed or 5 or contact 0 open"):
        compiled(rows, f"{HEAD}begin\n{words}", code(f"{last}, end", "0 cost 1", lines=[3, 3]))
    compiled(rows, HEAD + "begin\nwait contact 3 closed or contact 3 closed or contact 3 open",
             code("any 8 8 none 0, end", lines=[3, 3]))
    eight = " or ".join(f"contact {number} open" for number in range(8))
    compiled(rows, f"{HEAD}begin\nwait {eight}", code("any 0 FF none 0, end", lines=[3, 3]))
    compiled(rows, "ensemble E1C5 mode 3 period 4 notice 24 budget 20 reserve 1 begin wait 1 or contact 15 open",
             code("any 0 8000 none 1, end", mode=3, reserve=1, lines=[1, 1]))


def windows(rows):
    """The bytes of a window of the day, and its labels."""
    branches = "{\nwait 3\n} else {\nwait 2\n}\nwait 9\n"
    compiled(rows, HEAD + "begin\nif time 22:00:00 to 06:00:00 " + branches,
             code("window 3300000 900000 3, wait 3, jump 4, wait 2, wait 9, end", "0 cost 2, 3 cost 1, 4 cost 1",
                  lines=[3, 4, 3, 6, 8, 8]))
    compiled(rows, LOWERED + "wait contact 3 closed or until 22:00:00\nif time 22:00:00 to 06:00:00 { wait 1 }\nsettle\n",
             code("rate sub 1 64, commit in 24, any 8 0 3300000 0, window 3300000 900000 5, wait 1, settle, end",
                  "0 cost 3, 5 of 0 1 perhaps 26 cost 2", [PROGRAMME, AT_64], lines=[7, 8, 9, 10, 10, 11, 11]))
    rows.answers("compile x.plan x.code", 0, line(12, 3), {"x.plan": OPT_OUT})
    made = rows.made("x.code")
    rows.tally.same("its length and its wait", (154, True), (len(made), hexadecimal("00 0D 09 00 00 00 20 00 14 99 47 00 00") in made))


def moments(rows):
    """A moment that is early, modulo the day."""
    for words, frame in (("22:00:00 early 250", 3_299_750), ("00:00:00 early 1", 3_599_999), ("00:00:01 early 42", 0),
                         ("00:00:01 early 65535", 3_534_507)):
        compiled(rows, f"{HEAD}begin\nuntil {words}", code(f"until {frame}, end", lines=[3, 3]))
        compiled(rows, f"{HEAD}begin\nwait 1 or until {words}", code(f"any 0 0 {frame} 1, end", lines=[3, 3]))
    for words, place in (("early 0", "3:22: Number"), ("early 65536", "3:22: Number"), ("early", "3:21: Expected"), ("early x", "3:22: Number"),
                         ("early 1 early 2", "3:24: Expected")):
        rows.answers("compile x.plan x.code", 1, f"{place}\n", {"x.plan": f"{HEAD}begin\nuntil 22:00:00 {words}"})
    rows.answers("compile x.plan x.code", 1, "3:18: Expected\n", {"x.plan": f"{HEAD}begin\nif time 22:00:00 early 5 to 23:00:00 {{ }}"})


def judged(rows):
    """What a wait and a window leave of a pending swap, and which loops they may be in."""
    either = LOWERED + "wait contact 3 closed or 5\n"
    mode = "ensemble E1C5 mode 3 period 4 notice 24 budget 20 reserve 1\nsub 1 at 0 eep 3-A 128\nservice C221\naudio 63 sub 1 in C221\n" \
           "begin\nrate sub 1 64\ncommit in 24\nwait contact 3 closed or 5\n"
    for script, wanted in (
        (either + "wait 26\nrate sub 1 96", line(6)), (either + "wait 25\nrate sub 1 96", "refused line 11: Pending\n"),
        (either + "settle", line(5)), (either + "join", "refused line 10: JoinIdle\n"),
        (LOWERED + "wait contact 3 closed or 27\nrate sub 1 96", "refused line 10: Pending\n"),
        (LOWERED + "wait 1 or contact 3 closed\nwait 25\nwait 1 or contact 3 closed\nrate sub 1 96", line(7)),
        (LOWERED + "wait 1 or contact 3 closed\nwait 24\nwait 1 or contact 3 closed\nrate sub 1 96", "refused line 12: Pending\n"),
        (LOWERED + "forever { wait contact 3 closed or 5 }", "refused line 9: Mismatch\n"),
        (mode + "wait 23\nrate sub 1 96", line(6)), (mode + "wait 22\nrate sub 1 96", "refused line 10: Pending\n"),
        (HEAD + "begin\nforever { if time 01:00:00 to 02:00:00 { } }", "refused line 3: Cost\n"),
        (HEAD.replace("20", "4") + "begin\nrepeat 5 { if time 01:00:00 to 02:00:00 { } else { } wait 1 or contact 1 open }", line(6, 3)),
        (HEAD.replace("20", "3") + "begin\nrepeat 5 { if time 01:00:00 to 02:00:00 { } else { } wait 1 or contact 1 open }",
         "refused line 3: Cost\n"),
    ):
        rows.answers("compile x.plan x.code", 1 if wanted.startswith("refused") else 0, wanted, {"x.plan": script})


def faults(rows):
    """What is no wait with alternatives, no window, and no name of a block."""
    head = HEAD.strip() + " begin "
    eight = " or ".join(["contact 1 open"] * 8)
    for words, wanted in (
        ("wait until 22:00:00", "1:69: Expected"), ("wait until 22:00:00 wait 1", "1:70: Expected"),
        ("wait until 22:00:00 or until 23:00:00", "1:73: Expected"), ("wait 5 or 6", "1:60: Expected"),
        ("wait 5 or x", "1:60: Expected"), ("wait 5 or 0", "1:60: Expected"), ("wait contact 3 closed or x", "1:75: Number"),
        ("wait contact 3 closed or 0", "1:75: Number"), ("wait contact 3 closed or {", "1:75: Expected"),
        ("wait contact 3 closed or", "1:74: Expected"), ("wait or 5", "1:55: Number"), ("wait until 24:00:00", "1:61: Number"),
        ("if time 22:00:00 { }", "1:67: Expected"), ("if time 22:00:00 to 24:00:00 { }", "1:70: Number"),
        (f"wait {eight} or 5", f"1:{50 + len('wait ' + eight) + 1}: Expected"),
    ):
        rows.answers("compile x.plan x.code", 1, f"{wanted}\n", {"x.plan": head + words})
    for name in ("or", "time", "to", "early"):
        rows.answers("compile x.plan x.code", 1, "2:8: Expected\n", {"x.plan": f"{HEAD}define {name} {{ }}\nbegin"})


def codes(rows):
    """Codes that no script has, and the first fault of one that is wrong."""
    rows.answers("verify x.code", 0, "accepted\n", {"x.code": code("any 0 0 none 0, end")})
    good = code("any 8 1 42 750, end")
    rows.tally.same("its length", 48, len(good))
    for until, wanted in (("00 36 EE 7F", "accepted"), ("FF FF FF FF", "accepted"), ("00 36 EE 80", "code: Field 39"),
                          ("FF FF FF FE", "code: Field 39")):
        changed = good[:39] + hexadecimal(until) + good[43:]
        rows.answers("verify x.code", 0 if wanted == "accepted" else 1, f"{wanted}\n", {"x.code": changed})
        if wanted != "accepted":
            rows.answers("verify x.code", 1, f"{wanted}\n", {"x.code": changed[:43]})
    good = code("window 3300000 900000 1, end", "0 cost 2, 1 cost 1")
    rows.answers("verify x.code", 0, "accepted\n", {"x.code": good})
    for at in (48, 52):
        rows.answers("verify x.code", 1, f"code: Field {at}\n", {"x.code": good[:at] + hexadecimal("00 36 EE 80") + good[at + 4:]})
    for words, wanted in (("window 0 1 0", "Cost"), ("any 1 0 none 0", "FallsOff"), ("window 0 1 5, end", "Target")):
        ended = rows.run("verify x.code", {"x.code": code(words)})
        rows.tally.hold(ended.status == 1 and ended.printed.endswith(f": {wanted}\n".encode()), f"{words}: {ended.lines()}")


if __name__ == "__main__":
    rows.main([waits, windows, moments, judged, faults, codes])
