#!/usr/bin/env python3
"""'dabplan compile': the texts of scripts: each fault at its position, limits, and the code of each item and statement. The
last line is 'N passed, M failed'."""
import re

import rows
from codes import PROGRAMME, code
from texts import HEAD, OPENED, compiled

def faults(rows, head, table):
    """Texts after a head have these faults; an empty fault means no fault of a text."""
    for text, wanted in table:
        printed = rows.run("compile x.plan x.code", {"x.plan": head + text}).printed.decode().strip()
        found = printed if re.match(r"\d+:\d+: ", printed) else ""
        rows.tally.same(f"{head}{text[-60:]}", wanted, found)


def short_texts(rows):
    """Headers; the end of a text is just past its last byte."""
    faults(rows, "", (
        ("", "1:1: Expected"), ("@", "1:1: Byte"), ("ensemble e1c5", "1:10: Number"),
        ("ensemble E1C5 period 4 notice 11", "1:31: Number"), ("ensemble E1C5 period 4 notice 249", "1:31: Number"),
        ("ensemble E1C5 period 0", "1:22: Number"), ("ensemble E1C5 period 61", "1:22: Number"),
        ("ensemble E1C5 period 04", "1:22: Number"), ("ensemble E1C5 mode 5", "1:20: Number"),
        ("ensemble E1C5 mode 1", "1:20: Number"), ("ensemble E1C50", "1:10: Number"), ("ensemble", "1:9: Expected"),
        ("ensemble\n # a comment\n", "3:1: Expected"),
        ("abcdefghijklmnopqrstuvwxyzabcdefg", "1:1: Limit"), ("abcdefghijklmnopqrstuvwxyzabcdef", "1:1: Expected"),
    ))


def after_a_header(rows):
    """Names, times of the day, and texts that end too early."""
    faults(rows, HEAD, (
        ("", "2:1: Expected"), ("begin apply x", "2:13: NameUnknown"), ("begin until 24:00:00", "2:13: Number"),
        ("begin until 23:60:00", "2:13: Number"), ("define wait {", "2:8: Expected"),
        ("define mode { } begin", "2:8: Expected"), ("define settle { } begin", "2:8: Expected"),
        ("define schedule { } begin", "2:8: Expected"), ("define overlay { } begin", "2:8: Expected"),
        ("define while { } begin", "2:8: Expected"), ("define and { } begin", "2:8: Expected"),
        ("define overlays { } begin apply overlays", ""), ("define x { } schedule", "2:14: Expected"),
        ("define Night { } begin", "2:8: Expected"), ("define 1night { } begin", "2:8: Expected"),
        ("define x { apply x }", "2:18: NameUnknown"), ("define x { } define x {", "2:21: NameUsed"),
        ("begin apply forever", "2:13: Expected"), ("begin apply 7", "2:13: Expected"),
        ("begin wait", "2:11: Expected"), ("begin wait foo", "2:12: Number"),
        ("define abcdefghijklmnopqrstuvwxyz012345 { } begin apply abcdefghijklmnopqrstuvwxyz012345", ""),
        ("define abcdefghijklmnopqrstuvwxyz0123456 { } begin", "2:8: Limit"),
    ))


def in_statements_and_items(rows):
    """Numbers out of range, and invalid tokens. An invalid byte anywhere, except in a comment, takes precedence."""
    faults(rows, HEAD, (
        ("begin wait 0", "2:12: Number"), ("begin wait 65536", "2:12: Number"),
        ("begin wait contact 16 open", "2:20: Number"), ("begin wait contact 15 shut", "2:23: Expected"),
        ("begin repeat { }", "2:14: Expected"), ("begin repeat 0 { }", "2:14: Number"),
        ("begin commit in 60001", "2:17: Number"), ("begin commit at 65536", "2:17: Number"),
        ("begin commit 24", "2:14: Expected"), ("begin forever { wait 1", "2:23: Expected"),
        ("begin wait 1 }", "2:14: Expected"), ("sub at 0 eep 3-A 128", "2:5: Number"),
        ("sub 1 at 1024 eep 3-A 128", "2:10: Number"), ("sub 1 at 0 eep 5-A 128", "2:16: Number"),
        ("drop sub 1 begin", "2:1: Expected"),
        ("begin wait 0 @", "2:14: Byte"), ("begin wait 0 # @", "2:12: Number"),
    ))
    for text in ("wait, 1", "wait. 1", "wait\u00e9", "wait\0"):
        faults(rows, "", ((text, "1:5: Byte"),))
    faults(rows, HEAD, (("begin # \u00e9", ""), ("a;;b\t{\r\n# no {token}\n\n  c:d-e_F#", "2:1: Expected")))


def limits(rows):
    """The longest text, the last line, braces, blocks, and items and statements; and one more of each."""
    blocks = "".join(f"define {first}{second} {{ }}\n" for first in "abcdefgh" for second in "abcdefgh")
    most = "service C221\n" * 100 + "define x { wait 1 }\nbegin\n" + "join\n" * 8090
    whole = HEAD + "begin"
    faults(rows, "", (
        (whole.ljust(1_048_576), ""), (whole.ljust(1_048_577), "1:1: Limit"),
        (whole + "\n" * 65_533 + " end", ""), (whole + "\n" * 65_534 + " join", "65536:2: Limit"),
    ))
    rows.answers("compile x.plan x.code", 1, "refused line 65535: JoinIdle\n", {"x.plan": whole + "\n" * 65_533 + " join"})
    faults(rows, HEAD, (
        ("begin " + "forever {" * 16 + "wait 1" + "}" * 16, ""), ("begin " + "forever {" * 17, "2:159: Depth"),
        ("define x {" + "forever {" * 16, "2:154: Depth"), (blocks + "begin apply hh", ""), (blocks + "define ", "66:1: Limit"),
        (most + "forever { }", ""), (most + "forever { end", "8194:11: Limit"), (most + "join audio", "8194:6: Limit"),
        ("begin\n" + "join\n" * 8192 + "sound", "8195:1: Expected"), ("service C221\n" * 8193, "8194:1: Limit"),
    ))


def headers(rows):
    """The identifier, the mode, the period, the notice and the budget, at their limits, on lines of their own."""
    for text, wanted in (
        ("ensemble E1C5 period 1 notice 12 budget 1 begin", code("end", period=1, notice=12, budget=1)),
        ("ensemble E1C5 mode 2 period 1 notice 12 budget 1 begin", code("end", mode=2, period=1, notice=12, budget=1)),
        ("ensemble E1C5 mode 3\nperiod 60\nnotice 248 budget 255\n\nbegin",
         code("end", mode=3, period=60, notice=248, budget=255, lines=[5])),
        ("ensemble E1C5 mode 4 period 1 notice 12 budget 1 begin", code("end", mode=4, period=1, notice=12, budget=1)),
        ("ensemble 0A1F period 4 notice 24 budget 20 begin", code("end").replace(b"\xe1\xc5", b"\x0a\x1f")),
    ):
        compiled(rows, text, wanted)


def items(rows):
    """An opening with a member of each kind, at the limits of its fields."""
    opening = ("sub 0 at 0 eep 4-A 8, sub 5 at 768 eep 3-A 128, sub 6 at 4 eep 2-B 32, sub 9 at 96 eep 1-A 64, "
               "sub 63 at 200 eep 4-B 32, service 00C2, audio 0 sub 0 in 00C2, service C221, audio 63 sub 5 in C221, "
               "carry 4095 in C221, service 0000C221, carry 0 in 0000C221, service E1C20001, data 60 sub 6 in E1C20001, "
               "packet 0 groups type 0 sub 63 address 1, packet 4095 raw type 59 sub 9 address 1023")
    compiled(rows, HEAD + opening.replace(", ", "\n") + "\nbegin", code("end", configs=[opening], lines=[18]))


def edits(rows):
    """Each edit as a statement, in line 7."""
    for edit in (
        "sub 63 at 768 eep 3-A 128", "sub 2 at 96 eep 2-B 32", "service 00C2", "service 0000C221", "audio 0 sub 5 in C221",
        "data 60 sub 6 in C221", "carry 4095 in C221", "packet 7 raw type 59 sub 9 address 1023",
        "packet 0 groups type 0 sub 0 address 1", "drop sub 1", "drop service C221", "drop component sub 1 in C221",
        "move sub 1 at 6", "rate sub 1 8",
    ):
        compiled(rows, OPENED + edit, code(f"{edit}, end", "0 cost 2", [PROGRAMME], lines=[7, 7]))
    more = f"{PROGRAMME}, carry 4 in C221, packet 4 groups type 60 sub 1 address 1"
    for edit in ("drop packet 4", "drop component packet 4 in C221"):
        compiled(rows, f"{HEAD}{more.replace(', ', chr(10))}\nbegin\n{edit}",
                 code(f"{edit}, end", "0 cost 2", [more], lines=[8, 8]))


def waits_and_commits(rows):
    """Each other statement, at the limits of its numbers; three seconds have 125 frames."""
    for text, wanted, cost in (
        ("wait 65535", "wait 65535", 1), ("wait contact 15 closed", "wait contact 15 closed", 1),
        ("wait contact 0 open", "wait contact 0 open", 1), ("until 22:00:00", "until 3300000", 1),
        ("until 00:00:01", "until 42", 1), ("until 00:00:00", "until 0", 1), ("until 23:59:59", "until 3599959", 1),
        ("settle", "settle", 2), ("rate sub 1 8 commit in 60000 join", "rate sub 1 8, commit in 60000, join", 3),
        ("rate sub 1 8 commit at 4996 join", "rate sub 1 8, commit at 4996, join", 3),
    ):
        instructions = f"{wanted}, end"
        compiled(rows, OPENED + text, code(instructions, f"0 cost {cost}", [PROGRAMME], lines=[7] * 4))
    rows.answers("compile x.plan x.code", 1, "refused line 7: Count\n", {"x.plan": OPENED + "rate sub 1 8 commit at 65535"})


def blocks(rows):
    """Branches, loops and blocks, which keep the lines of their statements."""
    text = ("define one { }\ndefine two { wait 2 apply one }\nbegin\nif contact 3 { wait 1 } else { }\nif contact 4 { }\n"
            "repeat 5 { apply two }\nforever { wait 3 } # end\n")
    instructions = "test 3 3, wait 1, jump 3, test 4 4, set 0 5, wait 2, loop 0 5, wait 3, jump 7"
    labels = "0 cost 4, 3 cost 3, 4 cost 2, 5 counters 01 cost 1, 7 cost 1"
    compiled(rows, HEAD + text, code(instructions, labels, lines=[5, 5, 5, 6, 7, 3, 7, 8, 8]))


def blanks_and_comments(rows):
    """They matter only for line numbers."""
    labels = "0 cost 3, 3 cost 2, 4 cost 1"
    for rest, lines in (
        ("begin if contact 1 { wait 1 } else { settle } end", [2] * 5),
        ("begin  if  contact\t1{wait 1}else{settle}end", [2] * 5),
        ("begin;if;contact;1;{;wait;1;};else;{;settle;};end;", [2] * 5),
        ("begin # a\nif # b {\ncontact#c\n1{wait#}\r\n1}else{settle}end#", [3, 5, 3, 6, 6]),
    ):
        compiled(rows, HEAD + rest, code("test 1 3, wait 1, jump 4, settle, end", labels, lines=lines))


if __name__ == "__main__":
    rows.main([short_texts, after_a_header, in_statements_and_items, limits, headers, items, edits, waits_and_commits, blocks,
               blanks_and_comments])
