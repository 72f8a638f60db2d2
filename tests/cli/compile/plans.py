#!/usr/bin/env python3
"""'dabplan compile': the code files of plans, the lines of refusals, and the limits. The last line is 'N passed, M
failed'."""
import rows
from codes import AT_64, PROGRAMME, SMALL_SUBS, code
from rows import hexadecimal
from texts import HEAD, OPENED, compiled

# A plan that adds a programme, up to its commit, in three lines.
ADDED = ("ensemble E1C5 period 4 notice 24 budget 20 begin sub 1 at 0 eep 3-A 128\nservice C221\n"
         "audio 63 sub 1 in C221\n")


def ends(rows, table):
    """Scripts, each a head and a body, are refused with this line, or compiled to a code of these numbers."""
    for head, body, wanted in table:
        rows.answers("compile x.plan x.code", 1 if wanted.startswith("refused") else 0, f"{wanted}\n", {"x.plan": head + body})


def sizes(instructions, labels=1, configurations=1):
    """The line for a code of these sizes."""
    return f"instructions {instructions} labels {labels} configurations {configurations}"


def code_files(rows):
    """Scripts with their codes: labels, the lines of instructions, and the costs of labels."""
    one = "sub 1 at 0 eep 3-A 128\nservice C221\naudio 63 sub 1 in C221\n"
    of_the_hour = "rate sub 1 64\ncommit in 24\nuntil 22:00:00\nif contact 1 { wait 1 }\nsettle\n"
    for script, wanted in (
        (f"{HEAD}begin\n{one}commit in 24\njoin\n",
         code(f"{PROGRAMME}, commit in 24, join, end", "0 cost 5", lines=[3, 4, 5, 6, 7, 7])),
        (HEAD + "begin repeat 3 {\nwait 1\n}\n",
         code("set 0 3, wait 1, loop 0 1, end", "0 cost 2, 1 counters 01 cost 1", lines=[2, 3, 2, 4])),
        (HEAD.replace("20", "4") + "begin repeat 5 { if contact 1 { } else { } wait 1 }",
         code("set 0 5, test 1 3, jump 3, wait 1, loop 0 1, end", "0 cost 4, 1 counters 01 cost 3, 3 counters 01 cost 1",
              budget=4, lines=[2] * 6)),
        (HEAD + "define pause {\nwait 2\n}\nbegin\napply pause\napply pause\n", code("wait 2, wait 2, end", lines=[3, 3, 7])),
        (OPENED + "settle", code("settle, end", "0 cost 2", [PROGRAMME], lines=[7, 7])),
        (OPENED + of_the_hour, code("rate sub 1 64, commit in 24, until 3300000, test 1 5, wait 1, settle, end",
                                    "0 cost 3, 5 of 0 1 perhaps 26 cost 2", [PROGRAMME, AT_64],
                                    lines=[7, 8, 9, 10, 10, 11, 11])),
        (OPENED + "rate sub 1 64\ncommit in 40\nif contact 1 {\nwait 10\n} else {\nwait 12\n}\njoin\n",
         code("rate sub 1 64, commit in 40, test 1 5, wait 10, jump 6, wait 12, join, end",
              "0 cost 4, 5 of 0 1 within 40 43 cost 1, 6 of 0 1 within 28 33 cost 1", [PROGRAMME, AT_64],
              lines=[7, 8, 9, 10, 9, 12, 14, 14])),
        ("ensemble E1C5 mode 3 period 4 notice 24 budget 20 begin", code("end", mode=3)),
    ):
        compiled(rows, script, wanted)
    file = hexadecimal("44 41 42 50 01 E1 C5 04 18 14 00 01 00 02 00 04 00 00 00 00 00 00 00 00 00 00 00 00 00 00 00 02 00 01"
                       "00 00 00 00 00 00 00 00 00 01 01 00 02 22 00 00 03 00 03 01 00 01 00 02 23 00 00 01 00 04 07")
    compiled(rows, HEAD + "begin repeat 3 {\nwait 1\n}\n", file)


def causes_of_commits(rows):
    """Counts, notices, configurations, and a commit without a change."""
    ends(rows, (
        (ADDED, "commit at 1002\njoin\n", "refused line 4: Count"), (ADDED, "commit at 5000\njoin\n", "refused line 4: Count"),
        (ADDED, "commit in 23\njoin\n", "refused line 4: Notice"), (ADDED, "commit in 24\njoin\n", sizes(6)),
        (ADDED, "service C222\ncommit in 24\n", "refused line 5: Config EmptyService"),
        (ADDED, "commit at 1000 join", sizes(6)),
        (HEAD, "begin\ncommit in 24\n", "refused line 3: NoChange"),
    ))
    for mode, count, wanted in ((2, 1002, sizes(5)), (3, 1002, sizes(5)), (4, 1002, sizes(5)), (2, 1001, sizes(5)),
                                (3, 1001, sizes(5)), (4, 1001, "refused line 4: Count")):
        ends(rows, ((ADDED.replace("E1C5", f"E1C5 mode {mode}"), f"commit at {count}", wanted),))


def waits_across_a_swap(rows):
    """The swap has certainly been made, certainly not, or neither; and a contact or `settle` in between."""
    lowered, again = "rate sub 1 64\ncommit in 24\n", "rate sub 1 96\n"
    until_settled = f"{again}commit in 24\nsettle\n"
    ends(rows, (
        (OPENED, f"{lowered}wait 25\n{again}", "refused line 9: SwapUncertain"),
        (OPENED, f"{lowered}wait 23\n{again}", "refused line 10: Pending"),
        (OPENED, f"{lowered}wait 27\n{again}", sizes(5)), (OPENED, "wait 1\njoin\n", "refused line 8: JoinIdle"),
        (OPENED, f"{lowered}wait contact 3 closed\nsettle\n{until_settled}", sizes(8)),
        (OPENED, f"{lowered}wait contact 3 closed\nwait 26\n{until_settled}", sizes(8)),
        (OPENED, f"{lowered}wait contact 3 closed\n{until_settled}", "refused line 10: Pending"),
        (OPENED, f"{lowered}wait contact 3 closed\njoin\n{until_settled}", "refused line 10: JoinIdle"),
        (OPENED, f"{lowered}wait contact 3 closed\nwait 25\n{until_settled}", "refused line 11: Pending"),
        (OPENED, f"{lowered}forever {{ wait contact 3 closed }}", "refused line 9: Mismatch"),
    ))
    for mode, wanted in (("", "refused line 9: SwapUncertain"), (" mode 2", sizes(5)), (" mode 3", sizes(5)),
                         (" mode 4", "refused line 9: SwapUncertain")):
        ends(rows, ((OPENED.replace("E1C5", f"E1C5{mode}", 1), f"{lowered}wait 24\n{again}", wanted),))


def loops(rows):
    """A loop restores the state at its beginning, and has a suspension on each path."""
    lowered = "wait contact 3 closed\nrate sub 1 96\ncommit in 24\njoin\nwait contact 3 open\n"
    choice = "if contact 1 { } else { }\n"
    ends(rows, (
        (OPENED, f"forever {{\n{lowered}}}\n", "refused line 7: Mismatch"),
        (OPENED, "wait 1\nif contact 2 {\nrate sub 1 96\n}\n", "refused line 8: Mismatch"),
        (HEAD, f"begin\nrepeat 5 {{\n{choice}}}", "refused line 3: Cost"),
        (HEAD.replace("20", "3"), f"begin\nrepeat 5 {{\n{choice}wait 1\n}}", "refused line 3: Cost"),
        (HEAD, "begin\nwait 1\nforever {\n}\n", "refused line 4: Cost"),
        (OPENED, "forever { settle }", "refused line 7: Cost"),
        (HEAD, "begin\nwait 1\nforever {\nsettle\n}\n", "refused line 4: Cost"),
    ))


def edits(rows):
    """Edits that can't be made, as items and as statements; a sub-channel in the units of a dropped one."""
    two = OPENED.replace("service C221\naudio 63 sub 1 in C221", "sub 2 at 96 eep 3-A 64")
    ends(rows, (
        (HEAD, "packet 1 groups type 60 sub 5 address 0\nbegin\n", "refused line 2: Edit BadAddress"),
        (HEAD, "sub 1 at 800 eep 3-A 128\nbegin\n", "refused line 2: Edit PastEnd"),
        (HEAD, "service C221\nservice C221\nbegin\n", "refused line 3: Edit IdUsed"),
        (HEAD, "begin\ndrop sub 1\n", "refused line 3: Edit IdAbsent"),
        (OPENED, "rate sub 1 33\n", "refused line 7: Edit BadRate"),
        (two, "move sub 2 at 0\ndrop sub 1\ncommit in 24\n", sizes(4)),
        (two, "move sub 2 at 0\ncommit in 24\n", "refused line 7: Config Overlap 1 2"),
        (HEAD, "sub 1 at 0 eep 3-A 128\nsub 2 at 95 eep 3-A 64\nbegin", "refused line 4: Config Overlap 1 2"),
        (HEAD, "".join(f"service C2{number}\n" for number in range(10, 75)) + "begin\n", "refused line 66: Edit TableFull"),
    ))
    opening = HEAD.replace("period 4", "period 60") + SMALL_SUBS.replace(", ", "\n") + "\n"
    for sid, count, wanted in (("C221", 12, sizes(1)), ("C221", 13, "refused line 79: Edit TooManyComponents"),
                               ("E1C20001", 11, sizes(1)), ("E1C20001", 12, "refused line 78: Edit TooManyComponents")):
        components = "".join(f"audio 63 sub {number} in {sid}\n" for number in range(count))
        ends(rows, ((opening, f"service {sid}\n{components}begin\n", wanted),))


def statements_that_cannot_be_reached(rows):
    """They are refused where they are applied; a block that is never applied is not checked."""
    ends(rows, (
        (HEAD, "begin\nif contact 1 { end } else { end }\nwait 1\n", "refused line 4: Table"),
        (HEAD, "begin\nforever { wait 1 }\nend\n", "refused line 4: Table"),
        (HEAD, "define none {\n}\nbegin\nend\napply none\n", "refused line 6: Table"),
        (HEAD, "define stop {\nend\nwait 1\n}\nbegin\napply stop\n", "refused line 4: Table"),
        (HEAD, "begin\nrepeat 2 {\nend\n}\njoin\n", "refused line 6: Table"),
        (HEAD, "define off {\nend wait 1\n}\nbegin\n", sizes(1)),
    ))


def limits(rows):
    """Nested repeats, blocks that emit nothing, instructions, labels and configurations; and one more of each."""
    doubled = "".join(f"define b{number} {{\napply b{number - 1}\napply b{number - 1}\n}}\n" for number in range(1, 64))
    test = "if contact 1 { }\nwait 1\n"
    moves = [f"move sub 1 at {place}\ncommit in 24\njoin\nif contact 1 {{ }}\nwait 1\n" for place in range(1, 257)]
    ends(rows, (
        (HEAD, "begin\n" + "repeat 2 {\n" * 8 + "wait 1\n" + "}\n" * 8, sizes(18, 9)),
        (HEAD, "begin\n" + "repeat 2 {\n" * 9 + "wait 1\n" + "}\n" * 9, "refused: Limit"),
        (HEAD, f"define b0 {{\n}}\n{doubled}begin\napply b63\n", sizes(1)),
        (HEAD, "begin\n" + "wait 1\n" * 4095, sizes(4096)), (HEAD, "begin\n" + "wait 1\n" * 4096, "refused: Limit"),
        (HEAD, "begin\n" + test * 1023, sizes(2047, 1024)), (HEAD, "begin\n" + test * 1024, "refused: Limit"),
        (OPENED, "".join(moves[:255]), sizes(1276, 256, 256)), (OPENED, "".join(moves), "refused: Limit"),
    ))


def pages_within_the_period_and_the_notice(rows):
    """64 small sub-channels take four pages, in mode 3 three, and seven together with 63 of them."""
    idle, change = "begin\n", "begin\ndrop sub 0\ncommit in 24\n"
    for declared, body, wanted in (
        ("period 4 notice 24", idle, sizes(1)), ("period 3 notice 24", idle, "refused line 66: Round"),
        ("mode 3 period 3 notice 24", idle, sizes(1)), ("mode 3 period 2 notice 24", idle, "refused line 66: Round"),
        ("period 7 notice 21", change, sizes(3)), ("period 6 notice 24", change, "refused line 68: Round"),
        ("period 7 notice 20", change, "refused line 68: Round"),
    ):
        ends(rows, ((f"ensemble E1C5 {declared} budget 20\n", SMALL_SUBS.replace(", ", "\n") + "\n" + body, wanted),))


if __name__ == "__main__":
    rows.main([code_files, causes_of_commits, waits_across_a_swap, loops, edits, statements_that_cannot_be_reached, limits,
               pages_within_the_period_and_the_notice])
