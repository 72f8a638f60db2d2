#!/usr/bin/env python3
"""'dabplan verify': codes that are accepted and codes that are refused. The last line is 'N passed, M failed'."""
import rows
from codes import ADDED, NOTHING_CODE, PROGRAMME, RATES_CODE, code


def judged(rows, status, wanted, file):
    """A code file has this verdict."""
    rows.answers("verify x.code", status, wanted, {"x.code": file})


def accepted_and_refused(rows):
    """A rate is lowered and raised when contact 3 is closed and opened; without its last three edits and waits the code
    returns to its label with another configuration."""
    judged(rows, 0, "accepted\n", RATES_CODE)
    judged(rows, 0, "accepted\n", NOTHING_CODE)
    lower = "wait contact 3 closed, rate sub 1 96, commit in 24, join, wait contact 3 open, jump 0"
    judged(rows, 1, "refused at 5 line 7: Mismatch\n", code(lower, configs=[PROGRAMME], lines=[8, 9, 10, 11, 12, 7]))


def causes(rows):
    """Each cause with something inside it, and one without an instruction."""
    for cost, instructions, lines, wanted in (
        (1, "join", [1], "refused at 0 line 1: JoinIdle\n"),
        (2, "rate sub 1 33, end", [1, 65535], "refused at 0 line 1: Edit BadRate\n"),
        (3, "sub 2 at 95 eep 3-A 64, commit in 24, end", [256, 65535, 0], "refused at 1 line 65535: Config Overlap 1 2\n"),
        (3, "service C222, commit in 24, end", [1, 2, 3], "refused at 1 line 2: Config EmptyService\n"),
        (1, "end, end", [1, 2], "refused at 1 line 2: Table\n"),
        (21, "end", [0], "refused at 0 line 0: Cost\n"),
    ):
        judged(rows, 1, wanted, code(instructions, f"0 cost {cost}", [PROGRAMME], lines=lines))
    for cost, instructions, wanted in (
        (2, "commit in 24, join, end", "refused at 0 line 1: NoChange\n"),
        (1, "join", "refused at 0 line 1: JoinIdle\n"),
        (1, "loop 0 0", "refused at 0 line 1: CounterUnset\n"),
        (1, "jump 5", "refused at 0 line 1: Target\n"),
        (1, "jump 0", "refused at 0 line 1: Cost\n"),
        (1, "wait 1", "refused at 0 line 1: FallsOff\n"),
    ):
        judged(rows, 1, wanted, code(instructions, f"0 cost {cost}"))


def costs_and_commits(rows):
    """A first programme with this commit, and this cost of the label."""
    for commit, cost, wanted in (
        ("in 24", 5, "accepted\n"),
        ("in 24", 4, "refused at 4 line 5: Cost\n"),
        ("in 24", 21, "refused at 0 line 1: Cost\n"),
        ("at 1002", 5, "refused at 3 line 4: Count\n"),
        ("in 23", 5, "refused at 3 line 4: Notice\n"),
    ):
        judged(rows, 0 if wanted == "accepted\n" else 1, wanted, code(f"{ADDED}, commit {commit}, join, end", f"0 cost {cost}"))


def a_label_past_the_end(rows):
    """A label past the last instruction has no line."""
    judged(rows, 1, "refused at 7 line 0: Table\n", code("end", "0 cost 1, 7 cost 1", lines=[9]))


def files_of_no_code(rows):
    """A code of one instruction, with a byte changed, an extra byte, or no bytes at all."""
    for place, byte, status, wanted in (
        (4, 1, 0, "accepted\n"),
        (0, 0x45, 1, "code: Magic\n"),
        (4, 4, 1, "code: Version\n"),
        (7, 61, 1, "code: Field 7\n"),
        (34, 10, 1, "code: Field 34\n"),
        (10, 2, 1, "code: Limit\n"),
    ):
        changed = bytearray(NOTHING_CODE)
        changed[place] = byte
        rows.answers("verify x.code", status, wanted, {"x.code": bytes(changed)})
    rows.answers("verify x.code", 1, "code: Trailing\n", {"x.code": NOTHING_CODE + b"\x07"})
    rows.answers("verify x.code", 1, "code: Truncated\n", {"x.code": b""})
    rows.answers("verify x.code", 1, "cannot read x.code\n")


if __name__ == "__main__":
    rows.main([accepted_and_refused, causes, costs_and_commits, a_label_past_the_end, files_of_no_code])
