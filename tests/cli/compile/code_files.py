#!/usr/bin/env python3
"""'dabplan compile': code files, and scripts that are refused. The last line is 'N passed, M failed'."""
import rows
from rows import NOTHING, NOTHING_FILE, RATES, RATES_FILE, hexadecimal


def code_files(rows):
    """Scripts whose code files are known byte by byte, and are accepted."""
    for script, file, count in ((RATES, RATES_FILE, 9), (NOTHING, NOTHING_FILE, 1)):
        rows.answers("compile x.plan x.code", 0, f"instructions {count} labels 1 configurations 1\n", {"x.plan": script})
        made = rows.made("x.code")
        rows.tally.same("the code file", hexadecimal(file), made)
        rows.answers("verify x.code", 0, "accepted\n", {"x.code": made or b""})


def refused_scripts(rows):
    """A script at fault, with its position or its line; no file is created."""
    head = "ensemble E1C5 period 4 notice 24 budget 20 begin"
    nine = "repeat 2 { wait 1 " * 9 + "} " * 9
    for script, wanted in (
        ("ensemble e1c5", "1:10: Number\n"),
        ("", "1:1: Expected\n"),
        (f"{head} apply x", "1:56: NameUnknown\n"),
        (f"{head}\njoin", "refused line 2: JoinIdle\n"),
        (f"{head}\nrepeat 5 {{ if contact 1 {{ }} else {{ }} }}", "refused line 2: Cost\n"),
        (f"{head} {nine}", "refused: Limit\n"),
    ):
        rows.answers("compile x.plan x.code", 1, wanted, {"x.plan": script})
        rows.tally.same("no file is made", None, rows.made("x.code"))


def commits_that_are_refused(rows):
    """A first programme that is committed too early, or at a count without FIG 0/0."""
    head = "ensemble E1C5 period 4 notice 24 budget 20\nbegin\n"
    edits = "sub 1 at 0 eep 3-A 128\nservice C221\naudio 63 sub 1 in C221"
    for commit, wanted in (("commit at 1002", "refused line 6: Count\n"), ("commit in 23", "refused line 6: Notice\n")):
        rows.answers("compile x.plan x.code", 1, wanted, {"x.plan": f"{head}{edits}\n{commit}\njoin\n"})


def files_that_cannot_be_had(rows):
    """A script that is not text or doesn't exist, and a file that can't be created."""
    rows.answers("compile x.plan x.code", 1, "cannot read x.plan\n", {"x.plan": b"\xff"})
    rows.answers("compile y.plan x.code", 1, "cannot read y.plan\n", {"x.plan": RATES},
                 messages="y.plan: error: No such file or directory\n")
    rows.answers("compile x.plan y/x.code", 1, "cannot write y/x.code\n", {"x.plan": RATES})


if __name__ == "__main__":
    rows.main([code_files, refused_scripts, commits_that_are_refused, files_that_cannot_be_had])
