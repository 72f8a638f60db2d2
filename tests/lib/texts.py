"""Shared by the scripts of tests/cli/compile/: the beginnings of scripts, and a script with its code."""
from codes import PROGRAMME

# A header, without `begin`.
HEAD = "ensemble E1C5 period 4 notice 24 budget 20\n"

# The first six lines of a script with one programme.
OPENED = f"ensemble E1C5\nperiod 4 notice 24 budget 20\n{PROGRAMME.replace(', ', chr(10))}\nbegin\n"


def compiled(rows, script, wanted):
    """A script is compiled to this code file."""
    ended = rows.run("compile x.plan x.code", {"x.plan": script})
    rows.tally.same(f"compile {script[-60:]}", (0, wanted), (ended.status, rows.made("x.code")))
