"""Codes, and the verdicts that 'dabplan verify' must give of them."""
from codes import code, parts


def verdict(rows, wanted, instructions, **others):
    """The code of these parts is accepted, if None is expected; else it is refused with this pc and cause.

    Instructions are in the lines 1, 2 and so on, so that the line is the pc plus one; past the last it is 0."""
    line = "accepted\n"
    if wanted is not None:
        place, cause = wanted.split(" ", 1)
        number = int(place) + 1 if int(place) < len(parts(instructions)) else 0
        line = f"refused at {place} line {number}: {cause}\n"
    rows.answers("verify x.code", 0 if wanted is None else 1, line, {"x.code": code(instructions, **others)})


def judged(rows, configs, table, **plan):
    """Codes of these configurations, each with its labels and its instructions, have these verdicts."""
    for labels, instructions, wanted in table:
        verdict(rows, wanted, instructions, labels=labels, configs=configs, **plan)
