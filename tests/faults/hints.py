#!/usr/bin/env python3
"""Hints of 'compile --explain' that are changes of the text, applied to scripts with random mistakes: 'hints.py [SEED [SCRIPTS]]'.

Each script is one of a few good ones with one to three mistakes: a line left out, doubled or moved, a statement put in, a word
changed. If it is refused, and a hint says to put, write, leave out or move something, this is done by this script, from the
words of the hint alone: then the refusal must be gone, and where the hint says that the script is accepted it must be. The last line is
'N passed, M failed'."""
import os
import random
import re
import sys
import tempfile
from concurrent.futures import ThreadPoolExecutor

import common
import mistakes

HINT = re.compile(r"hint: (.*?)(; then it is accepted)?")
MOVE = re.compile(r"move line (\d+) behind line (\d+)")
PLACE = r"(?:in line (\d+)|at (\d+):(\d+))"
PART = re.compile(rf"(put|write|leave out) '(.*?)'(?: (before|in place of) '(.*?)' {PLACE}| before line (\d+)| {PLACE})?")
# What is done with the character at the position of the refusal.
CHARACTER = {"write a blank in its place": " ", "write '-' in its place": "-", "leave it out": ""}


def span(line, words, column):
    """Where words are in a line, blanks between them: there they must be once, where no column is named."""
    parts = r"[ \t;]+".join(map(re.escape, words.split()))
    found = list(re.finditer(rf"(?<![\w:-]){parts}(?![\w:-])" if re.match(r"[\w:-]", words) else parts, line))
    if column is not None:
        at = [each.span() for each in found if each.start() == column - 1]
        return at[0] if at and len(found) > 1 else None
    return found[0].span() if len(found) == 1 else None


def applied(text, hint, position):
    """The text with the changes of a hint; None if the hint is no change of a text."""
    lines = text.split("\n")
    moved = MOVE.fullmatch(hint)
    if moved:
        taken, behind = int(moved[1]), int(moved[2])
        lines.insert(behind, lines[taken - 1])
        del lines[taken - 1]
        return "\n".join(lines)
    if hint in CHARACTER:
        at, column = position
        line = lines[at - 1].encode()
        character = line[column - 1:].decode()[0].encode()
        lines[at - 1] = (line[:column - 1] + CHARACTER[hint].encode() + line[column - 1 + len(character):]).decode()
        return "\n".join(lines)
    steps = []
    for part in hint.split(", and "):
        found = PART.fullmatch(part)
        if found is None:
            return None
        steps.append(found.groups())
    for verb, new, _how, old, line, at_line, at_column, before, out_line, out_at, out_column in reversed(steps):
        line = line or at_line or before or out_line or out_at
        if line is None:
            at, column = position
            rest = lines[at - 1][column - 1:]
            lines[at - 1] = lines[at - 1][:column - 1] + new + rest[len(re.match(r"[\w:-]+|.", rest)[0]):]
            continue
        at = int(line)
        if verb == "put" and old is None:
            lines.insert(at - 1, new)
            continue
        column = at_column or out_column
        where = span(lines[at - 1], new if verb == "leave out" else old, column and int(column))
        if where is None:
            return "ambiguous"
        start, end = where
        put = {"put": f"{new}; {lines[at - 1][start:end]}", "write": new, "leave out": ""}[verb]
        lines[at - 1] = lines[at - 1][:start] + put + lines[at - 1][end:]
    return "\n".join(lines)


def place(first):
    """The line and the column of a refusal, as numbers, and its cause."""
    found = re.fullmatch(r"(\d+):(\d+): (\w+)|refused line (\d+): (.*)|refused: Limit", first)
    if found[1]:
        return (int(found[1]), int(found[2])), found[3]
    return (int(found[4] or 0), 0), found[5]


def compiled(program, folder, name, text, *options):
    """The status, and the lines of 'compile' on a text."""
    common.write(folder, f"{name}.plan", text)
    ended = common.run([program, "compile", f"{name}.plan", f"{name}.code", *options], folder)
    return ended.status, ended.printed.decode().splitlines()


def judged(program, folder, name, text):
    """What a script's hint is, and what is wrong with it, if anything is."""
    status, lines = compiled(program, folder, name, text, "--explain")
    if status == 0:
        return "accepted", None
    first, rest = lines[0], [line for line in lines[1:] if line.startswith("hint: ")]
    if not rest:
        return "no hint", None
    hint, accepted = HINT.fullmatch(rest[0]).groups()
    position, _cause = place(first)
    changed = applied(text, hint, position)
    if changed is None:
        return "advice", "'then it is accepted' after advice" if accepted else None
    status, after = compiled(program, folder, name, changed)
    if (accepted is not None) != (status == 0):
        return "change", f"{rest[0]}: {after[0]}\n{text}"
    if status == 0:
        return "change, then accepted", None
    moved = (position[0] + sum(int(line) <= position[0] for line in re.findall(r"put '[^']*' before line (\d+)", hint)),
             position[1] + sum(len(new) + 2 for new in re.findall(r"put '([^']*)' before '", hint)))
    return "change", None if is_gone(first, moved, after[0], changed) else f"{rest[0]}: {first}, then {after[0]}\n{text}"


def is_inside(text, first, line):
    """Whether a line is inside a block that begins in the line `first`."""
    rest = [re.sub("#.*", "", each) for each in text.split("\n")[first - 1:line - 1]]
    return first < line and sum(each.count("{") - each.count("}") for each in rest) > 0


def is_gone(first, moved, after, text):
    """Whether a refusal is gone, whose position has moved, if a changed text is refused with the line `after`: later in the
    text, where paths meet after a block that it is in, or for its costs, which are checked last."""
    later, why = place(after)
    if not first.startswith("refused"):
        return after.startswith("refused") or later > moved
    if " Cost" in first:
        return why == "Cost" and later[0] > moved[0]
    is_after = why == "Cost" or later[0] > moved[0] or (why == "Mismatch" and is_inside(text, later[0], moved[0]))
    return after.startswith("refused line") and is_after


def main():
    """Tries so many scripts."""
    words = sys.argv[1:]
    seed = int(words[0]) if words else 300401
    times = int(words[1]) if len(words) > 1 else 3000
    tally = common.Tally()
    program = common.dabplan()
    chance = random.Random(seed)
    scripts = [mistakes.script(chance) for _ in range(times)]
    counts = {}
    with tempfile.TemporaryDirectory() as folder, ThreadPoolExecutor(os.cpu_count()) as pool:
        results = pool.map(lambda numbered: judged(program, folder, f"s{numbered[0]}", numbered[1]), enumerate(scripts))
        for kind, wrong in results:
            counts[kind] = counts.get(kind, 0) + 1
            tally.hold(wrong is None, wrong)
    tally.hold(counts.get("change", 0) + counts.get("change, then accepted", 0) >= times // 4, f"too few changes: {counts}")
    print(f"seed {seed}: {times} scripts, {counts}")
    tally.end()


if __name__ == "__main__":
    main()
