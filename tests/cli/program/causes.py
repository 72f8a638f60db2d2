#!/usr/bin/env python3
"""'dabplan help CAUSE': each cause and fault of docs/guide/SCRIPTS.md, in the words of its tables, and no others. The last line is
'N passed, M failed'."""
import re

import common
import rows

SCRIPTS = (common.TOP / "docs/guide/SCRIPTS.md").read_text(encoding="utf-8")


def plain(text):
    """A cell of a table, without its marks."""
    return re.sub(r"\[([^\]]*)\]\([^)]*\)", r"\1", text).replace("`", "'")


def tables():
    """The rows of the two tables: the name, the line of a refusal, what it means, and what to do."""
    faults, causes = SCRIPTS.split("## Faults\n")[1].split("## Causes\n")
    for name, meaning in re.findall(r"(?m)^\| `(\w+)` \| (.+) \|$", faults):
        yield name, f"LINE:COLUMN: {name}", plain(meaning), None
    for whole, meaning, advice in re.findall(r"(?m)^\| \[`([^`]+)`\]\(#[^)]*\) \| (.+) \| (.+) \|$",
                                             causes.split("## The causes explained")[0]):
        name = whole.split()[1] if whole.startswith(("Edit", "Config")) else whole
        yield name, f"refused line L: {whole}", plain(meaning), plain(advice)


def folded(text):
    """A text with each run of blanks and line ends as one blank."""
    return " ".join(text.split())


def pages(rows):
    """Each page has the words of its row; a name that both tables have has both pages."""
    names = {}
    for name, line, meaning, advice in tables():
        names.setdefault(name, []).append((line, meaning, advice))
    rows.tally.same("causes", (28, 29), (len(names), sum(map(len, names.values()))))
    for name, wanted in names.items():
        ended = rows.run(["help", name])
        rows.tally.same(name, (0, b""), (ended.status, ended.messages))
        for page, (line, meaning, advice) in zip(ended.printed.decode().split("\n\n"), wanted):
            rows.tally.hold(page.startswith(f"{line}\n"), f"{name}: {page}")
            rows.tally.hold(folded(meaning) in folded(page), f"{name}: {page}")
            rows.tally.hold(advice is None or f"What to do: {advice}" in folded(page), f"{name}: {page}")
        rows.tally.same(f"{name}: pages", len(wanted), len(ended.printed.decode().split("\n\n")))
        rows.tally.same(name.lower(), ended.printed, rows.run(["help", name.lower()]).printed)


def examples(rows):
    """Each example is refused for the cause on whose page it is."""
    found = 0
    for name, line, _, advice in tables():
        for path in re.findall(r"dabplan compile (\S+) refused.code", rows.run(["help", name]).printed.decode()):
            if advice is not None:
                text = (common.TOP / path).read_text(encoding="utf-8")
                ended = rows.run(["compile", "a.plan", "refused.code"], {"a.plan": text})
                cause = line.split(": ")[1].split(" A B")[0]
                limit = ended.printed == b"refused: Limit\n"
                rows.tally.hold(ended.status == 1 and (limit or cause in ended.printed.decode()), f"{path}: {ended.printed}")
                found += 1
    rows.tally.hold(found >= 20, f"{found} examples")


def whole_names(rows):
    """A cause of two words as it is printed: both words, as one argument or as two, in whatever letters; and with its numbers."""
    for whole in ("Edit IdUsed", "Edit BadRate", "Config Orphan", "Config Overlap", "Config Overlap A B", "Config Overlap 1 2"):
        wanted = rows.run(["help", whole.split()[1]])
        rows.tally.hold(wanted.printed.startswith(f"refused line L: {' '.join(whole.split()[:2])}".encode()), f"{whole}: {wanted.printed}")
        for words in ([whole], whole.split(), [whole.lower()]):
            ended = rows.run(["help", *words])
            rows.tally.same(words, (0, wanted.printed, b""), (ended.status, ended.printed, ended.messages))


def of_codes(rows):
    """Causes that codes alone have."""
    for name, meaning in (("Target", "the instruction jumps to where no label is"),
                          ("CounterUnset", "the loop's counter may not be set"),
                          ("FallsOff", "the plan does not end with an instruction that ends it")):
        for words in ([name], [name.lower()]):
            ended = rows.run(["help", *words])
            lines = ended.printed.decode().splitlines()
            rows.tally.same(words, (0, [f"refused at PC line L: {name}", f"  {meaning}", "What to do:"], 4),
                            (ended.status, lines[:3], len(lines)))


def unknown(rows):
    """Another name is no cause, nor is one behind the wrong word."""
    for words in (["help", "Unknown"], ["help", "Pending", "more"], ["Pending"], ["help", "Edit Orphan"], ["help", "Config", "IdUsed"],
                  ["help", "Edit IdUsed 1 2"], ["help", "Edit", "IdUsed", "1", "2"]):
        ended = rows.run(words)
        rows.tally.same(words, (2, True), (ended.status, ended.printed.startswith(b"error: ")))


if __name__ == "__main__":
    rows.main([pages, examples, whole_names, of_codes, unknown])
