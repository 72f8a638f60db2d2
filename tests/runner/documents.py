"""Tests of the documents: the commands that they show; the files, laws and crates that they name; their links and
tables; and what of the sources a reader sees first: names of scripts, and lines too long."""
from __future__ import annotations

import os
import pathlib
import re
import subprocess
import sys
import tempfile
from typing import Dict, Iterator, List, Optional, Set, Tuple

from jobs import TOP, Count, run, told

SHOWN = ["README.md", "docs/guide/COMMANDS.md", "docs/guide/SCRIPTS.md", "docs/guide/TUTORIAL.md",
         "docs/guide/RECIPES.md", "docs/guide/ON_AIR.md", "docs/guide/MONITORING.md", "docs/design/HEADLINE.md",
         "examples/README.md"]
THEOREMS = "docs/design/THEOREMS.md"
ARCHITECTURE = "docs/design/ARCHITECTURE.md"
# A line of the sources that can't be broken: an attribute and an import of one name, which rt fmt joins, and what has
# a text in quotes.
UNBREAKABLE = re.compile(r"\s*(#\[|(pub |ghost )*use [^,]*$|.*\")")


def text_of(name: str) -> str:
    """The text of a file of this repository."""
    return (TOP / name).read_text(encoding="utf-8")


def crate_names() -> List[str]:
    """The names of the crates, in order."""
    return sorted(path.name for path in (TOP / "crates").iterdir())


def documents() -> List[pathlib.Path]:
    """The documents, as paths."""
    named = ("README.md", "CHANGELOG.md", "CONTRIBUTING.md", "bench/RESULTS.md", "examples/README.md",
             "bridge/README.md")
    return sorted([*(TOP / name for name in named), *(TOP / "docs").rglob("*.md")])


def examples(text: str) -> Iterator[Tuple[str, List[str]]]:
    """The commands of a document, each with the lines shown below it."""
    command: Optional[str] = None
    lines: List[str] = []
    going_on = False
    for line in text.splitlines() + [""]:
        if going_on and command is not None:
            command += "\n" + line[4:]
            going_on = line.endswith("\\")
        elif line.startswith("    $ "):
            if command is not None:
                yield command, lines
            command, lines, going_on = line[6:], [], line.endswith("\\")
        elif command is not None and line.startswith("    "):
            lines.append(line[4:])
        elif command is not None:
            yield command, lines
            command = None


def test_document(name: str) -> Count:
    """Runs the commands of a document, and returns how many passed and failed."""
    passed = failed = 0
    with tempfile.TemporaryDirectory() as folder:
        for entry in ("dabplan", "demo", "docs", "examples", "bench", "bridge", "release", "tools"):
            pathlib.Path(folder, entry).symlink_to(TOP / entry)
        for command, wanted in examples(text_of(name)):
            printed, messages = run(command, folder)
            if printed == wanted:
                passed += 1
                continue
            failed += 1
            print(f"{name}: {command}\n  shown:   {wanted}\n  printed: {printed}\n{messages}", flush=True)
    if passed + failed == 0:
        print(f"{name}: no command is shown")
        failed = 1
    return passed, failed


def sections_of(tool: str) -> Tuple[Dict[str, str], str]:
    """What a script of tools/ prints, by the names of crates above its sections; and what went wrong."""
    made = subprocess.run([tool], cwd=TOP, capture_output=True, text=True, errors="replace")
    sections = {text.split("\n")[0]: text for text in made.stdout.split("\n## ")[1:]}
    return sections, made.stderr or ("" if made.returncode == 0 else f"exit status {made.returncode}")


def files_to_list(crate: pathlib.Path) -> Set[str]:
    """The files of a crate for which tools/files must have a line."""
    sources = [path for path in (crate / "src").rglob("*.rt")
               if path.name != "tests.rt" and path.parent.name != "tests"]
    definitions = [*(crate / "specs").rglob("*.antt"), *(crate / "proofs").glob("*.antt")]
    roots = (crate / "src/lib.rt", crate / "src/main.rt")
    return {path.relative_to(crate).as_posix() for path in sources + definitions
            if path.name != "Lib.antt" and path not in roots}


def test_files() -> Count:
    """Runs tools/files, and returns for how many crates it has a line for each file, and for how many not."""
    sections, fault = sections_of("tools/files")
    row = re.compile(r"^\| `(.*?)` \| .+ \|$", re.MULTILINE)
    wrong = [crate for crate in crate_names()
             if set(row.findall(sections.get(crate, ""))) != files_to_list(TOP / "crates" / crate)]
    right = len(crate_names()) - len(wrong)
    return told("tools/files: not a line for each file", right, wrong + ([fault] if fault else []))


def test_clauses() -> Count:
    """Runs tools/clauses, and returns how many crates have a section there, in which no function is said nothing of,
    and how many have none."""
    sections, fault = sections_of("tools/clauses")
    nothing = re.compile(r"^\| `[^|]*` \|  \|", re.MULTILINE)
    wrong = [crate for crate in crate_names() if crate not in sections or nothing.search(sections[crate])]
    return told("tools/clauses: no whole section", len(crate_names()) - len(wrong), wrong + ([fault] if fault else []))


def laws_named(text: str) -> Tuple[int, List[str]]:
    """How many of the laws that a text names are in the files beside them, and those that are not."""
    passed = 0
    wrong: List[str] = []
    rows = re.findall(r"^\| [^|]+ \| ([^|]+) \| ((?:`\w+(?:/\w+)?`(?:, )?)+) \|$", text, re.MULTILINE)
    for names, files in rows:
        places = [(place + "/laws").split("/")[:2] for place in re.findall(r"`(.*?)`", files)]
        sources = "".join(text_of(f"crates/{crate}/src/{file}.rt") for crate, file in places)
        for name in re.findall(r"`(.*?)`", names):
            is_there = all(re.search(rf"\b{part}\b", sources) for part in name.split("::"))
            passed, wrong = passed + is_there, wrong + ([] if is_there else [name])
    return passed, wrong


def test_theorems() -> Count:
    """Looks for each law of THEOREMS.md in the files beside it, and compares the numbers of lines that stand behind
    the files to read; returns how many are right and how many not."""
    text = text_of(THEOREMS)
    passed, wrong = laws_named(text)
    for crate, listed in re.findall(r"`(\w+)`: (\w+ \d+(?:, \w+ \d+)*)", text):
        for name, lines in re.findall(r"(\w+) (\d+)", listed):
            count = len(text_of(f"crates/{crate}/specs/{name}.antt").splitlines())
            is_right = count == int(lines)
            passed, wrong = passed + is_right, wrong + ([] if is_right else [f"{crate} {name}: {count} lines"])
    return told(THEOREMS, passed, wrong + (["fewer than 40 laws and files"] if passed < 40 else []))


def test_laws() -> Count:
    """Looks for each public function of each file laws.rt in THEOREMS.md, in a row that begins with the crate or whose
    last cell names it, and for each law of a row that begins with a crate in that file; returns how many are right and
    how many not."""
    text = text_of(THEOREMS)
    passed = 0
    wrong: List[str] = []
    for path in sorted((TOP / "crates").glob("*/src/laws.rt")):
        crate = path.parts[-3]
        own = "".join(re.findall(rf"^\| `{crate}` \| (.*) \|$", text, re.MULTILINE))
        rows = re.findall(rf"^\|.*\|[^|]*`{crate}`[^|]*\|$", text, re.MULTILINE)
        listed = set(re.findall(r"`(\w+)`", own + "".join(rows)))
        laws = set(re.findall(r"^pub fn (\w+)", path.read_text(encoding="utf-8"), re.MULTILINE))
        missing, gone = sorted(laws - listed), sorted(set(re.findall(r"`(\w+)`[,:]", own)) - laws)
        passed += len(laws) - len(missing)
        wrong += [f"{crate}: {name} is not on the page" for name in missing]
        wrong += [f"{crate}: there is no law {name}" for name in gone]
    return told(THEOREMS, passed, wrong)


def edges() -> Dict[str, List[str]]:
    """The crates of crates.txt, each with the crates of this repository that it uses."""
    lines = [line for line in text_of("crates.txt").splitlines() if ":" in line and line[0] != "#"]
    parts = [line.partition(":") for line in lines]
    own = {name.split()[0] for name, _, _ in parts}
    return {name.split()[0]: [word for word in used.split() if word in own] for name, _, used in parts}


def test_architecture() -> Count:
    """Looks for each crate, each document and each edge of crates.txt in ARCHITECTURE.md, and returns how many it has
    and how many not."""
    text = text_of(ARCHITECTURE)
    rows = re.findall(r"^\| (\w+) \| (\w+(?:, \w+)*) \|$", text, re.MULTILINE)
    table = {name: used.split(", ") for name, used in rows}
    wrong = sorted(f"other edges than in crates.txt: {crate}" for crate, used in edges().items()
                   if table.get(crate) != (used or ["none"]))
    names = crate_names()
    names += [document.name for document in (TOP / "docs").rglob("*.md") if document.name != "ARCHITECTURE.md"]
    absent = [f"does not name {name}" for name in names if not re.search(rf"\b{re.escape(name)}\b", text)]
    return told(ARCHITECTURE, len(edges()) + len(names) - len(wrong) - len(absent), wrong + absent)


def test_paths() -> Count:
    """Looks for the files of crates, of tests/ and of tools/ that the documents name, and returns for how many
    documents all exist, and for how many not."""
    passed = failed = 0
    for document in sorted([TOP / "README.md", TOP / "examples/README.md", *(TOP / "docs").rglob("*.md")]):
        text = document.read_text(encoding="utf-8")
        paths = set(re.findall(r"`(?:crates/)?(\w+/(?:src|specs|proofs)/[\w./]+\.(?:rt|antt))`", text))
        absent = sorted(path for path in paths if "NAME" not in path and not (TOP / "crates" / path).is_file())
        others = re.findall(r"`((?:tests|tools)/[\w./]+)`", text)
        absent += [path for path in others if "NAME" not in path and not (TOP / path).exists()]
        passed, failed = passed + (not absent), failed + bool(absent)
        if absent:
            print(f"{document.relative_to(TOP)}: no such files: {absent}")
    return passed, failed


def test_blocks() -> Count:
    """Runs 'tools/blocks --check', and returns how many documents of docs/ are up to date, and how many are behind."""
    made = subprocess.run(["tools/blocks", "--check"], cwd=TOP, capture_output=True, text=True, errors="replace")
    print(made.stdout + made.stderr, end="")
    behind = len(made.stdout.splitlines())
    return len(list((TOP / "docs").rglob("*.md"))) - behind, max(behind, int(made.returncode != 0))


def test_guide() -> Count:
    """Looks for files of the sources in the documents for operators, and returns how many of these name none, and how
    many one."""
    guide = [TOP / "examples/README.md", *sorted((TOP / "docs/guide").glob("*.md"))]
    naming = [path.name for path in guide if re.search(r"crates/|\.(rt|antt)\b", path.read_text(encoding="utf-8"))]
    return told("a document for operators names a file of the sources", len(guide) - len(naming), naming)


def anchors(path: pathlib.Path) -> Set[str]:
    """The anchors of the headings of a document."""
    text = re.sub(r"^```.*?^```", "", path.read_text(encoding="utf-8"), flags=re.MULTILINE | re.DOTALL)
    heads = [line.lstrip("#").strip().lower() for line in text.splitlines() if re.match(r"#+ ", line)]
    return {re.sub(r"[^\w -]", "", head).replace(" ", "-") for head in heads}


def leads(document: pathlib.Path, link: str) -> bool:
    """Whether a link of a document leads elsewhere, or to a file or a heading that is there."""
    path, _, anchor = link.partition("#")
    target = document.parent / path if path else document
    return "://" in link or target.exists() and (not anchor or anchor in anchors(target))


def test_links() -> Count:
    """Follows the links between documents, and returns for how many documents all lead to a file or a heading, and for
    how many not."""
    passed = failed = 0
    for document in documents():
        links = re.findall(r"\]\(([^)\s]+)\)", document.read_text(encoding="utf-8"))
        wrong = [link for link in links if not leads(document, link)]
        passed, failed = passed + (not wrong), failed + bool(wrong)
        if wrong:
            print(f"{document.relative_to(TOP)}: links that lead nowhere: {wrong}")
    return passed, failed


def test_stated() -> Count:
    """Looks for the names that documents give of files of crates, as in '`crates/FILE`: `NAME`, `NAME`', and returns
    how many are in their files, and how many not."""
    passed = 0
    wrong: List[str] = []
    naming = re.compile(r"`(crates/[\w/]+\.(?:rt|antt))`: ((?:`[^`]+`(?:,\s+)?)+)")
    for document in documents():
        for path, names in naming.findall(document.read_text(encoding="utf-8")):
            text = text_of(path) if (TOP / path).is_file() else ""
            for name in re.findall(r"`([^`]+)`", names):
                is_there = re.search(rf"(?<![\w-]){re.escape(name.split('::')[-1])}(?![\w-])", text) is not None
                passed, wrong = passed + is_there, wrong + ([] if is_there else [f"{document.name}: {path}: {name}"])
    return told("not in its file", passed, wrong)


def broken_tables(text: str) -> List[int]:
    """The numbers of the lines at which a table begins without a separator line below its head: such rows render as
    text."""
    lines = [""] + text.splitlines() + [""]
    starts = (at for at in range(1, len(lines) - 1) if lines[at].startswith("|") and not lines[at - 1].startswith("|"))
    return [at for at in starts if not re.fullmatch(r"\|(\s*:?-+:?\s*\|)+", lines[at + 1])]


def test_tables() -> Count:
    """Checks the tables of the documents, and returns in how many documents all are well formed, and in how many
    not."""
    broken = {document: broken_tables(document.read_text(encoding="utf-8")) for document in documents()}
    wrong = [f"{document.relative_to(TOP)}: lines {lines}" for document, lines in broken.items() if lines]
    return told("no table begins there", len(broken) - len(wrong), wrong)


def test_names() -> Count:
    """Looks for scripts with the name of a module of Python's library, and returns how many have none and how many
    have one."""
    folders = [TOP / name for name in ("tests", "bench", "bridge", "docs", "examples", "release", "tools")]
    paths = sorted(path for folder in folders for path in folder.rglob("*.py"))
    beside = {path.stem for path in pathlib.Path(os.__file__).parent.glob("*.py")}
    known = getattr(sys, "stdlib_module_names", beside)
    hiding = [str(path.relative_to(TOP)) for path in paths if path.stem in known]
    return told("a script with the name of a module of Python's library", len(paths) - len(hiding), hiding)


def has_wide_line(path: pathlib.Path) -> bool:
    """Whether a file of the sources has a line that is too long, and could be broken."""
    width = 100 if path.suffix == ".rt" else 120
    lines = path.read_text(encoding="utf-8").splitlines()
    return any(len(line) > width and not UNBREAKABLE.match(line) for line in lines)


def test_width() -> Count:
    """Looks for lines of more than 100 columns in the code, and of more than 120 in definitions and proofs; returns
    how many files have none, and how many have one."""
    paths = sorted(path for path in (TOP / "crates").glob("*/*/**/*")
                   if path.suffix in (".rt", ".antt") and "out" not in path.parts)
    wide = [str(path.relative_to(TOP)) for path in paths if has_wide_line(path)]
    return told("a line is too long", len(paths) - len(wide), wide)


LINTS = [test_files, test_clauses, test_theorems, test_laws, test_architecture, test_blocks, test_paths, test_stated,
         test_guide, test_links, test_tables, test_names, test_width]
