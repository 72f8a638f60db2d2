#!/usr/bin/env python3
"""'release/install' into a folder; the man page and the completion are those of the help texts; what bash completes, and
what vim lists. The last line is 'N passed, M failed'."""
import os
import pathlib
import pty
import re
import select
import shutil
import subprocess
import tempfile

from rows import common

TOP = common.TOP
INSTALLED = ("bin/dabplan", "share/man/man1/dabplan.1", "share/bash-completion/completions/dabplan",
             "share/vim/vimfiles/compiler/dabplan.vim", "share/vim/vimfiles/ftdetect/dabplan.vim",
             "share/vim/vimfiles/syntax/dabplan.vim", "share/doc/dabplan/THIRD_PARTY",
             "share/dabplan/examples/night_rate.plan",
             "share/dabplan/examples/live_clock.py", "share/dabplan/examples/refused/overlap.plan")


def run(words, folder, **environment):
    """Runs a command in a folder, and returns its status, output and messages."""
    ended = subprocess.run(words, cwd=folder, env=os.environ | environment, stdin=subprocess.DEVNULL, capture_output=True,
                           text=True, errors="replace", check=False)
    return ended.returncode, ended.stdout, ended.stderr


def made_from_the_help(tally, program):
    """docs/man/ has what release/manual makes of the help texts."""
    for kind, name in (("man", "dabplan.1"), ("completion", "dabplan.bash")):
        made = run([TOP / "release/manual", kind, program], TOP)
        stored = (TOP / "docs/man" / name).read_text(encoding="utf-8")
        tally.hold(made == (0, stored, ""), f"docs/man/{name} is not that of the help texts: run release/manual")


def installed(tally, program, folder):
    """The files are in place, and the program runs from there, with the examples."""
    tally.same("release/install", 0, run([TOP / "release/install", "here", program], folder)[0])
    here = pathlib.Path(folder, "here")
    for name in INSTALLED:
        tally.hold((here / name).is_file(), f"{name} is installed")
    tally.same("the program", pathlib.Path(program).read_bytes(), (here / "bin/dabplan").read_bytes())
    count = sum(1 for path in (TOP / "examples").rglob("*") if path.is_file())
    tally.same("examples", count, sum(1 for path in (here / "share/dabplan/examples").rglob("*") if path.is_file()))
    path = f"{here / 'bin'}:{os.environ['PATH']}"
    version = run(["dabplan", "--version"], folder, PATH=path)
    tally.same("its version", version, run([program, "--version"], folder))
    changes = (TOP / "CHANGELOG.md").read_text(encoding="utf-8")
    tally.same("the version of CHANGELOG.md", f"dabplan {re.search(r'(?m)^## ([0-9.]+)$', changes)[1]}\n", version[1])
    compiled = run(["dabplan", "compile", "examples/night_rate.plan", "../../../night.code", "--quiet"], here / "share/dabplan", PATH=path)
    tally.same("a script compiled there", (0, "instructions 9 labels 1 configurations 1\n", ""), compiled)
    clock = run([here / "share/dabplan/examples/live_clock.py", "night.code", "log", "--frames", "5"], folder, PATH=path)
    tally.same("live_clock.py there", (0, ""), (clock[0], clock[2]))


def completed(line, folder, script):
    """The words with which bash completes a line."""
    words = line.split(" ")
    code = (f"source '{script}'; COMP_WORDS=({' '.join(word or chr(34) * 2 for word in words)}); COMP_CWORD={len(words) - 1}; "
            "_dabplan; printf '%s\\n' \"${COMPREPLY[@]}\"")
    return run(["bash", "-c", code], folder)[1].split()


def read_until(terminal, text):
    """Reads a terminal until a text is there, or nothing comes any more; returns what came."""
    found = b""
    while text not in found and select.select([terminal], [], [], 60)[0]:
        try:
            piece = os.read(terminal, 4096)
        except OSError:
            piece = b""
        if not piece:
            break
        found += piece
    return found


def words_typed(keys, folder, script):
    """The words that an interactive bash gives a command `dabplan` whose line was typed with these keys."""
    terminal, other = pty.openpty()
    environment = os.environ | {"PS1": "$ ", "TERM": "dumb", "INPUTRC": "/dev/null", "HISTFILE": ""}
    with subprocess.Popen(["bash", "--norc", "--noprofile", "-i"], cwd=folder, env=environment, stdin=other, stdout=other,
                          stderr=other, start_new_session=True) as job:
        os.close(other)
        os.write(terminal, f"source '{script}'; dabplan() {{ printf '<%s>' \"$@\"; echo; }}; echo re''ady\n".encode())
        read_until(terminal, b"ready\r\n$ ")
        os.write(terminal, keys.encode())
        found = read_until(terminal, b">\r\n")
        os.write(terminal, b"exit\n")
        read_until(terminal, b"never")
        os.close(terminal)
        job.wait(60)
    lines = re.findall(r"(?m)^(<.*>)\r$", found.decode())
    return re.findall(r"<(.*?)>", lines[-1]) if lines else found


def typed(tally, folder):
    """What words a line has that was typed with the tab key: a name with blanks or other marks is one."""
    script = pathlib.Path(folder, "here/share/bash-completion/completions/dabplan")
    for name in ("shift of night.plan", "it's.plan", "a$b (1).plan"):
        common.write(folder, name, "")
    pathlib.Path(folder, "old plans").mkdir()
    common.write(folder, "old plans/x y.plan", "")
    for keys, wanted in (("dabplan compile sh\t", ["compile", "shift of night.plan"]),
                         ("dabplan compile shift\\ o\tout", ["compile", "shift of night.plan", "out"]),
                         ("dabplan compile 'shift o\tout", ["compile", "shift of night.plan", "out"]),
                         ("dabplan map it\t--la\t", ["map", "it's.plan", "--layout"]),
                         ("dabplan map a\\$\t", ["map", "a$b (1).plan"]),
                         ("dabplan map old\tx\t", ["map", "old plans/x y.plan"]),
                         ("dabplan ver\tout.co\t", ["verify", "out.code"])):
        tally.same(f"typed: {keys!r}", wanted, words_typed(f"{keys}\n", folder, script))


def completions(tally, folder):
    """What bash completes after some lines."""
    script = pathlib.Path(folder, "here/share/bash-completion/completions/dabplan")
    for line, wanted in (("dabplan com", ["compile"]), ("dabplan help ma", ["map"]), ("dabplan check x.fib --per", ["--period"]),
                         ("dabplan check x.fib --mode ", ["1", "2", "3", "4"]), ("dabplan verify night.c", ["night.code"]),
                         ("dabplan live x.code --skip ", [])):
        tally.same(f"completion of '{line}'", wanted, completed(line, folder, script))


def keywords(tally):
    """The syntax file for vim has the keywords of the grammar, and no others."""
    guide = (TOP / "docs/guide/SCRIPTS.md").read_text(encoding="utf-8")
    grammar = guide.split("\n## Grammar\n")[1].split("\n| Value ")[0]
    lines = re.findall(r"(?m)^syntax keyword \w+ (.*)$", (TOP / "release/vim/syntax/dabplan.vim").read_text(encoding="utf-8"))
    tally.same("keywords of the syntax file", sorted(set(re.findall(r'"([a-z]+)"', grammar))), sorted(" ".join(lines).split()))


def listed(folder, name):
    """The list of vim after ':make' of a script: the name, the line, the column, the kind and the text of each entry."""
    here = pathlib.Path(folder, "here")
    report = ("call writefile(map(getqflist(), {_, each -> join([bufname(each.bufnr), each.lnum, each.col, each.type, "
              "each.text], '|')}), 'listed')")
    words = ["vim", "-es", "-u", "NONE", "-i", "NONE", "-c", f"set nocompatible runtimepath+={here}/share/vim/vimfiles",
             "-c", "filetype on", "-c", "syntax on", "-c", f"edit {name.replace(' ', chr(92) + ' ')}", "-c", "compiler dabplan",
             "-c", "silent make!", "-c", report, "-c", "call writefile([&filetype, b:current_syntax], 'type')", "-c", "qall!"]
    run(words, folder, PATH=f"{here / 'bin'}:{os.environ['PATH']}", TERM="dumb")
    found = [pathlib.Path(folder, each) for each in ("listed", "type")]
    return [each.read_text(encoding="utf-8").splitlines() if each.exists() else None for each in found]


def vim(tally, folder):
    """What vim lists of a script with a fault of its text, of one that is refused, and of one with a warning."""
    if shutil.which("vim") is None:
        print("skipped: no vim")
        return
    text = (common.EXAMPLES / "night_rate.plan").read_text(encoding="utf-8")
    common.write(folder, "a fault.plan", text.replace("rate sub 1 96", "rat sub 1 96"))
    common.write(folder, "refused.plan", text.replace("  join\n", "", 1))
    common.write(folder, "warned.plan", text)
    for name, wanted in (("a fault.plan", r"a fault\.plan\|11\|3\|e\|expected .*found 'rat'"),
                         ("refused.plan", r"refused\.plan\|14\|0\|e\|a swap may be pending.*"),
                         ("warned.plan", r"warned\.plan\|10\|0\|w\|the plan begins with 'until 21:59:54'.*")):
        entries, kinds = listed(folder, name)
        tally.hold(bool(entries) and re.fullmatch(wanted, entries[0]) is not None, f"vim lists of {name}: {entries}")
        tally.hold(all("|0|0||" not in each for each in entries or []), f"lines that are no entries: {entries}")
        tally.same(f"the type of {name}", ["dabplan", "dabplan"], kinds)


def refused(tally, folder):
    """Without a folder nothing is installed."""
    for words in ([], ["--help"], ["a", "b", "c"]):
        ended = run([TOP / "release/install", *words], folder)
        tally.same(f"release/install {words}", (2, "", "usage: release/install PREFIX [PROGRAM]\n"), ended)


def main():
    """Runs all of it in one folder."""
    tally, program = common.Tally(), common.dabplan()
    with tempfile.TemporaryDirectory() as folder:
        made_from_the_help(tally, program)
        installed(tally, program, folder)
        completions(tally, folder)
        common.write(folder, "out.code", "")
        typed(tally, folder)
        keywords(tally)
        vim(tally, folder)
        refused(tally, folder)
    tally.end()


if __name__ == "__main__":
    main()
