#!/usr/bin/env python3
"""The help texts: their examples are run, their words are the user's, and all list the commands in one order. The last
line is 'N passed, M failed'."""
import os
import pathlib
import re
import subprocess
import tempfile

from rows import common

TOP = common.TOP
# The first words of a line that says that something went wrong.
ERRORS = re.compile(r"error|refused|cannot|no memory|code:|record:|start:|events |commands |write failed|line \d+:|"
                    r"[\w.]*:? ?\d+:\d+: |bash:|.*: command not found|.*fault:")
WIDTH = 100


class Help:
    """The help texts of the program, and the numbers passed and failed."""

    def __init__(self, folder):
        self.tally = common.Tally()
        self.program = common.dabplan()
        self.folder = pathlib.Path(folder)
        (self.folder / "bin").mkdir()
        (self.folder / "bin/dabplan").symlink_to(self.program)
        (self.folder / "examples").symlink_to(TOP / "examples")
        self.texts = {"": self.run("dabplan help").stdout}
        self.commands = re.findall(r"^  (\w+) ", self.texts[""].split("Commands:\n")[1].split("\n\n")[0], re.MULTILINE)
        self.commands.remove("help")
        self.texts |= {command: self.run(f"dabplan help {command}").stdout for command in self.commands}

    def run(self, commands):
        """Runs commands of a shell in the folder of the examples, and stops at the first that fails."""
        environment = os.environ | {"PATH": f"{self.folder / 'bin'}:{os.environ['PATH']}"}
        return subprocess.run(["bash", "-euo", "pipefail", "-c", commands], cwd=self.folder, env=environment, check=False,
                              stdin=subprocess.DEVNULL, capture_output=True, text=True, errors="replace", timeout=600)


def examples(text):
    """The examples of a help text: the indented lines below each line 'Example: ..', as commands of a shell."""
    return [re.sub(r"^  ", "", found, flags=re.MULTILINE)
            for found in re.findall(r"^Example: .*\n((?:  .*\n)+)", text, re.MULTILINE)]


def error_lines(printed):
    """The lines of an output that say that something went wrong."""
    return [line for line in printed.splitlines() if ERRORS.match(line)]


def identifiers(text):
    """The words of a text with '_' that name no file of examples/ and no field of JSON, which stands in quotation marks before
    a colon: they are names of the sources."""
    words = re.findall(r"[\w./-]*\w_\w[\w./-]*", re.sub(r'\\?"\w+\\?":', "", text))
    return sorted({word for word in words if not (TOP / word.rstrip(".,")).exists()})


def each_example_runs(help_):
    """Each help text has an example, and each example ends with status 0 and prints no error."""
    for command, text in help_.texts.items():
        found = examples(text)
        help_.tally.same(f"help {command} has an example", True, bool(found))
        for commands in found:
            ended = help_.run(commands)
            wrong = error_lines(ended.stdout + ended.stderr)
            help_.tally.same(f"help {command}: {commands}", (0, []), (ended.returncode, wrong))


def what_the_examples_do(help_):
    """The plans of the examples reach their swaps, and what they make is what the text around them says."""
    for command, number, commands, wanted in (
        ("", 0, "dabplan check night.fib | tail -1", "swaps 1 faults 0"),
        ("check", 0, "dabplan check day.fib | tail -1", "swaps 1 faults 0"),
        ("play", 0, "dabplan check day.fib | tail -1", "swaps 2 faults 0"),
        ("diff", 0, "dabplan verify change.code", "accepted"),
        ("map", 0, "head -c 100 night.svg", "<svg"),
        ("live", 0, "dabplan listen day.fib | head -1", "fibs 903 damaged 0"),
        ("live", 1, "tail -c +$((200 * 96 + 1)) day.fib | cmp - rest.fib && echo the same", "the same"),
    ):
        help_.run(examples(help_.texts[command])[number])
        help_.tally.same(f"help {command}: {commands}", True, wanted in help_.run(commands).stdout)


def the_script_of_compile(help_):
    """The script in 'help compile' is a script, and the sizes shown below it are those of its code."""
    text = help_.texts["compile"]
    script = re.search(r"^A script:\n((?:  .*\n)+)", text, re.MULTILINE)
    shown = re.search(r"^  (instructions .*)$", text, re.MULTILINE)
    help_.tally.same("help compile shows a script", True, bool(script and shown))
    (help_.folder / "shown.plan").write_text(script[1], encoding="utf-8")
    ended = help_.run("dabplan compile shown.plan shown.code")
    help_.tally.same("the script of help compile", (0, shown[1] + "\n"), (ended.returncode, ended.stdout))


def the_words_are_the_users(help_):
    """No help text has an identifier of the sources, and one that is planted is found."""
    for command, text in help_.texts.items():
        help_.tally.same(f"identifiers in help {command}", [], identifiers(text))
    planted = help_.texts["play"].replace("is opened", "is read_opening")
    help_.tally.same("a planted identifier", ["read_opening"], identifiers(planted))


def messages():
    """The texts of the messages in the sources, each with its file: what '#[error(..)]' and 'write!(..)' print."""
    for path in sorted((TOP / "crates").glob("*/src/**/*.rt")):
        for text in re.findall(r'(?:#\[error|\bwrite(?:ln)?!|\bformat!)\([^"()]*"((?:[^"\\]|\\.)*)"', path.read_text(encoding="utf-8")):
            yield path, re.sub(r"\{[^}]*\}", "", text)


def no_message_has_an_identifier(help_):
    """No message of the sources has an identifier."""
    texts = list(messages())
    help_.tally.same("there are messages", True, len(texts) > 200)
    wrong = [f"{path.relative_to(TOP)}: {text}" for path, text in texts if identifiers(text)]
    help_.tally.same("identifiers in messages", [], wrong)


def no_line_is_wide(help_):
    """No line of a help text is wider than 100 columns."""
    for command, text in help_.texts.items():
        wide = [line for line in text.splitlines() if len(line) > WIDTH]
        help_.tally.same(f"wide lines in help {command}", [], wide)


def the_order_of_the_commands(help_):
    """The commands have one order: in the help's two lists, in the message of a missing command, and in the documents."""
    text = help_.texts[""]
    described = re.findall(r"^  (\w+) ", text.split("read and write:\n")[1].split("\n'")[0], re.MULTILINE)
    missing = re.findall(r"\w+", help_.run("dabplan || true").stdout.split("expected one of ")[1])
    guide = (TOP / "docs/guide/COMMANDS.md").read_text(encoding="utf-8")
    chapters = list(dict.fromkeys(re.findall(r"^## `dabplan (\w+)", guide, re.MULTILINE)))
    for where, found in (("described", described), ("missing", missing[:-1]), ("docs/guide/COMMANDS.md", chapters)):
        help_.tally.same(f"the order of the commands: {where}", help_.commands, found)


def help_on_help(help_):
    """`help --help`, `help -h` and `help help` print the program's help, and each command has `-h` and `--help`."""
    for line in ("help --help", "help -h", "help help", "--help"):
        ended = help_.run(f"dabplan {line}")
        help_.tally.same(line, (0, help_.texts[""], ""), (ended.returncode, ended.stdout, ended.stderr))
    for command in help_.commands:
        for line in (f"{command} --help", f"help {command} --help", f"help {command} -h"):
            ended = help_.run(f"dabplan {line}")
            help_.tally.same(line, (0, help_.texts[command], ""), (ended.returncode, ended.stdout, ended.stderr))


def main():
    """Runs all parts in one folder, and prints the count."""
    with tempfile.TemporaryDirectory() as folder:
        help_ = Help(folder)
        for part in (each_example_runs, what_the_examples_do, the_script_of_compile, the_words_are_the_users,
                     no_message_has_an_identifier, no_line_is_wide, the_order_of_the_commands, help_on_help):
            part(help_)
    help_.tally.end()


if __name__ == "__main__":
    main()
