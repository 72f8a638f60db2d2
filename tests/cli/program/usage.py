#!/usr/bin/env python3
"""Invalid command lines, and help. The last line is 'N passed, M failed'."""
import re

import rows
from rows import common

COMMANDS = ("frame", "listen", "check", "diff", "compile", "verify", "map", "play", "debug", "live")
FOUR_DIGITS = "expected four hexadecimal digits (0-9, A-F)"
NO_TEXT = b"error: an argument is not UTF-8\n"
TIME = "expected 00:00:00 to 23:59:59.999"


def required(name):
    """The message of a command line without a required argument."""
    return f"the following required arguments were not provided: {name}"


def twice(name):
    """The message of a command line that has an option twice."""
    return f"the argument '{name}' cannot be used multiple times"


def together(first, second):
    """The message of a command line with two conflicting options."""
    return f"the argument '{first}' cannot be used with '{second}'"


def wrong_command_lines(rows):
    """Invalid command lines, each with its line; no file is read, or there would be another line."""
    for line, wanted in (
        ("", "missing command; expected one of frame, listen, check, merge, diff, compile, verify, map, timeline, play, debug, live, help"),
        ("fram", "unrecognized subcommand 'fram'; tip: a similar subcommand exists: 'frame'"),
        ("frame - --ensemble E1C5", required("--count <N>")),
        ("frame - --ensemble E1C --count 0", f"invalid value 'E1C' for '--ensemble <HHHH>': {FOUR_DIGITS}"),
        ("frame - --ensemble e1c5 --count 0", f"invalid value 'e1c5' for '--ensemble <HHHH>': {FOUR_DIGITS}"),
        ("frame - --ensemble 0E1C5 --count 0", f"invalid value '0E1C5' for '--ensemble <HHHH>': {FOUR_DIGITS}"),
        (["frame", "-", "--ensemble", "E1\nC5", "--count", "0"],
         f"invalid value 'E1\\x0AC5' for '--ensemble <HHHH>': {FOUR_DIGITS}"),
        ("frame - --ensemble E1C5 --count 5000", "invalid value '5000' for '--count <N>': expected a number from 0 to 4999"),
        ("frame - --ensemble E1C5 --count -1", "unexpected argument '-1' found"),
        ("frame - --ensemble E1C5 --count x", "invalid value 'x' for '--count <N>': expected a decimal number"),
        ("frame - --ensemble E1C5 --count 0 --page 65536",
         "invalid value '65536' for '--page <K>': expected a number from 0 to 65535"),
        ("frame x.rec --ensemble E1C5 --count 0 --mode 0", "invalid value '0' for '--mode <M>': expected a number from 1 to 4"),
        ("frame x.rec --ensemble E1C5 --count 0 --mode 5", "invalid value '5' for '--mode <M>': expected a number from 1 to 4"),
        ("frame - --ensemble E1C5 --count 0 --mode III",
         "invalid value 'III' for '--mode <M>': expected a decimal number"),
        (["frame", "-", "--ensemble", "E1C5", "--count", ""], "invalid value '' for '--count <N>': expected a decimal number"),
        (f"frame - --ensemble E1C5 --count {10 ** 20}", f"invalid value '{10 ** 20}' for '--count <N>': the number is too large"),
        ("frame - --ensemble E1C5 --count 0 --mode 1 --mode 1", twice("--mode <M>")),
        ("frame - --ensemble E1C5 --count 0 --count 0", twice("--count <N>")),
        ("listen", required("<FILE>")),
        ("listen a b", "unexpected argument 'b' found"),
        ("check", required("<FILE>")),
        ("check x.fib --mode 5", "invalid value '5' for '--mode <M>': expected a number from 1 to 4"),
        ("check x.fib --period 0", "invalid value '0' for '--period <N>': expected a number from 1 to 60000"),
        ("check x.fib --every 0", "invalid value '0' for '--every <N>': expected a number from 1 to 4294967295"),
        ("check x.fib --every 2 --every 2", twice("--every <N>")),
        ("check x.fib --json --json", twice("--json")),
        ("check x.fib --until-fault --until-fault", twice("--until-fault")),
        ("check x.fib --time 12:00", f"invalid value '12:00' for '--time <HH:MM:SS>': {TIME}"),
        ("listen x.fib --json --script", "the argument '--json' cannot be used with '--script'"),
        ("check x.fib --period 60001", "invalid value '60001' for '--period <N>': expected a number from 1 to 60000"),
        ("verify", required("<CODE>")),
        ("verify a b", "unexpected argument 'b' found"),
        ("verify -1", "unexpected argument '-1' found"),
        ("help fram", "unrecognized subcommand 'fram'"),
        ("verify a --explain --explain", twice("--explain")),
        ("compile a b --explain=yes", "unexpected value 'yes' for '--explain' found; no more were expected"),
        ("compile a --explain", required("<OUT>")),
    ):
        rows.answers(line, 2, f"error: {wanted}\n")
    rows.answers(["\udcff"], 2, "error: an argument is not UTF-8\n")


def wrong_options(rows):
    """Options of `play` and `debug` that are out of their ranges."""
    for command in ("play x.code x.events x.fib", "debug x.code x.commands"):
        for options in ("--contacts 008", "--contacts 000g", "--count 65536", "--day 4294967296", "--count x"):
            ended = rows.run(f"{command} {options}")
            rows.tally.same(f"{command} {options}", (2, b"error: invalid value"), (ended.status, ended.printed[:20]))
        for value in ("24:00:00", "23:60:00", "23:59:60", "6:00:00", "06:00", "06:00:00.0", "+6:00:00", "06-00-00", "noon"):
            rows.answers(f"{command} --time {value}", 2, f"error: invalid value '{value}' for '--time <HH:MM:SS>': {TIME}\n")
        rows.answers(f"{command} --day 0 --time 06:00:00", 2, f"error: {together('--day <N>', '--time <HH:MM:SS>')}\n")
        rows.answers(f"{command} --time 06:00:00 --day 900000", 2, f"error: {together('--time <HH:MM:SS>', '--day <N>')}\n")
        rows.answers(f"{command} --time 06:00:00 --time 06:00:00", 2, f"error: {twice('--time <HH:MM:SS>')}\n")
    ended = rows.run("debug x.code x.commands x")
    rows.tally.same("a third file", (2, b"error: unexpected argument 'x' found\n"), ended.lines())


def wrong_live_lines(rows):
    """Those of `live` are reported on standard error, and nothing goes to standard output."""
    for options, wanted in (
        ("", required("<CODE>")),
        ("x.code y", "unexpected argument 'y' found"),
        ("x.code --contacts 00g0", f"invalid value '00g0' for '--contacts <HHHH>': {FOUR_DIGITS}"),
        ("x.code --count 65536", "invalid value '65536' for '--count <N>': expected a number from 0 to 65535"),
        ("x.code --day -1", "unexpected argument '-1' found"),
        ("x.code --time 24:00:00", f"invalid value '24:00:00' for '--time <HH:MM:SS>': {TIME}"),
        ("x.code --day 0 --time 00:00:00", together("--day <N>", "--time <HH:MM:SS>")),
        ("x.code --skip -1", "unexpected argument '-1' found"),
        ("x.code --skip 9223372036854775808",
         "invalid value '9223372036854775808' for '--skip <N>': expected a number from 0 to 9223372036854775807"),
        ("x.code --time 12:00:00.5", f"invalid value '12:00:00.5' for '--time <HH:MM:SS>': {TIME}"),
        ("x.code --skip 0 --skip 0", twice("--skip <N>")),
        ("x.code --status --status", twice("--status")),
        ("x.code --explain", "unexpected argument '--explain' found"),
    ):
        ended = rows.run(f"live {options}", stdin=b"frames 1\n")
        rows.tally.same(f"live {options}", (2, b"", f"error: {wanted}\n".encode()), (*ended.lines(), ended.messages))
    for words, wanted in ((["live", "\udcff"], (2, b"", NO_TEXT)), (["live", "x.code", "--skip", "\udcff"], (2, b"", NO_TEXT)),
                          (["\udcff", "live"], (2, NO_TEXT, b"")), (["lively", "\udcff"], (2, NO_TEXT, b""))):
        ended = rows.run(words, stdin=b"frames 1\n")
        rows.tally.same(f"{words}", wanted, (*ended.lines(), ended.messages))


def help_is_no_fault(rows):
    """Requested help names the whole command, and ends with 0."""
    for line, usage in (
        ("--help", "Usage: dabplan <COMMAND>"),
        ("--version", "dabplan 0.3.0\n"),
        ("-V", "dabplan 0.3.0\n"),
        ("compile --help", "Usage: dabplan compile <SCRIPT> <OUT> [--from <NOW>] [--explain | --quiet]"),
        ("play --help", "Usage: dabplan play <CODE> <EVENTS> <OUT> [--count <N>] [--day <N> | --time <HH:MM:SS>]"),
        ("debug --help", "Usage: dabplan debug <CODE> <COMMANDS> [--count <N>] [--day <N> | --time <HH:MM:SS>]"),
        ("live --help", "Usage: dabplan live <CODE> [--count <N>] [--day <N> | --time <HH:MM:SS>]"),
        ("live -h", "Usage: dabplan live <CODE>"),
        ("help live", "--status --skip 200"),
        ("-h", "Usage: dabplan <COMMAND>"),
        ("help", "Usage: dabplan <COMMAND>"),
        ("help -h", "Usage: dabplan <COMMAND>"),
        ("help --help", "Usage: dabplan <COMMAND>"),
        ("help help", "Usage: dabplan <COMMAND>"),
        ("help map --help", "Usage: dabplan map <SCRIPT> [--svg <OUT>]"),
        ("frame --help", "Usage: dabplan frame <CONFIG> --ensemble <HHHH> --count <N> [--page <K>] [--mode <M>]"),
        ("help listen", "Usage: dabplan listen <FILE>"),
        ("help listen", "dabplan listen <FILE> --script [--mode <M>] [--period <P>] [--notice <W>] [--budget <B>]"),
        ("diff --help", "Usage: dabplan diff <FROM> <TO>"),
        ("help check", "Usage: dabplan check <FILE> [--mode <M>] [--period <N>]"),
        ("verify --help", "Usage: dabplan verify <CODE> [--explain | --quiet]"),
        ("help map", "Usage: dabplan map <SCRIPT> [--svg <OUT>]"),
    ):
        ended = rows.run(line)
        rows.tally.same(line, (0, True, b""), (ended.status, usage in ended.printed.decode(), ended.messages))


def the_names_in_the_help(rows):
    """Each name of a fault in a help page is in the guide too, or in what it says of formats."""
    paths = [*(common.TOP / "docs/guide").glob("*.md"), common.TOP / "docs/design/FORMATS.md"]
    document = "".join(path.read_text(encoding="utf-8") for path in paths)
    for line in ("help", *(f"help {command}" for command in COMMANDS)):
        names = set(re.findall(r"\b[A-Za-z]*[a-z][A-Z][A-Za-z]*\b", rows.run(line).printed.decode()))
        rows.tally.same(f"names in {line}", [], sorted(name for name in names if name not in document))


def the_width_of_the_help(rows):
    """No line of a help page is wider than 100 columns."""
    for line in ("help", *(f"help {command}" for command in COMMANDS)):
        wide = [text for text in rows.run(line).printed.decode().splitlines() if len(text) > 100]
        rows.tally.same(f"wide lines in {line}", [], wide)


if __name__ == "__main__":
    rows.main([wrong_command_lines, wrong_options, wrong_live_lines, help_is_no_fault, the_names_in_the_help, the_width_of_the_help])
