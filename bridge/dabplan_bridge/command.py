"""The command line of `dabplan-bridge`."""
from __future__ import annotations

import argparse
import os
import pathlib
import re
import signal
import sys
import threading
import types
from typing import Callable, List, Optional, Type

from . import convert
from .access import Access, access_of, where_of
from .addresses import Address, of_sink, of_source
from .beginning import Wish
from .compact import compact
from .compose import add_compose, compose_of, only_source, source_words
from .conditioning import written
from .conditions import Condition, condition_of
from .faults import PROGRAM, BadCommand, Stopped, Trouble, hold_signals, say
from .fibs import COUNTS
from .reader import FORMATS
from .run import Options, run
from .sources import is_regular
from .weekdays import HOLIDAY, WEEK, Calendar, holidays_of

FOLDER = pathlib.Path(__file__).resolve().parents[1]
"""The folder of the bridge."""
DESCRIPTION = """\
Puts the FIBs of a plan into the ETI(NI) or EDI stream of a multiplexer, frame by frame.

Streams are files, FIFOs, '-' (standard input or output), tcp://HOST:PORT and udp://HOST:PORT. Results go to standard
output, messages to standard error. The program is tested, not proved."""
FORMAT_HELP = "the format; found by the first bytes where it is not given"
STATUSES = """\
exit status:
  0  the stream came to its end, or SIGTERM ended the program
  1  a file, a child or the last output failed; or a frame could not be filled; or the log does not have all
  2  the command line is invalid; nothing was touched
  4  with --strict: a count that is not explained; without it: the log of another plan
  5  the plan does not fit the multiplexer"""


def whole(low: int, high: int, what: str) -> Callable[[str], int]:
    """What reads a whole number in a range from the command line."""
    def read(text: str) -> int:
        if not re.fullmatch(r"[0-9]{1,19}", text) or not low <= int(text) <= high:
            raise argparse.ArgumentTypeError(f"expected {what}, {low} to {high}: {text}")
        return int(text)
    return read


def decimal(low: float, high: float, what: str) -> Callable[[str], float]:
    """What reads a number with an optional fraction in a range from the command line."""
    def read(text: str) -> float:
        if not re.fullmatch(r"[+-]?[0-9]{1,4}(\.[0-9]{1,6})?", text) or not low <= float(text) <= high:
            raise argparse.ArgumentTypeError(f"expected {what}, {low:g} to {high:g}: {text}")
        return float(text)
    return read


def time_of_day(text: str) -> str:
    """A time of day from the command line, or `now`."""
    if not re.fullmatch(r"now|([01][0-9]|2[0-3]):[0-5][0-9]:[0-5][0-9]", text):
        raise argparse.ArgumentTypeError(f"expected a time of day, 00:00:00 to 23:59:59, or now: {text}")
    return text


def input_of(text: str) -> Address:
    """The address of an input from the command line."""
    try:
        return of_source(text)
    except ValueError as fault:
        raise argparse.ArgumentTypeError(str(fault)) from None


def words_of_input(text: str) -> str:
    """The words of an input of `run` from the command line, with a name or without one."""
    try:
        return source_words(text)
    except ValueError as fault:
        raise argparse.ArgumentTypeError(str(fault)) from None


def output_of(text: str) -> Address:
    """The address of an output from the command line."""
    try:
        return of_sink(text)
    except ValueError as fault:
        raise argparse.ArgumentTypeError(str(fault)) from None


def asked_of(text: str) -> Condition:
    """A condition from the command line."""
    try:
        return condition_of(text)
    except ValueError as fault:
        raise argparse.ArgumentTypeError(str(fault)) from None


def control_of(text: str) -> Access:
    """The address of a control port from the command line."""
    try:
        return where_of(text)
    except ValueError as fault:
        raise argparse.ArgumentTypeError(str(fault)) from None


def is_program(path: str) -> bool:
    """Whether a path is that of a program; a folder is none."""
    return os.path.isfile(path) and os.access(path, os.X_OK)


def on_path(name: str) -> Optional[str]:
    """The program of this name on the path; None if there is none."""
    paths = (os.path.join(folder, name) for folder in os.get_exec_path())
    return next((found for found in paths if is_program(found)), None)


def own_program() -> Optional[str]:
    """The program `dabplan` beside the bridge, in a clone or as installed; else that on the path; None if there is
    none."""
    beside = [FOLDER.parent / "dabplan", FOLDER.parents[2] / "bin" / "dabplan" if len(FOLDER.parents) > 2 else FOLDER]
    return next((str(path) for path in beside if is_program(str(path))), on_path("dabplan"))


def program_of(given: Optional[str]) -> str:
    """The program `dabplan` to run; `BadCommand` if it is none."""
    if given is None:
        found = own_program()
        if found is None:
            raise BadCommand("no program dabplan: --dabplan names it")
        return found
    found = given if is_program(given) else on_path(given) if "/" not in given else None
    if found is None:
        raise BadCommand(f"--dabplan {given}: no program")
    return found


def calendar_of(words: argparse.Namespace) -> Calendar:
    """The calendar that the words of `run` ask for; `BadCommand` where two things have one contact."""
    if words.holidays is not None and words.weekdays is not None and words.weekdays + WEEK > HOLIDAY:
        raise BadCommand(f"--weekdays {words.weekdays} has contact {HOLIDAY}, which is that of --holidays")
    found = Calendar(words.weekdays, None if words.holidays is None else holidays_of(words.holidays))
    seen = set()
    for each in words.conditions:
        if each.contact in seen or each.contact in found:
            raise BadCommand(f"--condition: contact {each.contact} "
                             f"{'has two' if each.contact in seen else 'is one of the calendar'}")
        seen.add(each.contact)
    return found


def options_of(words: argparse.Namespace) -> Options:
    """What the words of `run` ask for; `BadCommand` where options exclude each other."""
    if words.clock and words.time:
        raise BadCommand("--time and --clock exclude each other")
    if words.offset is not None and not words.clock:
        raise BadCommand("--offset is an option of --clock fig")
    if words.resume_at is not None and words.anew:
        raise BadCommand("--resume-at and --anew exclude each other")
    for name in ("resume_at", "anew", "every"):
        if getattr(words, name) not in (None, False) and words.log is None:
            raise BadCommand(f"--{name.replace('_', '-')} is an option of --log")
    if words.zone is not None and words.time != "now" and words.weekdays is None and words.holidays is None:
        raise BadCommand("--zone is an option of --time now, --weekdays and --holidays")
    compose = compose_of(words)
    source = only_source(words) if compose is None else compose.inputs[0][1]
    wish = Wish(program=program_of(words.dabplan), time=words.time, is_local=words.zone == "local",
                clock_is_fig=words.clock is not None, offset=words.offset or 0.0, skip=words.skip,
                resume_at=words.resume_at, tolerance=words.tolerance, is_strict=words.strict, is_told=words.status,
                has_clock=not is_regular(source))
    return Options(code=words.code, source=source, sinks=words.sinks, wish=wish, format=words.format,
                   contacts=words.contacts, log=words.log, every=words.every or 250, anew=words.anew,
                   monitor=words.monitor, state=words.state, is_checked=words.check,
                   control=access_of(words.control, words.token_file), conditions=tuple(words.conditions),
                   calendar=calendar_of(words), compose=compose)


def add_times(one: argparse.ArgumentParser) -> None:
    """The options of `run` that say where in the plan, and at which time of day, it begins."""
    one.add_argument("--time", metavar="HH:MM:SS", type=time_of_day,
                     help="the time of the plan's first frame, those skipped included; now: the clock when its first "
                          "one on air comes")
    one.add_argument("--zone", choices=("utc", "local"),
                     help="the zone of --time now, and of the calendar [default: utc]")
    one.add_argument("--clock", choices=("fig",), help="take that time from FIG 0/10 of the stream, which is in UTC")
    one.add_argument("--offset", metavar="H", type=decimal(-24, 24, "hours"), help="the hours to be added to FIG 0/10")
    one.add_argument("--skip", metavar="N", type=whole(0, 2 ** 32 - 1, "a number of frames"), default=0,
                     help="begin with the frame N of the plan")


def add_log(one: argparse.ArgumentParser) -> None:
    """The options of `run` about its log."""
    one.add_argument("--log", metavar="FILE", help="keep what is given to the plan; a plan with a log is resumed")
    one.add_argument("--every", metavar="N", type=whole(1, 3_600_000, "a number of frames"),
                     help="a line in the log each N frames [default: 250]")
    one.add_argument("--resume-at", metavar="COUNT", type=whole(0, COUNTS - 1, "a CIF count"),
                     help="play the log to its end and the time since then, and go on in the first frame of this count")
    one.add_argument("--anew", action="store_true", help="begin the plan anew; the log is renamed")


def add_contacts(one: argparse.ArgumentParser) -> None:
    """The options of `run` about contacts."""
    one.add_argument("--contacts", metavar="FIFO",
                     help="lines 'contact 3 closed' and 'contact 3 open'; made if absent")
    one.add_argument("--condition", metavar="N:close=F,open=F,most=F", dest="conditions", type=asked_of, default=[],
                     action="append", help="the plan gets contact N closed once it has been closed for so many frames, "
                                           "open once it has been open for so many, and closed for so many at most; "
                                           "once or more")
    one.add_argument("--weekdays", metavar="N", type=whole(0, HOLIDAY + 1 - WEEK, "a contact"),
                     help="contact N is closed on Mondays, the next one on Tuesdays, and so on")
    one.add_argument("--holidays", metavar="FILE", help="contact 15 is closed on the dates in FILE, one a line")


def add_control(one: argparse.ArgumentParser) -> None:
    """The options of `run` about its control port."""
    one.add_argument("--control", metavar="[HOST:]PORT", type=control_of,
                     help="a port for status, metrics and contacts, by HTTP; on the loopback address unless another is "
                          "named")
    one.add_argument("--token-file", metavar="FILE",
                     help="the token that every change by --control needs; without it the port is on the loopback "
                          "address alone")


def add_run(commands: "argparse._SubParsersAction[argparse.ArgumentParser]") -> None:
    """The command `run` and its options."""
    one = commands.add_parser("run", help="plays a plan into a stream")
    one.add_argument("code", metavar="PLAN", help="the plan: its script, or its code file; SIGHUP reads it anew")
    one.add_argument("--in", metavar="IN", dest="source", type=words_of_input, required=True, action="append",
                     help="the stream of the multiplexer; with --compose NAME=IN, once or more")
    one.add_argument("--out", metavar="OUT", dest="sinks", type=output_of, required=True, action="append",
                     help="the stream for the modulator, once or more; tcp://:PORT is a server, on the loopback "
                          "address unless another is named")
    one.add_argument("--format", choices=FORMATS, help=FORMAT_HELP)
    add_contacts(one)
    add_times(one)
    add_log(one)
    one.add_argument("--tolerance", metavar="S", type=decimal(0, 59, "seconds"), default=3.0,
                     help="the seconds by which count and clock may differ [default: 3]")
    one.add_argument("--strict", action="store_true",
                     help="end with status 4 where a count is not explained; nothing is held")
    one.add_argument("--monitor", metavar="FIFO", help="the FIBs of what goes out, for a monitor; made if absent")
    one.add_argument("--check", action="store_true",
                     help="let 'dabplan check' run over what goes out: faults are reported, totals are in the state")
    one.add_argument("--state", metavar="FILE", help="what the bridge does, as a textfile for Prometheus")
    add_control(one)
    one.add_argument("--status", action="store_true", help="report each notice and each swap")
    one.add_argument("--dabplan", metavar="PROGRAM", help="the program dabplan")
    add_compose(one, whole)
    one.set_defaults(does=lambda words: run(options_of(words)))


def compacted(words: argparse.Namespace) -> int:
    """The command `compact`; returns the exit status."""
    compact(words.log)
    return 0


def events_written(words: argparse.Namespace) -> int:
    """The command `condition`; returns the exit status."""
    if len({each.contact for each in words.conditions}) < len(words.conditions):
        raise BadCommand("a contact has two conditions")
    if sys.stdin is None:
        raise Trouble("cannot read standard input: it is closed")
    return written(sys.stdin.buffer, words.conditions)


def parser() -> argparse.ArgumentParser:
    """The command line."""
    top = argparse.ArgumentParser(prog=PROGRAM, description=DESCRIPTION, epilog=STATUSES,
                                  formatter_class=argparse.RawDescriptionHelpFormatter)
    commands = top.add_subparsers(required=True, metavar="COMMAND", dest="command")
    one = commands.add_parser("fic", help="writes the FIBs of each frame of a stream")
    one.add_argument("source", metavar="IN", type=input_of, help="the stream")
    one.add_argument("--format", choices=FORMATS, help=FORMAT_HELP)
    one.set_defaults(does=lambda words: convert.fic(words.source, words.format))
    one = commands.add_parser("insert", help="writes a stream with the FIC of a file")
    one.add_argument("source", metavar="IN", type=input_of, help="the stream")
    one.add_argument("fic", metavar="FIC", help="the FIBs")
    one.add_argument("--format", choices=FORMATS, help=FORMAT_HELP)
    one.set_defaults(does=lambda words: convert.insert(words.source, words.fic, words.format))
    add_run(commands)
    one = commands.add_parser("compact", help="rewrites a log with one line for what is past")
    one.add_argument("log", metavar="LOG", help="the log, of a bridge that does not run")
    one.set_defaults(does=compacted)
    one = commands.add_parser("condition", help="writes events as a plan gets them whose contacts are conditioned")
    one.add_argument("conditions", metavar="N:close=F,open=F,most=F", type=asked_of, nargs="+",
                     help="as --condition of run; events come from standard input, and go to standard output")
    one.set_defaults(does=events_written)
    return top


def stop(number: int, _: Optional[types.FrameType]) -> None:
    """Ends the bridge at a signal; further ones change nothing."""
    hold_signals()
    raise Stopped(signal.Signals(number).name)


def unexpected(kind: Type[BaseException], fault: Optional[BaseException], trace: Optional[types.TracebackType]) -> None:
    """Says in one line what no other line says."""
    while trace is not None and trace.tb_next is not None:
        trace = trace.tb_next
    place = ""
    if trace is not None:
        place = f" ({os.path.basename(trace.tb_frame.f_code.co_filename)}, line {trace.tb_lineno})"
    say(f"{kind.__name__}: {fault}{place}".replace("\n", " "))


def fill_standard() -> None:
    """Puts something that fails in the place of a standard stream that is closed: else the next file would be opened as
    it."""
    for descriptor, flags in enumerate((os.O_WRONLY, os.O_RDONLY, os.O_WRONLY)):
        try:
            os.fstat(descriptor)
        except OSError:
            os.set_inheritable(os.open(os.devnull, flags), True)


def main(arguments: Optional[List[str]] = None) -> int:
    """Runs a command line; returns the exit status."""
    sys.excepthook = unexpected
    threading.excepthook = lambda found: unexpected(found.exc_type, found.exc_value, found.exc_traceback)
    fill_standard()
    for each in (signal.SIGTERM, signal.SIGINT):
        signal.signal(each, stop)
    try:
        words = parser().parse_args(arguments)
        return int(words.does(words))
    except Trouble as fault:
        say(fault)
        return fault.status
    except Stopped:
        return Stopped.status
    except MemoryError:
        say("no memory")
        return 1
    finally:
        hold_signals()
