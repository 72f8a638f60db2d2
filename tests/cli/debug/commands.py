#!/usr/bin/env python3
"""'dabplan debug': its output command by command, and its refusals. The last line is 'N passed, M failed'."""
import rows
from codes import NOTHING_CODE, PROGRAMME, RATES_CODE, REFUSED_CODE, code


def led(rows, file, commands, options, status, wanted):
    """Debugging a code file with these commands gives this output."""
    rows.answers(f"debug x.code x.commands {options}", status, wanted, {"x.code": file, "x.commands": commands})


def line(frames, steps, pc, line_number, count, remaining="none"):
    """The line of a report."""
    return f"frames {frames} steps {steps} pc {pc} line {line_number} count {count} remaining {remaining}\n"


def a_change_of_rate_by_commands(rows):
    """A break line, a contact, the next line, and the announcements sent."""
    wanted = (
        line(0, 0, 0, 8, 0) + line(1, 1, 1, 9, 1) + "break\n" + line(0, 1, 1, 9, 1) + line(2, 0, 4, 12, 3, 25)
        + line(26, 1, 5, 13, 29) + line(0, 1, 5, 13, 29)
        + "".join(f"announced {count} swap 28 change 1\n" for count in (4, 8, 12, 16, 20, 24))
    )
    led(rows, RATES_CODE, "break 9 run 100\ncontact 3 closed run 2 # the notice\nnext show", "", 0, wanted)


def few_commands(rows):
    """A command file without commands prints nothing, and `run` alone one line."""
    for commands, options, wanted in (
        ("", "", ""),
        (" # nothing\n", "", ""),
        ("run 1", "", line(1, 1, 0, 1, 1)),
        ("clear", "--count 4999 --day 3599999 --contacts FFFF", line(0, 0, 0, 1, 4999)),
        ("run 3 next", "--count 4999", line(3, 0, 0, 1, 2) + line(5000, 0, 0, 1, 2)),
    ):
        led(rows, NOTHING_CODE, commands, options, 0, wanted)


def contacts(rows):
    """A contact that is closed at the start, or by a command, lets the plan continue."""
    led(rows, RATES_CODE, "run 2", "--contacts 0008", 0, line(2, 3, 4, 12, 2, 26))
    led(rows, RATES_CODE, "contact 3 closed contact 3 open run 2", "", 0,
        line(0, 0, 0, 8, 0) + line(0, 0, 0, 8, 0) + line(2, 0, 1, 9, 2))


def a_loop_of_three(rows):
    """A loop of three, of a code with two labels, the second of which has counter 0 set."""
    file = code("set 0 3, wait 1, loop 0 1, end", "0 cost 2, 1 counters 01 cost 1")
    led(rows, file, "run 1 " * 5, "", 0,
        line(1, 2, 2, 3, 1) + line(1, 2, 2, 3, 2) + line(1, 2, 2, 3, 3) + line(1, 2, 3, 4, 4) + line(1, 0, 3, 4, 5))


def frames_of_the_day(rows):
    """Waiting for the first frame of the day, and for its last: that of its own frame is over."""
    for time, second in ((0, 1), (3_599_999, 0)):
        led(rows, code(f"until {time}, end"), "run 1 " * 3, "--day 3599999", 0,
            line(1, 1, 1, 2, 1) + line(1, second, 1, 2, 2) + line(1, 0, 1, 2, 3))


def break_lines(rows):
    """A break line is reached when the line changes to it, only by `run`, and not after it is cleared."""
    at_start, at_rate = line(0, 0, 0, 8, 0), line(1, 1, 1, 9, 1)
    for commands, wanted in (
        ("next break 9 run 10", at_rate + line(0, 1, 1, 9, 1) + line(10, 0, 1, 9, 11)),
        ("break 9 next", at_start + at_rate), ("break 9 clear run 3", at_start + at_start + line(3, 0, 1, 9, 3)),
        ("next next", at_rate + line(5000, 0, 1, 9, 1)), ("show clear", at_start + at_start),
    ):
        led(rows, RATES_CODE, commands, "", 0, wanted)


def announcements_are_kept(rows):
    """The last 64 are: of a rate that is changed to and fro, with one notice after another, each fourth frame has one."""
    file = code("rate sub 1 96, commit in 24, join, rate sub 1 128, commit in 24, join, jump 0", "0 cost 3", [PROGRAMME])
    for commands, first, last in (("run 4 show break 5", 0, 0), ("run 253", 0, 252), ("run 253 run 20", 20, 272),
                                  ("run 253 run 20 run 4", 24, 276)):
        ended = rows.run("debug x.code x.commands", {"x.code": file, "x.commands": f"{commands} show"})
        reported = [each for each in ended.printed.decode().splitlines()[::-1] if each.startswith("announced")]
        reported = reported[:(last - first) // 4 + 1][::-1]
        wanted = [f"announced {count} swap {(count // 24 + 1) * 24 % 250} change 1" for count in range(first, last + 1, 4)]
        rows.tally.same(commands, wanted, reported)
        rows.tally.same(f"no more after {commands}", (last - first) // 4 + 1,
                        len(ended.printed.decode().split("frames")[-1].splitlines()) - 1)


def faults_in_their_order(rows):
    """Only the line of a fault is printed: of the code first, then of the start, then of the commands."""
    for file, commands, options, wanted in (
        (b"", "@", "--count 5000", "code: Truncated\n"),
        (b"EABP", "@", "--count 5000", "code: Magic\n"),
        (REFUSED_CODE, "@", "--count 5000", "refused at 0 line 1: JoinIdle\n"),
        (NOTHING_CODE, "@", "--count 5000 --day 3600000", "start: Count\n"),
        (NOTHING_CODE, "@", "--day 3600000", "start: Day\n"),
        (NOTHING_CODE, "next run 0 @", "", "commands 1:12: Byte\n"),
        (NOTHING_CODE, "next\nrun 0", "", "commands 2:5: Number\n"),
        (NOTHING_CODE, "next break 65536", "", "commands 1:12: Number\n"),
        (NOTHING_CODE, "contact 3 shut", "", "commands 1:11: Expected\n"),
        (NOTHING_CODE, "frames 1", "", "commands 1:1: Expected\n"),
    ):
        led(rows, file, commands, options, 1, wanted)


def files_that_cannot_be_had(rows):
    """Files that don't exist or are not text."""
    files = {"x.code": b"DABP", "x.commands": "run 1", "no_text": b"\xff"}
    rows.answers("debug y.code x.commands", 1, "cannot read y.code\n", files)
    rows.answers("debug x.code y.commands", 1, "cannot read y.commands\n", files)
    rows.answers("debug x.code no_text", 1, "cannot read no_text\n", files)


if __name__ == "__main__":
    rows.main([a_change_of_rate_by_commands, few_commands, contacts, a_loop_of_three, frames_of_the_day,
               break_lines, announcements_are_kept, faults_in_their_order, files_that_cannot_be_had])
