#!/usr/bin/env python3
"""Worked examples from a script to a listener, frame by frame. The last line is 'N passed, M failed'.

Each script is compiled and its code verified. `debug` then plays it to each of its moments, and must report the number of
instructions in the last frame, the CIF count, and the frames until the swap; `play` makes the same frames, from which
`listen` must decode both configurations, and the announced swap.
"""
import re
import typing

import rows

# The declarations of a script.
HEAD = "ensemble E1C5 period 4 notice 24 budget 20\n"

# A script with one sound programme of 128 kbit/s, up to its statements.
PROGRAMME = HEAD + "sub 1 at 0 eep 3-A 128\nservice C221\naudio 63 sub 1 in C221\nbegin\n"

# A change to 64 kbit/s, and once it has settled and contact 3 is closed one to 96.
SETTLED = "rate sub 1 64\ncommit in 24\nwait contact 3 closed\nsettle\nrate sub 1 96\ncommit in 24\nsettle\n"

# The listing of the programme at 128, 96 and 64 kbit/s.
AT_128, AT_96, AT_64 = (f"sub 1 at 0 size {size} eep 3-A\nservice C221\n  audio 63 sub 1 primary\n" for size in (96, 72, 48))


class Moment(typing.NamedTuple):
    """The state of a script this many frames later."""

    frames: int
    # The number of instructions in the last frame.
    steps: int
    # The CIF count of the next frame, and the frames until the swap.
    count: int
    remaining: typing.Optional[int]
    # The listing of the current configuration, and of the next one if it is announced.
    current: str
    announced: typing.Optional[str] = None
    # The change of contact 3 before these frames.
    contact: str = ""

    def commands(self, word):
        """The commands of `debug`, or with another keyword the events of `play`, that lead to it."""
        contact = f"contact 3 {self.contact} " if self.contact else ""
        return f"{contact}{word} {self.frames}\n"

    def heard(self, frames):
        """The output of `listen` after this many frames in total, three FIBs each."""
        swap = "no swap" if self.announced is None else f"swap at low {(self.count + self.remaining) % 5000 % 250}"
        return f"fibs {3 * frames} damaged 0\ncurrent\n{self.current}next\n{self.announced or ''}{swap}\n"


def reports(printed):
    """The steps, the count and the frames until the swap of each line of `debug` after frames."""
    found = re.findall(r"^frames (\d+) steps (\d+) pc \d+ line \d+ count (\d+) remaining (\d+|none)$", printed, re.M)
    return [(int(steps), int(count), None if left == "none" else int(left))
            for frames, steps, count, left in found if frames != "0"]


def plays(rows, script, options, moments):
    """A script is compiled and played, and reaches each of the moments."""
    compiled = rows.run("compile x.plan x.code", {"x.plan": script})
    rows.tally.same(f"compile of {script!r}", (0, b"instructions"), (compiled.status, compiled.printed.split(b" ")[0]))
    code = rows.made("x.code") or b""
    rows.answers("verify x.code", 0, "accepted\n", {"x.code": code})
    commands = "".join(moment.commands("run") for moment in moments)
    led = rows.run(f"debug x.code x.commands {options}", {"x.code": code, "x.commands": commands})
    rows.tally.same(f"debug of {script!r}", [(moment.steps, moment.count, moment.remaining) for moment in moments],
                    reports(led.printed.decode()))
    events, frames = "", 0
    for moment in moments:
        events += moment.commands("frames")
        frames += moment.frames
        rows.answers(f"play x.code x.events x.fib {options}", 0, f"played {frames} frames\n",
                     {"x.code": code, "x.events": events})
        rows.answers("listen x.fib", 0, moment.heard(frames), {"x.fib": rows.made("x.fib") or b""})


def a_first_programme(rows):
    """It is committed: in 24 frames, where the first count of FIG 0/0 after them is announced; at a count, almost
    5,000 frames later; and in 24 frames at a count of FIG 0/0, where the notice begins at once."""
    edits = "sub 1 at 0 eep 3-A 128\nservice C221\naudio 63 sub 1 in C221"
    for commit, options, moments in (
        ("commit in 24", "--count 4990", (
            Moment(1, 5, 4991, 25, ""),
            Moment(1, 0, 4992, 24, ""),
            Moment(24, 0, 16, 0, "", AT_128),
            Moment(1, 1, 17, None, AT_128),
        )),
        ("commit at 1000", "--count 1000", (
            Moment(1, 5, 1001, 4999, ""),
            Moment(4975, 0, 976, 24, ""),
            Moment(24, 0, 1000, 0, "", AT_128),
            Moment(1, 1, 1001, None, AT_128),
        )),
        ("commit in 24", "", (Moment(1, 5, 1, 23, "", AT_128),)),
    ):
        plays(rows, f"{HEAD}begin\n{edits}\n{commit}\njoin\n", options, moments)


def a_rate_by_a_contact(rows):
    """Lowered when contact 3 is closed, and raised when it is open."""
    body = """forever {
wait contact 3 closed rate sub 1 96 commit in 24 join
wait contact 3 open rate sub 1 128 commit in 24 join
}
"""
    plays(rows, PROGRAMME + body, "", (
        Moment(1, 1, 1, None, AT_128),
        Moment(1, 3, 2, 26, AT_128, contact="closed"),
        Moment(26, 0, 28, 0, AT_128, AT_96),
        Moment(1, 1, 29, None, AT_96),
        Moment(11, 0, 40, None, AT_96),
        Moment(1, 3, 41, 23, AT_96, AT_128, contact="open"),
        Moment(23, 0, 64, 0, AT_96, AT_128),
        Moment(1, 2, 65, None, AT_128),
        Moment(5, 0, 70, None, AT_128),
    ))


def a_wait_past_the_swap(rows):
    """The swap is made while the script waits."""
    plays(rows, PROGRAMME + "rate sub 1 64\ncommit in 24\nwait 27\nrate sub 1 96\n", "", (
        Moment(1, 3, 1, 23, AT_128, AT_64),
        Moment(23, 0, 24, 0, AT_128, AT_64),
        Moment(1, 0, 25, None, AT_64),
        Moment(2, 0, 27, None, AT_64),
        Moment(1, 2, 28, None, AT_64),
        Moment(9, 0, 37, None, AT_64),
    ))


def five_rounds(rows):
    """The instructions of an iteration, with contact 1 open and closed."""
    script = "ensemble E1C5 period 4 notice 24 budget 4\nbegin\nrepeat 5 { if contact 1 { } else { } wait 1 }\n"
    for contacts, steps in (("0000", 3), ("0002", 4)):
        plays(rows, script, f"--contacts {contacts}", (
            Moment(1, steps, 1, None, ""),
            Moment(4, steps, 5, None, ""),
            Moment(1, 2, 6, None, ""),
            Moment(1, 0, 7, None, ""),
        ))


def a_sub_channel_takes_the_place_of_another(rows):
    """One is moved to where another is dropped."""
    second = "sub 2 at 0 size 48 eep 3-A\n"
    both = "sub 1 at 0 size 96 eep 3-A\nsub 2 at 96 size 48 eep 3-A\n"
    subs = "sub 1 at 0 eep 3-A 128\nsub 2 at 96 eep 3-A 64\n"
    plays(rows, f"{HEAD}{subs}begin\nmove sub 2 at 0\ndrop sub 1\ncommit in 24\n", "", (
        Moment(1, 4, 1, 23, both, second),
        Moment(23, 0, 24, 0, both, second),
        Moment(1, 0, 25, None, second),
    ))


def a_change_that_settles(rows):
    """In the frame of its swap, in which the next notice then begins; after it; and with nothing to settle."""
    plays(rows, PROGRAMME + SETTLED, "--contacts 0008", (
        Moment(1, 3, 1, 23, AT_128, AT_64),
        Moment(1, 1, 2, 22, AT_128, AT_64),
        Moment(22, 0, 24, 0, AT_128, AT_64),
        Moment(1, 3, 25, 23, AT_64, AT_96),
        Moment(23, 0, 48, 0, AT_64, AT_96),
        Moment(1, 1, 49, None, AT_96),
        Moment(1, 0, 50, None, AT_96),
    ))
    plays(rows, PROGRAMME + SETTLED, "", (
        Moment(24, 0, 24, 0, AT_128, AT_64),
        Moment(1, 0, 25, None, AT_64),
        Moment(5, 0, 30, None, AT_64),
        Moment(1, 4, 31, 25, AT_64, contact="closed"),
        Moment(25, 0, 56, 0, AT_64, AT_96),
        Moment(1, 1, 57, None, AT_96),
    ))
    plays(rows, PROGRAMME + "settle\n", "", (Moment(1, 2, 1, None, AT_128), Moment(1, 0, 2, None, AT_128)))


def ten_in_the_evening_during_a_notice(rows):
    """The time is before the swap, for which the script then waits."""
    body = "rate sub 1 64\ncommit in 24\nuntil 22:00:00\nif contact 1 { wait 1 }\nsettle\n"
    plays(rows, PROGRAMME + body, "--day 3299995", (
        Moment(1, 3, 1, 23, AT_128, AT_64),
        Moment(4, 0, 5, 19, AT_128, AT_64),
        Moment(1, 2, 6, 18, AT_128, AT_64),
        Moment(18, 0, 24, 0, AT_128, AT_64),
        Moment(1, 1, 25, None, AT_64),
    ))


if __name__ == "__main__":
    rows.main([a_first_programme, a_rate_by_a_contact, a_wait_past_the_swap, five_rounds,
               a_sub_channel_takes_the_place_of_another, a_change_that_settles, ten_in_the_evening_during_a_notice])
