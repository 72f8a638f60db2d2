#!/usr/bin/env python3
"""'dabplan debug' and 'dabplan play': the instructions that each frame executes, the frames left until a swap,
and the bytes of frames. The last line is 'N passed, M failed'."""
import re

import rows
from codes import ADDED, AT_64, PROGRAMME, SMALL_SUBS, code
from rows import hexadecimal

REPORT = re.compile(r"frames (\d+) steps (\d+) pc (\d+) line (\d+) count (\d+) remaining (\w+)")

# Its FIG 0/1 at 128 and at 96 kbit/s, and its FIG 0/2.
AT_128, AT_96, SERVICE = "05 01 04 00 88 60", "05 01 04 00 88 48", "06 02 C2 21 01 3F 06"


def reports(rows, file, commands, options=""):
    """The reports of `debug` for the commands: frames, steps, pc, line, count and the frames left until a swap."""
    ended = rows.run(f"debug x.code x.commands {options}", {"x.code": file, "x.commands": commands})
    rows.tally.same(f"debug of {commands[:40]}", 0, ended.status)
    return [tuple(None if word == "none" else int(word) for word in found)
            for found in REPORT.findall(ended.printed.decode())]


def steps(rows, file, commands, wanted, options=""):
    """The frames of these commands, each a `run 1` or a contact, execute these numbers of instructions."""
    found = [report[1] for report in reports(rows, file, commands, options) if report[0] == 1]
    rows.tally.same(f"steps of {commands[:40]}", list(wanted), found)


def frames(rows, file, events, options="", size=96):
    """The bytes that `play` writes, frame by frame."""
    rows.run(f"play x.code x.events x.fib {options}", {"x.code": file, "x.events": events})
    made = rows.made("x.fib") or b""
    return [made[start:start + size] for start in range(0, len(made), size)]


def begins(rows, frame, wanted):
    """A frame, or a part of it, begins with these bytes."""
    wanted = hexadecimal(wanted)
    rows.tally.same(f"begins {wanted.hex(' ')}", wanted, frame[:len(wanted)])


def waits_and_loops(rows):
    """The instructions of each frame without a commit, from the last frame of a day on."""
    body = "0 cost 2, 1 counters 01 cost 1"
    for instructions, labels, wanted in (
        ("end", "0 cost 1", (1, 0, 0, 0, 0)),
        ("set 0 3, wait 1, loop 0 1, end", body, (2, 2, 2, 2, 0)),
        ("until 0, end", "0 cost 1", (1, 1, 0, 0, 0)),
        ("until 3599999, end", "0 cost 1", (1, 0, 0, 0, 0)),
        ("until 2, end", "0 cost 1", (1, 0, 0, 1, 0)),
        ("wait 3, end", "0 cost 1", (1, 0, 0, 1, 0)),
        ("settle, end", "0 cost 2", (2, 0)),
    ):
        steps(rows, code(instructions, labels), "run 1 " * len(wanted), wanted, "--day 3599999")


def contacts_are_waited_for_and_tested(rows):
    """A wait for a contact continues in a later frame; a test continues after it if the contact is closed."""
    both = code("wait contact 3 closed, wait contact 3 open, end")
    steps(rows, both, "run 1 run 1 run 1 contact 3 open run 1 run 1 run 1", (1, 1, 0, 1, 0, 0), "--contacts 0008")
    tested = code("test 3 3, wait 1, jump 0, wait 2, jump 0", "0 cost 5, 3 cost 3")
    steps(rows, tested, "run 1 " * 4 + "contact 3 closed " + "run 1 " * 3, (2, 0, 3, 0, 3, 3, 3))
    rows.tally.same("behind the test", [4, 4, 2], [report[2] for report in reports(
        rows, tested, "run 4 contact 3 closed run 3")])


def a_swap_falls_on_a_count_of_its_mode(rows):
    """The frames left after the frame of a commit: the swap is not before the delay."""
    for mode, delay, count, left in ((1, 25, 0, 27), (2, 25, 0, 24), (3, 25, 0, 24), (4, 25, 0, 25), (1, 60000, 4997, 60002)):
        file = code(f"rate sub 1 96, commit in {delay}, end", "0 cost 3", [PROGRAMME], mode=mode)
        rows.tally.same(f"left {delay}", left, reports(rows, file, "run 1", f"--count {count}")[0][5])


def a_swap_at_a_count_leaves_a_whole_notice(rows):
    """If the count is nearer than the notice, the swap is a whole cycle of the count later."""
    for at, count, left in ((100, 76, 23), (100, 77, 5022), (0, 4999, 5000), (20, 4990, 29)):
        file = code(f"rate sub 1 96, commit at {at}, end", "0 cost 3", [PROGRAMME])
        rows.tally.same(f"left {at}", left, reports(rows, file, "run 1", f"--count {count}")[0][5])


TWO_SWAPS = code("rate sub 1 96, commit in 24, join, rate sub 1 128, commit at 100, join, end", "0 cost 3", [PROGRAMME])


def two_swaps_are_counted_down(rows):
    """The frame of a commit is the first of its notice; in that of the swap the next commit is made, for 76 frames later."""
    found = reports(rows, TWO_SWAPS, "run 1 " * 200)
    for count, carried_out, left in ((0, 3, 23), (1, 0, 22), (23, 0, 0), (24, 3, 75), (25, 0, 74), (99, 0, 0), (100, 1, None),
                                     (101, 0, None), (199, 0, None)):
        rows.tally.same(f"frame {count}", (carried_out, left), (found[count][1], found[count][5]))


def two_swaps_are_announced_and_made(rows):
    """FIG 0/0 is sent each fourth frame, flagged with the count of the swap in the notice; the next configuration is sent with
    the current one, and then replaces it."""
    made = frames(rows, TWO_SWAPS, "frames 200")
    for count in range(120):
        low = 24 if count < 24 else 100 if 76 <= count < 100 else None
        if count % 4 == 0:
            begins(rows, made[count], f"05 00 E1 C5 00 {count:02X}" if low is None else f"06 00 E1 C5 40 {count:02X} {low:02X}")
        else:
            rows.tally.hold(made[count][:2] not in (b"\x05\x00", b"\x06\x00"), f"frame {count} has FIG 0/0")
    for count, wanted in (
        (0, f"06 00 E1 C5 40 00 18 {AT_128} {SERVICE} 05 81 04 00 88 48 FF"),
        (23, f"{AT_128} {SERVICE} 05 81 04 00 88 48 FF"),
        (24, f"05 00 E1 C5 00 18 {AT_96} {SERVICE} FF"),
        (75, f"{AT_96} {SERVICE} FF"),
        (76, f"06 00 E1 C5 40 4C 64 {AT_96} {SERVICE} 05 81 04 00 88 60 FF"),
        (99, f"{AT_96} {SERVICE} 05 81 04 00 88 60 FF"),
        (100, f"05 00 E1 C5 00 64 {AT_128} {SERVICE} FF"),
        (199, f"{AT_128} {SERVICE} FF"),
    ):
        begins(rows, made[count], wanted)


def a_first_swap(rows):
    """From count 4990 on, in 24 frames, and from 1000 on at count 1000: the frames left, and the pc."""
    file = code(f"{ADDED}, commit in 24, join, end", "0 cost 6")
    wanted = [(1, 5, 5, 4991, 25), (25, 0, 5, 16, 0), (1, 1, 5, 17, None)]
    found = reports(rows, file, "run 1 run 25 run 1", "--count 4990")
    rows.tally.same("a commit in 24", wanted, [report[:3] + report[4:] for report in found])
    file = code(f"{ADDED}, commit at 1000, join, end", "0 cost 6")
    wanted = [(1, 5, 5, 1001, 4999), (4999, 0, 5, 1000, 0), (1, 1, 5, 1001, None)]
    found = reports(rows, file, "run 1 run 4999 run 1", "--count 1000")
    rows.tally.same("a commit at 1000", wanted, [report[:3] + report[4:] for report in found])
    made = frames(rows, file, "frames 5001", "--count 1000")
    begins(rows, made[0], "05 00 E1 C5 04 00 FF")
    begins(rows, made[4972], "05 00 E1 C5 03 DE FF")
    begins(rows, made[4976], "06 00 E1 C5 C3 E2 00 05 81 04 00 88 60 06 82 C2 21 01 3F 06 FF")


def a_contact_in_a_notice(rows):
    """Two swaps; the code waits for contact 3 in the notice of the first one, which is closed then, or after the swap."""
    file = code("rate sub 1 64, commit in 24, wait contact 3 closed, settle, rate sub 1 96, commit in 24, settle, end",
                "0 cost 5", [PROGRAMME])
    early = {0: 3, 1: 1, 24: 3, 48: 1}
    steps(rows, file, "run 1 " * 60, [early.get(frame, 0) for frame in range(60)], "--contacts 0008")
    late = {0: 3, 30: 4, 56: 1}
    steps(rows, file, "run 1 " * 30 + "contact 3 closed " + "run 1 " * 30, [late.get(frame, 0) for frame in range(60)])


def modes(rows):
    """Frames of mode 3 have four FIBs. In modes 2 and 3 each frame has FIG 0/0, in mode 4 every other one, and a swap is at
    such a count."""
    made = frames(rows, code("end", mode=3), "frames 100", size=128)
    rows.tally.same("frames of mode 3", [128] * 100, [len(frame) for frame in made])
    begins(rows, made[1], "05 00 E1 C5 00 01 FF")
    file = code(f"{ADDED}, commit in 24, join, end", "0 cost 6", mode=2)
    made = frames(rows, file, "frames 30", "--count 4990")
    begins(rows, made[0], "06 00 E1 C5 D3 F0 0E")
    begins(rows, made[24], "05 00 E1 C5 00 0E")
    found = reports(rows, file, "run 1 run 23 run 1", "--count 4990")
    rows.tally.same("left in mode 2", [23, 0, None], [report[5] for report in found])
    file = code(f"{ADDED}, commit in 25, join, end", "0 cost 6", mode=4)
    made = frames(rows, file, "frames 2", "--count 4990")
    begins(rows, made[0], "05 00 E1 C5 13 F0 FF")
    begins(rows, made[1], "FF")
    rows.tally.same("left in mode 4", 25, reports(rows, file, "run 1", "--count 4990")[0][5])


def frames_in_parts(rows):
    """Whatever the number of frames per step, and with a contact that changes between them, the bytes are the same."""
    by_contact = code("wait contact 3 closed, rate sub 1 96, commit in 24, join, wait contact 3 open, rate sub 1 128,"
                      "commit in 24, join, jump 0", "0 cost 1", [PROGRAMME])
    by_day = code("until 20, wait 13, jump 0")
    by_hour = code("rate sub 1 64, commit in 24, until 3300000, test 1 5, wait 1, settle, end",
                   "0 cost 3, 5 of 0 1 perhaps 26 cost 2", [PROGRAMME, AT_64])
    pages = code("drop sub 0, commit in 60, join, end", "0 cost 3", [SMALL_SUBS], period=7, notice=21)
    first = [code(f"{ADDED}, commit in 30, join, end", "0 cost 6", mode=mode) for mode in (1, 2, 3, 4)]
    contact = "frames 5 contact 3 closed frames 10 contact 3 open frames 60 contact 3 closed frames 126"
    for files, events, options in (
        (first, "frames 200", "--count 4990"), (first, "frames 200", "--count 3"), ([pages], "frames 140", "--count 2"),
        ([by_contact], contact, ""), ([by_hour], "frames 70", "--day 3299980"),
        ([by_day], "frames 66", "--day 0"), ([by_day], "frames 66", "--day 19"), ([by_day], "frames 66", "--day 20"),
        ([by_day], "frames 66", "--day 21"), ([by_day], "frames 66", "--day 3599990"),
    ):
        for file in files:
            wanted = frames(rows, file, events, options)
            for most in (1, 7, 64):
                split = re.sub(r"frames (\d+)", lambda found: " ".join(
                    f"frames {min(most, int(found[1]) - at)}" for at in range(0, int(found[1]), most)), events)
                rows.tally.hold(wanted == frames(rows, file, split, options), f"{events} {options} by {most}")


if __name__ == "__main__":
    rows.main([waits_and_loops, contacts_are_waited_for_and_tested, a_swap_falls_on_a_count_of_its_mode,
               a_swap_at_a_count_leaves_a_whole_notice, two_swaps_are_counted_down, two_swaps_are_announced_and_made,
               a_first_swap, a_contact_in_a_notice, modes, frames_in_parts])
