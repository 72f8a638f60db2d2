#!/usr/bin/env python3
"""'reserve' in the header of a script, '--reserve', and code files of version 3: FIBs that a plan leaves empty in each frame.
The last line is 'N passed, M failed'."""
import rows
from codes import SMALL_SUBS, code, rates
from rows import ONE_PROGRAMME, RATES, hexadecimal
from streams import ONE_PROGRAMME as RECEIVED, stream

EMPTY_FIB = "FF0000000000000000000000000000000000000000000000000000000000A8A8\n"
EMPTY = bytes.fromhex(EMPTY_FIB)

# Scripts that end at once, in each mode.
HEADER = "ensemble E1C5{}\nperiod 4 notice 24 budget 20{}\n"
MODES = ("", " mode 2", " mode 3", " mode 4")

# A multiplex of 64 sub-channels: 13 pages of 30 bytes a FIB. FIG 0/1 takes 22 bytes for five of them and 30 for seven.
SUBS = SMALL_SUBS.replace(", ", "\n") + "\n"


def reserving(text, reserve=1):
    """A script with this reserve: behind its budget."""
    return text.replace("budget 20", f"budget 20 reserve {reserve}", 1)


def headers(rows):
    """1 in each mode, 2 in mode 3 alone; the code file has version 3."""
    for number, mode in enumerate(MODES, 1):
        for reserve in range(5):
            script = HEADER.format(mode, f" reserve {reserve}") + "begin"
            column = len("period 4 notice 24 budget 20 reserve ") + 1
            if reserve == 1 or (reserve, number) == (2, 3):
                rows.answers("compile x.plan x.code", 0, "instructions 1 labels 1 configurations 1\n", {"x.plan": script})
                file = code("end", mode=number, reserve=reserve, lines=[3])
                rows.tally.same(f"the code of mode {number} reserve {reserve}", file, rows.made("x.code"))
                rows.answers("verify x.code", 0, "accepted\n", {"x.code": file})
            else:
                rows.answers("compile x.plan x.code", 1, f"2:{column}: Number\n", {"x.plan": script})


def words(rows):
    """'reserve' stands behind the budget, with a number, and no block has that name."""
    for script, wanted in (
        ("ensemble E1C5 period 4 notice 24 budget 20 reserve", "1:51: Expected"),
        ("ensemble E1C5 period 4 notice 24 budget 20 reserve begin", "1:52: Number"),
        ("ensemble E1C5 period 4 notice 24 budget 20 reserve 01 begin", "1:52: Number"),
        ("ensemble E1C5 period 4 notice 24 budget 20 reserve 1 reserve 1 begin", "1:54: Expected"),
        ("ensemble E1C5 period 4 notice 24 reserve 1 budget 20 begin", "1:34: Expected"),
        ("ensemble E1C5 reserve 1 period 4 notice 24 budget 20 begin", "1:15: Expected"),
        ("ensemble E1C5 period 4 notice 24 budget 20 service C221 reserve 1 begin", "1:57: Expected"),
        ("ensemble E1C5 period 4 notice 24 budget 20 define reserve { } begin", "1:51: Expected"),
        ("ensemble E1C5 period 4 notice 24 budget 20 begin apply reserve", "1:56: Expected"),
    ):
        rows.answers("compile x.plan x.code", 1, f"{wanted}\n", {"x.plan": script})
    rows.answers("compile x.plan x.code", 0, "instructions 2 labels 1 configurations 1\n",
                 {"x.plan": "ensemble E1C5 period 4 notice 24 budget 20 define reserved { wait 1 } begin apply reserved"})


def frames(rows):
    """The last FIBs of a frame are empty, and the entries take more pages."""
    counted = "0500E1C500000501040088600602C221013F06FF000000000000000000002369\n"
    record = hexadecimal(ONE_PROGRAMME)
    for options, size in (("--reserve 1", 3), ("--mode 3 --reserve 1", 4), ("--reserve 2 --mode 3", 4),
                          ("--mode 2 --reserve 1", 3), ("--mode 4 --reserve +1", 3)):
        rows.answers(f"frame - --ensemble E1C5 --count 0 {options}", 0, counted + (size - 1) * EMPTY_FIB, stdin=record)
    script = HEADER.format("", "") + SUBS + "begin"
    plain, reserved = pages(rows, script), pages(rows, reserving(script))
    # 64 entries, four bytes each: five in the first FIB of a page with FIG 0/0, seven in each other one
    rows.tally.same("pages", (4, 6), (len(plain), len(reserved)))
    for page in reserved:
        rows.tally.same("the third FIB", EMPTY, page[64:])
    rows.answers("listen - --script --notice 24 --period 4 --reserve 1", 0, reserving(script) + "\n",
                 stdin=b"".join(reserved))
    mode_3 = HEADER.format(" mode 3", "") + SUBS + "begin"
    for reserve, wanted in ((0, 3), (1, 4), (2, 6)):
        made = pages(rows, reserving(mode_3, reserve) if reserve else mode_3)
        rows.tally.same(f"pages in mode 3 with {reserve} reserved", wanted, len(made))
        for page in made:
            rows.tally.same("the reserved FIBs", reserve * EMPTY, page[32 * (4 - reserve):])


def pages(rows, script):
    """The frames of a script's opening, page by page."""
    found = []
    while True:
        ended = rows.run(f"frame s.plan --script --count 0 --raw --page {len(found)}", {"s.plan": script})
        if ended.status:
            return found
        found.append(ended.printed)


def listings(rows):
    """The header has the reserve, and the default period counts by it."""
    items = "sub 1 at 0 eep 3-A 128\nservice C221\naudio 63 sub 1 in C221\nbegin\n"
    for options, header in (
        ("--reserve 1", "ensemble E1C5\nperiod 4 notice 240 budget 20 reserve 1\n"),
        ("--mode 3 --reserve 2", "ensemble E1C5 mode 3\nperiod 4 notice 240 budget 20 reserve 2\n"),
        ("--reserve 1 --budget 1 --mode 4", "ensemble E1C5 mode 4\nperiod 4 notice 240 budget 1 reserve 1\n"),
    ):
        rows.answers(f"listen x.fib --script {options}", 0, header + items, {"x.fib": stream(*RECEIVED)})
    script = HEADER.format("", "") + SUBS + "begin"
    stream_of_subs = b"".join(pages(rows, script))
    # twice the pages and one: 4 pages without a reserve, 6 with one
    for options, period in (("", "9"), ("--reserve 1", "13")):
        printed = rows.run(f"listen - --script {options}", stdin=stream_of_subs).printed.decode()
        rows.tally.same(f"the default period {options}", period, printed.split()[3])


def command_lines(rows):
    """A reserve that the mode does not have, one beside a script that has its own, and one where no script is printed."""
    expected = "expected 1, or in mode 3 a number from 1 to 2"
    for line, wanted in (
        ("frame - --ensemble E1C5 --count 0 --reserve 0", "expected a number from 1 to 2"),
        ("frame - --ensemble E1C5 --count 0 --reserve 2", expected),
        ("frame - --ensemble E1C5 --count 0 --reserve 2 --mode 4", expected),
        ("frame - --ensemble E1C5 --count 0 --reserve 3 --mode 3", "expected a number from 1 to 2"),
        ("frame - --script --count 0 --reserve 1", "cannot be used with"),
        ("listen x.fib --reserve 1", "--script"),
        ("listen x.fib --script --reserve 0", "expected a number from 1 to 2"),
        ("listen x.fib --script --reserve 2", expected),
        ("listen x.fib --script --reserve 2 --mode 2", expected),
        ("listen x.fib --json --reserve 1", ""),
    ):
        ended = rows.run(line, {"x.fib": b""}, stdin=hexadecimal(ONE_PROGRAMME))
        rows.tally.same(line, (2, True, b""), (ended.status, wanted in ended.printed.decode(), ended.messages))


def diffs(rows):
    """The plan has TO's reserve, and its pages; FROM's plays no part."""
    old, new = HEADER + "sub 1 at 0 eep 3-A 128\nbegin\n", HEADER + "sub 1 at 0 eep 3-A 96\nbegin\n"
    change = "sub 1 at 0 eep 3-A 128\nbegin\nrate sub 1 96\ncommit in 24\njoin\n"
    for old_reserve, new_reserve in (("", ""), ("", " reserve 1"), (" reserve 1", ""), (" reserve 1", " reserve 1")):
        rows.answers("diff a.plan b.plan", 0, HEADER.format("", new_reserve) + change,
                     {"a.plan": old.format("", old_reserve), "b.plan": new.format("", new_reserve)})
    rows.answers("diff a.plan b.plan", 0, HEADER.format(" mode 3", " reserve 2") + change,
                 {"a.plan": old.format(" mode 3", " reserve 1"), "b.plan": new.format(" mode 3", " reserve 2")})
    # the 64 sub-channels take 4 pages, and 6 with a reserve
    many = HEADER.format("", "") + SUBS + "begin\n"
    fewer = many.replace("sub 63 at 252 eep 4-A 8\n", "")
    for one, other, status, wanted in (
        (many, fewer, 1, "refused: Round\n"),
        (many, reserving(fewer), 1, "b.plan: refused line 66: Round\n"),
        (reserving(many), fewer.replace("period 4", "period 60"), 0, None),
        (many, reserving(fewer).replace("period 4 notice 24", "period 60 notice 240"), 0, None),
    ):
        ended = rows.run("diff a.plan b.plan", {"a.plan": one, "b.plan": other})
        if wanted is None:
            rows.tally.same("diff of many", 0, ended.status)
        else:
            rows.tally.same("diff of many", (status, b"", wanted.encode()), (*ended.lines(), ended.messages))


def played(rows):
    """Each frame of a plan has the reserved FIBs empty, its changes come as without a reserve, and 'check' finds no fault."""
    events = "frames 1 contact 3 closed frames 300 contact 3 open frames 300"
    for number, mode in enumerate(MODES, 1):
        for reserve in (1, 2) if number == 3 else (1,):
            script = reserving(RATES.replace("E1C5", f"E1C5{mode}"), reserve)
            rows.answers("compile x.plan x.code", 0, "instructions 9 labels 1 configurations 1\n", {"x.plan": script})
            file = rows.made("x.code")
            rows.tally.same("the code file", rates(mode=number, reserve=reserve), file)
            rows.answers("play x.code x.events x.fib", 0, "played 601 frames\n", {"x.code": file, "x.events": events})
            made = rows.made("x.fib")
            size = 4 if number == 3 else 3
            frames = [made[at:at + 32 * size] for at in range(0, len(made), 32 * size)]
            rows.tally.same("frames", 601, len(frames))
            free = all(frame[32 * (size - reserve):] == reserve * EMPTY for frame in frames)
            rows.tally.hold(free, f"reserved FIBs in mode {number} with {reserve}")
            checked = rows.run(f"check x.fib --mode {number}", {"x.fib": made}).printed.decode()
            rows.tally.same("swaps", "frames 601 skipped 0 left over 0 damaged 0 swaps 2 faults 0",
                            checked.splitlines()[-1])


def explained(rows):
    """A 'Round' is counted in the FIBs that are left, and what they would take without a reserve is said."""
    many = reserving(HEADER.format("", "") + SUBS) + "begin\n"
    rows.answers("compile x.plan x.code --explain", 1,
                 "refused line 67: Round\n"
                 "x.plan:67: the configuration takes 6 pages, a frame each; the period is 4 frames; 'reserve 1' leaves 2 of the 3 "
                 "FIBs of a frame: without it the configuration takes 4 pages\n"
                 "hint: write 'period 6' in place of 'period 4' in line 2; then it is accepted\n", {"x.plan": many})
    change = many.replace("period 4", "period 6") + "".join(f"drop sub {n}\n" for n in range(60, 64)) + "commit in 250\n"
    rows.answers("compile x.plan x.code --explain", 1,
                 "refused line 72: Round\n"
                 "x.plan:72: the current configuration takes 6 pages, a frame each, the next 5, and both together, in the "
                 "notice, 11; the period is 6 frames and the notice 24; 'reserve 1' leaves 2 of the 3 FIBs of a frame: without it "
                 "they take 4, 4 and 7 pages\n"
                 "hint: write 'period 11' in place of 'period 6' in line 2, and write 'notice 33' in place of 'notice 24' in "
                 "line 2; then it is accepted\n",
                 {"x.plan": change})
    rows.answers("map x.plan", 1, "refused line 72: Round\n", {"x.plan": change})
    rows.answers("compile x.plan x.code --explain", 1,
                 "2:38: Number\n"
                 "x.plan:2:38: expected the number of FIBs of a frame to reserve, 1; found '2'\n"
                 "    period 4 notice 24 budget 20 reserve 2\n"
                 "                                         ^\n", {"x.plan": HEADER.format("", " reserve 2") + "begin\n"})


if __name__ == "__main__":
    rows.main([headers, words, frames, listings, command_lines, diffs, played, explained])
