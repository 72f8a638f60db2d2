#!/usr/bin/env python3
"""'dabplan listen --script' and 'frame --script': a received configuration as a script, and a frame of a script. The last
line is 'N passed, M failed'."""
import rows
from rows import NO_FIB
from streams import ONE_PROGRAMME, stream

HEADER = "ensemble E1C5\nperiod 4 notice 240 budget 20\n"
ITEMS = "sub 1 at 0 eep 3-A 128\nservice C221\naudio 63 sub 1 in C221\n"
SCRIPT = HEADER + ITEMS + "begin\n"
COUNTED = "0500E1C500000501040088600602C221013F06FF000000000000000000002369\n"
EMPTY_FIB = "FF0000000000000000000000000000000000000000000000000000000000A8A8\n"


def scripts(rows):
    """The script of a received configuration; the EId is that of the last FIG 0/0 of this ensemble in an undamaged FIB."""
    other = "05 00 E1 C6 00 00 FF"
    for data, options, wanted in (
        (ONE_PROGRAMME, "", SCRIPT),
        (ONE_PROGRAMME, "--mode 1 --period 60 --notice 12 --budget 255",
         "ensemble E1C5\nperiod 60 notice 12 budget 255\n" + ITEMS + "begin\n"),
        (ONE_PROGRAMME, "--mode 3 --notice 248 --budget 1",
         "ensemble E1C5 mode 3\nperiod 4 notice 248 budget 1\n" + ITEMS + "begin\n"),
        (("05 00 E1 C5 00 00 FF",), "", HEADER + "begin\n"),
        (("05 00 E1 C5 00 00 FF", other), "", HEADER.replace("E1C5", "E1C6") + "begin\n"),
        # OE 1 is of another ensemble.
        (("05 00 E1 C5 00 00 FF", "05 40 E1 C6 00 00 FF"), "", HEADER + "begin\n"),
        # Long SIds follow the short ones; a service may be empty, which is not sound.
        (("05 00 E1 C5 00 00 06 22 E1 00 00 01 00 04 02 C2 21 00 FF",), "",
         HEADER + "service C221\nservice E1000001\nbegin\n"),
    ):
        rows.answers(f"listen x.fib --script {options}", 0, wanted, {"x.fib": stream(*data)})
        rows.answers(f"listen - {options} --script", 0, wanted, stdin=stream(*data))


def refused_streams(rows):
    """First the refusals of 'listen', then a stream without an ensemble, then the first entry that no script can have."""
    short = "05 00 E1 C5 00 00 04 01 04 00 05 FF"
    for data, wanted in (
        ((), "refused: no ensemble\n"),
        (("04 01 04 00 05 FF",), "refused: no ensemble\n"),
        ((short,), "refused: cannot be written: sub 1 at 0 switch 0 table 5\n"),
        # Option 2; a size without a rate at 3-A; a sub-channel past the last capacity unit.
        (("05 00 E1 C5 00 00 05 01 04 00 A8 60 FF",), "refused: cannot be written: sub 1 at 0 size 96 option 2 level 3\n"),
        (("05 00 E1 C5 00 00 05 01 04 00 88 61 FF",), "refused: cannot be written: sub 1 at 0 size 97 eep 3-A\n"),
        (("05 00 E1 C5 00 00 05 01 07 5F 88 06 FF",), "refused: cannot be written: sub 1 at 863 size 6 eep 3-A\n"),
        # A service with a component of TMId 10, of which only the first line is printed.
        (("05 00 E1 C5 00 00 06 02 C2 21 01 80 01 FF",), "refused: cannot be written: service C221\n"),
        # Sub-channels come before services.
        (("05 00 E1 C5 00 00 06 02 C2 21 01 80 01 04 01 04 00 05 FF",),
         "refused: cannot be written: sub 1 at 0 switch 0 table 5\n"),
    ):
        rows.refuses("listen x.fib --script", wanted, {"x.fib": stream(*data)})
    rows.refuses("listen x.fib --script", f"x.fib: {NO_FIB}\nrefused: not whole FIBs\n", {"x.fib": stream(short)[:31]})
    rows.refuses("listen x.fib --script", "cannot read x.fib\n")


def announced(rows):
    """While a swap is announced the current configuration is the one before it, and the next one the one after it."""
    now = "05 00 E1 C5 00 00 05 01 04 00 88 60 06 02 C2 21 01 3F 06 FF"
    notice = "06 00 E1 C5 40 04 1C 05 81 04 00 88 48 06 82 C2 21 01 3F 06 FF"
    text = "ensemble E1C5\nperiod 4 notice 240 budget 20\nsub 1 at 0 eep 3-A {}\nservice C221\naudio 63 sub 1 in C221\nbegin\n"
    files = {"x.fib": stream(now, notice)}
    rows.answers("listen x.fib --script", 0, text.format(128), files,
                 messages="x.fib: swap announced, at low 28: this is the configuration before it\n")
    rows.answers("listen x.fib --script --next", 0, text.format(96), files)
    # The swap is made: nothing is announced any more.
    made = {"x.fib": stream(now, notice, "05 00 E1 C5 00 1C FF")}
    rows.answers("listen x.fib --script", 0, text.format(96), made)
    rows.refuses("listen x.fib --script --next", "refused: no swap is announced\n", made)
    rows.refuses("listen x.fib --script --next", "refused: no swap is announced\n", {"x.fib": stream(now)})


def several_pieces(rows):
    """A stream of more than the 262,144 bytes that are read at once, from a file and through a pipe, whose last FIB counts."""
    now = "05 00 E1 C5 00 00 05 01 04 00 88 60 06 02 C2 21 01 3F 06 FF"
    data = stream(now) + 9000 * stream("FF") + stream("09 01 04 00 88 48 08 00 88 18 FF")
    text = ("ensemble E1C5\nperiod 4 notice 240 budget 20\nsub 1 at 0 eep 3-A 96\nsub 2 at 0 eep 3-A 32\nservice C221\n"
            "audio 63 sub 1 in C221\nbegin\n")
    rows.tally.hold(len(data) > 262_144, f"{len(data)} bytes")
    rows.answers("listen x.fib --script", 0, text, {"x.fib": data})
    rows.answers("listen - --script", 0, text, stdin=data)
    rows.refuses("listen x.fib --script", "refused: not whole FIBs\n", {"x.fib": data[:-1]})


def frames(rows):
    """A frame of a script is that of its opening, with its ensemble and mode."""
    for script, options, wanted in (
        (SCRIPT, "--count 0", COUNTED + 2 * EMPTY_FIB),
        (SCRIPT + "end", "--count 0 --page 0", COUNTED + 2 * EMPTY_FIB),
        (HEADER + "begin", "--count 1", 3 * EMPTY_FIB),
        ("ensemble E1C5 mode 3 period 4 notice 24 budget 20 begin", "--count 1",
         "0500E1C50001FF00000000000000000000000000000000000000000000000244\n" + 3 * EMPTY_FIB),
    ):
        rows.answers(f"frame s.plan --script {options}", 0, wanted, {"s.plan": script})
        rows.answers(f"frame - --script {options}", 0, wanted, stdin=script.encode())
        raw = bytes.fromhex(wanted.replace("\n", ""))
        ended = rows.run(f"frame s.plan --raw --script {options}", {"s.plan": script})
        rows.tally.same(f"frame --raw {options}", (0, raw, b""), (*ended.lines(), ended.messages))


def refused_frames(rows):
    """The faults of a text, then of an item, of the configuration, and of the page."""
    for script, options, wanted in (
        ("ensemble E1C5", "--count 0", "1:14: Expected\n"),
        (HEADER + "begin apply x", "--count 0", "3:13: NameUnknown\n"),
        (HEADER + "service C221\nservice C221\nbegin", "--count 0", "refused line 4: Edit IdUsed\n"),
        (HEADER + "service C221\nbegin", "--count 0", "refused: EmptyService\n"),
        (SCRIPT, "--count 0 --page 1", "refused: no such page\n"),
    ):
        rows.refuses(f"frame s.plan --script {options}", wanted, {"s.plan": script})
        rows.refuses(f"frame s.plan --raw --script {options}", wanted, {"s.plan": script})
    rows.refuses("frame s.plan --script --count 0", "cannot read s.plan\n")


def heard_again(rows):
    """All pages of a script's opening, decoded again, give the script."""
    subs = "".join(f"sub {n} at {4 * n} eep 4-A 8\n" for n in range(64))
    services = "".join(f"service {n:04X}\naudio 63 sub {n} in {n:04X}\n" for n in range(32))
    script = "ensemble F00D mode 2\nperiod 60 notice 248 budget 255\n" + subs + services + "begin\n"
    fibs = b""
    for page in range(100):
        ended = rows.run(f"frame s.plan --script --count 0 --raw --page {page}", {"s.plan": script})
        if ended.lines()[0] != 0:
            break
        fibs += ended.lines()[1]
    rows.tally.hold(page > 3, f"{page} pages")
    rows.answers("listen - --script --mode 2 --period 60 --notice 248 --budget 255", 0, script, stdin=fibs)


def command_lines(rows):
    """The options of a script belong to '--script', and its header to the script."""
    for line in ("listen x.fib --next", "listen x.fib --json --next", "listen x.fib --mode 1", "listen x.fib --period 4", "listen x.fib --notice 24", "listen x.fib --budget 20",
                 "listen x.fib --json --mode 1", "listen x.fib --json --period 4", "listen x.fib --json --notice 24",
                 "listen x.fib --json --budget 20", "listen x.fib --script --period 0", "listen x.fib --script --period 61", "listen x.fib --script --notice 11",
                 "listen x.fib --script --notice 249", "listen x.fib --script --budget 0",
                 "listen x.fib --script --budget 256", "listen x.fib --script --mode 5",
                 "frame s.plan --script --count 0 --ensemble E1C5", "frame s.plan --script --count 0 --mode 1",
                 "frame s.plan --script", "frame s.plan --count 0"):
        rows.tally.same(line, 2, rows.run(line, {"x.fib": b"", "s.plan": SCRIPT}).lines()[0])


if __name__ == "__main__":
    rows.main([scripts, refused_streams, announced, several_pieces, frames, refused_frames, heard_again, command_lines])
