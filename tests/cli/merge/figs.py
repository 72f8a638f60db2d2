#!/usr/bin/env python3
"""'dabplan merge': which FIGs are carried, where and in which order, what is counted, and refusals. The last line is 'N
passed, M failed'."""
import os
import pathlib
import subprocess

import rows
from rows import RATES_FILE, hexadecimal
from streams import fib, other_formats

# FIG 0/0 of ensemble E1C5 and count 0, and FIGs of type 1 with 4, 9 and 14 bytes, the header byte included.
TUNED = "05 00 E1 C5 00 00"
SHORT, MIDDLE, LONG = "23 01 02 03", "28 11 12 13 14 15 16 17 18", "2D 21 22 23 24 25 26 27 28 29 2A 2B 2C 2D"
FULL = "3D " + "55 " * 29


def frame(*fibs, size=3):
    """A frame with FIBs of these data bytes, and empty ones behind them."""
    return b"".join(fib(each) for each in (*fibs, *["FF"] * (size - len(fibs))))


def told(frames, carried, waiting=0, dropped=0, damaged=0, stale=0):
    """The last line."""
    return f"frames {frames} carried {carried} waiting {waiting} dropped {dropped} stale {stale} damaged {damaged}\n"


def merged(rows, plan, other, wanted, messages, status=0, options=""):
    """Counts that these frames, merged, give these frames and messages."""
    ended = rows.run(f"merge plan.fib mux.fib {options}", {"plan.fib": plan, "mux.fib": other})
    rows.tally.same(f"merge {options} {messages!r}", (status, wanted, messages), (*ended.lines(), ended.messages.decode()))


def figs_are_carried(rows):
    """Behind the FIGs of the plan, in order, with an end marker where there is room for one, and another CRC."""
    merged(rows, frame(TUNED + "FF"), frame(SHORT + "FF"), frame(TUNED + SHORT + "FF"), told(1, 1))
    merged(rows, frame("FF"), frame(SHORT + MIDDLE + "FF"), frame(SHORT + MIDDLE + "FF"), told(1, 2))
    # 30 bytes have no marker, 29 have it alone behind them
    merged(rows, frame("3C " + "00 " * 28 + "FF"), frame("20 FF"), frame("3C " + "00 " * 28 + "20"), told(1, 1))
    merged(rows, frame("3B " + "00 " * 27 + "FF"), frame("20 FF"), frame("3B " + "00 " * 27 + "20 FF"), told(1, 1))
    # bytes behind the end marker are not kept
    merged(rows, frame("FF 55"), frame("FF"), frame("FF"), told(1, 0))
    merged(rows, frame(TUNED + "FF 55"), frame(SHORT + "FF 66"), frame(TUNED + SHORT + "FF"), told(1, 1))


def figs_are_left_out(rows):
    """FIG 0/0 to 0/3 and 0/7 of this ensemble, whatever their C/N and P/D flags."""
    for data in ("05 00 E1 C5 00 00", "05 01 04 00 88 60", "05 81 04 00 88 60", "06 02 C2 21 01 3F 06", "01 03", "01 A3",
                 "03 07 04 01", "03 87 04 01", "03 27 04 01", "01 07"):
        merged(rows, frame("FF"), frame(data + "FF"), frame("FF"), told(1, 0))
        merged(rows, frame("FF"), frame(SHORT + data + MIDDLE + "FF"), frame(SHORT + MIDDLE + "FF"), told(1, 2))
    for data in ("05 40 E1 C5 00 00", "05 41 04 00 88 60", "03 47 04 01", "03 C7 04 01", "03 45 01 09", "03 06 01 09",
                 "03 44 01 09", "03 1F 01 09", "02 06 01", "23 07 04 01", "E1 07", "20", "E0"):
        merged(rows, frame("FF"), frame(data + "FF"), frame(data + "FF"), told(1, 1))


# Sub-channel 1; service C221 with audio on it and packet component 7; packet component 7. There is room for 2 bytes more.
CURRENT = TUNED + "05 01 04 00 88 60" + "08 02 C2 21 02 3F 06 C0 1C" + "06 03 00 70 3C 14 01"
ARE_THERE = ("04 04 01 00 00", "04 04 42 00 00", "03 05 01 09", "03 05 42 09", "04 05 80 07 09", "05 08 C2 21 00 01",
             "05 88 C2 21 00 01", "06 08 C2 21 80 01 00", "06 08 C2 21 00 80 07", "05 08 AB CD 00 41", "02 0E 05",
             "05 13 01 00 01 01", "06 13 01 00 01 41 03", "08 05 01 09 80 07 09 01 08", "05 48 C2 21 00 02", "03 45 02 09",
             # of the next configuration: C/N 1 in FIG 0/4 and 0/8
             "05 88 C2 21 00 02", "04 84 02 00 00", "06 88 C2 21 00 80 08", "04 88 C2 21 00")
ARE_NOT = ("04 04 02 00 00", "03 05 02 09", "04 05 80 08 09", "05 08 C2 21 00 02", "03 85 02 09", "02 8E 09", "05 08 C2 22 00 01",
           "07 28 00 00 C2 21 00 01", "06 08 C2 21 80 02 00", "06 08 C2 21 00 80 08", "02 0E 09", "05 13 01 00 01 02",
           "06 13 01 00 01 42 03", "05 05 01 09 02 09", "01 04", "03 04 01 00", "04 05 01 09 01", "05 08 C2 21 80 01")


def those_that_contradict(rows):
    """FIGs that name sub-channels or packet components: those that the plan has, not others, which take no room."""
    plan = frame(CURRENT + "FF")
    for data in ARE_THERE:
        merged(rows, plan, frame(data + "FF"), frame(CURRENT + "FF", data + "FF"), told(1, 1))
    for data in ARE_NOT:
        merged(rows, plan, frame(data + SHORT + "FF"), frame(CURRENT + "FF", SHORT + "FF"), told(1, 1, stale=1))
    # judged by what was heard up to the FIB that is filled, when one that fits has its turn
    late = frame("FF", CURRENT + "FF")
    merged(rows, late, frame("03 05 01 09 FF"), late, told(1, 0, stale=1))
    full, left = frame(FULL, FULL, FULL), frame(CURRENT + "FF", FULL, FULL)
    merged(rows, left, frame("03 05 02 09 FF"), left, told(1, 0, 1))
    merged(rows, full + plan, frame("03 05 01 09 FF"), full + frame(CURRENT + "FF", "03 05 01 09 FF"), told(2, 1))
    merged(rows, full + plan, frame("03 05 02 09" + SHORT + "FF"), full + frame(CURRENT + "FF", SHORT + "FF"), told(2, 1, stale=1))


def figs_wait(rows):
    """The one that has waited longest goes first, of those that fit; copies of one that waits are not kept."""
    full = frame(FULL, FULL, FULL)
    merged(rows, full, frame(SHORT + MIDDLE + "FF"), full, told(1, 0, 2))
    merged(rows, full + frame("FF"), frame(SHORT + "FF") + frame(MIDDLE + "FF"), full + frame(SHORT + MIDDLE + "FF"), told(2, 2))
    merged(rows, full + frame("FF"), frame(SHORT + "FF") * 2, full + frame(SHORT + "FF"), told(2, 1))
    merged(rows, frame("FF") * 2, frame(SHORT + "FF") * 2, frame(SHORT + "FF") * 2, told(2, 2))
    # 8 bytes are left: the long ones are overtaken, and go into the next FIB
    front = "35 " + "55 " * 21
    merged(rows, frame(front + "FF"), frame(LONG + MIDDLE + "FF", SHORT + "FF"), frame(front + SHORT + "FF", LONG + MIDDLE + "FF"),
           told(1, 3))
    merged(rows, frame(front + "FF", FULL, FULL), frame(LONG + MIDDLE + "FF", SHORT + "FF"), frame(front + SHORT + "FF", FULL, FULL),
           told(1, 1, 2))


def at_most_256_wait(rows):
    """Others are dropped, and counted; one of which a copy waits is not."""
    full = frame(FULL, FULL, FULL)
    figs = [f"{header:02X}{number:02X}" for header in (0x21, 0x41) for number in range(150)]
    frames = [frame(*("".join(figs[at + 15 * k:at + 15 * k + 15]) for k in range(3))) for at in range(0, 270, 45)]
    # 270 FIGs: 256 wait, 14 are dropped
    merged(rows, full * 6, b"".join(frames), full * 6, told(6, 0, 256, 14))
    merged(rows, full * 7, b"".join(frames) + frames[0], full * 7, told(7, 0, 256, 14))
    wanted = frame(*("".join(figs[15 * k:15 * k + 15]) for k in range(3)))
    merged(rows, full * 6 + frame("FF"), b"".join(frames), full * 6 + wanted, told(7, 45, 211, 14))


def damaged_fibs(rows):
    """Those of the plan stay, those of the multiplexer give nothing; both are counted."""
    bad = bytearray(frame(TUNED + "FF"))
    bad[31] ^= 1
    overrun = frame("3F FF")
    merged(rows, bytes(bad), frame(SHORT + "FF"), bytes(bad[:32]) + frame(SHORT + "FF")[:32] + frame()[:32], told(1, 1, 0, 0, 1))
    merged(rows, overrun, frame("FF"), overrun, told(1, 0, 0, 0, 1))
    merged(rows, frame("FF"), bytes(bad), frame("FF"), told(1, 0, 0, 0, 1))
    merged(rows, bytes(bad) * 2, bytes(bad), bytes(bad) * 2, told(2, 0, 0, 0, 3))


def lengths(rows):
    """The multiplexer's frames may be fewer or more; frames of four FIBs in mode 3."""
    merged(rows, b"", b"", b"", told(0, 0))
    merged(rows, b"", frame(SHORT + "FF"), b"", told(0, 0))
    merged(rows, frame("FF") * 3, frame(SHORT + "FF"), frame(SHORT + "FF") + frame("FF") * 2, told(3, 1))
    merged(rows, frame("FF"), frame(SHORT + "FF") + frame(MIDDLE + "FF"), frame(SHORT + "FF"), told(1, 1))
    four = frame("FF", size=4)
    merged(rows, four, frame(SHORT + "FF", MIDDLE + "FF", size=4), frame(SHORT + MIDDLE + "FF", size=4), told(1, 2), 0, "--mode 3")
    for mode in (1, 2, 4):
        merged(rows, frame("FF"), frame(SHORT + "FF"), frame(SHORT + "FF"), told(1, 1), 0, f"--mode {mode}")


def other_formats_are_refused(rows):
    """ETI and EDI, of a multiplexer or made: nothing is written of such a plan, and a plan goes on without such a multiplexer."""
    whole = frame(TUNED + "FF")
    for name, data in other_formats():
        told_of = f"x.fib: no whole FIB: 32 bytes each are expected ({name}: dabplan-bridge fic takes out its FIBs)\n"
        ended = rows.run("merge x.fib mux.fib", {"x.fib": data, "mux.fib": whole})
        rows.tally.same(f"merge, a plan of {name}", (1, b"", told_of), (*ended.lines(), ended.messages.decode()))
        ended = rows.run("merge plan.fib x.fib", {"plan.fib": whole * 3, "x.fib": data})
        rows.tally.same(f"merge, a multiplexer of {name}", (1, whole * 3, told_of + told(3, 0)), (*ended.lines(), ended.messages.decode()))
    # Damaged FIBs that are neither are frames as any others.
    merged(rows, bytes(96), whole, bytes(96), told(1, 0, damaged=3))
    merged(rows, whole, b"AF" + bytes(94), whole, told(1, 0, damaged=3))
    # A FIB that is not damaged may begin with any bytes.
    eti = fib("2A 07 3A B6 " + "00 " * 7 + "FF")
    merged(rows, eti * 3, whole, eti * 3, told(1, 0))


def refusals(rows):
    """Files that end within a frame, and that can't be read; what goes on and what ends."""
    whole, more = frame("FF"), frame(SHORT + "FF")
    for part in (1, 32, 95):
        merged(rows, whole + whole[:part], more, more, "plan.fib: not whole frames\n", 1)
        merged(rows, whole * 2, more + more[:part], more + whole, "mux.fib: not whole frames\n" + told(2, 1), 1)
    ended = rows.run("merge plan.fib none", {"plan.fib": whole})
    missing = "cannot read none\nnone: error: No such file or directory\n"
    rows.tally.same("merge: no other", (1, b"", missing), (*ended.lines(), ended.messages.decode()))
    ended = rows.run("merge none mux.fib", {"mux.fib": whole})
    rows.tally.same("merge: no plan", (1, b"", missing), (*ended.lines(), ended.messages.decode()))
    for line, path, why in (("merge . mux.fib", ".", "Is a directory"), ("merge plan.fib .", ".", "Is a directory"),
                            ("merge . none", ".", "Is a directory"), ("merge plan.fib a\x0ab", "a\\x0Ab", "No such file or directory")):
        ended = rows.run(line.split(" ", 2), {"plan.fib": whole, "mux.fib": whole})
        rows.tally.same(f"{line!r}", (1, b"", f"cannot read {path}\n{path}: error: {why}\n"), (*ended.lines(), ended.messages.decode()))
    ended = rows.run(["merge", "plan.fib", "a\x0ab"], {"plan.fib": whole, "a\x0ab": b"FF"})
    rows.tally.same("merge: a path with a line feed", (1, "a\\x0Ab: not whole frames\n" + told(1, 0)),
                    (ended.status, ended.messages.decode()))
    for line in ("merge", "merge plan.fib", "merge - -", "merge plan.fib mux.fib --mode 5", "merge plan.fib mux.fib --period 4"):
        ended = rows.run(line, {"plan.fib": whole, "mux.fib": whole})
        rows.tally.same(f"dabplan {line}", (2, b""), ended.lines())


def standard_input(rows):
    """'-' is standard input, for one of the two."""
    whole, more = frame("FF"), frame(SHORT + "FF")
    for line, files, data in (("merge - mux.fib", {"mux.fib": more}, whole), ("merge plan.fib -", {"plan.fib": whole}, more)):
        ended = rows.run(line, files, data)
        rows.tally.same(line, (0, more, told(1, 1)), (*ended.lines(), ended.messages.decode()))


def in_lock_step(rows):
    """`live | merge - FIFO`: a line is given and a frame of the multiplexer, and the merged frame comes, before the next line."""
    folder = pathlib.Path(rows.folder)
    rows.run("help", {"x.code": hexadecimal(RATES_FILE)})
    alone = rows.run("live x.code", {"x.code": hexadecimal(RATES_FILE)}, b"frames 40\n").lines()[1]
    rows.run("help", {"x.code": hexadecimal(RATES_FILE)})
    os.mkfifo(folder / "mux")
    live = subprocess.Popen([rows.program, "live", "x.code"], cwd=folder, stdin=subprocess.PIPE, stdout=subprocess.PIPE)
    merge = subprocess.Popen([rows.program, "merge", "-", "mux"], cwd=folder, stdin=live.stdout, stdout=subprocess.PIPE,
                             stderr=subprocess.PIPE)
    live.stdout.close()
    with open(folder / "mux", "wb", buffering=0) as mux:
        for number in range(40):
            mux.write(frame(SHORT + "FF"))
            live.stdin.write(b"frames 1\n")
            live.stdin.flush()
            given = merge.stdout.read(96)
            plan = alone[96 * number:96 * number + 96]
            kept = sum(given[at:at + 30].startswith(plan[at:at + 30].split(b"\xff")[0]) for at in (0, 32, 64))
            rows.tally.same(f"lock step {number}", (96, 3, True), (len(given), kept, hexadecimal(SHORT) in given))
        live.stdin.close()
        merge.wait(timeout=60)
    rows.tally.same("lock step ends", (0, 0, told(40, 40)), (live.wait(timeout=60), merge.returncode, merge.stderr.read().decode()))


if __name__ == "__main__":
    rows.main([figs_are_carried, figs_are_left_out, those_that_contradict, figs_wait, at_most_256_wait, damaged_fibs, lengths,
               other_formats_are_refused, refusals, standard_input, in_lock_step])
