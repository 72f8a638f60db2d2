#!/usr/bin/env python3
"""Counts the instructions of commands by valgrind's callgrind, which says the same each time, on any machine.

    bench/instruction_counts.py [--of PROGRAM] [--beside OTHER] [--frames N]

PROGRAM is ./release/dabplan unless given. A line a command: the millions of instructions of PROGRAM from its start to its
end, and if OTHER is given, another program with the same commands but without `--quiet`, those of OTHER and the ratio; both have to
print and write the same. The `play` commands make N frames, 400,000 unless given; `listen` reads the file of the large one.

The C library copies 4 KB and more by one instruction that repeats itself, each byte of which callgrind takes for an
instruction: it is told to copy by vectors here, so that programs that copy little at a time are counted alike."""
import argparse
import os
import pathlib
import re
import shutil
import subprocess
import sys
import tempfile

TOP = pathlib.Path(__file__).resolve().parents[1]
SMALL = """\
ensemble E1C5 period 4 notice 24 budget 20
sub 1 at 0 eep 3-A 128
service C221
audio 63 sub 1 in C221
begin
forever {
wait contact 3 closed
rate sub 1 96
commit in 24
join
wait contact 3 open
rate sub 1 128
commit in 24
join
}
"""
# Settings of the C library under which it uses no instruction that repeats itself.
BY_VECTORS = ":".join(f"glibc.cpu.x86_rep_{word}_threshold={2 ** 30}" for word in ("movsb", "stosb"))
LARGE_HEAD = "ensemble E1C5 period 40 notice 96 budget 20"
RECORD = bytes.fromhex("0101000100000003008000C22101003F01")


def sid(number):
    """The SId of a service of the large plan: most of 16 bits, the last ones of 32."""
    return f"{0xC000 + number:04X}" if number < 48 else f"{0xE1C00000 + number:08X}"


def large_items():
    """64 sub-channels, 64 services of two components, and 64 packet components."""
    items = [f"sub {number} at {13 * number} eep 3-A 16" for number in range(64)]
    for number in range(64):
        items += [f"service {sid(number)}", f"audio 63 sub {number} in {sid(number)}", f"carry {number * 60} in {sid(number)}"]
    return items + [f"packet {number * 60} groups type {number} sub {number} address {1 + number}" for number in range(64)]


def large_plan():
    """The plan of these items that changes every 300 frames."""
    there = "rate sub 7 8\ndrop packet 60\ndrop component packet 60 in C001"
    back = "rate sub 7 16\npacket 60 groups type 1 sub 1 address 2\ncarry 60 in C001"
    turns = "\n".join(f"wait 200\n{edits}\ncommit in 100\njoin" for edits in (there, back))
    return "\n".join([LARGE_HEAD, *large_items(), "begin", "forever {", turns, "}", ""])


def turn_of(index):
    """The statements of a commit of the largest script, two tests of contacts and five waits."""
    sub = index % 64
    edit = (f"rate sub {sub} 8", f"move sub {sub} at {13 * sub + 1}", f"rate sub {sub} 16", f"move sub {sub} at {13 * sub}")
    lines = [edit[index // 64], "commit in 100", "join"]
    for contact in (index % 16, (index + 1) % 16):
        lines += [f"if contact {contact} {{", f"wait {1 + index}", "} else {", f"wait contact {index % 16} closed", "}"]
    return lines + [f"wait {frames}" for frames in range(1, 6)]


def largest_script():
    """A script near the limits: 8,192 items and statements, 256 configurations."""
    items = large_items()
    body = [line for index in range(255) for line in turn_of(index)]
    spare = 8192 - len(items) - 255 * 14
    blocks = []
    for block in range(64):
        count = spare // 64 if block < 63 else spare - 63 * (spare // 64)
        edits = [f"rate sub {number % 64} {8 * (1 + number % 2)}" for number in range(count)]
        blocks += [f"define block_{block} {{", *edits, "}"]
    return "\n".join([LARGE_HEAD, *items, *blocks, "begin", *body, ""])


def events(frames, every):
    """An event file of so many frames, with a change of contact 3 each time."""
    lines, level = [], "closed"
    for first in range(0, frames, every):
        lines.append(f"contact 3 {level} frames {min(every, frames - first)}")
        level = "open" if level == "closed" else "closed"
    return "\n".join(lines) + "\n"


def commands(folder, frames):
    """The commands that are counted, each with its name and the file that it writes; their input is put in the folder."""
    texts = {"small.plan": SMALL, "large.plan": large_plan(), "largest.plan": largest_script(),
             "small.events": events(frames, 150), "large.events": f"frames {frames}\n"}
    for name, text in texts.items():
        (folder / name).write_text(text, encoding="utf-8")
    (folder / "row.rec").write_bytes(RECORD)
    return [("", "compile small.plan small.code --quiet", None), ("", "compile large.plan large.code --quiet", None),
            ("play, small", "play small.code small.events small.fib", "small.fib"),
            ("play, large", "play large.code large.events large.fib", "large.fib"),
            ("compile", "compile largest.plan largest.code", "largest.code"),
            ("compile --quiet", "compile largest.plan quiet.code --quiet", "quiet.code"),
            ("verify", "verify largest.code", None), ("listen", "listen large.fib", None),
            ("frame", "frame row.rec --ensemble E1C5 --count 0", None)]


def counted(program, words, folder):
    """Millions of instructions of a command, and what it printed."""
    run = subprocess.run(["valgrind", "--tool=callgrind", "--callgrind-out-file=/dev/null", program, *words.split()],
                         cwd=folder, capture_output=True, env=os.environ | {"GLIBC_TUNABLES": BY_VECTORS})
    found = re.search(rb"Collected : (\d+)", run.stderr)
    if run.returncode != 0 or found is None:
        sys.exit(f"{program} {words}: status {run.returncode}\n{run.stderr.decode(errors='replace')[-400:]}")
    return int(found[1]) / 1e6, run.stdout


def result_of(program, words, product, folder):
    """Millions of instructions of a command, what it printed, and what it wrote."""
    millions, printed = counted(program, words, folder)
    return millions, printed, (folder / product).read_bytes() if product else b""


def main():
    parser = argparse.ArgumentParser(description=__doc__, formatter_class=argparse.RawDescriptionHelpFormatter)
    parser.add_argument("--of", default=str(TOP / "release/dabplan"), metavar="PROGRAM")
    parser.add_argument("--beside", metavar="OTHER")
    parser.add_argument("--frames", type=int, default=400_000, metavar="N")
    given = parser.parse_args()
    if shutil.which("valgrind") is None:
        print("instruction_counts: skipped, as there is no valgrind")
        return 0
    differ = 0
    with tempfile.TemporaryDirectory() as name:
        folder = pathlib.Path(name)
        program, beside = pathlib.Path(given.of).resolve(), given.beside and pathlib.Path(given.beside).resolve()
        for title, words, product in commands(folder, given.frames):
            millions, printed, written = result_of(program, words, product, folder)
            if not title:
                continue
            line = f"{title:<16} {millions:9.2f}"
            if beside:
                other, told, put = result_of(beside, words.replace(" --quiet", ""), product, folder)
                same = (printed, written) == (told, put)
                differ += not same
                line += f" {other:9.2f} {millions / other:6.2f} times" + ("" if same else ", and another result")
            print(line, flush=True)
    return 1 if differ else 0


if __name__ == "__main__":
    sys.exit(main())
