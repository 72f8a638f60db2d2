#!/usr/bin/env python3
"""Measures `dabplan-bridge run --compose`: the processor time of a frame of 18 sub-channels and 864 capacity units.

    bench/compose_speed.py [FRAMES]

Two multiplexers have the same 18 sub-channels of 48 units, 3-A at 64 kbit/s; half of the plan's come from the second one. At each swap,
every 500 frames, the first nine change their places with the others. For ETI and for EDI, without and with --align5 (the streams are
random, and have no superframes), a line has the milliseconds of processor time a frame, with those of the children and of the start.
The limit is 2 ms, in the slowest of these.
"""
import binascii
import os
import pathlib
import random
import resource
import subprocess
import sys
import tempfile

TOP = pathlib.Path(__file__).resolve().parents[1]
sys.dont_write_bytecode = True
SUBS, UNITS, KBITS, WORDS = 18, 48, 64, 24
LIMIT = 2.0
HEAD = "ensemble E1C5\nperiod 16 notice 240 budget 100 reserve 1\n"


def crc(data):
    """The two bytes of the CRC."""
    return (binascii.crc_hqx(data, 0xFFFF) ^ 0xFFFF).to_bytes(2, "big")


def plan():
    """The script: the first nine sub-channels and the others change their places, and change back."""
    subs = "".join(f"sub {sub} at {UNITS * sub} eep 3-A {KBITS}\n" for sub in range(SUBS))
    services = "".join(f"service C2{sub:02X}\naudio 63 sub {sub} in C2{sub:02X}\n" for sub in range(SUBS))

    def moved(places):
        drops = "".join(f"drop component sub {sub} in C2{sub:02X}\n" for sub in range(SUBS))
        drops += "".join(f"drop sub {sub}\n" for sub in range(SUBS))
        adds = "".join(f"sub {sub} at {UNITS * place} eep 3-A {KBITS}\n" for sub, place in enumerate(places))
        return drops + adds + "".join(f"audio 63 sub {sub} in C2{sub:02X}\n" for sub in range(SUBS)) + "commit in 248\njoin\n"
    there = [(sub + SUBS // 2) % SUBS for sub in range(SUBS)]
    return f"{HEAD}{subs}{services}begin\nforever {{\nwait 250\n{moved(there)}wait 250\n{moved(range(SUBS))}}}\n"


def eti(count, fic, data):
    """A frame of ETI(NI) with all sub-channels."""
    entries = b"".join((sub << 26 | UNITS * sub << 16 | 0x22 << 10 | WORDS).to_bytes(4, "big") for sub in range(SUBS))
    main = fic + data
    head = bytes([count % 250, 0x80 | SUBS]) + (count % 8 << 13 | 1 << 11 | SUBS + 1 + len(main) // 4).to_bytes(2, "big") + entries + b"\0\0"
    frame = b"\xff" + (b"\x07\x3a\xb6", b"\xf8\xc5\x49")[count % 2] + head + crc(head) + main + crc(main) + b"\xff" * 6
    return frame + b"\x55" * (6144 - len(frame))


def edi(count, fic, data):
    """A packet of EDI with all sub-channels."""
    def tag(name, value):
        return name + (8 * len(value)).to_bytes(4, "big") + value
    items = tag(b"*ptr", b"DETI" + bytes(4))
    items += tag(b"deti", bytes([0x40 | count // 250, count % 250, 0xFF, 1 << 6 | count % 8 << 3, 0, 0]) + fic)
    for sub in range(SUBS):
        head = (sub << 18 | UNITS * sub << 8 | 0x22 << 2).to_bytes(3, "big")
        items += tag(b"est" + bytes([sub + 1]), head + data[8 * WORDS * sub:8 * WORDS * (sub + 1)])
    items += bytes(-len(items) % 8)
    packet = b"AF" + len(items).to_bytes(4, "big") + count.to_bytes(2, "big") + b"\x90T" + items
    return packet + crc(packet)


def prepare(program, folder, frames):
    """The code, and the files of both inputs in both formats."""
    (folder / "x.plan").write_text(plan())
    (folder / "own.plan").write_text(plan().split("begin")[0] + "begin\n")
    (folder / "own.events").write_text("frames 5000")
    for words in (("compile", "x.plan", "x.code"), ("compile", "own.plan", "own.code"), ("play", "own.code", "own.events", "own.fib")):
        subprocess.run([program, *words], cwd=folder, check=True, stdout=subprocess.DEVNULL)
    fic = (folder / "own.fib").read_bytes()
    for name in ("day", "night"):
        data = random.Random(name).randbytes(8 * WORDS * SUBS)
        for make in (eti, edi):
            with open(folder / f"{name}.{make.__name__}", "wb") as file:
                for at in range(frames):
                    count = at % 5000
                    file.write(make(count, fic[96 * count:96 * count + 96], data))


def measure(program, folder, form, frames, options):
    """Prints the processor time of a frame; returns it in milliseconds, that of the children with it."""
    maps = [word for sub in range(0, SUBS, 2) for word in ("--map", f"{sub}=night:{sub}")]
    words = [sys.executable, TOP / "bridge/dabplan-bridge", "run", "x.code", "--compose", "--in", f"day=day.{form}", "--in",
             f"night=night.{form}", *maps, *options, "--out", "/dev/null", "--dabplan", program]
    before = resource.getrusage(resource.RUSAGE_CHILDREN)
    done = subprocess.run(words, cwd=folder, capture_output=True, text=True, check=False)
    after = resource.getrusage(resource.RUSAGE_CHILDREN)
    if done.returncode != 0:
        sys.exit(done.stderr)
    milliseconds = 1000 * (after.ru_utime + after.ru_stime - before.ru_utime - before.ru_stime) / frames
    print(f"{form} {' '.join(options)}: {frames} frames, {milliseconds:.2f} ms of processor time a frame, children and start with it",
          flush=True)
    return milliseconds


def main():
    frames = int(sys.argv[1]) if len(sys.argv) > 1 else 5000
    program = subprocess.run([TOP / "release/make", "--program"], check=True, capture_output=True, text=True).stdout.strip()
    with tempfile.TemporaryDirectory(dir=os.environ.get("TMPDIR")) as name:
        folder = pathlib.Path(name)
        prepare(program, folder, frames)
        worst = max(measure(program, folder, form, frames, options) for form in ("eti", "edi") for options in ([], ["--align5"]))
    sys.exit(0 if worst < LIMIT else 1)


if __name__ == "__main__":
    main()
