#!/usr/bin/env python3
"""Measures dabplan-bridge: 100,000 frames of ETI and of EDI, faster than real time, with a log, a monitor and labels.

    bench/bridge_speed.py [FRAMES [FOLDER]]

The multiplexer's stream has three sub-channels of 320 kbit/s each and 16 labels; the plan moves a service every 500
frames. `dabplan check` reads the monitor, and must find every frame, a swap each 500 frames, and no fault. For each
format a line has the milliseconds a frame by the clock, with the bridge, its children, this script and `check` side by
side; the processor time a frame of the bridge with its children; and the largest resident memory of the bridge after a
tenth of the frames and at the end. The limits are 0.5 ms by the clock and 30 MB.

With FOLDER, another copy of this repository, its bridge is run by turns with this one, five times each, with the same
program. The lines then have the least processor time of each, and their ratio, which must not be above 1.
"""
import binascii
import os
import pathlib
import re
import subprocess
import sys
import tempfile
import threading
import time
import typing

TOP = pathlib.Path(__file__).resolve().parents[1]
LEAST = 5000
ROUNDS = 5
"""How often each of two bridges is run by turns."""
PLAN = """\
ensemble E1C5
period 4 notice 240 budget 20 reserve 1
sub 1 at 0 eep 3-A 320
sub 2 at 240 eep 3-A 320
service C221
audio 63 sub 1 in C221
service C222
audio 63 sub 2 in C222
begin
forever {
wait 250
drop component sub 1 in C221
drop sub 1
sub 3 at 480 eep 3-A 320
audio 63 sub 3 in C221
commit in 248
join
wait 250
drop component sub 3 in C221
drop sub 3
sub 1 at 0 eep 3-A 320
audio 63 sub 1 in C221
commit in 248
join
}
"""
OWN = PLAN.split("begin")[0].replace("service C221", "sub 3 at 480 eep 3-A 320\nservice C221") + "begin\n"
STC = ((1, 0, 0x22, 120), (2, 240, 0x22, 120), (3, 480, 0x22, 120))


def crc(data):
    """The two bytes of the CRC."""
    return (binascii.crc_hqx(data, 0xFFFF) ^ 0xFFFF).to_bytes(2, "big")


def label(number):
    """A FIB with the label of a service."""
    name = f"Service {number:02d}".ljust(16).encode()
    data = bytes([0x35, 0x01]) + (0xC200 + number).to_bytes(2, "big") + name + b"\xff\0"
    data = (data + b"\xff").ljust(30, b"\0")
    return data + crc(data)


def eti(count, fic, streams):
    """A frame of ETI(NI)."""
    entries = b"".join((sub << 26 | start << 16 | level << 10 | words).to_bytes(4, "big")
                       for sub, start, level, words in STC)
    main = fic + streams
    sizes = (count % 8 << 13 | 1 << 11 | len(STC) + 1 + len(main) // 4).to_bytes(2, "big")
    head = bytes([count % 250, 0x80 | len(STC)]) + sizes + entries + b"\0\0"
    sync = (b"\x07\x3a\xb6", b"\xf8\xc5\x49")[count % 2]
    frame = b"\xff" + sync + head + crc(head) + main + crc(main) + b"\xff" * 6
    return frame + b"\x55" * (6144 - len(frame))


def edi(count, fic, streams):
    """A packet of EDI."""
    def tag(name, value):
        return name + (8 * len(value)).to_bytes(4, "big") + value
    items = tag(b"*ptr", b"DETI" + bytes(4))
    items += tag(b"deti", bytes([0x40 | count // 250, count % 250, 0xFF, 1 << 6 | count % 8 << 3, 0, 0]) + fic)
    for number, (sub, start, level, words) in enumerate(STC, 1):
        where = (sub << 18 | start << 8 | level << 2).to_bytes(3, "big")
        items += tag(b"est" + bytes([number]), where + streams[:8 * words])
    items += bytes(-len(items) % 8)
    packet = b"AF" + len(items).to_bytes(4, "big") + (count % 65536).to_bytes(2, "big") + b"\x90T" + items
    return packet + crc(packet)


class Measured(typing.NamedTuple):
    """What a run of a bridge took."""

    seconds: float
    """By the clock."""
    processor: float
    """The seconds of processor time of the bridge and its children."""
    early: float
    """The largest resident memory of the bridge after a tenth of the frames, in MB."""
    last: float
    """The same at the end."""
    summary: str
    """The last line of `check`."""
    status: int
    """The exit status of the bridge."""

    def is_right(self, frames: int) -> bool:
        """Whether `check` found every frame, the swaps, and nothing wrong."""
        form = rf"frames {frames} skipped 0 left over 0 damaged 0 swaps (\d+) faults 0"
        found = re.fullmatch(form, self.summary)
        return self.status == 0 and found is not None and abs(int(found[1]) - frames / 500) <= frames / 25_000 + 1

    def __str__(self) -> str:
        return f"largest memory {self.early:.1f} MB, at the end {self.last:.1f} MB; {self.summary}"


def own_fic(program, folder):
    """The multiplexer's FIC over all counts, with a label in the last FIB of each frame."""
    (folder / "own.plan").write_text(OWN)
    (folder / "own.events").write_text(f"frames {LEAST}")
    for words in (["compile", "own.plan", "own.code"], ["play", "own.code", "own.events", "own.fib"]):
        subprocess.run([program, *words], cwd=folder, check=True, stdout=subprocess.DEVNULL)
    fic = (folder / "own.fib").read_bytes()
    return [fic[96 * at:96 * at + 64] + label(at % 16) for at in range(LEAST)]


def pieces(form, fics):
    """The stream over all counts, in pieces of 50 frames."""
    streams = os.urandom(8 * 360)
    make = {"eti": eti, "edi": edi}[form]
    return [b"".join(make(count, fics[count], streams) for count in range(first, first + 50))
            for first in range(0, LEAST, 50)]


def peak(pid):
    """The largest resident memory of a process so far, in MB."""
    with open(f"/proc/{pid}/status", encoding="ascii") as status:
        return next(int(line.split()[1]) for line in status if line.startswith("VmHWM")) / 1024


def run(top, program, folder, made, frames):
    """Runs the bridge of a copy of the repository over so many frames."""
    for name in ("log", "monitor"):
        (folder / name).unlink(missing_ok=True)
    os.mkfifo(folder / "monitor")
    check = subprocess.Popen([program, "check", "monitor"], cwd=folder, stdout=subprocess.PIPE, text=True)
    words = [sys.executable, top / "bridge/dabplan-bridge", "run", "x.code", "--in", "-", "--out", "/dev/null",
             "--log", "log", "--monitor", "monitor", "--dabplan", program]
    job = subprocess.Popen(words, cwd=folder, stdin=subprocess.PIPE, stderr=subprocess.PIPE, bufsize=0)
    drain = threading.Thread(target=job.stderr.read)
    drain.start()
    start, early = time.monotonic(), 0.0
    for at in range(0, frames, 50):
        job.stdin.write(made[at // 50 % len(made)])
        if at == frames // 10 // 50 * 50:
            early = peak(job.pid)
    last = peak(job.pid)
    job.stdin.close()
    _, status, used = os.wait4(job.pid, 0)
    job.returncode = os.waitstatus_to_exitcode(status)
    seconds = time.monotonic() - start
    drain.join()
    summary = check.communicate()[0].splitlines()[-1]
    return Measured(seconds, used.ru_utime + used.ru_stime, early, last, summary, job.returncode)


def measure(program, folder, form, frames, made):
    """Runs the bridge; prints a line, and returns whether all is as it must be."""
    found = run(TOP, program, folder, made, frames)
    print(f"{form}: {frames} frames, {1000 * found.seconds / frames:.3f} ms a frame by the clock, "
          f"{1e6 * found.processor / frames:.1f} microseconds of processor time; {found}", flush=True)
    return found.is_right(frames) and found.last <= 30 and found.seconds / frames <= 0.0005


def compare(program, folder, form, frames, made, other):
    """Runs the bridge of another copy and this one by turns; prints a line, and returns whether this one needs no more
    processor time."""
    rounds = [[run(top, program, folder, made, frames) for top in (other, TOP)] for _ in range(ROUNDS)]
    times = [[found.processor * 1e6 / frames for found in pair] for pair in rounds]
    before, now = (min(each) for each in zip(*times))
    print(f"{form}: {frames} frames, microseconds of processor time a frame, by turns with {other.name}: "
          f"{before:.1f} there, {now:.1f} here, {now / before:.2f} times; each round "
          + ", ".join(f"{there:.1f} {here:.1f}" for there, here in times), flush=True)
    return now <= before and all(each.is_right(frames) for pair in rounds for each in pair)


def main():
    frames = int(sys.argv[1]) if len(sys.argv) > 1 else 100_000
    make = subprocess.run([TOP / "release/make", "--program"], check=True, capture_output=True, text=True)
    program = make.stdout.strip()
    well = True
    with tempfile.TemporaryDirectory() as name:
        folder = pathlib.Path(name)
        (folder / "x.plan").write_text(PLAN)
        subprocess.run([program, "compile", "x.plan", "x.code"], cwd=folder, check=True, stdout=subprocess.DEVNULL)
        fics = own_fic(program, folder)
        for form in ("eti", "edi"):
            made = pieces(form, fics)
            if len(sys.argv) > 2:
                well = compare(program, folder, form, frames, made, pathlib.Path(sys.argv[2]).resolve()) and well
            else:
                well = measure(program, folder, form, frames, made) and well
    sys.exit(0 if well else 1)


if __name__ == "__main__":
    main()
