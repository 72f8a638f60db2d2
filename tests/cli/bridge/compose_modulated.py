#!/usr/bin/env python3
"""`dabplan-bridge run --compose` with two ODR-DabMux and odr-dabmod, which reads ETI from a FIFO, and welle-cli, which
receives what odr-dabmod puts out: the first frame after each gap is the one that it is to be, services go on over a
move alone, and odr-dabmod restarts its modulation once a swap and does not end. Without `--modulator` the same move
freezes the streams. The tools are skipped, and it is said so, where they are not installed. The last line is 'N passed,
M failed'."""
import os
import pathlib
import re
import shutil
import signal
import subprocess
import tempfile
import time

import bridges
from bridges import common
from real import LENGTH, RATES, silence
from two_muxes import Stand

SWAPS = 4
LOST = 20
"""The frames of audio that welle-cli lacks at a restart of odr-dabmod: 480 ms."""
RESTARTS = "Detected change in ensemble configuration"
"""What odr-dabmod says where it restarts its modulation."""
MODULATOR = """\
[remotecontrol]
telnet=0
zmqctrl=0
[log]
syslog=0
filelog=0
[input]
transport=file
source={name}.eti
loop=0
[modulator]
digital_gain=0.8
rate=2048000
[firfilter]
enabled=0
[output]
output=file
[fileoutput]
format=u8
filename={name}.iq
"""
# A plan of sub-channels that come, go and move, one of a sub-channel that moves alone, and the same without what
# odr-dabmod needs.
RUNS = {
    "turns": ("x.code", "--modulator odr-dabmod"),
    "moves": ("move.code", "--modulator odr-dabmod"),
    "plain": ("move.code", ""),
}


class Chain:
    """A bridge, and odr-dabmod behind it by a FIFO of ETI."""

    def __init__(self, stand, name):
        self.stand, self.name = stand, name
        code, options = RUNS[name]
        os.mkfifo(stand.folder / f"{name}.eti")
        common.write(stand.folder, f"{name}.ini", MODULATOR.format(name=name))
        self.bridge = stand.bridge(f"{name}-bridge", f"--format eti {options} --out {name}.eti", code)
        self.modulator = stand.start(f"{name}-mod", ["odr-dabmod", f"{name}.ini"])

    def swaps(self):
        """The counts of the swaps that the bridge reports."""
        return [int(count) for count in re.findall(r"count (\d+) swap\n", self.stand.said(f"{self.name}-bridge"))]

    def end(self):
        """Ends it: odr-dabmod ran up to here, and plays what is left in the FIFO."""
        tally, name = self.stand.tally, self.name
        # It is ended a second after a swap: long before the sub-channels change for the next one.
        before = max(SWAPS - 1, len(self.swaps()))
        tally.hold(bridges.until(lambda: len(self.swaps()) > before), f"{name}: {SWAPS} swaps")
        time.sleep(1)
        tally.same(f"{name}: odr-dabmod runs", None, self.modulator.poll())
        self.bridge.send_signal(signal.SIGTERM)
        tally.same(f"{name}: the bridge ends", 0, self.bridge.wait(bridges.PATIENCE))
        tally.same(f"{name}: odr-dabmod comes to the end", 0, self.modulator.wait(bridges.PATIENCE))
        restarts, swaps = self.stand.said(f"{name}-mod").count(RESTARTS), len(self.swaps())
        tally.same(f"{name}: restarts of its modulation", 0 if name == "plain" else swaps, restarts)
        print(f"{name}, odr-dabmod by FIFO: {restarts} restarts of its modulation, {swaps} swaps", flush=True)


class Radio:
    """welle-cli on what odr-dabmod put out, which it plays again and again, in real time: on a busy machine it loses
    frames, but not always the same ones."""

    def __init__(self, stand, name):
        self.folder = pathlib.Path(tempfile.mkdtemp(dir=stand.folder))
        with open(stand.folder / f"{name}-radio.log", "wb") as log:
            self.job = subprocess.Popen(
                ["welle-cli", "-D", "-T", "-f", f"../{name}.iq"],
                cwd=self.folder,
                stdin=subprocess.PIPE,
                stdout=log,
                stderr=log,
            )
        stand.jobs.append(self.job)

    def fibs(self):
        """The FIBs that it received, with a right CRC."""
        path = self.folder / "dump.fic"
        data = path.read_bytes() if path.exists() else b""
        return [
            data[at:at + 30]
            for at in range(0, len(data) - 31, 32)
            if bridges.crc(data[at:at + 30]) == data[at + 30:at + 32]
        ]

    def counts(self):
        """The counts of the FIG 0/0 that it received."""
        found = set()
        for fib in self.fibs():
            at = 0
            while at < 25 and fib[at] != 0xFF:
                if fib[at] in (0x05, 0x06) and fib[at + 1] == 0:
                    found.add((fib[at + 4] & 0x1F) * 250 + fib[at + 5])
                at += 1 + (fib[at] & 0x1F)
        return found

    def audio(self, label):
        """The numbers of the whole frames of a service that it received, in order. Bits of a number may be wrong."""
        rates, found, at = {third: kbits for kbits, third in RATES.items()}, [], 0
        path = self.folder / f"{label}.msc"
        data = path.read_bytes() if path.exists() else b""
        while (at := data.find(b"\xff\xfc", at)) >= 0 and at + 104 <= len(data):
            kbits, number = rates.get(data[at + 2], 0), int.from_bytes(data[at + 100:at + 104], "big")
            is_whole = kbits and number < LENGTH and data[at:at + 3 * kbits] == silence(kbits, number)
            found += [number] if is_whole else []
            at += 3 * kbits if is_whole else 1
        return found

    def end(self, holds):
        """Lets it play until something holds of it, and ends it."""
        end = time.monotonic() + 2 * bridges.PATIENCE
        while not holds(self) and time.monotonic() < end:
            time.sleep(2)
        self.job.stdin.write(b".\n")
        self.job.stdin.close()
        self.job.wait(bridges.PATIENCE)


def stands_still(numbers):
    """How many times a number is that of the frame before."""
    return sum(one == other for one, other in zip(numbers, numbers[1:]))


def missing_of(numbers):
    """How many numbers are missing at each place between the first and the last one. Those that no other one stands
    beside are left out: bits of them may be wrong."""
    middle = (numbers[0] + LENGTH // 2) % LENGTH if numbers else 0
    rows = [(number - middle) % LENGTH for number in numbers]
    there = sorted(
        {
            number
            for before, number, after in zip([-2, *rows], rows, [*rows[1:], -2])
            if number in (before + 1, after - 1)
        }
    )
    return [later - earlier - 1 for earlier, later in zip(there, there[1:]) if later > earlier + 1]


def wrong_of(swap, counts):
    """The counts around a swap that are not as they are to be. The first frame that odr-dabmod puts out after a gap is
    that of the swap, or, where 8 does not divide its count, that of the last such count before it; each transmission
    frame, of four, begins with a FIG 0/0."""
    first = swap - swap % 8
    lost = {(first - 8) % 5000, (first - 4) % 5000}
    there = {(first - 12) % 5000, first, swap - swap % 4, (first + 8) % 5000}
    return sorted(lost & counts) + sorted(there - counts)


def first_frames(stand, name, swaps):
    """The frames of the swaps are on air."""
    radio = Radio(stand, name)
    radio.end(lambda radio: not any(wrong_of(swap, radio.counts()) for swap in swaps))
    counts = radio.counts()
    for swap in swaps:
        stand.tally.same(f"{name}: counts that are wrong around the swap at {swap}", [], wrong_of(swap, counts))
    print(
        f"{name}: the first frames behind the gaps, by welle-cli, are those of the swaps at {swaps}, or of the last "
        "counts before them that 8 divides",
        flush=True,
    )


def not_frozen(stand, name, swaps):
    """A service that stays goes on over moves of another one: its stream comes from one multiplexer alone, which has
    this rate."""
    tally, radio, wanted = stand.tally, Radio(stand, name), [LOST] * len(swaps)
    radio.end(lambda radio: missing_of(radio.audio("One")) == wanted)
    numbers = radio.audio("One")
    tally.same(f"{name}, One: frames missing", wanted, missing_of(numbers))
    tally.same(f"{name}, One: frames that are there twice", 0, stands_still(numbers))
    print(
        f"{name}, One: {len(numbers)} frames of audio, missing at {len(swaps)} swaps: {missing_of(numbers)}", flush=True
    )


def frozen(stand):
    """Without `--modulator` the move freezes the streams."""
    radio = Radio(stand, "plain")
    radio.end(lambda radio: stands_still(radio.audio("One")) > 100)
    still = stands_still(radio.audio("One"))
    stand.tally.hold(still > 100, f"without --modulator a move freezes the streams: {still} frames twice")
    print(f"plain, One: {still} frames that are those before them", flush=True)


def test(tally, folder):
    """The chains."""
    stand = Stand(tally, folder)
    stand.prepare()
    try:
        stand.multiplexers()
        chains = {name: Chain(stand, name) for name in RUNS}
        for chain in chains.values():
            chain.end()
        if shutil.which("welle-cli") is None:
            print("skipped: a receiver behind the modulator: no welle-cli")
        else:
            for name in ("turns", "moves"):
                first_frames(stand, name, chains[name].swaps())
            not_frozen(stand, "moves", chains["moves"].swaps())
            frozen(stand)
    except BaseException:
        print(*(stand.said(path.stem)[-1500:] for path in stand.folder.glob("*.log")))
        raise
    finally:
        stand.end()


def main():
    tally = common.Tally()
    missing = [name for name in ("odr-dabmux", "odr-dabmod") if shutil.which(name) is None]
    with tempfile.TemporaryDirectory() as folder:
        if missing:
            print(f"skipped: a modulator behind the bridge: no {' and no '.join(missing)}")
            tally.hold(all(shutil.which(name) is None for name in missing), "they are not installed")
        else:
            test(tally, folder)
    tally.end()


if __name__ == "__main__":
    main()
