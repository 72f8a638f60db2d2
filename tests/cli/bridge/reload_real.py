#!/usr/bin/env python3
"""`dabplan-bridge run SCRIPT` between ODR-DabMux and dablin, over EDI and over ETI: by `POST /reload` steps, and then a
schedule, take the place of the plan on air. dablin misses no frame of audio over that and over the changes that are
announced then, and `check` finds no fault in what went out. Where the tools are not installed it is skipped, and says
so. The last line is 'N passed, M failed'."""
import json
import os
import re
import shutil
import signal
import sys
import tempfile

import bridges
import two_muxes
from bridges import common
from ports import asked
from real import LENGTH, Receiver, gaps_of, silence

SUBS = "\n".join(two_muxes.SUB.format(*each) for each in ((1, 64), (2, 64), (3, 96)))
HEAD = "ensemble E1C5\nperiod 4 notice 48 budget 20 reserve 1\n"
STAYS = "sub 2 at 48 eep 3-A 64\nservice C221\nservice C222\naudio 0 sub 2 in C222\n"
EARLY = "sub 1 at 0 eep 3-A 64\naudio 0 sub 1 in C221\n"
LATE = "sub 3 at 96 eep 3-A 96\naudio 0 sub 3 in C221\n"
BACK = "drop component sub 3 in C221\ndrop sub 3\n" + EARLY
# C221 is in sub-channel 1, of 64 kbit/s, for ever.
FIRST = HEAD + STAYS + EARLY + "begin\n"
# It moves to sub-channel 3, of 96 kbit/s, to the items of the other plan, and back: by time, or by contact 4.
OTHERS = {
    "steps": HEAD + STAYS + LATE + "begin\nwait 75\n" + BACK + "commit in 48\njoin\n",
    "schedule": HEAD + STAYS + LATE + "schedule\noverlay back while contact 4 closed {\n" + BACK + "}\n",
}
# The sub-channels in which dablin hears a service one after the other, by their kbit/s.
HEARD = {"C221": [64, 96, 64], "C222": [64]}


def counts_of(form, stream):
    """The counts of the frames of a stream, modulo 250."""
    if form == "eti":
        return list(stream[4::bridges.ETI])
    found, at = [], 0
    while at < len(stream):
        size = 12 + int.from_bytes(stream[at + 2:at + 6], "big")
        found.append(stream[stream.index(b"deti", at, at + size) + 9])
        at += size
    return found


def rates_of(heard):
    """The kbit/s of what was heard, one after the other."""
    rates = [kbits for kbits, _ in heard]
    return [now for before, now in zip([0, *rates], rates) if now != before]


class Chain(two_muxes.Stand):
    """A multiplexer, the bridge with a script, and dablin on two services, over EDI or ETI."""

    def __init__(self, tally, folder, form):
        super().__init__(tally, folder)
        self.form, self.control, self.exit = form, bridges.free_port(), bridges.free_port()
        self.fifo, self.kept, self.receivers = self.folder / "mux.eti", None, {}

    def prepare(self):
        """The files."""
        for kbits in (64, 96):
            common.write(self.folder, f"{kbits}.mp2", b"".join(silence(kbits, number) for number in range(LENGTH)))
        text = two_muxes.MULTIPLEXER.format(subs=SUBS, last="s3", port=self.ports["day"])
        if self.form == "eti":
            text = text.split("    edi {")[0] + f'    eti "fifo://{self.fifo}?type=raw"\n}}\n'
        common.write(self.folder, "mux.conf", text)
        common.write(self.folder, "p.plan", FIRST)
        os.mkfifo(self.fifo)
        # ODR-DabMux opens its FIFO without waiting for who reads it.
        self.kept = os.open(self.fifo, os.O_RDWR)

    def begin(self):
        """Starts all."""
        self.start("mux", ["odr-dabmux", "mux.conf"])
        entry = f"tcp://127.0.0.1:{self.ports['day']}" if self.form == "edi" else self.fifo.name
        words = [sys.executable, str(bridges.BRIDGE), "run", "p.plan", "--in", entry, "--dabplan", self.program]
        options = f"--out tcp://:{self.exit} --out air --control {self.control} --log l --status"
        self.job = self.start("bridge", [*words, *options.split()])
        self.receivers = {sid: Receiver(self.folder, self.exit, sid, self.form) for sid in HEARD}

    def hear(self, what, frames=60):
        """Waits until dablin has played so many more frames of each service."""
        wanted = {sid: len(each.audio) + frames * 3 * 96 for sid, each in self.receivers.items()}
        self.wait(lambda: all(len(self.receivers[sid].audio) >= wanted[sid] for sid in wanted), f"{what} is not heard")

    def reload(self, script):
        """Another plan takes the place of the one on air."""
        common.write(self.folder, "p.plan", script)
        status, _, body = asked(self.control, "POST", "/reload", b"")
        answer = json.loads(body)
        self.tally.same(f"{self.form}: reloaded", (200, 0), (status, answer.get("frame", answer)))
        text = f"p.plan takes its own place: its frame 0 is at count {answer.get('count')}\n"
        self.wait(lambda: text in self.said("bridge"), f"not said: {text}")

    def swapped(self, number):
        """Waits until so many swaps are made."""
        self.wait(lambda: self.said("bridge").count(" swap\n") >= number, f"swap {number} is not made")

    def wait(self, holds, otherwise):
        """Waits until something holds; where it does not, the rest makes no sense."""
        if not bridges.until(holds, 60):
            raise TimeoutError(f"{self.form}: {otherwise}")

    def close(self):
        """Ends dablin, and returns what it played; and the bridge."""
        found = {sid: receiver.end() for sid, receiver in self.receivers.items()}
        self.receivers = {}
        self.job.send_signal(signal.SIGTERM)
        self.tally.same(f"{self.form}: the bridge ends", 0, self.job.wait(30))
        return found

    def end(self):
        """Ends what was started."""
        for receiver in self.receivers.values():
            receiver.end()
        super().end()
        if self.kept is not None:
            os.close(self.kept)


def judge(chain, name, found):
    """What dablin played, and what went out."""
    tally, what = chain.tally, f"{name}, {chain.form}"
    for sid, heard in found.items():
        tally.same(f"{what}, {sid}: frames lost", 0, gaps_of(heard))
        tally.same(f"{what}, {sid}: sub-channels", HEARD[sid], rates_of(heard))
    counts = counts_of(chain.form, (chain.folder / "air").read_bytes())
    tally.same(f"{what}: counts missing", [], [b for a, b in zip(counts, counts[1:]) if b != (a + 1) % 250])
    tally.hold(len(counts) >= max(len(heard) for heard in found.values()), f"{what}: {len(counts)} frames went out")
    fic = common.run([sys.executable, bridges.BRIDGE, "fic", "air"], chain.folder).printed
    common.write(chain.folder, "air.fib", fic)
    checked = common.run([chain.program, "check", "air.fib"], chain.folder).printed.decode().splitlines()[-1]
    # The FIBs before the first FIG 0/0 are skipped, three a frame.
    sums = re.fullmatch(r"frames (\d+) skipped ([0369]) left over 0 damaged 0 swaps 2 faults 0", checked)
    tally.hold(sums and int(sums[1]) + int(sums[2]) // 3 == len(counts), f"{what}: {checked}")
    text = ", ".join(f"{sid} {len(heard)} frames of audio, {gaps_of(heard)} gaps" for sid, heard in found.items())
    print(f"{what}: {text}; {len(counts)} frames went out; {checked}", flush=True)


def test(tally, folder, name):
    """One plan, over EDI and ETI at once."""
    chains = []
    try:
        for form in ("edi", "eti"):
            os.mkdir(f"{folder}/{form}")
            chains.append(Chain(tally, f"{folder}/{form}", form))
            chains[-1].prepare()
        for act in (
            Chain.begin,
            lambda chain: chain.hear("the first plan"),
            lambda chain: chain.reload(OTHERS[name]),
            lambda chain: chain.swapped(1),
            lambda chain: name == "steps" or asked(chain.control, "PUT", "/contacts/4", b"closed"),
            lambda chain: chain.swapped(2),
            lambda chain: chain.hear("the other plan"),
            lambda chain: judge(chain, name, chain.close()),
        ):
            for chain in chains:
                act(chain)
    except BaseException:
        print(*(chain.said(path.stem)[-1500:] for chain in chains for path in chain.folder.glob("*.log")))
        raise
    finally:
        for chain in chains:
            chain.end()


def main():
    tally = common.Tally()
    missing = [name for name in ("odr-dabmux", "dablin") if shutil.which(name) is None]
    if missing:
        print(f"skipped: plans that are replaced on air: no {' and no '.join(missing)}")
        tally.hold(all(shutil.which(name) is None for name in missing), "they are not installed")
    else:
        for name in OTHERS:
            with tempfile.TemporaryDirectory() as folder:
                test(tally, folder, name)
    tally.end()


if __name__ == "__main__":
    main()
