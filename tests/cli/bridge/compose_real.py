#!/usr/bin/env python3
"""`dabplan-bridge run --compose` with two ODR-DabMux, one for the day and one for the night: dablin plays services over
swaps by EDI and by ETI, and one multiplexer is killed and started again. The tools are skipped, and it is said so,
where they are not installed. The last line is 'N passed, M failed'."""
import re
import shutil
import signal
import tempfile
import threading
import time

import bridges
from bridges import common
from real import LENGTH, Receiver
from two_muxes import Stand

SWAPS = 6


def breaks_of(heard):
    """The places at which a number does not follow the one before while the rate stays, and the steps at which the rate
    changes."""
    breaks, steps = 0, []
    for (one, earlier), (other, later) in zip(heard, heard[1:]):
        if one == other:
            breaks += later != (earlier + 1) % LENGTH
        else:
            steps.append((later - earlier - 1) % LENGTH)
    return breaks, steps


def lost_of(steps):
    """The frames lost at changes of the rate: those from one multiplexer to the other and back are as far in one
    direction as in the other, but for what is lost."""
    return [(there + back) % LENGTH for there, back in zip(steps, steps[1:])]


def received(stand, form, receivers, bridge_name):
    """What dablin made of the swaps."""
    tally = stand.tally
    for sid, receiver in receivers.items():
        heard = receiver.end()
        breaks, steps = breaks_of(heard)
        tally.hold(len(heard) > SWAPS * 100, f"{form}, {sid}: {len(heard)} frames of audio")
        if sid == "C221":
            tally.same(f"{form}, {sid}: breaks", 0, breaks)
            tally.hold(len(steps) >= SWAPS, f"{form}, {sid}: {len(steps)} changes of the rate")
            tally.same(f"{form}, {sid}: frames lost at swaps", [0] * (len(steps) - 1), lost_of(steps))
        else:
            tally.same(f"{form}, {sid}: frames lost", 0, breaks + len(steps))
        print(f"{form}, {sid}: {len(heard)} frames of audio, {breaks} breaks, {len(steps)} changes of the rate, lost at them: "
              f"{sum(lost_of(steps))}", flush=True)
    silent = [line for line in (stand.folder / f"{bridge_name}.prom").read_text().splitlines() if line.startswith("dab_stream_silent")]
    tally.same(f"{form}: silent frames", [], [line for line in silent if not line.endswith(" 0")])


def by_network(stand):
    """dablin on two services, by EDI and by ETI at once."""
    ports = {"edi": bridges.free_port(), "eti": bridges.free_port()}
    for form, port in ports.items():
        stand.bridge(form, f"--format {form} --out tcp://:{port} --state {form}.prom")
    found = {form: {sid: Receiver(stand.folder, port, sid, form) for sid in ("C221", "C222")} for form, port in ports.items()}
    done = bridges.until(lambda: all(stand.said(form).count(" swap\n") >= SWAPS + 2 for form in ports), 120)
    stand.tally.hold(done, f"{SWAPS + 2} swaps")
    for form, receivers in found.items():
        received(stand, form, receivers, form)


class Counts:
    """The counts of the packets that a bridge sends, and when they came."""

    def __init__(self, port):
        self.found, self.connection = [], bridges.connected(port)
        self.thread = threading.Thread(target=self.read, daemon=True)
        self.thread.start()

    def read(self):
        """Reads to the end."""
        with self.connection.makefile("rb") as stream:
            while len(head := stream.read(10)) == 10:
                packet = head + stream.read(int.from_bytes(head[2:6], "big") + 2)
                at = packet.index(b"deti") + 8
                self.found.append((time.monotonic(), (packet[at] & 0x1F) * 250 + packet[at + 1]))

    def gaps(self):
        """How many counts do not follow the one before, and the longest time between two, in seconds."""
        pairs = list(zip(self.found, self.found[1:]))
        return sum(later != (earlier + 1) % 5000 for (_, earlier), (_, later) in pairs), max(end - start for (start, _), (end, _) in pairs)


def without_one(stand, multiplexers):
    """One multiplexer is killed, and started again: no count is missing, and its streams are used again."""
    tally, port = stand.tally, bridges.free_port()
    bridge = stand.bridge("kill", f"--out tcp://:{port}")
    counts = Counts(port)
    tally.hold(bridges.until(lambda: len(counts.found) > 100, 60), "the plan begins")
    multiplexers["day"].kill()
    multiplexers["day"].wait()
    tally.hold(bridges.until(lambda: "no frames in time of input day" in stand.said("kill"), 60), "the day is missing")
    stand.start("day", ["odr-dabmux", "day.conf"])
    tally.hold(bridges.until(lambda: "all inputs have their frames in time again" in stand.said("kill"), 60), "the day is back")
    time.sleep(2)
    steps, longest = counts.gaps()
    tally.same("counts that do not follow", 0, steps)
    print(f"a multiplexer killed and started again: {len(counts.found)} frames, {steps} counts missing, at most {longest:.2f} s between two", flush=True)
    bridge.send_signal(signal.SIGTERM)
    tally.same("the bridge ends", 0, bridge.wait(10))
    counts.thread.join(10)


def test(tally, folder):
    """The chain."""
    stand = Stand(tally, folder)
    stand.prepare()
    try:
        multiplexers = stand.multiplexers()
        by_network(stand)
        without_one(stand, multiplexers)
    except BaseException:
        print(*(stand.said(path.stem)[-1500:] for path in stand.folder.glob("*.log")))
        raise
    finally:
        stand.end()
    text = stand.said("edi")
    print(re.findall("frames .* carried .*", text)[-1:] or text.splitlines()[-1])


def main():
    tally = common.Tally()
    missing = [name for name in ("odr-dabmux", "dablin") if shutil.which(name) is None]
    with tempfile.TemporaryDirectory() as folder:
        if missing:
            print(f"skipped: a transmission that follows its plan: no {' and no '.join(missing)}")
            tally.hold(all(shutil.which(name) is None for name in missing), "they are not installed")
        else:
            test(tally, folder)
    tally.end()


if __name__ == "__main__":
    main()
