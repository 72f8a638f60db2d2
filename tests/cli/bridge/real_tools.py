#!/usr/bin/env python3
"""`dabplan-bridge` between ODR-DabMux and receivers, over EDI by TCP on the loopback address: the bridge is killed and
resumed, ODR-DabMux is killed and started again, and dablin plays a service over the swaps. The tools are skipped, and
it is said so, where they are not installed. An argument is the seconds without disturbance, 18 by default. The last
line is 'N passed, M failed'."""
import os
import pathlib
import re
import shutil
import signal
import subprocess
import sys
import tempfile
import time

import bridges
from bridges import common
from real import LENGTH, Receiver, gaps_of, moves_of, silence

RESTARTS = "Detected change in ensemble configuration"
"""What odr-dabmod says where it restarts its modulation, and loses frames."""
MULTIPLEXER = """\
general {{ dabmode 1 nbframes 0 syslog false tist false managementport 0 }}
remotecontrol {{ telnetport 0 }}
ensemble {{ id 0xE1C5 ecc 0xe1 local-time-offset 0 label "Example" shortlabel "Example" reconfig-counter hash }}
services {{
    one {{ id 0xC221 label "One" }}
    two {{ id 0xC222 label "Two" }}
    new {{ id 0xC223 label "New" }}
}}
subchannels {{
    s1 {{ type audio bitrate 64 id 1 protection-profile EEP_A protection 3 inputproto file inputuri "64.mp2" }}
    s2 {{ type audio bitrate 64 id 2 protection-profile EEP_A protection 3 inputproto file inputuri "64.mp2" }}
    s3 {{ type audio bitrate 96 id 3 protection-profile EEP_A protection 3 inputproto file inputuri "96.mp2" }}
}}
components {{
    c1 {{ service one subchannel s1 }}
    c2 {{ service two subchannel s2 }}
    c3 {{ service new subchannel s3 }}
}}
outputs {{
    throttle "simul://"
    edi {{ destinations {{ d1 {{ protocol tcp listenport {port} }} }} enable_pft false tagpacket_alignment 8 tist false }}
}}
"""
MODULATOR = """\
[remotecontrol]
telnet=0
zmqctrl=0
[log]
syslog=0
filelog=0
[input]
transport=edi
source=tcp://127.0.0.1:{port}
edi_max_delay=500
[modulator]
digital_gain=0.8
rate=2048000
[firfilter]
enabled=0
[output]
output=file
[fileoutput]
format=u8
filename=/dev/null
"""
# C221 moves from sub-channel 1, of 64 kbit/s, to 3, of 96 kbit/s, and back, every 8 s.
PLAN = """\
ensemble E1C5
period 4 notice 240 budget 20 reserve 1
sub 1 at 0 eep 3-A 64
sub 2 at 48 eep 3-A 64
service C221
audio 0 sub 1 in C221
service C222
audio 0 sub 2 in C222
begin
forever {
wait 100
drop component sub 1 in C221
drop sub 1
sub 3 at 96 eep 3-A 96
audio 0 sub 3 in C221
commit in 240
join
wait 100
drop component sub 3 in C221
drop sub 3
sub 1 at 0 eep 3-A 64
audio 0 sub 1 in C221
commit in 240
join
}
"""


class Stand:
    """A multiplexer, the bridge, a modulator, and receivers."""

    def __init__(self, tally, folder, seconds):
        self.tally, self.folder, self.seconds = tally, pathlib.Path(folder), seconds
        self.entry, self.exit = bridges.free_port(), bridges.free_port()
        self.program = str(common.dabplan())
        self.jobs = []

    def start(self, name, words):
        """Starts a program, whose messages go to NAME.log; several go there one behind the other."""
        with open(self.folder / f"{name}.log", "ab") as log:
            job = subprocess.Popen(words, cwd=self.folder, stdin=subprocess.DEVNULL, stdout=log, stderr=log)
        self.jobs.append(job)
        return job

    def multiplexer(self):
        """Starts ODR-DabMux."""
        return self.start("mux", ["odr-dabmux", "mux.conf"])

    def bridge(self):
        """Starts the bridge."""
        return self.start("bridge", [sys.executable, str(bridges.BRIDGE), "run", "x.code", "--in", f"tcp://127.0.0.1:{self.entry}", "--out",
                                     f"tcp://:{self.exit}", "--log", "x.log", "--monitor", "monitor", "--status", "--dabplan", self.program])

    def said(self, name="bridge"):
        """The messages of a program."""
        return (self.folder / f"{name}.log").read_text(errors="replace")

    def prepare(self):
        """The files."""
        for kbits in (64, 96):
            common.write(self.folder, f"{kbits}.mp2", b"".join(silence(kbits, number) for number in range(LENGTH)))
        common.write(self.folder, "mux.conf", MULTIPLEXER.format(port=self.entry))
        common.write(self.folder, "mod.ini", MODULATOR.format(port=self.exit))
        common.write(self.folder, "x.plan", PLAN)
        done = common.run([self.program, "compile", "x.plan", "x.code"], self.folder)
        self.tally.same("compiled", b"instructions 15 labels 1 configurations 1\n", done.printed)

    def end(self):
        """Ends what was started."""
        for job in self.jobs:
            if job.poll() is None:
                job.kill()
                job.wait()


def memory_of(job):
    """The largest resident memory of a process, in MB."""
    text = pathlib.Path(f"/proc/{job.pid}/status").read_text(encoding="ascii")
    return int(re.search(r"VmHWM:\s+(\d+)", text)[1]) / 1024


def undisturbed(stand):
    """A run without disturbance: no frame of audio is lost over the swaps, and the labels are there."""
    tally = stand.tally
    receivers = {sid: Receiver(stand.folder, stand.exit, sid) for sid in ("C221", "C222")}
    modulator = stand.start("mod", ["odr-dabmod", "mod.ini"]) if shutil.which("odr-dabmod") else None
    time.sleep(stand.seconds)
    swaps = stand.said().count(" swap\n")
    for sid, receiver in receivers.items():
        heard = receiver.end()
        tally.hold(len(heard) >= (stand.seconds - 6) / 0.024, f"{sid}: {len(heard)} frames in {stand.seconds} s")
        tally.same(f"{sid}: frames lost", 0, gaps_of(heard))
        tally.hold(moves_of(heard) >= (swaps - 2 if sid == "C221" else 0) and (sid == "C221" or moves_of(heard) == 0),
                   f"{sid}: {moves_of(heard)} moves, {swaps} swaps")
        print(f"{sid}: {len(heard)} frames of audio, {gaps_of(heard)} gaps, {moves_of(heard)} moves")
    if modulator is not None:
        tally.same("odr-dabmod runs", None, modulator.poll())
        text = stand.said("mod")
        print(f"odr-dabmod: {text.count(RESTARTS)} restarts of its modulation")
        tally.hold(RESTARTS not in text, "odr-dabmod restarts its modulation")
        tally.hold(RESTARTS in restarted(stand), "odr-dabmod says nothing where its modulation is restarted")
    return modulator


def restarted(stand):
    """What odr-dabmod says of a file of ETI in which a sub-channel goes: it restarts its modulation."""
    fic = bridges.EMPTY_FIB * 3 * 300
    frames = bridges.made("eti", fic) + bridges.made("eti", fic, 300, stc=bridges.STC[:2])
    common.write(stand.folder, "x.eti", b"".join(frames))
    common.write(stand.folder, "file.ini", MODULATOR.replace("transport=edi", "transport=file").replace("source=tcp://127.0.0.1:{port}",
                 "source=x.eti\nloop=0").replace("edi_max_delay=500\n", ""))
    done = subprocess.run(["odr-dabmod", "file.ini"], cwd=stand.folder, capture_output=True, text=True, errors="replace", check=False, timeout=120)
    return done.stdout + done.stderr


def stopped(stand, bridge, modulator):
    """The bridge is ended by SIGTERM, and started again: odr-dabmod connects again. After a kill it may find its
    connection reset, and end."""
    tally = stand.tally
    bridge.send_signal(signal.SIGTERM)
    tally.same("the bridge ends", 0, bridge.wait(10))
    before = len(stand.said())
    bridge = stand.bridge()
    tally.hold(bridges.until(lambda: "goes on at count" in stand.said()[before:], 15), "it resumes")
    if modulator is not None:
        tally.hold(bridges.until(lambda: ": client 127" in stand.said()[before:], 15), "odr-dabmod is connected again")
        time.sleep(1)
        tally.same("odr-dabmod runs", None, modulator.poll())
    print("after the bridge was ended and started again:", re.findall("resumed after .*", stand.said())[-1])
    return bridge


def killed(stand, bridge):
    """The bridge is killed, and started again: it resumes by count and clock."""
    tally = stand.tally
    bridge.send_signal(signal.SIGKILL)
    bridge.wait()
    time.sleep(1.5)
    before = stand.said().count("resumed after")
    bridge = stand.bridge()
    tally.hold(bridges.until(lambda: stand.said().count("resumed after") > before and "goes on at count" in stand.said(), 15), "it resumes")
    receiver = Receiver(stand.folder, stand.exit, "C221")
    time.sleep(min(20, stand.seconds / 2))
    heard = receiver.end()
    tally.hold(len(heard) >= 200, f"after the kill: {len(heard)} frames")
    tally.same("after the kill: frames lost", 0, gaps_of(heard))
    print(f"after the bridge was killed: {len(heard)} frames of audio, {gaps_of(heard)} gaps;",
          re.findall("resumed after .*", stand.said())[-1])
    return bridge


def lost(stand, bridge, multiplexer):
    """ODR-DabMux is killed, and started again: the bridge stays, and the plan goes on by count and clock."""
    tally = stand.tally
    multiplexer.send_signal(signal.SIGKILL)
    multiplexer.wait()
    time.sleep(2)
    multiplexer = stand.multiplexer()
    tally.hold(bridges.until(lambda: "connected again" in stand.said(), 15), "it is connected again")
    receiver = Receiver(stand.folder, stand.exit, "C221")
    time.sleep(min(20, stand.seconds / 2))
    heard = receiver.end()
    tally.same("the bridge runs", None, bridge.poll())
    tally.hold(len(heard) >= 200, f"after the restart: {len(heard)} frames")
    tally.same("after the restart: frames lost", 0, gaps_of(heard))
    steps = re.findall(r": (the count is .*)", stand.said())
    print(f"after ODR-DabMux was killed: {len(heard)} frames of audio, {gaps_of(heard)} gaps;", steps[-1] if steps else "no step")


def test(tally, folder, seconds):
    """The chain."""
    stand = Stand(tally, folder, seconds)
    stand.prepare()
    os.mkfifo(stand.folder / "monitor")
    # Its writer may go and come: another one stays, so that it does not end.
    kept = os.open(stand.folder / "monitor", os.O_RDWR)
    with open(stand.folder / "check.out", "wb") as out:
        check = subprocess.Popen([stand.program, "check", "monitor"], cwd=folder, stdout=out)
    try:
        multiplexer = stand.multiplexer()
        bridges.connected(stand.entry).close()
        bridge = stand.bridge()
        tally.hold(bridges.until(lambda: "the plan begins" in stand.said(), 15), "the plan begins")
        modulator = undisturbed(stand)
        print(f"the bridge: {memory_of(bridge):.1f} MB at most")
        faults = [line for line in (stand.folder / "check.out").read_text().splitlines() if "fault" in line]
        tally.same("faults of the undisturbed run", [], faults)
        bridge = stopped(stand, bridge, modulator)
        bridge = killed(stand, bridge)
        lost(stand, bridge, multiplexer)
        bridge.send_signal(signal.SIGTERM)
        tally.same("the bridge ends", 0, bridge.wait(10))
        summary = re.findall(r"frames \d+ carried \d+ waiting \d+ dropped (\d+) stale \d+ damaged (\d+)", stand.said())
        tally.same("dropped and damaged", [("0", "0")], sorted(set(summary)))
        print(stand.said().splitlines()[-1])
    except BaseException:
        print(stand.said()[-3000:], stand.said("mux")[-2000:])
        raise
    finally:
        stand.end()
        os.close(kept)
        check.wait(10)
    print((stand.folder / "check.out").read_text().splitlines()[-1])


def main():
    tally = common.Tally()
    missing = [name for name in ("odr-dabmux", "dablin") if shutil.which(name) is None]
    with tempfile.TemporaryDirectory() as folder:
        if missing:
            print(f"skipped: a chain on air: no {' and no '.join(missing)}")
            tally.hold(all(shutil.which(name) is None for name in missing), "they are not installed")
        else:
            test(tally, folder, int(sys.argv[1]) if len(sys.argv) > 1 else 18)
    tally.end()


if __name__ == "__main__":
    main()
