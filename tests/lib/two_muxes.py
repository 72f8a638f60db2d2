"""Shared by the scripts of tests/cli/bridge/ with `--compose` between real tools: two ODR-DabMux, one for the day and
one for the night, and plans over them."""
import pathlib
import subprocess
import sys

import bridges
from bridges import common
from real import LENGTH, silence

MULTIPLEXER = """\
general {{ dabmode 1 nbframes 0 syslog false tist false managementport 0 }}
remotecontrol {{ telnetport 0 }}
ensemble {{ id 0xE1C5 ecc 0xe1 local-time-offset 0 label "Example" shortlabel "Example" reconfig-counter hash }}
services {{
    one {{ id 0xC221 label "One" }}
    two {{ id 0xC222 label "Two" }}
    new {{ id 0xC225 label "New" }}
}}
subchannels {{
{subs}
}}
components {{
    c1 {{ service one subchannel s1 }}
    c2 {{ service two subchannel s2 }}
    c3 {{ service new subchannel {last} }}
}}
outputs {{
    throttle "simul://"
    edi {{
        destinations {{ d1 {{ protocol tcp listenport {port} }} }}
        enable_pft false tagpacket_alignment 8 tist false
    }}
}}
"""
SUB = (
    "    s{0} {{ type audio bitrate {1} id {0} protection-profile EEP_A protection 3 "
    'inputproto file inputuri "{1}.mp2" }}'
)
# By night the first service has less, the second one moves, and a third one is in the freed units.
DAY, NIGHT = ((1, 128), (2, 64)), ((1, 64), (2, 64), (5, 64))
PLAN = """\
ensemble E1C5
period 4 notice 48 budget 20 reserve 1
sub 1 at 0 eep 3-A 128
sub 2 at 96 eep 3-A 64
service C221
audio 0 sub 1 in C221
service C222
audio 0 sub 2 in C222
begin
forever {
wait 72
rate sub 1 64
move sub 2 at 48
sub 5 at 96 eep 3-A 64
service C225
audio 0 sub 5 in C225
commit in 48
join
wait 72
drop service C225
drop sub 5
move sub 2 at 96
rate sub 1 128
commit in 48
join
}
"""
# A sub-channel moves, and nothing else changes.
MOVE = (
    PLAN.split("begin\n")[0]
    + """\
begin
forever {
wait 72
move sub 2 at 200
commit in 48
join
wait 72
move sub 2 at 96
commit in 48
join
}
"""
)


class Stand:
    """Two multiplexers, and bridges behind them."""

    def __init__(self, tally, folder):
        self.tally, self.folder = tally, pathlib.Path(folder)
        self.ports = {"day": bridges.free_port(), "night": bridges.free_port()}
        self.program = str(common.dabplan())
        self.jobs = []

    def prepare(self):
        """The files."""
        for kbits in (64, 128):
            common.write(self.folder, f"{kbits}.mp2", b"".join(silence(kbits, number) for number in range(LENGTH)))
        for name, subs in (("day", DAY), ("night", NIGHT)):
            text = "\n".join(SUB.format(*each) for each in subs)
            common.write(
                self.folder,
                f"{name}.conf",
                MULTIPLEXER.format(subs=text, last=f"s{subs[-1][0]}", port=self.ports[name]),
            )
        for name, plan in (("x", PLAN), ("move", MOVE)):
            common.write(self.folder, f"{name}.plan", plan)
            done = common.run([self.program, "compile", f"{name}.plan", f"{name}.code"], self.folder)
            self.tally.same("compiled", 0, done.status)

    def start(self, name, words, **options):
        """Starts a program, whose messages go to NAME.log."""
        with open(self.folder / f"{name}.log", "ab") as log:
            job = subprocess.Popen(words, cwd=self.folder, stdin=subprocess.DEVNULL, stdout=log, stderr=log, **options)
        self.jobs.append(job)
        return job

    def bridge(self, name, options, code="x.code"):
        """Starts a bridge over both multiplexers."""
        inputs = [word for each, port in self.ports.items() for word in ("--in", f"{each}=tcp://127.0.0.1:{port}")]
        words = [sys.executable, str(bridges.BRIDGE), "run", code, "--compose", *inputs, "--status"]
        return self.start(name, [*words, "--dabplan", self.program, *options.split()])

    def multiplexers(self):
        """Starts both, which then listen; by their names."""
        jobs = {name: self.start(name, ["odr-dabmux", f"{name}.conf"]) for name in self.ports}
        for port in self.ports.values():
            bridges.connected(port).close()
        return jobs

    def said(self, name):
        """The messages of a program."""
        return (self.folder / f"{name}.log").read_text(errors="replace")

    def end(self):
        """Ends what was started."""
        for job in self.jobs:
            if job.poll() is None:
                job.kill()
                job.wait()
