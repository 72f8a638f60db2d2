#!/usr/bin/env python3
"""The commands of ON_AIR.md, 'In ten minutes', one after the other: of the package, installed below a folder, with a
multiplexer that is made here in the place of ODR-DabMux, and without systemd, whose lines are run by hand. The last
line is 'N passed, M failed'."""
import os
import pathlib
import re
import shutil
import signal
import socket
import subprocess
import threading
import time
import unittest

import bridges
import units
from bridges import common
from ports import asked

HAS_DPKG = shutil.which("dpkg-deb") is not None and shutil.which("dpkg") is not None
# What is tried here in another way, or not at all.
BY_HAND = ("apt install", "systemctl", "journalctl", "curl")
LABEL = bridges.fib("3501C2FF" + "One".ljust(16).encode().hex() + "E000")


class Multiplexer:
    """Packets of EDI in real time, for anybody who connects."""

    def __init__(self, fics):
        self.server = socket.create_server(("127.0.0.1", 0))
        self.port, self.clients, self.fics, self.is_over = self.server.getsockname()[1], [], fics, False
        self.threads = [threading.Thread(target=each, daemon=True) for each in (self.accept, self.send)]
        for each in self.threads:
            each.start()

    def accept(self):
        """Takes clients."""
        while not self.is_over:
            try:
                self.clients.append(self.server.accept()[0])
            except OSError:
                return

    def send(self):
        """Sends a frame each 24 ms."""
        start, number = time.monotonic(), 0
        while not self.is_over:
            count = number % 5000
            packet = bridges.edi_packet(count, self.fics[count][:64] + LABEL)
            for client in list(self.clients):
                try:
                    client.sendall(packet)
                except OSError:
                    self.clients.remove(client)
            number += 1
            time.sleep(max(0.0, start + number * 0.024 - time.monotonic()))

    def close(self):
        """Ends it."""
        self.is_over = True
        self.server.close()
        self.threads[1].join(10)
        for client in self.clients:
            client.close()


@unittest.skipUnless(HAS_DPKG, "no dpkg: the package is not installed")
class Minutes(bridges.Case):
    """From the package to a plan that was replaced."""

    def setUp(self):
        super().setUp()
        self.root = self.folder / "root"
        for name in ("var/lib/dpkg/updates", "var/lib/dpkg/info", "var/lib/dab", "run/dab", "tmp"):
            (self.root / name).mkdir(parents=True)
        for name in ("status", "available"):
            (self.root / "var/lib/dpkg" / name).touch()
        own = self.played(bridges.OWN.replace("budget 20", "budget 20 reserve 1"), "frames 5000")
        self.multiplexer = Multiplexer(bridges.fics(own))
        self.addCleanup(self.multiplexer.close)
        self.port = bridges.free_port()
        self.ports = {"9201": self.multiplexer.port, "9202": bridges.free_port(), "9210": self.port}

    def here(self, line):
        """A line with the paths of the folder, and with ports that are free."""
        line = re.sub(r"(?<![\w/])/(etc|run|var|tmp|usr)/", rf"{self.root}/\1/", line)
        return re.sub("|".join(self.ports), lambda found: str(self.ports[found[0]]), line)

    def commands(self):
        """The commands of the section."""
        text = (
            (common.TOP / "docs/guide/ON_AIR.md")
            .read_text(encoding="utf-8")
            .split("\n## In ten minutes\n")[1]
            .split("\n## ")[0]
        )
        return [line.strip() for line in text.splitlines() if line.startswith("    ")]

    def shell(self, line):
        """Runs a command; it has to end well, but for one that was to be stopped."""
        environment = os.environ | {"PATH": f"{self.root}/usr/bin:{os.environ['PATH']}"}
        done = subprocess.run(
            ["bash", "-c", self.here(line)],
            cwd=self.folder,
            capture_output=True,
            text=True,
            env=environment,
            check=False,
        )
        self.assertIn(done.returncode, (0, 124) if line.startswith("timeout") else (0,), f"{line}: {done.stderr}")
        return done.stdout

    def line_of(self, name):
        """A line of the unit of the bridge."""
        text = (self.root / "usr/lib/systemd/system/dab-bridge.service").read_text(encoding="utf-8")
        return self.here(re.search(rf"(?m)^{name}=((?:.*\\\n)*.*)$", text)[1].replace("\\\n", " "))

    def test_each_command(self):
        lines = [line for line in self.commands() if not line.startswith(BY_HAND)]
        self.assertEqual([line.split()[0] for line in lines], ["release/deb", "timeout", "dabplan", "dabplan"])
        done = subprocess.run(
            [common.TOP / "release/deb", self.folder, self.program], capture_output=True, text=True, check=True
        )
        words = [
            "--force-script-chrootless",
            "--force-depends",
            "--force-not-root",
            "--force-bad-path",
            "-i",
            done.stdout.strip(),
        ]
        done = subprocess.run(["dpkg", f"--root={self.root}", *words], capture_output=True, text=True, check=False)
        self.assertEqual(done.returncode, 0, done.stderr)
        for line in lines[1:3]:
            self.shell(line)
        plan = self.root / "etc/dab/on_air.plan"
        self.assertRegex(plan.read_text(), r"^ensemble E1C5\n(?:.*\n)*audio 63 sub 63 in C2FF\nbegin\n$")
        with open(self.folder / "journal", "wb") as journal:
            bridge = subprocess.Popen(
                ["sh", "-c", f"exec {self.line_of('ExecStart')}"],
                cwd=self.folder,
                stderr=journal,
                stdin=subprocess.DEVNULL,
            )
        self.addCleanup(bridge.kill)
        self.assertTrue(
            bridges.until(
                lambda: 'dab_state{state="following",ensemble="E1C5",plan="on_air.plan"} 1\n' in self.metrics(), 60
            )
        )
        with bridges.connected(self.ports["9202"]) as modulator:
            self.assertEqual(modulator.recv(2), b"AF")
        # A change: of the steps that wait for ever a schedule is made, in which service C2FF leaves a sub-channel.
        plan.write_text(
            plan.read_text()
            .replace("audio 63 sub 2 in C2FF\n", "")
            .replace("sub 2 at 24 eep 3-A 32\n", "")
            .replace("begin\n", "schedule\n")
        )
        self.shell(lines[3])
        subprocess.run(["sh", "-c", self.line_of("ExecReload").replace("$MAINPID", str(bridge.pid))], check=True)
        self.assertTrue(bridges.until(lambda: "takes its own place" in self.journal(), 60), self.journal())
        self.assertTrue(
            bridges.until(lambda: "dab_swaps_total{ensemble=\"E1C5\",plan=\"on_air.plan\"} 1\n" in self.metrics(), 60)
        )
        for line in (
            "dab_faults_total{ensemble=\"E1C5\",plan=\"on_air.plan\"} 0\n",
            "dab_fits{ensemble=\"E1C5\",plan=\"on_air.plan\"} 1\n",
        ):
            self.assertIn(line, self.metrics())
        self.assertTrue((self.root / "var/lib/dab/plan.log.1").exists())
        bridge.send_signal(signal.SIGTERM)
        self.assertEqual(bridge.wait(30), 0, self.journal())

    def metrics(self):
        """What Prometheus gets; nothing where there is no bridge yet."""
        try:
            return asked(self.port, "GET", "/metrics")[2].decode()
        except OSError:
            return ""

    def journal(self):
        """The messages of the bridge."""
        return pathlib.Path(self.folder, "journal").read_text(errors="replace")


if __name__ == "__main__":
    units.main()
