#!/usr/bin/env python3
"""`dab-monitor`: what comes of the lines of `dabplan check`, and of lines of others. The last line is 'N passed, M
failed'."""
import json
import os
import re
import shlex
import shutil
import subprocess
import sys
import tempfile
import time
import types
import unittest

import bridges
import units
from bridges import common

FOLDER = bridges.FOLDER
sys.dont_write_bytecode = True
sys.path.insert(0, str(FOLDER))

from dabplan_bridge import metrics, state, statefile  # noqa: E402


class Monitors(bridges.Case):
    """`dab-monitor` behind `dabplan check`."""

    def monitored(self, lines):
        """What it writes for these lines: the textfile without its time, and its messages."""
        done = subprocess.run([sys.executable, FOLDER / "dab-monitor", "out.prom"], cwd=self.folder, input=lines.encode(), capture_output=True,
                              check=False)
        self.assertEqual(done.returncode, 0, done.stderr)
        self.assertEqual([path.name for path in self.folder.iterdir() if path.name.startswith("out")], ["out.prom"])
        found = self.read("out.prom").decode().splitlines()
        self.assertLess(abs(float(found[1].split()[1]) - time.time()), 60)
        return [found[0], *found[2:]], done.stderr.decode()

    def test_faults_are_alarms_and_totals_are_kept(self):
        alive = '{"kind":"alive","frames":500,"skipped":0,"damaged":2,"swaps":1,"faults":1}\n'
        fault = '{"kind":"fault","frame":7,"count":7,"fault":"damaged","fibs":2}\n'
        self.assertEqual(self.monitored(fault + alive), (
            ["dab_up 0", "dab_frames 500", "dab_damaged 2", "dab_swaps 1", "dab_faults 1"], "ALARM " + fault))
        refused = '{"kind":"refused","cause":"no ensemble"}\n'
        self.assertEqual(self.monitored(refused)[1], "ALARM " + refused)
        self.assertIn("no object of JSON", self.monitored("{\n")[1])

    def test_it_is_up_while_lines_come(self):
        check = subprocess.Popen([self.program, "check", "-", "--json", "--every", "50"], stdin=subprocess.PIPE, stdout=subprocess.PIPE)
        with subprocess.Popen([sys.executable, FOLDER / "dab-monitor", "out.prom"], cwd=self.folder, stdin=check.stdout,
                              stderr=subprocess.DEVNULL) as job:
            check.stdin.write(self.plan(120))
            check.stdin.flush()
            self.assertTrue(bridges.until(lambda: (self.folder / "out.prom").exists() and b"dab_frames 100" in self.read("out.prom")))
            self.assertIn(b"dab_up 1\n", self.read("out.prom"))
            check.stdin.close()
            check.wait(10)
            check.stdout.close()
            self.assertEqual(job.wait(10), 0)
        self.assertIn(b"dab_up 0\n", self.read("out.prom"))
        self.assertIn(b"dab_frames 120\n", self.read("out.prom"))

    def test_a_monitor_outlives_the_bridge(self):
        """The line of its service, which reads what goes out as a modulator does."""
        text = (FOLDER / "systemd/dab-monitor.service").read_text(encoding="utf-8")
        line, port = re.search(r"ExecStart=/bin/sh -c '(.*)'", text)[1], bridges.free_port()
        bridge = f"{shlex.quote(sys.executable)} {shlex.quote(str(bridges.BRIDGE))} "
        program, monitor = shlex.quote(str(self.program)), shlex.quote(str(FOLDER / "dab-monitor"))
        for old, new in (("/usr/local/bin/dabplan-bridge ", bridge), ("/usr/local/bin/dabplan ", f"{program} "),
                         ("/usr/local/bin/dab-monitor", monitor), ("9202", str(port)), ("/var/lib/dab/", ""),
                         ("--every 250", "--every 10")):
            self.assertIn(old, line)
            line = line.replace(old, new)
        with open(self.folder / "alarms", "wb") as alarms:
            job = subprocess.Popen(["sh", "-c", line], cwd=self.folder, stdout=subprocess.DEVNULL, stderr=alarms,
                                   start_new_session=True)
        self.addCleanup(self.ended, job)
        count = 0
        for _ in range(2):
            # What the first bridge sent last may be checked behind its end.
            wanted = count + 40
            feed = self.started(f"run moves.code --in - --out tcp://:{port} --log l --tolerance 59")
            end = time.monotonic() + bridges.PATIENCE
            while self.frames_checked() < wanted and time.monotonic() < end:
                feed.give(self.stream("edi", 4, count % 5000))
                count += 4
                time.sleep(0.02)
            self.assertGreaterEqual(self.frames_checked(), wanted)
            self.assertIn(b"dab_up 1\n", self.read("dab.prom"))
            status, _, messages = feed.end()
            self.assertEqual(status, 0, messages)
            # A swap falls into these.
            count += 60
        self.ended(job)
        self.assertIn(b'ALARM {"kind":"fault"', self.read("alarms"))

    @staticmethod
    def ended(job):
        """Ends the processes of a monitor that still run."""
        if job.poll() is None:
            os.killpg(job.pid, 15)
            job.wait(bridges.PATIENCE)

    def frames_checked(self):
        """The frames that the monitor has counted."""
        text = self.read("dab.prom") if (self.folder / "dab.prom").exists() else b""
        found = re.search(rb"(?m)^dab_frames (\d+)$", text)
        return int(found[1]) if found else 0

    def test_a_file_that_cannot_be_written(self):
        (self.folder / "folder").mkdir()
        for name, why in (("x/y", "No such file or directory"), ("folder", "Is a directory")):
            done = subprocess.run([sys.executable, FOLDER / "dab-monitor", name], cwd=self.folder, input=b"", capture_output=True, check=False)
            self.assertEqual((done.returncode, done.stderr.decode()), (1, f"dab-monitor: cannot write {name}: {why}\n"))
        self.assertEqual([path.name for path in self.folder.iterdir() if path.name.startswith("folder")], ["folder"])

    def test_lines_that_are_no_objects_of_check_are_one_line_each(self):
        deep = "[" * 100_000
        for line, shown in (("[]", "[]"), ("1", "1"), ("null", "null"), ("true", "true"), ('"kind"', '"kind"'), (deep, deep[:60]), ("{", "{"),
                            ("\u009b31m", "\\u009b31m"), ("\u202eevil", "\\u202eevil")):
            found, messages = self.monitored(line + "\n")
            # A line of more than 65,536 bytes is taken in parts.
            said = [f"dab-monitor: no object of JSON: {shown}"] * (1 + len(line) // 65_536)
            self.assertEqual(([text[:92] for text in messages.splitlines()], found[1]), ([text[:92] for text in said], "dab_frames 0"), line[:60])

    def test_totals_are_whole_numbers(self):
        for value in ("true", "-1", "1.5", '"7"', "null", "[]", "1" + "0" * 30):
            line = f'{{"kind":"alive","frames":{value},"damaged":3}}\n'
            self.assertEqual(self.monitored(line)[0], ["dab_up 0", "dab_frames 0", "dab_damaged 3", "dab_swaps 0", "dab_faults 0"], value)
        self.assertEqual(self.monitored('{"frames":7}\n{"kind":[],"frames":7}\n{"kind":"fault","frames":7}\n')[0][1], "dab_frames 0")

    def test_what_a_terminal_would_obey_is_shown_by_its_number(self):
        line = '{"kind":"refused","cause":"cannot read \u009b31m\u202e\u2066x"}\n'
        self.assertEqual(self.monitored(line)[1],
                         'ALARM {"kind":"refused","cause":"cannot read \\u009b31m\\u202e\\u2066x"}\n')
        done = subprocess.run([sys.executable, FOLDER / "dab-monitor", "out.prom"], cwd=self.folder, input=b'{"kind":"fault","x":"\xff"}\n\xff\n',
                              capture_output=True, check=False)
        self.assertEqual((done.returncode, done.stderr.count(b"\n")), (0, 2), done.stderr)
        self.assertNotIn(b"Traceback", done.stderr)

    def test_standard_streams_that_are_closed(self):
        words = f"'{sys.executable}' '{FOLDER / 'dab-monitor'}' out.prom"
        for line, status in ((f"exec {words} <&-", 1), (f"echo '{{' | {words} 2>&-", 0), (f"echo '{{' | {words} 2> /dev/full", 0),
                             (f"exec {words} < .", 1)):
            done = subprocess.run(["sh", "-c", line], cwd=self.folder, capture_output=True, check=False)
            self.assertEqual(done.returncode, status, f"{line}: {done.stderr}")
            self.assertNotIn(b"Traceback", done.stderr)

    def test_what_the_bridge_says_of_itself_follows(self):
        stc = (bridges.STC[0], bridges.STC[2])
        self.write("a", b"".join(self.stream("edi", 20)) + b"".join(bridges.made("edi", self.own(20, 20), 20, stc=stc)))
        self.assertEqual(self.bridge("run moves.code --in a --out b --state state.prom")[0], 0)
        words = [sys.executable, FOLDER / "dab-monitor", "out.prom", "state.prom"]
        self.assertEqual(subprocess.run(words, cwd=self.folder, stdin=subprocess.DEVNULL, check=False).returncode, 0)
        text = self.read("out.prom").decode()
        for line in ("dab_up 0", "dab_fits 0", 'dab_alarm{alarm="unfit"} 1', 'dab_frames_total{where="out"} 40'):
            self.assertIn(line + "\n", text)
        (self.folder / "state.prom").unlink()
        self.assertEqual(subprocess.run(words, cwd=self.folder, stdin=subprocess.DEVNULL, check=False).returncode, 0)
        self.assertNotIn("dab_fits", self.read("out.prom").decode())


class Documented(unittest.TestCase):
    """What the guide says of metrics and alarms."""

    GUIDE = common.TOP / "docs/guide/MONITORING.md"

    def names(self):
        """The names of all metrics of the control port, and of all of a textfile."""
        known = state.State(fits=True, last=0.0, swap_in=3, inputs=[state.InputState("day")], checked=state.Checked(),
                            streams={1: state.StreamState("day")})
        plan = types.SimpleNamespace(eid=0xE1C5, path="day.plan")
        texts = metrics.text_of_metrics(plan, known, 3, [False] * 16, 1.0), "\n".join(statefile.lines_of(known, 1.0))
        return [set(re.findall(r"(?m)^(dab_\w+)", text)) for text in texts]

    def test_each_metric_is_there_and_is_explained(self):
        port, file = self.names()
        text = self.GUIDE.read_text(encoding="utf-8")
        table = set(re.findall(r"`(dab_\w+)", text.split("## Metrics")[1].split("## ")[0]))
        self.assertEqual(table ^ port, {"dab_alarm", "dab_fits"})
        named = set(re.findall(r"\bdab_\w+", text.split("## Other streams")[0]))
        self.assertEqual(named - port, {"dab_bridge_timestamp_seconds", "dab_checked_faults_total", "dab_swap_frames"})
        self.assertEqual(port - named, set())
        self.assertLessEqual(named - port, file)
        self.assertEqual(port - file, {"dab_contact", "dab_swap_seconds", "dab_up", "dab_faults_total",
                                       "dab_damaged_total", "dab_swaps_total"})

    def test_each_value_of_a_label_is_one(self):
        text = self.GUIDE.read_text(encoding="utf-8")
        others, = re.findall(r"`dab_alarm` has `(\w+)` and `(\w+)`", text)
        alarms = set(re.findall(r'dab_alarm\{alarm="(\w+)"', text)) | set(others)
        self.assertEqual(alarms, {each.value for each in state.Alarm})
        self.assertLessEqual(set(re.findall(r'dab_state\{state="(\w+)"', text)), {each.value for each in state.Phase})

    @unittest.skipUnless(shutil.which("promtool"), "the expressions of alarms are not parsed: no promtool")
    def test_the_expressions_of_alarms_are_some(self):
        text = self.GUIDE.read_text(encoding="utf-8")
        rows = re.findall(r"(?m)^\| `(.*?)` \|", text.split("## Alarms")[1].split("## ")[0])
        self.assertGreater(len(rows), 10)
        rules = [{"alert": f"Row{number}", "expr": row} for number, row in enumerate(rows)]
        with tempfile.NamedTemporaryFile("w", suffix=".yml") as file:
            # JSON is YAML too.
            json.dump({"groups": [{"name": "dab", "rules": rules}]}, file)
            file.flush()
            words = ["promtool", "check", "rules", file.name]
            done = subprocess.run(words, capture_output=True, text=True, check=False)
        self.assertEqual(done.returncode, 0, done.stdout + done.stderr)
        self.assertIn(f"SUCCESS: {len(rows)} rules found", done.stdout)


if __name__ == "__main__":
    units.main()
