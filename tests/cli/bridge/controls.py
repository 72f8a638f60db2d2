#!/usr/bin/env python3
"""The control port of `dabplan-bridge run`: what it shows. The last line is 'N passed, M failed'."""
import json
import os
import pathlib
import statistics
import time
import urllib.request

import bridges
import units
from ports import Controlled, asked

# FIG 1 of the ensemble E1C5 'Gate' and of service C221 'Oné', 16 bytes each in the EBU Latin set, of which 82 is é, and
# their flags.
LABELS = bridges.fib("35 00 E1C5" + b"Gate            ".hex() + "F000")
SERVICE = bridges.fib("35 01 C221" + b"On\x82             ".hex() + "E000")
SUBS = {1: {"id": 1, "start": 0, "size": 24, "protection": "eep 3-A", "kbits": 32},
        2: {"id": 2, "start": 24, "size": 24, "protection": "eep 3-A", "kbits": 32}}


class Shown(Controlled):
    """What can be read."""

    def test_a_plan_that_waits(self):
        feed = self.begun()
        found = self.status()
        for name, value in (("state", "waiting"), ("mode", 1), ("frame", None), ("count", None),
                            ("configuration", None), ("next", None),
                            ("swap", None), ("fits", None), ("alarms", []), ("check", None),
                            ("contacts", ["open"] * 16)):
            self.assertEqual(found[name], value, name)
        self.assertEqual((found["ensemble"]["eid"], found["plan"]["name"]), ("E1C5", "contacts.code"))
        self.assertRegex(found["time"], r"^\d{4}-\d\d-\d\dT\d\d:\d\d:\d\d\.\d{3}Z$")
        self.assertEqual(feed.end()[0], 1)

    def test_what_is_on_air_and_what_is_announced(self):
        """The plan moves its service to sub-channel 2 at its frame 44, and announces that 24 frames before."""
        feed = self.begun("moves", "--time 21:59:50")
        own = self.own(100, 4960)
        frames = bridges.made("edi", own, 4960)
        feed.through(frames[:20])
        found = self.until_shown(frame=19)
        service = {"sid": "C221", "label": "", "components": [{"audio": 63, "sub": 1, "primary": True}]}
        self.assertEqual(found["configuration"], {"subs": [SUBS[1]], "services": [service]})
        self.assertEqual((found["count"], found["state"], found["next"], found["swap"], found["fits"], found["swaps"]),
                         (4979, "following", None, None, True, 0))
        # 21:59:50 and 19 frames of 24 ms.
        self.assertEqual(found["day_time"], "21:59:50")
        feed.through(frames[20:34])
        found = self.until_shown(frame=33)
        self.assertEqual(found["configuration"]["subs"], [SUBS[1]])
        # The swap is in frame 44, of count 5004 modulo 5000: ten frames after the last one.
        self.assertEqual(found["swap"], {"in_frames": 10, "count": 4})
        self.assertEqual(found["next"]["subs"], [SUBS[2]])
        self.assertEqual(found["next"]["services"][0]["components"], [{"audio": 63, "sub": 2, "primary": True}])
        # Two frames behind the swap too: what was announced is what receivers have.
        feed.through(frames[34:46])
        found = self.until_shown(frame=45)
        self.assertEqual((found["configuration"]["subs"], found["next"], found["swaps"]), ([SUBS[2]], None, 1))
        feed.through(frames[46:56])
        found = self.until_shown(frame=55)
        self.assertEqual((found["configuration"]["subs"], found["next"], found["swap"], found["swaps"]),
                         ([SUBS[2]], None, None, 1))
        self.assertEqual((found["inputs"][0]["name"], found["outputs"]), ("-", [{"name": "-", "clients": 0}]))
        self.assertEqual(found["frames"], {"in": 56, "out": 56, "held": 0, "unfilled": 0})
        self.assertEqual(feed.end()[0], 0)

    def test_labels_of_the_multiplexer(self):
        feed = self.begun("moves")
        own = bridges.fics(self.own(40))
        frames = [bridges.edi_packet(number,
                                     fic[:32] + (LABELS,
                                                 SERVICE)[number % 2] + bridges.EMPTY_FIB if number % 4 else fic)
                  for number, fic in enumerate(own)]
        feed.through(frames)
        found = self.until_shown(frame=39)
        self.assertEqual((found["ensemble"]["label"], found["configuration"]["services"][0]["label"]), ("Gate", "Oné"))
        self.assertEqual(feed.end()[0], 0)

    def test_an_alarm(self):
        stc = (bridges.STC[0], (2, 28, 0x22, 12), bridges.STC[2])
        feed = self.begun("moves")
        feed.through(self.stream("edi", 8) + bridges.made("edi", self.own(8, 8), 8, stc=stc))
        found = self.until_shown(frame=15)
        self.assertEqual((found["fits"], [each["alarm"] for each in found["alarms"]]), (False, ["unfit"]))
        self.assertIn("sub 2: at 24 size 24 eep 3-A in the plan, at 28", found["alarms"][0]["text"])
        text = asked(self.port, "GET", "/metrics")[2].decode()
        self.assertIn('dab_fits{ensemble="E1C5",plan="moves.code"} 0\n', text)
        self.assertIn('dab_alarm{alarm="unfit",ensemble="E1C5",plan="moves.code"} 1\n', text)
        feed.end()

    def test_metrics(self):
        feed = self.begun("moves")
        feed.through(self.stream("edi", 34))
        self.until_shown(frame=33)
        status, head, body = asked(self.port, "GET", "/metrics")
        self.assertEqual((status, head["Content-Type"]), (200, "text/plain; version=0.0.4; charset=utf-8"))
        common = 'ensemble="E1C5",plan="moves.code"'
        for line in (f'dab_frames_total{{where="in",{common}}} 34', f'dab_frames_total{{where="out",{common}}} 34',
                     f'dab_frames_total{{where="held",{common}}} 0', f'dab_frames_total{{where="unfilled",{common}}} 0',
                     f"dab_steps_total{{{common}}} 0", f"dab_fits{{{common}}} 1",
                     f'dab_state{{state="following",{common}}} 1',
                     f'dab_state{{state="holding",{common}}} 0', f"dab_clients{{{common}}} 0",
                     f'dab_contact{{n="3",{common}}} 0',
                     # Ten frames of 24 ms.
                     f"dab_swap_seconds{{{common}}} 0.24", "# TYPE dab_frames_total counter",
                     "# TYPE dab_contact gauge"):
            self.assertIn(line + "\n", body.decode())
        self.assertRegex(body.decode(), r'(?m)^dab_input_age_seconds\{.*\} \d+(\.\d+)?$')
        for line in body.decode().splitlines():
            self.assertRegex(line,
                             r'^(# TYPE dab_\w+ (gauge|counter)|dab_\w+\{\w+="[^"]*"(,\w+="[^"]*")*\} \d+(\.\d+)?)$')
        feed.end()

    def test_the_page(self):
        """It may run what is in it, and talk to the port that it came from; no other page may have it in a frame."""
        self.begun()
        status, head, body = asked(self.port, "GET", "/")
        self.assertEqual((status, head["Content-Type"]), (200, "text/html; charset=utf-8"))
        self.assertEqual(body, (bridges.FOLDER / "dabplan_bridge/page.html").read_bytes())
        for rule in ("default-src 'none'", "connect-src 'self'", "frame-ancestors 'none'", "form-action 'none'"):
            self.assertIn(rule, head["Content-Security-Policy"])
        self.assertEqual((head["X-Frame-Options"], head["X-Content-Type-Options"], head["Cache-Control"]),
                         ("DENY", "nosniff", "no-store"))

    def test_events_come_each_second(self):
        feed = self.begun("moves")
        feed.through(self.stream("edi", 8))
        with urllib.request.urlopen(f"http://127.0.0.1:{self.port}/events", timeout=20) as events:
            self.assertEqual(events.headers["Content-Type"], "text/event-stream; charset=utf-8")
            moments = []
            while len(moments) < 6:
                line = events.readline()
                if line.startswith(b"data: "):
                    moments.append(time.monotonic())
                    self.assertEqual(json.loads(line[6:])["ensemble"]["eid"], "E1C5")
            self.assertLess(statistics.median(b - a for a, b in zip(moments, moments[1:])), 1.0)
            feed.end()


class Checked(Controlled):
    """`dabplan check` inside the bridge."""

    def test_its_totals_and_its_alarms(self):
        """A jump over a swap is a fault."""
        feed = self.begun("moves", "--check --state s")
        frames = self.stream("edi", 200)
        feed.through(frames[:40])
        # The swap at frame 44 is not on air: a receiver has to complain of that.
        feed.through(frames[60:160])
        found = self.until_shown(frame=159)
        self.assertTrue(bridges.until(lambda: self.status()["check"]["frames"] >= 100, 30), self.status()["check"])
        found = self.status()["check"]
        self.assertEqual((found["is_up"], found["damaged"]), (True, 0))
        self.assertGreaterEqual(found["faults"], 1)
        self.assertIn('"kind":"fault"', found["last"])
        text = asked(self.port, "GET", "/metrics")[2].decode()
        self.assertIn(f'dab_faults_total{{ensemble="E1C5",plan="moves.code"}} {found["faults"]}\n', text)
        self.assertIn('dab_up{ensemble="E1C5",plan="moves.code"} 1\n', text)
        status, _, messages = feed.end()
        self.assertEqual(status, 0, messages)
        self.assertIn('dabplan-bridge: ALARM {"kind":"fault"', messages)
        self.assertIn(b"dab_checked_frames_total ", self.read("s"))

    def test_what_goes_out_without_a_fault(self):
        """The totals are those of `dabplan check` over the same frames."""
        feed = self.begun("moves", "--check")
        found = b"".join(feed.through(self.stream("edi", 200)))
        self.until_shown(frame=199)
        self.assertTrue(bridges.until(lambda: self.status()["check"]["frames"] == 200, 30))
        self.assertEqual({name: self.status()["check"][name] for name in ("frames", "damaged", "swaps", "faults",
                                                                          "last")},
                         {"frames": 200, "damaged": 0, "swaps": 4, "faults": 0, "last": ""})
        self.assertRegex(self.checked(self.bridge("fic -", found)[1]), r"^frames 200 .* swaps 4 faults 0$")
        self.assertNotIn("ALARM", feed.end()[2])

    def test_it_is_started_again(self):
        feed = self.begun("moves", "--check")
        frames = self.stream("edi", 3000)
        feed.through(frames[:100])
        self.until_shown(frame=99)
        self.assertTrue(bridges.until(lambda: self.status()["check"]["frames"] == 100, 30))
        lines = {pid: pathlib.Path(f"/proc/{pid}/cmdline").read_bytes().split(b"\0") for pid in feed.children()}
        child = next(pid for pid, words in lines.items() if b"check" in words)
        os.kill(child, 9)
        self.until_check(False)
        at = 100
        while self.status()["check"]["is_up"] is False and at < 2900:
            feed.through(frames[at:at + 10])
            at += 10
            time.sleep(0.2)
        out = feed.through(frames[at:at + 100])
        self.filled("edi", b"".join(out), self.plan(at + 100)[96 * at:], at)
        self.assertTrue(bridges.until(lambda: self.status()["check"]["frames"] >= 200, 30), self.status()["check"])
        status, _, messages = feed.end()
        self.assertEqual(status, 0, messages)
        self.assertIn("'dabplan check' has ended: it is started again in 10 s\n", messages)

    def until_check(self, is_up):
        """Waits until the check runs, or does not."""
        self.assertTrue(bridges.until(lambda: self.status()["check"]["is_up"] is is_up, 30))


if __name__ == "__main__":
    units.main()
