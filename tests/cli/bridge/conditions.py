#!/usr/bin/env python3
"""Contacts under conditions, by the calendar, and by `dab-contact`. The last line is 'N passed, M failed'."""
import datetime
import json
import re
import subprocess
import sys
import threading
import time
import urllib.request

import bridges
import units

sys.dont_write_bytecode = True
sys.path.insert(0, str(bridges.FOLDER))

from dabplan_bridge import weekdays  # noqa: E402

# Frames of a day.
DAY = 3_600_000
# What a plan gets of events, under conditions.
EVENTS = (
    # Closed once it has been closed for so many frames.
    ("1:close=125", "frames 10 contact 1 closed frames 500", "frames 135 contact 1 closed frames 375"),
    ("1:close=125", "frames 10 contact 1 closed frames 124 contact 1 open frames 500", "frames 634"),
    ("1:close=125", "contact 1 closed frames 126 contact 1 open frames 9",
     "frames 125 contact 1 closed frames 1 contact 1 open frames 9"),
    # A contact that bounces: the time begins with the last closing.
    ("1:close=125", "contact 1 closed frames 100 contact 1 open frames 1 contact 1 closed frames 200",
     "frames 226 contact 1 closed frames 75"),
    # Open once it has been open for so many.
    ("1:open=100", "contact 1 closed frames 7 contact 1 open frames 200",
     "contact 1 closed frames 107 contact 1 open frames 100"),
    ("1:open=100", "contact 1 closed frames 7 contact 1 open frames 99 contact 1 closed frames 200",
     "contact 1 closed frames 306"),
    # Closed for so many at most, until it was opened.
    ("1:most=50", "contact 1 closed frames 500", "contact 1 closed frames 50 contact 1 open frames 450"),
    ("1:most=50", "contact 1 closed frames 60 contact 1 open frames 1 contact 1 closed frames 20",
     "contact 1 closed frames 50 contact 1 open frames 11 contact 1 closed frames 20"),
    # It was not open for long enough to count as opened.
    ("1:open=10,most=50", "contact 1 closed frames 60 contact 1 open frames 9 contact 1 closed frames 90",
     "contact 1 closed frames 50 contact 1 open frames 109"),
    ("1:open=10,most=50", "contact 1 closed frames 60 contact 1 open frames 10 contact 1 closed frames 20",
     "contact 1 closed frames 50 contact 1 open frames 20 contact 1 closed frames 20"),
    # The time of the most begins where the plan has it closed, and goes on over openings that are too short.
    ("1:close=20,open=10,most=50", "contact 1 closed frames 40 contact 1 open frames 5 contact 1 closed frames 60",
     "frames 20 contact 1 closed frames 50 contact 1 open frames 35"),
    # Three hours, over steps of 3,600,000 frames.
    ("2:most=450000", "contact 2 closed frames 3600000",
     "contact 2 closed frames 450000 contact 2 open frames 3150000"),
    # Others pass, and two conditions go side by side.
    ("1:close=3 4:close=5", "contact 3 closed contact 1 closed contact 4 closed frames 9",
     "contact 3 closed frames 3 contact 1 closed frames 2 contact 4 closed frames 4"),
    # Nothing is asked: nothing changes.
    ("1:close=0", "contact 1 closed frames 5 contact 1 open frames 5",
     "contact 1 closed frames 5 contact 1 open frames 5"),
    ("1:close=5", "frames 3 # a comment\n\ncontact 2 open frames 4", "frames 3 contact 2 open frames 4"),
)


def lines_of(steps):
    """Steps, one a line."""
    return re.sub(r" (?=contact|frames)", "\n", steps) + "\n"


class Conditions(bridges.Case):
    """What a plan gets."""

    def conditioned(self, conditions, events):
        """The events that come of events, by the command."""
        return self.bridge(f"condition {conditions}", lines_of(events).encode())

    def test_events(self):
        for conditions, events, wanted in EVENTS:
            status, out, messages = self.conditioned(conditions, events)
            self.assertEqual((status, out.decode(), messages), (0, lines_of(wanted), ""), f"{conditions}: {events}")

    def test_what_is_no_event_or_no_condition(self):
        self.assertEqual(self.bridge("condition 1:close=5", b"frames 3\nfrogs 3\n"),
                         (1, b"", "dabplan-bridge: line 2: no events\n"))
        for text in ("1", "1:", "16:close=5", "1:close", "1:close=-5", "1:close=5,close=6", "1:shut=5", "1:most=0",
                     "x:close=5", "1:close=1234567890"):
            status, out, messages = self.bridge(f"condition {text}", b"")
            self.assertEqual((status, out), (2, b""), text)
            self.assertIn(f"expected CONTACT:close=FRAMES,open=FRAMES,most=FRAMES: {text}", messages)
        self.assertEqual(self.bridge("condition 1:close=5 1:open=5", b"")[0], 2)

    def test_a_plan_on_air_gets_what_the_command_says(self):
        events = "frames 8\ncontact 3 closed\nframes 40\ncontact 3 open\nframes 4\ncontact 3 closed\nframes 148\n"
        conditions = "3:close=30,open=20,most=60"
        status, wanted, _ = self.conditioned(conditions, events)
        self.assertEqual((status, wanted.decode()),
                         (0, "frames 38\ncontact 3 closed\nframes 60\ncontact 3 open\nframes 102\n"))
        feed = self.started(f"run contacts.code --in - --out - --log l --contacts c --condition {conditions}")
        frames = self.stream("edi", 200)
        found = feed.through(frames[:8])
        for first, last, line in ((8, 48, "contact 3 closed\n"), (48, 52, "contact 3 open\n"),
                                  (52, 200, "contact 3 closed\n")):
            self.write("c", line)
            found += feed.through(frames[first:last])
        self.assertEqual(feed.end()[0], 0)
        self.filled("edi", b"".join(found), self.played(bridges.CONTACTS, wanted.decode()))
        log = [line for line in self.read("l").decode().splitlines() if line.startswith(("contact", "# given"))]
        self.assertEqual(log, ["# given 3 closed", "contact 3 closed", "# given 3 open", "# given 3 closed",
                               "contact 3 open", "# given 3 over"])

    def test_frames_that_are_missed_count(self):
        """The multiplexer loses 40 frames: the plan makes them unsent, and has its contact closed within them."""
        feed = self.started("run contacts.code --in - --out - --log l --contacts c --condition 3:close=30")
        frames = self.stream("edi", 120)
        found = feed.through(frames[:8])
        self.write("c", "contact 3 closed\n")
        found += feed.through(frames[8:12] + frames[52:])
        self.assertEqual(feed.end()[0], 0)
        wanted = self.played(bridges.CONTACTS, "frames 38 contact 3 closed frames 82")
        self.filled("edi", b"".join(found[12:]), wanted[96 * 52:], 52)

    def test_after_a_restart_its_time_counts_anew(self):
        frames = self.stream("edi", 300)
        feed = self.started("run contacts.code --in - --out - --log l --contacts c --condition 3:close=30")
        feed.through(frames[:8])
        self.write("c", "contact 3 closed\n")
        feed.through(frames[8:20])
        self.assertEqual(feed.end()[0], 0)
        self.assertEqual(self.bridge("compact l")[0], 0)
        self.assertIn(b"\n# given 3 closed\n", self.read("l"))
        feed = self.started("run contacts.code --in - --out - --log l --tolerance 30 --contacts c "
                            "--condition 3:close=30")
        found = feed.through(frames[20:120])
        self.assertEqual(feed.end()[0], 0)
        wanted = self.played(bridges.CONTACTS, "frames 50 contact 3 closed frames 70")
        self.filled("edi", b"".join(found), wanted[96 * 20:], 20)


class Weekdays(bridges.Case):
    """The calendar."""

    def test_dates(self):
        """30 November 2026 is a Monday. The plan's day is that of its own midnight that is nearest to the clock's."""
        noon = datetime.datetime(2026, 11, 30, 12, tzinfo=datetime.timezone.utc).timestamp()
        half = DAY // 2
        for start, frame, wall, wanted in (
                ("time 12:00:00", 0, noon, "2026-11-30"), ("time -", 0, noon, "2026-11-30"),
                ("day 0", 0, noon, "2026-11-30"),
                # A plan that has been on its way for half a day, or for two and a half.
                ("time -", half, noon, "2026-11-30"), ("time -", half + 2 * DAY, noon, "2026-11-28"),
                ("time 12:00:00", DAY, noon, "2026-11-29"),
                # A second before midnight, where the plan is behind it, and the other way round.
                ("time 00:00:01", 0, noon + 12 * 3600 - 1, "2026-12-01"),
                ("time 23:59:59", 0, noon + 12 * 3600 + 1, "2026-11-30"),
                ("time 23:59:59", 0, noon + 12 * 3600 - 1, "2026-11-30"),
                ("time 00:00:01", 0, noon - 12 * 3600 + 1, "2026-11-30")):
            self.assertEqual(str(weekdays.first_date(start, frame, wall, False)), wanted, f"{start} {frame}")

    def test_contacts(self):
        christmas = frozenset([datetime.date(2026, 12, 25)])
        found = weekdays.Calendar(8, christmas)
        found.begin("time 23:59:59", datetime.date(2026, 11, 30))
        # A second is 41 frames and two thirds: the first frame of the next day is the 41st behind that of 23:59:59.
        for frame, closed in ((0, [8]), (40, [8]), (41, [9]), (41 + DAY - 1, [9]), (41 + DAY, [10]),
                              (41 + 5 * DAY, [14]), (41 + 6 * DAY, [8]),
                              # The 25th day after 30 November is 25 December, a Friday.
                              (40 + 25 * DAY, [12, 15]), (41 + 25 * DAY, [13])):
            self.assertEqual([each.contact for each in found.at(frame) if each.is_closed], closed, frame)
            self.assertEqual(len(found.at(frame)), 8)
        self.assertEqual([found.next(0), found.next(40), found.next(41)], [41, 41, 41 + DAY])

    def test_a_plan_on_air(self):
        """From a second before its midnight on."""
        today = datetime.datetime.now(datetime.timezone.utc).date()
        self.write("days", f"# feasts\n{today + datetime.timedelta(days=1)} # tomorrow\n\n2020-02-29\n")
        feed = self.started("run moves.code --in - --out - --log l --time 23:59:59 --weekdays 0 --holidays days "
                            "--contacts c")
        found = feed.through(self.stream("edi", 60))
        self.write("c", "contact 3 closed contact 9 closed\n")
        found += feed.through(self.stream("edi", 20, 60))
        status, _, messages = feed.end()
        self.assertEqual(status, 0, messages)
        self.filled("edi", b"".join(found), self.plan(80))
        # Where the stream paused, frames are two lines.
        lines = ["frames " + str(sum(map(int, re.findall("[0-9]+", line)))) if line.startswith("frames") else line
                 for line in re.findall("(?:frames [0-9]+;)+|[^;]+", ";".join(
                     re.sub(" #.*", "", line) for line in self.read("l").decode().splitlines()[1:]) + ";")]
        day = today.weekday()
        after = sorted([f"contact {day} open", f"contact {(day + 1) % 7} closed"],
                       key=lambda line: int(line.split()[1]))
        self.assertEqual(lines, [f"# date {today}", f"contact {day} closed", "frames 41", *after, "contact 15 closed",
                                 "frames 19",
                                 "contact 9 closed", "frames 20"])
        self.assertIn("contacts: contact 3 is the calendar's\n", messages)
        # The date is in the log, whatever the clock says later.
        log = self.read("l").decode().replace(f"# date {today}", f"# date {today + datetime.timedelta(days=3)}")
        self.write("l", log)
        self.write("a", b"".join(self.stream("edi", 20, 80)))
        self.assertEqual(self.bridge("run moves.code --in a --out b --log l --weekdays 0 --holidays days")[0], 0)
        self.assertIn(f"\ncontact {(day + 4) % 7} closed\n", self.read("l").decode())

    def test_options_that_are_none(self):
        self.write("days", "2026-12-25\n2026-13-01\n")
        for options, said in (("--weekdays 10", "expected a contact, 0 to 9: 10"),
                              ("--holidays none", "--holidays none: No such file or directory"),
                              ("--holidays days", "--holidays days: line 2: no date, as 2026-12-25"),
                              ("--zone local", "--zone is an option of"),
                              ("--weekdays 9 --holidays days",
                               "--weekdays 9 has contact 15, which is that of --holidays"),
                              ("--weekdays 8 --condition 9:close=5", "--condition: contact 9 is one of the calendar"),
                              ("--condition 9:close=5 --condition 9:open=5", "--condition: contact 9 has two")):
            status, _, messages = self.bridge(f"run moves.code --in - --out - {options}")
            self.assertEqual(status, 2, messages)
            self.assertIn(said, messages)


class Program(bridges.Case):
    """`dab-contact`."""

    def contact(self, line):
        """Its status and its messages."""
        done = subprocess.run([sys.executable, bridges.FOLDER / "dab-contact", *line.split()], cwd=self.folder,
                              capture_output=True, text=True,
                              check=False, timeout=60)
        self.assertNotIn("Traceback", done.stderr)
        return done.returncode, done.stderr

    def fed(self, options, words):
        """What it says while frames come, and the log."""
        port = bridges.free_port()
        feed = self.started(f"run contacts.code --in - --out - --log l --control {port} {options}")
        self.addCleanup(feed.job.kill)
        with bridges.connected(port):
            pass
        answers = []
        asking = threading.Thread(target=lambda: answers.append(self.contact(f"{words} --control {port}")))
        asking.start()
        for frame in self.stream("edi", 800):
            feed.through([frame])
            time.sleep(0.005)
            if not asking.is_alive():
                break
        asking.join(30)
        with urllib.request.urlopen(f"http://127.0.0.1:{port}/status.json", timeout=20) as found:
            json.loads(found.read())
        feed.end()
        return answers[0]

    def test_it_ends_once_the_contact_acts(self):
        self.assertEqual(self.fed("", "3 closed"), (0, ""))
        self.assertIn(b"\ncontact 3 closed\n", self.read("l"))

    def test_a_contact_of_the_calendar(self):
        self.assertEqual(self.fed("--weekdays 3", "3 closed"),
                         (1, "dab-contact: contact 3 closed: contact 3 is the calendar's\n"))

    def test_a_token(self):
        self.write("token", "s3cret\n")
        self.assertEqual(self.fed("--token-file token", "3 closed --token-file token"), (0, ""))
        (self.folder / "l").unlink()
        self.assertEqual(self.fed("--token-file token", "3 closed"),
                         (1, "dab-contact: contact 3 closed: a token is needed: Authorization: Bearer TOKEN\n"))

    def test_where_no_bridge_is(self):
        self.assertEqual(self.contact(f"3 closed --control {bridges.free_port()}"),
                         (1, "dab-contact: contact 3 closed: no answer: Connection refused\n"))
        self.assertEqual(self.contact("3 closed --token-file none"),
                         (1, "dab-contact: contact 3 closed: cannot read none: No such file or directory\n"))
        for words in ("16 closed", "03 closed", "3 shut", "3", "3 closed --control 0", ""):
            self.assertEqual(self.contact(words)[0], 2, words)


if __name__ == "__main__":
    units.main()
