#!/usr/bin/env python3
"""Which overlays of a schedule hold, as the control port says it: beside a second reading of conditions, and while a
bridge runs. The last line is 'N passed, M failed'."""
import random
import sys
import unittest

import bridges
import ports
import random_schedules
import reloaded
import schedules
import units

sys.path.insert(0, str(bridges.common.TOP / "bridge"))

from dabplan_bridge.overlays import holding, overlays_of  # noqa: E402

EARLY = """\
ensemble E1C5   # schedule overlay x while contact 1 closed { }
period 4 notice 40 budget 20
sub 1 at 0 eep 3-A 32
begin
"""


class Readings(unittest.TestCase):
    """The conditions of texts."""

    def test_random_schedules(self):
        """Each overlay holds where the second reading says so."""
        chance, held = random.Random(300401), 0
        for _schedule in range(200):
            around = chance.choice((0, 5, 43_200, 86_390))
            schedule = random_schedules.random_schedule(chance, around)
            overlays = overlays_of(schedule.text().encode())
            for _moment in range(20):
                day = (schedules.frame_of(around) + chance.randint(-2000, 2000)) % schedules.DAY
                contacts = {number for number in range(16) if chance.random() < 0.5}
                wanted = [each.name for each in schedule.overlays if each.holds(contacts, day)]
                self.assertEqual(holding(overlays, [number in contacts for number in range(16)], day), wanted)
                held += bool(wanted)
        self.assertGreater(held, 500)

    def test_over_midnight(self):
        """From ten in the evening to six: the first and the last frame of the day, and those at the ends."""
        overlays = overlays_of(b"schedule overlay night while time 22:00:00 to 06:00:00 { }")
        for day, names in ((0, ["night"]), (899_999, ["night"]), (900_000, []), (3_299_999, []), (3_300_000, ["night"]),
                           (3_599_999, ["night"])):
            self.assertEqual(holding(overlays, [False] * 16, day), names, day)

    def test_none(self):
        """A plan of steps has none, whatever its comments say; without a time of day nothing is known."""
        self.assertEqual(overlays_of(EARLY.encode()), ())
        self.assertIsNone(holding((), [False] * 16, 0))
        self.assertIsNone(holding(overlays_of(reloaded.SCHEDULE.encode()), [False] * 16, None))


class Shown(ports.Controlled):
    """What the port shows while a schedule plays."""

    def shown(self, options):
        """A bridge that plays the schedule from its script."""
        self.write("p.plan", reloaded.SCHEDULE)
        feed = self.started(f"run p.plan --in - --out - --control {self.port} {options}")
        self.addCleanup(feed.job.kill)
        with bridges.connected(self.port):
            pass
        return feed

    def overlays(self):
        """The overlays that are shown."""
        return self.status()["plan"]["overlays"]

    def test_contacts_and_times(self):
        """Noon comes in the 42nd frame; contact 4 is closed after it."""
        feed = self.shown("--time 11:59:59")
        frames = self.stream("edi", 150)
        feed.through(frames[:10])
        self.until_shown(frame=9)
        self.assertEqual(self.overlays(), [])
        feed.through(frames[10:60])
        self.until_shown(frame=59)
        self.assertEqual(self.overlays(), ["noon"])
        status, answer, _ = self.given(feed, frames[60:100], 4, b"closed")
        self.assertEqual(status, 200, answer)
        feed.through(frames[100:])
        self.assertTrue(bridges.until(lambda: self.overlays() == ["alone", "noon"]), self.overlays())
        self.assertEqual(feed.end()[0], 0)

    def test_steps_have_none(self):
        """A code file of steps."""
        feed = self.begun("contacts", "--time 11:59:59")
        feed.through(self.stream("edi", 10))
        self.until_shown(frame=9)
        self.assertIsNone(self.overlays())
        self.assertEqual(feed.end()[0], 0)


if __name__ == "__main__":
    units.main()
