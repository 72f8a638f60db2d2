#!/usr/bin/env python3
"""`dabplan-bridge run --compose`: a script, and a plan that is replaced by another one: the layout and the streams are
those of the plan that is on air, in each frame. The last line is 'N passed, M failed'."""
import json
import signal
import threading
import time

import bridges
import composed
import reloaded
import units
from composed import DAY, DAY_SIDE, DAY_SUBS, HEAD, NIGHT, NIGHT_SIDE, SERVICES, TURNS
from ports import asked

# The day for ever, and the night for ever, as a schedule and as steps.
BY_DAY = HEAD + DAY_SUBS + SERVICES + "begin\n"
AT_NIGHT = (
    HEAD
    + DAY_SUBS.replace("3-A 128", "3-A 64").replace("at 96", "at 48")
    + "sub 5 at 96 eep 3-A 64\n"
    + SERVICES
    + "service C225\naudio 63 sub 5 in C225\n"
)
# No input carries this one.
ELSEWHERE = AT_NIGHT.replace("sub 5 at 96", "sub 6 at 96").replace("63 sub 5", "63 sub 6")


class Composed(composed.Turns, reloaded.Reloaded):
    """A plan over two inputs."""

    def setUp(self):
        super().setUp()
        self.port = bridges.free_port()

    def streams(self, form):
        """Frames of both inputs, one pair after the other."""
        for first in range(0, 5000, 250):
            yield from zip(self.give("day", DAY, 250, first, form), self.give("night", NIGHT, 250, first, form))

    def taken(self, feed, form):
        """The next frame that comes."""
        return composed.next_packet(feed) if form == "edi" else feed.get(bridges.ETI)

    def over(self, form, script):
        """A bridge over both, with a script, and what came of its first frames; and the frames behind them."""
        self.write("p.plan", script)
        day, night = self.servers = [composed.Server(), composed.Server()]
        feed = self.started(
            f"run p.plan --compose --in day={day.address} --in night={night.address} --out - --log l"
            f" --control {self.port}"
        )
        self.addCleanup(feed.job.kill)
        day.accept()
        night.accept()
        pairs = self.streams(form)
        found = []
        for _ in range(8):
            self.put(next(pairs))
        for _ in range(8):
            found.append(self.taken(feed, form))
        return feed, pairs, found

    def put(self, pair):
        """Gives a frame to each of both inputs."""
        for server, frame in zip(self.servers, pair):
            server.give([frame])

    def asked_for(self, feed, form, pairs, found):
        """The answer of an order to replace the plan, while frames come."""
        answers = []
        asking = threading.Thread(target=lambda: answers.append(asked(self.port, "POST", "/reload", b"")))
        asking.start()
        while asking.is_alive() and len(found) < 4000:
            self.put(next(pairs))
            found.append(self.taken(feed, form))
            time.sleep(0.004)
        asking.join(60)
        return answers[0][0], json.loads(answers[0][2])

    def test_the_layout_is_that_of_the_plan_that_is_on_air(self):
        plans = ["schedule\n"] + (["begin\n"] if self.has_steps() else [])
        for form, end in ((form, end) for form in ("edi", "eti") for end in plans):
            with self.subTest(f"{form}, {end}"):
                self.port = bridges.free_port()
                feed, pairs, found = self.over(form, BY_DAY)
                self.write("p.plan", AT_NIGHT + end)
                status, answer = self.asked_for(feed, form, pairs, found)
                self.assertEqual(status, 200, answer)
                at = answer["count"]
                while len(found) < at + 80:
                    self.put(next(pairs))
                    found.append(self.taken(feed, form))
                metrics = asked(self.port, "GET", "/metrics")[2].decode()
                own = 'ensemble="E1C5",plan="p.plan"}'
                for line in (
                    f'dab_input_connected{{input="night",{own} 1',
                    f'dab_input_missing_total{{input="day",{own} 0',
                    f'dab_stream_source{{sub="5",input="night",{own} 1',
                    f'dab_stream_silent_total{{sub="2",{own} 0',
                ):
                    self.assertIn(f"\n{line}\n", metrics)
                ended, _, messages = feed.end(signal.SIGTERM)
                self.assertEqual(ended, 0, messages)
                fic = self.plan(at, 0, BY_DAY) + self.played_from(
                    AT_NIGHT + end, BY_DAY, f"frames {len(found) - at}", f"--count {at} --day {at}"
                )
                sides = self.turns(fic, DAY_SIDE, NIGHT_SIDE)
                self.assertEqual((sides.count(NIGHT_SIDE) > 40, sides[at]), (True, DAY_SIDE))
                self.same(b"".join(self.made(fic, sides, 0, form)), b"".join(found), form)
                self.tearDown()
                self.setUp()

    def test_one_that_no_input_carries(self):
        feed, pairs, found = self.over("edi", BY_DAY)
        self.write("p.plan", ELSEWHERE + "schedule\n")
        status, answer = self.asked_for(feed, "edi", pairs, found)
        self.assertEqual(
            (status, answer),
            (409, {"error": "p.plan does not fit: sub 6: at 96 size 48 eep 3-A in the plan, carried by no input"}),
        )
        self.put(next(pairs))
        found.append(self.taken(feed, "edi"))
        self.same(
            b"".join(self.made(self.plan(len(found), 0, BY_DAY), [DAY_SIDE] * len(found))),
            b"".join(found),
            "the day goes on",
        )
        self.assertEqual(feed.end(signal.SIGTERM)[0], 0)

    def test_a_script(self):
        """As its code, and where it is resumed in the night."""
        self.write("p.plan", TURNS)
        day, night = self.give("day", DAY, 160), self.give("night", NIGHT, 160)
        found = b""
        for first, end in ((0, 100), (100, 160)):
            self.write("day", b"".join(day[first:end]))
            self.write("night", b"".join(night[first:end]))
            status, _, messages = self.bridge("run p.plan --compose --in day=day --in night=night --out out --log l")
            self.assertEqual(status, 0, messages)
            found += self.read("out")
        wanted = composed.packets_of(b"".join(self.wanted(160)))
        packets = composed.packets_of(found)
        self.assertEqual([composed.count_of(packet) for packet in packets], list(range(160)))
        for one, other in zip(wanted, packets):
            # The sequence numbers begin again where the bridge does.
            self.assertEqual(
                (composed.streams_of(one), dict(composed.values(one))[b"deti"]),
                (composed.streams_of(other), dict(composed.values(other))[b"deti"]),
            )


if __name__ == "__main__":
    units.main()
