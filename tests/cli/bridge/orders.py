#!/usr/bin/env python3
"""The control port of `dabplan-bridge run`: what it changes. The last line is 'N passed, M failed'."""
import base64
import json
import re
import threading
import time

import bridges
import units
from ports import Controlled, asked


class Changed(Controlled):
    """What can be changed."""

    def test_a_contact_acts_from_the_frame_that_is_answered(self):
        feed = self.begun(options="--log l")
        frames = self.stream("edi", 160, 4960)
        found = feed.through(frames[:10])
        status, answer, more = self.given(feed, frames[10:90], 3, b"closed")
        found += more
        self.assertEqual(status, 200)
        frame = answer["frame"]
        self.assertTrue(10 <= frame < 90, answer)
        self.assertEqual((answer["count"], answer["logged"]), ((4960 + frame) % 5000, True))
        wanted = self.played(bridges.CONTACTS, f"frames {frame} contact 3 closed frames {160 - frame}", "--count 4960")
        found += feed.through(frames[90:])
        self.filled("edi", b"".join(found), wanted, 0, 4960)
        self.assertEqual(self.until_shown(frame=159)["contacts"], ["open"] * 3 + ["closed"] + ["open"] * 12)
        self.assertIn(b"\ncontact 3 closed\n", self.read("l"))
        # Again it changes nothing, and is not logged.
        status, again, _ = self.given(feed, self.stream("edi", 20, 120), 3, b"closed\n")
        self.assertEqual((status, again["frame"] >= 160), (200, True))
        feed.end()
        self.assertEqual(self.read("l").count(b"contact 3 closed"), 1)

    def test_a_contact_survives_a_kill(self):
        """Once it is answered it is in the log: a kill right after loses nothing."""
        feed = self.begun(options="--log l")
        frames = self.stream("edi", 300)
        feed.through(frames[:10])
        _, answer, found = self.given(feed, frames[10:60], 3, b"closed")
        feed.job.kill()
        feed.end()
        self.port = bridges.free_port()
        feed = self.begun(options="--log l --tolerance 30")
        first = 10 + len(found)
        out = feed.through(frames[first:first + 100])
        self.assertEqual(self.status()["contacts"][3], "closed")
        wanted = self.played(bridges.CONTACTS, f"frames {answer['frame']} contact 3 closed frames 300")
        self.filled("edi", b"".join(out), wanted[96 * first:96 * (first + 100)], first)
        feed.end()

    def test_without_a_frame_a_contact_is_not_given(self):
        feed = self.begun()
        frames = self.stream("edi", 120)
        feed.through(frames[:10])
        start = time.monotonic()
        status, _, body = asked(self.port, "PUT", "/contacts/3", b"closed")
        self.assertEqual((status, json.loads(body)), (503, {"error": "no frame came within 10 s"}))
        self.assertTrue(9.5 < time.monotonic() - start < 15)
        out = feed.through(frames[10:])
        self.filled("edi", b"".join(out), self.plan(120, 0, bridges.CONTACTS)[96 * 10:], 10)
        feed.end()

    def test_what_waits_when_the_bridge_ends_is_refused(self):
        feed = self.begun()
        feed.through(self.stream("edi", 4))
        answers = []
        asking = threading.Thread(target=lambda: answers.append(asked(self.port, "PUT", "/contacts/3", b"closed")))
        asking.start()
        time.sleep(0.5)
        status, _, messages = feed.end(15)
        asking.join(30)
        self.assertEqual((status, answers[0][0]), (0, 503))
        self.assertNotIn("Traceback", messages)

    def test_bodies_and_paths(self):
        self.begun()
        for method, path, body, status in (
                ("PUT", "/contacts/3", b"shut", 400), ("PUT", "/contacts/3", b"closed\n\n", 400),
                ("PUT", "/contacts/3", b"", 400),
                ("PUT", "/contacts/3", b"Closed", 400), ("PUT", "/contacts/3", b" open", 400),
                ("PUT", "/contacts/16", b"open", 404),
                ("PUT", "/contacts/03", b"open", 404), ("PUT", "/contacts/", b"open", 404), ("PUT", "/", b"open", 404),
                ("GET", "/contacts/3", None, 404), ("GET", "/none", None, 404), ("GET", "/../status.json", None, 404),
                ("POST", "/contacts/3", b"open", 404), ("GET", "/reload", None, 404),
                ("POST", "/resume?count=5000", b"", 400),
                ("POST", "/resume?count=", b"", 400), ("POST", "/resume?count=1&count=2", b"", 400),
                ("POST", "/resume?at=1", b"", 400),
                ("DELETE", "/contacts/3", None, 501)):
            found, head, text = asked(self.port, method, path, body)
            self.assertEqual((found, head["Content-Type"]), (status, "application/json"),
                             f"{method} {path} {body}: {text}")
            self.assertEqual(list(json.loads(text)), ["error"])


class Retaken(Controlled):
    """A plan that is held is taken up by an order."""

    def setUp(self):
        super().setUp()
        # No swap in the first minute; by contact 3 at any time.
        self.slow = bridges.MOVES.replace("wait 20", "wait 3000")
        self.compile(self.folder, "slow", self.slow)

    def held(self, code, options, before=40, count=1000):
        """A bridge that holds: its counts step where nothing explains it, to this one."""
        feed = self.begun(code, options)
        feed.through(self.stream("edi", before))
        self.paced(feed, bridges.made("edi", self.own(12, count), count))
        self.until_shown(state="holding")
        return feed

    def paced(self, feed, frames):
        """What comes for frames that are given in real time."""
        found, due = [], time.monotonic()
        for frame in frames:
            due += 0.024
            time.sleep(max(0.0, due - time.monotonic()))
            found += feed.through([frame])
        return found

    def paced_until(self, feed, stream, holds):
        """What comes for frames that are given in real time until something holds, which is looked at now and then."""
        found, due = [], time.monotonic()
        for number, frame in enumerate(stream):
            if number % 5 == 0 and holds():
                break
            due += 0.024
            time.sleep(max(0.0, due - time.monotonic()))
            found += feed.through([frame])
        return found

    def ordered(self, feed, path, stream, is_back=False):
        """The answer of an order that is given before frames of a stream, and what comes for them: up to the answer,
        or until the plan is back, and for a second more. A busy machine takes seconds for either."""
        answers = []
        asking = threading.Thread(target=lambda: answers.append(asked(self.port, "POST", path, b"")))
        asking.start()
        time.sleep(0.2)
        found = self.paced_until(feed, stream, lambda: not asking.is_alive())
        asking.join(60)
        if is_back:
            found += self.paced_until(feed, stream[len(found):], lambda: self.status()["state"] == "following")
            found += self.paced(feed, stream[len(found):len(found) + 40])
        return answers[0][0], json.loads(answers[0][2]), found

    def goes_on(self, feed, stream, answer, script, at, found):
        """Asserts that what was found for a stream ends with the frames of the plan that the answer says, from some
        frame on; returns the number of the plan's first one."""
        status, _, messages = feed.end()
        self.assertEqual(status, 0, messages)
        stream = stream[:len(found)]
        number = int(messages.rsplit("the plan goes on with its frame ", 1)[1].split()[0])
        first = (answer["count"] - answer["frame"]) % 5000
        index = next(index for index, _ in enumerate(stream) if (at + index - first - number) % 5000 == 0)
        plan = self.played(script, f"frames {number + len(stream) - index}", f"--count {first}")
        wanted = bridges.made("edi", plan[96 * number:], (at + index) % 5000)
        self.same(b"".join(wanted), b"".join(found[index:]), "the plan")
        self.assertGreater(len(found[index:]), 20)
        return number, messages

    def test_it_goes_on_by_the_counts_that_come(self):
        feed = self.held("slow", "--log l")
        stream = bridges.made("edi", self.own(1500, 1012), 1012)
        status, answer, found = self.ordered(feed, "/resume", stream, True)
        self.assertEqual(status, 200, answer)
        self.assertEqual(self.until_shown(state="following")["alarms"], [])
        number, messages = self.goes_on(feed, stream, answer, self.slow, 1012, found)
        self.assertIn("the plan is taken up: its frame ", messages)
        self.assertGreaterEqual(number, answer["frame"])
        heads = [line for line in self.read("l").decode().splitlines() if line.startswith("# dabplan-bridge: ")]
        self.assertEqual([line.split()[3] for line in heads], ["0", str((answer["count"] - answer["frame"]) % 5000)])
        # The log leads there again.
        self.port = bridges.free_port()
        feed = self.begun("slow", "--log l --tolerance 30")
        count = (1012 + len(found) + 5) // 4 * 4
        feed.through(bridges.made("edi", self.own(8, count), count))
        self.assertEqual(self.until_shown(count=count + 7)["state"], "following")
        feed.end()

    def test_it_goes_on_at_a_count(self):
        feed = self.held("slow", "--log l")
        stream = bridges.made("edi", self.own(1500, 1012), 1012)
        # Five seconds ahead: by then the plan is played so far.
        status, answer, found = self.ordered(feed, "/resume?count=1220", stream, True)
        self.assertEqual((status, answer["count"]), (200, 1220))
        number, _ = self.goes_on(feed, stream, answer, self.slow, 1012, found)
        self.assertEqual(number, answer["frame"])

    def test_it_begins_anew(self):
        """With the contact that is closed: what is announced then leads to what the plan has."""
        feed = self.held("contacts", "--log l --contacts c")
        before = self.read("l")
        self.write("c", "contact 3 closed\n")
        self.paced(feed, bridges.made("edi", self.own(12, 1012), 1012))
        self.assertTrue(bridges.until(lambda: self.status()["contacts"][3] == "closed", 10))
        stream = bridges.made("edi", self.own(1500, 1024), 1024)
        status, answer, found = self.ordered(feed, "/anew", stream, True)
        self.assertEqual((status, answer["frame"]), (200, 0))
        self.assertTrue(1024 <= answer["count"] < 1024 + len(found))
        status, _, messages = feed.end()
        self.assertIn(f"the plan begins anew: its frame 0 is at count {answer['count']}", messages)
        self.assertTrue(self.read("l.1").startswith(before), "the old log is renamed")
        self.assertRegex(self.read("l").decode(),
                         rf"^# dabplan-bridge: count {answer['count']} time - code .*\ncontact 3 closed\n")
        fic = self.bridge("fic -", b"".join(found))[1]
        # What was held has sub-channel 1, the plan with its contact closed goes over to 2: each swap is announced.
        self.assertRegex(self.checked(fic), "swaps [12] faults 0$")
        number = int(messages.rsplit("the plan goes on with its frame ", 1)[1].split()[0])
        plan = self.played(bridges.CONTACTS, f"contact 3 closed frames {number + 20}", f"--count {answer['count']}")
        index = answer["count"] + number - 1024
        wanted = bridges.made("edi", plan[96 * number:], answer["count"] + number)
        self.same(b"".join(wanted), b"".join(found[index:index + 20]), "the plan")

    def test_a_kill_before_the_plan_is_back_loses_nothing(self):
        """The plan begins anew, and what is held goes on for some frames still: killed then, it is held again, and what
        the plan has is announced."""
        feed = self.held("contacts", "--log l --contacts c")
        self.write("c", "contact 3 closed\n")
        self.paced(feed, bridges.made("edi", self.own(60, 1012), 1012))
        self.assertTrue(bridges.until(lambda: self.status()["contacts"][3] == "closed", 10))
        self.assertEqual(self.until_shown(state="holding")["swap"], None)
        status, answer, found = self.ordered(feed, "/anew", bridges.made("edi", self.own(1500, 1072), 1072))
        self.assertEqual((status, answer["frame"]), (200, 0))
        self.assertEqual(self.status()["state"], "holding")
        feed.job.kill()
        feed.end()
        lines = self.read("l").decode().splitlines()
        self.assertRegex(lines[0], f"^# dabplan-bridge: count {answer['count']} ")
        self.assertEqual([line.split()[1] for line in lines[1:3]], ["3", "holds"])
        script = base64.b64decode(lines[2].split()[2]).decode()
        self.assertEqual(re.findall("(?m)^sub .*", script), ["sub 1 at 0 eep 3-A 32"])
        self.assertTrue((self.folder / "l.1").exists())
        # Compacted it still says so.
        self.assertEqual(self.bridge("compact l")[0], 0)
        self.assertIn(lines[2].encode(), self.read("l").splitlines())
        self.port = bridges.free_port()
        feed = self.begun("contacts", "--log l --tolerance 30")
        count = (1072 + len(found) + 40) // 4 * 4
        stream = bridges.made("edi", self.own(1500, count), count)
        feed.give(stream[:8])
        more = [feed.get(len(frame)) for frame in stream[:8]]
        more += self.paced_until(feed, stream[8:], lambda: self.status()["swaps"] > 0)
        fic = self.bridge("fic -", b"".join(found + more))[1]
        self.assertEqual(feed.end()[0], 0)
        # A gap of frames, and no swap that was not announced: the plan with its contact closed goes over to 2.
        self.assertRegex(self.checked(fic), r"swaps [12] faults 1$")

    def test_where_nothing_is_held(self):
        feed = self.begun("slow", "--log l")
        feed.through(self.stream("edi", 8))
        at = 8
        for path in ("/resume", "/resume?count=7", "/anew"):
            status, answer, found = self.ordered(feed, path, self.stream("edi", 400, at))
            at += len(found)
            self.assertEqual((status, answer), (409, {"error": "nothing is held"}), path)
        self.assertEqual(feed.end()[0], 0)

    def test_without_a_log_it_can_begin_anew_alone(self):
        feed = self.held("slow", "")
        stream = bridges.made("edi", self.own(1500, 1012), 1012)
        status, answer, found = self.ordered(feed, "/resume", stream)
        self.assertEqual((status, answer), (409, {"error": "without a log the plan can't be played again: anew"}))
        later = len(found)
        status, answer, found = self.ordered(feed, "/anew", stream[later:], True)
        self.assertEqual((status, answer["frame"]), (200, 0))
        self.goes_on(feed, stream[later:], answer, self.slow, 1012 + later, found)


if __name__ == "__main__":
    units.main()
