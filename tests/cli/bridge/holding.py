#!/usr/bin/env python3
"""`dabplan-bridge run` where a count is not explained: what is on air is held. The last line is 'N passed, M
failed'."""
import re
import subprocess
import time

import bridges
import units
from bridges import made

FORMS = ("eti", "edi")
# The configuration of a plan, held: it stays for ever.
FIRST = bridges.MOVES.split("forever")[0]
# Swaps at 324, 648 and so on.
SLOW = bridges.MOVES.replace("wait 20", "wait 300")
SECOND = FIRST.replace("sub 1 at 0", "sub 2 at 24").replace("audio 63 sub 1", "audio 63 sub 2")
# Swaps at 36, 72, 108, each announced for the last 24 frames before it. The entries of twelve services more take four
# FIBs: one frame does not say the configuration.
SERVICES = "".join(f"service C2{number}\naudio 63 sub 63 in C2{number}\n" for number in range(30, 42))
WIDE = (bridges.MOVES.replace("wait 20", "wait 11")
        .replace("service C221", f"sub 63 at 850 eep 4-A 8\n{SERVICES}service C221"))
WIDE_FIRST = WIDE.split("forever")[0]


class Held(bridges.Case):
    """What is asked of frames of a configuration that stays."""

    def setUp(self):
        super().setUp()
        self.compile(self.folder, "slow", SLOW)

    def listened(self, fic):
        """What `dabplan listen` prints of FIBs: the current configuration, and whether a swap is announced."""
        done = subprocess.run([self.program, "listen", "-"], input=fic, capture_output=True, check=True)
        text = done.stdout.decode()
        return re.findall(r"(?m)^sub .*", text.split("next")[0]), "swap at" in text

    def fic_of(self, stream):
        """The FIBs of a stream."""
        status, fic, messages = self.bridge("fic -", stream)
        self.assertEqual(status, 0, messages)
        return fic

    def checked_faults(self, fic):
        """The faults that `dabplan check` finds in FIBs."""
        done = subprocess.run([self.program, "check", "-"], input=fic, capture_output=True, check=False)
        return [line for line in done.stdout.decode().splitlines() if " fault: " in line]

    def is_held(self, stream, script, first, frames, form="edi"):
        """Asserts that a stream has frames of a configuration that stays, from this count on, and is otherwise as it
        was made."""
        fic = self.fic_of(stream)
        self.assertEqual(len(fic), 96 * frames)
        own = bridges.fics(fic)
        self.same(b"".join(bridges.MAKERS[form]((first + number) % 5000, each) for number, each in enumerate(own)), stream, form)
        subs, is_announced = self.listened(fic)
        self.assertEqual((subs, is_announced), (re.findall(r"(?m)^(sub .*) eep", script) and self.listened(self.plan(8, 0, script))[0], False))
        skipped = (-first) % 4
        last = subprocess.run([self.program, "check", "-"], input=fic, capture_output=True, check=False).stdout.decode().splitlines()[-1]
        self.assertEqual(last, f"frames {frames - skipped} skipped {3 * skipped} left over 0 damaged 0 swaps 0 faults 0")

    def paced(self, feed, frames):
        """What comes for frames that are given in real time."""
        found, next_one = [], time.monotonic()
        for frame in frames:
            next_one += 0.024
            time.sleep(max(0.0, next_one - time.monotonic()))
            found += feed.through([frame])
        return found

    def jumped(self, form, first, step, frames=40, options="--log l", script=bridges.MOVES):
        """A bridge that was given frames up to a step of the count which nothing explains, and frames behind it: these
        are held."""
        feed = self.started(f"run {'moves' if script == bridges.MOVES else 'slow'}.code --in - --out - --state s {options}")
        found = b"".join(feed.through(self.stream(form, first)))
        self.filled(form, found, self.plan(first, 0, script))
        # In ETI the whole count comes with a FIG 0/0: the step leads to one.
        count = first + step
        self.assertEqual(count % 4, 0)
        held = b"".join(feed.through(made(form, self.own(frames, count), count)))
        return feed, held, count


class Holds(Held):
    """Frames of a configuration that stays."""

    def test_what_receivers_have_is_held(self):
        """Frame 60 is between the swaps at 44 and 88, and nothing is announced: sub-channel 2 stays on air."""
        for form in FORMS:
            feed, held, count = self.jumped(form, 60, 1200)
            self.is_held(held, SECOND, count, 40, form)
            self.assertTrue(bridges.until(lambda: b'\ndab_state{state="holding"} 1\n' in self.read("s")))
            self.assertIn(b'\ndab_alarm{alarm="held"} 1\n', self.read("s"))
            status, _, messages = feed.end()
            self.assertEqual(status, 0, messages)
            self.assertEqual(len(re.findall(r"frame \d+: the count is 1260, 60 was due: a step of 1200, after \d+\.\d s by the clock: what is on "
                                            r"air is held until counts and clock agree\n", messages)), 1, "told once")
            self.assertRegex(self.read("l").decode(), r"(?m)^# held 44$")
            (self.folder / "l").unlink()

    def test_what_was_announced_is_held(self):
        """From frame 64 on the swap of frame 88 is announced: receivers take it over when the flags go."""
        for form in FORMS:
            for first in (68, 84, 88):
                feed, held, count = self.jumped(form, first, 1200)
                self.is_held(held, FIRST, count, 40, form)
                self.assertEqual(feed.end()[0], 0)
                (self.folder / "l").unlink()

    def test_counts_that_step_again_are_taken_as_they_come(self):
        feed, held, count = self.jumped("edi", 60, 1200)
        for step in (7, 3000, -500, -3, 250):
            count += 40 + step
            self.is_held(b"".join(feed.through(made("edi", self.own(40, count), count))), SECOND, count, 40)
        self.assertEqual(feed.end()[0], 0)

    def test_labels_go_on(self):
        """Other FIGs of the multiplexer are carried while a configuration is held."""
        self.compile(self.folder, "room", bridges.MOVES.replace("budget 20", "budget 20 reserve 1"))
        label = bridges.fib("3501C221" + b"Held".ljust(16).hex() + "FF00")

        def with_label(frames, count):
            fics = bridges.fics(self.own(frames, count))
            return made("edi", b"".join(fic[:64] + label for fic in fics), count)
        feed = self.started("run room.code --in - --out -")
        feed.through(with_label(60, 0))
        held = self.fic_of(b"".join(feed.through(with_label(40, 1260))))
        self.assertGreaterEqual(held.count(b"Held"), 10)
        self.assertEqual(feed.end()[0], 0)

    def test_a_file_is_held_until_its_counts_are_near(self):
        own = bridges.fics(self.own(3000))
        counts = [*range(360), *range(2000, 2040), *range(360, 500)]
        for form in FORMS:
            self.write("a", b"".join(bridges.MAKERS[form](count, own[count]) for count in counts))
            status, _, messages = self.bridge("run slow.code --in a --out b --state s")
            self.assertEqual(status, 0, messages)
            out = self.read("b")
            size = len(out) // len(counts)
            plan = bridges.fics(self.plan(500, 0, SLOW))
            self.same(b"".join(bridges.MAKERS[form](count, plan[count]) for count in range(360)), out[:360 * size], form)
            self.is_held(out[360 * size:400 * size], SECOND, 2000, 40, form)
            self.assertIn("frame 424: counts and clock agree again: the plan goes on with its frame 384\n", messages)
            self.is_held(out[400 * size:424 * size], SECOND, 360, 24, form)
            self.same(b"".join(bridges.MAKERS[form](count, plan[count]) for count in range(384, 500)), out[424 * size:], form)
            self.assertIn(b'\ndab_state{state="following"} 1\n', self.read("s"))


class Returns(Held):
    """The plan goes on."""

    def test_it_goes_on_as_soon_as_counts_and_clock_agree(self):
        """A step of 1,700 comes at once, but is 40.8 s: after 14 s it agrees, within 30 s. At frame 308
        sub-channel 1 was on air, and 2 was announced: so that is held."""
        for form in FORMS:
            feed, held, count = self.jumped(form, 308, 1700, 4, f"--log l{form} --tolerance 30", SLOW)
            time.sleep(14.0)
            frames = made(form, self.own(1100, count + 4), count + 4)
            found = b"".join([held, *self.paced(feed, frames)])
            status, _, messages = feed.end()
            self.assertEqual(status, 0, messages)
            goes_on = re.search(r"frame \d+: counts and clock agree again: the plan goes on with its frame (\d+)\n", messages)
            self.assertIsNotNone(goes_on, messages)
            number = int(goes_on[1])
            # What the plan has by then is announced, where it is another configuration.
            self.assertEqual(self.checked_faults(self.fic_of(found)), [], form)
            # From there on it is the plan, with the numbers that belong to these counts.
            size = len(frames[0])
            self.filled(form, found[(number - count) * size:], self.plan(count + 1104, 0, SLOW)[96 * number:], number)
            self.assertRegex(self.read("l" + form).decode(), r"(?m)^# not held$")
            self.assertIn(b'\ndab_alarm{alarm="held"} 0\n', self.read("s"))

    def test_contacts_act_on_the_plan_meanwhile(self):
        """The contact brings sub-channel 2, while 1 is held: it is announced when counts and clock agree."""
        feed = self.started("run contacts.code --in - --out - --log l --contacts c --tolerance 30")
        feed.through(self.stream("edi", 60))
        found = feed.through(made("edi", self.own(4, 1760), 1760))
        self.write("c", "contact 3 closed\n")
        found += feed.through(made("edi", self.own(4, 1764), 1764))
        time.sleep(14.0)
        found += self.paced(feed, made("edi", self.own(1100, 1768), 1768))
        status, _, messages = feed.end()
        self.assertEqual(status, 0, messages)
        self.assertIn("the plan goes on", messages)
        self.assertIn("contact 3 closed\n", self.read("l").decode())
        fic = self.fic_of(b"".join(found))
        self.assertEqual(self.checked_faults(fic), [])
        self.assertEqual(self.listened(fic), (["sub 2 at 24 size 24 eep 3-A"], False))


def clock(seconds):
    """A FIB with a FIG 0/10 of a time in seconds since 1970."""
    days, rest = divmod(round(seconds * 1000), 86_400_000)
    bits = f"0{days + 40587:017b}101{rest // 3_600_000:05b}{rest // 60_000 % 60:06b}{rest // 1000 % 60:06b}{rest % 1000:010b}"
    return bridges.fib("070A" + int(bits, 2).to_bytes(6, "big").hex())


class Resumes(Held):
    """A log that ends while something is held, or with which the count does not agree."""

    def log_at(self, seconds):
        """Sets all wall times of the log so many seconds back."""
        wall = time.time() - seconds
        text = time.strftime("%Y-%m-%dT%H:%M:%S", time.gmtime(wall)) + f".{int(wall % 1 * 1000):03d}Z"
        self.write("l", re.sub(r" at \S+Z", f" at {text}", self.read("l").decode()))

    def test_a_count_that_the_log_contradicts_is_held(self):
        for form in FORMS:
            for frames, script in ((60, SECOND), (70, FIRST)):
                self.write("a", b"".join(self.stream(form, frames)))
                self.assertEqual(self.bridge("run moves.code --in a --out b --log l")[0], 0)
                self.log_at(60.0)
                count = frames + 30
                count += -count % 4
                stream = b"".join(made(form, self.own(40, count), count))
                status, out, messages = self.bridge("run moves.code --in - --out - --log l", stream)
                self.assertEqual(status, 0, messages)
                self.is_held(out, script, count, 40, form)
                self.assertRegex(messages, r"l: the count is \d+, \d+ was due: a step of \d+, after \d+\.\d s by the clock: what is on air is held")
                (self.folder / "l").unlink()

    def test_what_was_held_is_held_after_a_kill(self):
        """The plan goes on by the clock meanwhile, and has other configurations; on air is what was."""
        for form in FORMS:
            for first, script in ((60, SECOND), (68, FIRST)):
                feed, _, count = self.jumped(form, first, 1200, 400)
                feed.job.kill()
                feed.end()
                self.assertIn(b"\n# held ", self.read("l"))
                stream = b"".join(made(form, self.own(40, count + 440), count + 440))
                status, out, messages = self.bridge("run moves.code --in - --out - --log l", stream)
                self.assertEqual(status, 0, messages)
                self.is_held(out, script, count + 440, 40, form)
                (self.folder / "l").unlink()

    def test_what_a_change_led_to_is_held_after_a_restart(self):
        """Sub-channel 2 is held. After a row of frames, at 82, it is known that the plan has 1, which is announced for
        108. That is the frame of the plan's own next swap; or before it the counts step once more, so that receivers
        take over what was announced."""
        self.compile(self.folder, "wide", WIDE)
        own = bridges.fics(self.own(5000))
        first = subprocess.run([self.program, "listen", "-"], input=self.plan(40, 2000, WIDE_FIRST),
                               capture_output=True, check=True)
        for form in FORMS:
            for name, counts in (("a swap", [*range(58, 114)]), ("a step", [*range(58, 100), *range(4000, 4040)])):
                taken = [*range(48), *range(3000, 3004), *counts]
                self.write("a", b"".join(bridges.MAKERS[form](count, own[count]) for count in taken))
                status, _, messages = self.bridge("run wide.code --in a --out b --log l")
                self.assertEqual((status, "goes on" in messages), (0, False), messages)
                stream = b"".join(made(form, self.own(40, 2000), 2000))
                status, out, messages = self.bridge("run wide.code --in - --out - --log l", stream)
                self.assertEqual(status, 0, messages)
                done = subprocess.run([self.program, "listen", "-"], input=self.fic_of(out),
                                      capture_output=True, check=True)
                self.assertEqual(done.stdout, first.stdout, f"{form}, {name}")
                (self.folder / "l").unlink()

    def test_a_clock_that_is_an_hour_wrong_is_not_believed(self):
        """The multiplexer sends FIG 0/10, and the log says so. After 240 s of outage, 30 turns of the counts too many
        by the host's clock, the bridge waits for it, and holds meanwhile; then it knows."""
        for ahead, goes_on in ((0.0, True), (-3600.0, False)):
            feed = self.started("run slow.code --in - --out - --log l")
            fics = bridges.fics(self.own(100))
            feed.through(made("edi", b"".join([fics[0][:64] + clock(time.time() + ahead), *fics[1:]])))
            self.assertEqual(feed.end()[0], 0)
            self.assertIn(b"\n# utc\n", self.read("l"))
            self.log_at(240.0 if goes_on else 3600.0 + 240.0)
            feed = self.started("run slow.code --in - --out - --log l --tolerance 30 --state s")
            # 10,000 frames later the count is what it would be.
            fics = bridges.fics(self.own(2000, 100))
            held = b"".join(feed.through(made("edi", b"".join(fics[:20]), 100)))
            self.is_held(held, FIRST, 100, 20)
            fics[20] = fics[20][:64] + clock(time.time() + ahead)
            self.paced(feed, made("edi", b"".join(fics[20:60]), 120))
            # By the clock of a busy machine the counts are late: the plan waits for them.
            for at in range(60, len(fics) if goes_on else 60, 50):
                if b'\ndab_state{state="following"} 1\n' in self.read("s"):
                    break
                self.paced(feed, made("edi", b"".join(fics[at:at + 50]), 100 + at))
            status, _, messages = feed.end()
            self.assertEqual(status, 0, messages)
            self.assertRegex(messages, r"a step of 0, after \d+\.\d s by the clock, and no FIG 0/10 has come yet: what is on air is held")
            self.assertEqual("the plan goes on with its frame 10" in messages, goes_on, messages)
            self.assertEqual("no step above 250 frames is believed by this clock" in messages, not goes_on)
            (self.folder / "l").unlink()

    def test_compact_keeps_what_is_held(self):
        feed, _, count = self.jumped("edi", 60, 1200, 400)
        feed.job.kill()
        feed.end()
        self.assertEqual(self.bridge("compact l"), (0, b"", ""))
        self.assertRegex(self.read("l").decode(), r"(?m)^# held 44$")
        status, out, messages = self.bridge("run moves.code --in - --out - --log l", b"".join(made("edi", self.own(40, count + 440), count + 440)))
        self.assertEqual(status, 0, messages)
        self.is_held(out, SECOND, count + 440, 40)


if __name__ == "__main__":
    units.main()
