#!/usr/bin/env python3
"""`dabplan-bridge` over streams of ETI and EDI that are made: what goes in, what comes out, byte by byte. The last line
is 'N passed, M failed'."""
import os
import re
import subprocess
import sys
import time

import bridges
import units
from bridges import MOVES, common, made

REAL_FIC = common.TOP / "bench" / "samples" / "real_fic.fib"
FORMS = ("eti", "edi")
MODES = {1: ("moves", MOVES), 3: ("moves3", MOVES.replace("E1C5", "E1C5 mode 3"))}


class TakenOutAndPutIn(bridges.Case):
    """`fic` and `insert`."""

    def test_the_fibs_of_each_frame_are_taken_out(self):
        for form in FORMS:
            for mode in (1, 3):
                fic = self.own(40, 4990, mode)
                stream = b"".join(made(form, fic, 4990, mode))
                self.write("a", stream)
                for line, stdin in (("fic a", b""), ("fic -", stream), (f"fic a --format {form}", b"")):
                    self.assertEqual(self.bridge(line, stdin), (0, fic, ""), f"{form}, mode {mode}, {line}")

    def test_another_fic_is_put_in_and_nothing_else_changes(self):
        for form in FORMS:
            for mode in (1, 3):
                frames, other = self.stream(form, 30, 100, mode), self.plan(30, 100, MODES[mode][1])
                self.write("a", b"".join(frames))
                self.write("f", other)
                status, printed, messages = self.bridge("insert a f")
                self.assertEqual((status, messages), (0, ""))
                self.filled(form, printed, other, count=100, mode=mode)
                self.write("f", self.own(30, 100, mode))
                self.assertEqual(self.bridge("insert a f"), (0, b"".join(frames), ""), "its own FIC")

    def test_a_fic_that_ends_first_leaves_no_foreign_one(self):
        frames, own = self.stream("edi", 9), self.own(9)
        self.write("a", b"".join(frames))
        self.write("f", own[:96 * 4 + 95])
        self.assertEqual(self.bridge("insert a f"), (
            1, b"".join(frames[:4]), "dabplan-bridge: frame 4: no FIC is left for it: from there on all are left out\n"))

    def test_what_is_no_frame_is_left_out_and_counted(self):
        for form in FORMS:
            frames, own = self.stream(form, 20), self.own(20)
            frames[3:6] = [bytes(6144)] * 3
            self.write("a", b"".join(frames))
            status, printed, messages = self.bridge("fic a")
            self.assertEqual((status, printed), (1, own[:96 * 3] + own[96 * 6:]), form)
            self.assertRegex(messages, r"^dabplan-bridge: frame 3: no synchronisation, \d+ bytes: left out\n"
                                       r"dabplan-bridge: \d more that are no frames\ndabplan-bridge: \d frames left out\n$")

    def test_a_stream_that_is_none_or_ends_within_a_frame(self):
        frames = self.stream("eti", 3)
        self.assertEqual(self.bridge("fic -", b"".join(frames)[:6144 * 2 + 100]),
                         (1, self.own(3)[:192], "dabplan-bridge: -: not whole frames\n"))
        self.assertEqual(self.bridge("fic -", bytes(50_000)), (1, b"", "dabplan-bridge: -: neither ETI nor EDI: --format says which\n"))
        self.assertEqual(self.bridge("fic -", b"some text"), (1, b"", "dabplan-bridge: -: neither ETI nor EDI\n"))
        self.assertEqual(self.bridge("fic -"), (0, b"", ""))
        self.assertEqual(self.bridge("fic y"), (1, b"", "dabplan-bridge: cannot read y: No such file or directory\n"))
        self.assertEqual(self.bridge("fic moves.plan/x"), (1, b"", "dabplan-bridge: cannot read moves.plan/x: Not a directory\n"))


class Played(bridges.Case):
    """`run` over whole streams."""

    def test_the_plan_is_in_every_frame_from_its_first_one_on(self):
        for form in FORMS:
            for mode, (name, script) in MODES.items():
                # In mode I the first FIG 0/0 is that of count 4804. ETI needs it for the count; EDI has the count.
                first = 3 if (form, mode) == ("eti", 1) else 0
                self.write("a", b"".join(self.stream(form, 400, 4801, mode)))
                status, printed, messages = self.bridge(f"run {name}.code --in a --out b --status")
                self.assertEqual((status, printed), (0, b""))
                wanted = self.plan(400 - first, 4801 + first, script)
                self.filled(form, self.read("b"), wanted, first, 4801, mode)
                self.assertIn(" swap\n", messages)
                self.assertIn(f"frames {400 - first} carried 0 waiting 0", messages)
                # A FIG 0/0 is in each fourth frame of mode I: before it `check` has nothing to begin with.
                skipped = 3 * ((-4801) % 4) if (form, mode) == ("edi", 1) else 0
                self.assertEqual(self.checked(self.bridge("fic b")[1], mode),
                                 f"frames {400 - first - skipped // 3} skipped {skipped} left over 0 damaged 0 swaps 9 faults 0")

    def test_frames_with_a_time_stamp_keep_it(self):
        self.write("a", b"".join(self.stream("edi", 50, stamp=bridges.NO_TIME)))
        self.assertEqual(self.bridge("run moves.code --in a --out b")[0], 0)
        self.filled("edi", self.read("b"), self.plan(50), stamp=bridges.NO_TIME)

    def test_modes_two_and_four(self):
        for mode in (2, 4):
            script = MOVES.replace("E1C5", f"E1C5 mode {mode}")
            self.compile(self.folder, "m", script)
            for form in FORMS:
                self.write("a", b"".join(self.stream(form, 60, 8, mode)))
                self.assertEqual(self.bridge("run m.code --in a --out b")[0], 0)
                self.filled(form, self.read("b"), self.plan(60, 8, script), 0, 8, mode)

    def test_labels_are_carried(self):
        fic = REAL_FIC.read_bytes()
        first = fic.index(b"\x05\x00\xe1\xc5") // 96
        at = fic.index(b"\x05\x00\xe1\xc5")
        count = (fic[at + 4] & 0x1F) * 250 + fic[at + 5]
        script = (common.EXAMPLES / "on_air.plan").read_text(encoding="utf-8") + "drop service C224\ncommit in 240\njoin\n"
        self.compile(self.folder, "air", script)
        stc = tuple((int(sub), int(start), 0x20 | (profile == "B") << 2 | int(level) - 1, int(kbits) * 3 // 8) for sub, start, level, profile, kbits
                    in re.findall(r"^sub (\d+) at (\d+) eep (\d)-([AB]) (\d+)$", script, re.MULTILINE))
        for form in FORMS:
            self.write("a", b"".join(made(form, fic, count - first, stc=stc)))
            status, _, messages = self.bridge("run air.code --in a --out b")
            self.assertEqual(status, 0, messages)
            self.assertIn("dropped 0 stale 3 damaged 0", messages)
            found = self.bridge("fic b")[1]
            self.assertIn("swaps 1 faults 0", self.checked(found))
            for label in (b"\x35\x01\xc2\x21One", b"\x35\x01\xc2\x22Two", b"\x37\x05\xe1\xc2\x00\x01Data", b"\x35\x00\xe1\xc5PeerEnsemble"):
                self.assertGreaterEqual(found.count(label), 3)

    def test_the_monitor_gets_exactly_what_goes_out(self):
        for form in FORMS:
            frames = self.stream(form, 600, 4801)
            # Before the plan, a step, frames that are none, a wrong CRC, one frame twice: whatever goes out.
            frames[50] = frames[50][:-200] + b"\x99" * 10 + frames[50][-190:]
            frames[200:207] = []
            frames[300] = bytes(len(frames[300]))
            frames[400:400] = frames[399:400]
            self.write("a", b"".join(frames))
            (self.folder / "reader.py").write_text("import sys; open('heard', 'wb').write(open('monitor', 'rb').read())")
            if not (self.folder / "monitor").exists():
                os.mkfifo(self.folder / "monitor")
            reader = subprocess.Popen([sys.executable, "reader.py"], cwd=self.folder)
            feed = self.started("run moves.code --in - --out b --monitor monitor")
            opened = os.open(self.folder / "monitor", os.O_WRONLY)
            feed.give(frames)
            self.assertEqual(feed.end()[0], 1)
            os.close(opened)
            reader.wait(10)
            self.same(self.bridge("fic b")[1], self.read("heard"), form)
            self.assertEqual(len(self.read("heard")) % 96, 0)

    def test_a_monitor_may_come_and_go(self):
        feed = self.started("run moves.code --in - --out - --monitor monitor")
        frames, plan = self.stream("edi", 100), self.plan(100)
        feed.through(frames[:10])
        for first in (10, 40):
            monitor = os.open(self.folder / "monitor", os.O_RDONLY | os.O_NONBLOCK)
            feed.through(frames[first:first + 20])
            found = bridges.read_within(monitor, 96 * 20)
            # The frame before goes out before its FIBs go to the monitor: it may be the first one that the reader gets.
            self.same(plan[96 * (first - (found == plan[96 * (first - 1):][:len(found)])):][:len(found)], found)
            os.close(monitor)
            feed.through(frames[first + 20:first + 30])
        self.assertEqual(feed.end()[0], 0)

    def test_a_monitor_that_does_not_read_gets_whole_frames_in_order(self):
        feed = self.started("run moves.code --in - --out - --monitor monitor")
        frames, plan = self.stream("edi", 5000), self.plan(5000)
        feed.through(frames[:1])
        monitor = os.open(self.folder / "monitor", os.O_RDONLY | os.O_NONBLOCK)
        feed.through(frames[1:])
        heard = bridges.read_within(monitor, 96 * 5000, 0.5)
        feed.job.stdin.close()
        heard += bridges.read_within(monitor, 96 * 5000, 2)
        os.close(monitor)
        messages = feed.job.stderr.read().decode()
        self.assertEqual(feed.job.wait(10), 0)
        feed.job.stdout.close()
        feed.job.stderr.close()
        self.assertIn("the monitor is 2500 frames behind", messages)
        self.assertEqual(len(heard) % 96, 0)
        places, at = bridges.fics(plan), 0
        for each in bridges.fics(heard):
            at = places.index(each, at) + 1


class Contacts(bridges.Case):
    """The FIFO of contacts."""

    def test_a_contact_acts_from_the_next_frame_on(self):
        for form in FORMS:
            frames = self.stream(form, 90)
            feed = self.started("run contacts.code --in - --out - --contacts contacts --log l")
            found = feed.through(frames[:10])
            self.write("contacts", "contact 3 closed # by hand\n\nframes 7\n  contact  3 \x1b[31mopen\ncontact 16 open\ncontact 3 clo")
            found += feed.through(frames[10:50])
            self.write("contacts", "sed\ncontact 03 open contact 00 open\ncontact 003 closed\n")
            found += feed.through(frames[50:])
            status, rest, messages = feed.end()
            self.assertEqual((status, rest), (0, b""))
            script = bridges.CONTACTS
            wanted = self.played(script, "frames 10 contact 3 closed frames 40 contact 3 open frames 40")
            self.filled(form, b"".join(found), wanted)
            self.assertEqual(re.findall(rb"(?m)^contact.*", self.read("l")), [b"contact 3 closed", b"contact 3 closed", b"contact 3 open contact 0 open"])
            (self.folder / "l").unlink()
            self.assertEqual(re.findall("contacts: .*", messages), [
                "contacts: line 3 is no contact: frames 7, and 2 lines more", "contacts: line 8 is no contact: contact 003 closed"])

    def test_a_fifo_that_is_taken_away_is_made_again(self):
        feed = self.started("run contacts.code --in - --out - --contacts contacts --monitor monitor")
        frames, number = self.stream("edi", 400), 0
        feed.through(frames[:5])
        (self.folder / "contacts").unlink()
        (self.folder / "monitor").unlink()
        number, end = 5, time.monotonic() + 1.0
        while not all((self.folder / name).is_fifo() for name in ("contacts", "monitor")) and time.monotonic() < end:
            feed.through(frames[number:number + 1])
            number += 1
            time.sleep(0.024)
        self.assertTrue((self.folder / "contacts").is_fifo() and (self.folder / "monitor").is_fifo(), "within a second")
        self.write("contacts", "contact 3 closed\n")
        found = b"".join(feed.through(frames[number:number + 60]))
        self.assertEqual(feed.end()[0], 0)
        wanted = self.played(bridges.CONTACTS, f"frames {number} contact 3 closed frames 60")
        self.filled("edi", found, wanted[96 * number:], number)

    def test_what_is_no_fifo_is_refused_and_stays(self):
        self.write("regular", "kept")
        self.write("a", b"".join(self.stream("eti", 8)))
        for option in ("contacts", "monitor"):
            self.assertEqual(self.bridge(f"run moves.code --in a --out b --{option} regular"),
                             (2, b"", f"dabplan-bridge: --{option} regular: not a FIFO\n"))
        self.assertEqual(self.read("regular"), b"kept")
        self.assertFalse((self.folder / "b").exists())


class Times(bridges.Case):
    """The time of the plan's first frame."""

    SCRIPT = MOVES.split("forever")[0] + "until 22:00:00\ndrop component sub 1 in C221\ndrop sub 1\n" \
        "sub 2 at 24 eep 3-A 32\naudio 63 sub 2 in C221\ncommit in 24\njoin\n"

    def test_a_time_is_that_of_the_plan_first_frame(self):
        self.compile(self.folder, "t", self.SCRIPT)
        self.write("a", b"".join(self.stream("edi", 300)))
        self.assertEqual(self.bridge("run t.code --in a --out b --time 21:59:58")[0], 0)
        self.filled("edi", self.read("b"), self.plan(300, 0, self.SCRIPT, "--time 21:59:58"))
        self.assertEqual(self.bridge("run t.code --in a --out b --time 21:59:58 --skip 60")[0], 0)
        self.filled("edi", self.read("b"), self.plan(360, 4940, self.SCRIPT, "--time 21:59:58")[96 * 60:])

    def test_the_clock_of_the_stream(self):
        self.compile(self.folder, "t", self.SCRIPT)
        # 19:59:57.984 UTC in frame 8, FIG 0/10 alone in a FIB: 22:00:00 at an offset of 2 hours comes 84 frames later.
        bits = f"0{60000:017b}001{19:05b}{59:06b}{57:06b}{984:010b}"
        clock = bridges.fib("070A" + int(bits, 2).to_bytes(6, "big").hex())
        own = self.own(300)
        fic = own[:96 * 8 + 64] + clock + own[96 * 9:]
        day = (((21 * 60 + 59) * 60 + 57) * 1000 + 984) // 24
        for form in FORMS:
            self.write("a", b"".join(made(form, fic)))
            status, _, messages = self.bridge("run t.code --in a --out b --clock fig --offset 2 --log l")
            self.assertEqual(status, 0, messages)
            wanted = self.plan(292, 8, self.SCRIPT, f"--day {day}")
            found = self.bridge("fic b")[1]
            # The FIG 0/10 is carried, in the frame in which it came: the plan's own FIGs are as they are.
            self.assertEqual(len(found), len(wanted))
            self.assertEqual(found.count(clock[:8]), 1)
            self.same(wanted[96:], found[96:], "from the second frame on")
            self.assertIn(f"day {day}".encode(), self.read("l").splitlines()[0])
            (self.folder / "l").unlink()
        self.assertEqual(self.bridge("run t.code --in a --out b --clock fig --time 12:00:00")[0], 2)
        self.assertEqual(self.bridge("run t.code --in a --out b --offset 2")[0], 2)
        self.write("a", b"".join(made("eti", own)))
        self.write("b", "kept")
        status, _, messages = self.bridge("run t.code --in a --out b --clock fig")
        self.assertEqual((status, self.read("b")), (1, b"kept"), "the plan did not begin")
        self.assertIn("a: no FIG 0/10 with seconds", messages)


if __name__ == "__main__":
    units.main()
