#!/usr/bin/env python3
"""`dabplan-bridge run` where the plan does not fit the stream, and where frames are damaged. The last line is 'N
passed, M failed'."""
import bridges
import units
from bridges import OWN, STC, made

FORMS = ("eti", "edi")


class Fits(bridges.Case):
    """The plan against the sub-channels of the stream."""

    def test_a_plan_that_does_not_fit_never_goes_out(self):
        moved = ((1, 4, 0x22, 12), *STC[1:])
        for form in FORMS:
            for stc, said in (
                    (moved, "sub 1: at 0 size 24 eep 3-A in the plan, at 4 size 24 eep 3-A in the multiplexer"),
                    (((1, 0, 0x22, 15), *STC[1:]), "sub 1: at 0 size 24 eep 3-A in the plan, at 0 size 30 eep 3-A in the multiplexer"),
                    (((1, 0, 0x21, 12), *STC[1:]), "sub 1: at 0 size 24 eep 3-A in the plan, at 0 size 32 eep 2-A in the multiplexer"),
                    (STC[1:], "sub 1: at 0 size 24 eep 3-A in the plan, not there in the multiplexer")):
                self.write("b", "kept")
                self.write("a", b"".join(self.stream(form, 40, stc=stc)))
                status, _, messages = self.bridge("run moves.code --in a --out b --log l --monitor m")
                self.assertEqual(status, 5, messages)
                self.assertIn(f"dabplan-bridge: moves.code does not fit the multiplexer: {said}\n", messages)
                self.assertEqual(self.read("b"), b"kept", "nothing went out")
                self.assertFalse((self.folder / "l").exists(), "no log is left")

    def test_on_resuming_it_is_the_configuration_of_then(self):
        # After 60 frames the service is on sub 2: a multiplexer without sub 1 fits, one without sub 2 does not.
        for form in FORMS:
            self.write("a", b"".join(self.stream(form, 60)))
            self.assertEqual(self.bridge("run moves.code --in a --out b --log l")[0], 0)
            self.write("a", b"".join(self.stream(form, 20, 60, stc=(STC[0], STC[2]))))
            status, _, messages = self.bridge("run moves.code --in a --out b --log l")
            self.assertEqual(status, 5, messages)
            self.assertIn("sub 2: at 24 size 24 eep 3-A in the plan, not there in the multiplexer", messages)
            self.assertNotIn("sub 1:", messages)
            self.write("a", b"".join(self.stream(form, 20, 60, stc=STC[1:])))
            self.assertEqual(self.bridge("run moves.code --in a --out b --log l")[0], 0)
            (self.folder / "l").unlink()

    def test_on_resuming_in_the_frame_of_a_swap(self):
        # A swap falls into each 44th frame; a listener that begins late hears of those of 308 and 352 in the frames
        # before.
        for frames in (44, 88, 308, 352):
            self.write("a", b"".join(self.stream("edi", frames)))
            self.assertEqual(self.bridge("run moves.code --in a --out b --log l")[0], 0)
            log = self.read("l")
            is_on_two = (frames // 44) % 2 == 1
            for stc, fits in ((STC[1:], is_on_two), ((STC[0], STC[2]), not is_on_two)):
                self.write("l", log)
                self.write("a", b"".join(self.stream("edi", 20, frames, stc=stc)))
                status, _, messages = self.bridge("run moves.code --in a --out b --log l")
                self.assertEqual(status, 0 if fits else 5, f"{frames}: {messages}")
            (self.folder / "l").unlink()

    def test_on_resuming_early_too(self):
        # 50 frames: fewer than those in which the bridge hears all sub-channels, and a swap is in them.
        contacts = bridges.CONTACTS
        feed = self.started("run contacts.code --in - --out - --log l --contacts c")
        frames = self.stream("edi", 200)
        feed.through(frames[:4])
        self.write("c", "contact 3 closed\n")
        feed.through(frames[4:50])
        self.assertEqual(feed.end()[0], 0)
        for stc, status in ((STC[1:], 0), ((STC[0], STC[2]), 5)):
            self.write("a", b"".join(self.stream("edi", 60, 50, stc=stc)))
            ended, _, messages = self.bridge("run contacts.code --in a --out b --log l")
            self.assertEqual(ended, status, messages)
            if status == 0:
                wanted = self.played(contacts, "frames 4 contact 3 closed frames 106")
                self.filled("edi", self.read("b"), wanted[96 * 50:], 50, stc=stc)
                self.write("l", self.read("l")[:self.read("l").rindex(b"frames 60 ")])

    def test_all_configurations_of_a_plan_have_to_fit(self):
        """The plan begins with sub-channel 1, which fits; it would go on with sub-channel 2."""
        for form in FORMS:
            for other, there in (((2, 28, 0x22, 12), "at 28 size 24 eep 3-A in the multiplexer"), (None, "not there in the multiplexer")):
                stc = tuple(each for each in (STC[0], other, STC[2]) if each is not None)
                self.write("b", "kept")
                self.write("a", b"".join(self.stream(form, 40, stc=stc)))
                status, _, messages = self.bridge("run moves.code --in a --out b --log l")
                self.assertEqual(status, 5, messages)
                self.assertIn(f"moves.code does not fit the multiplexer: sub 2: at 24 size 24 eep 3-A in the plan, {there}\n", messages)
                self.assertEqual(self.read("b"), b"kept", "nothing went out")
                self.assertFalse((self.folder / "l").exists())

    def test_a_plan_that_moves_a_sub_channel_has_no_one_layout(self):
        script = bridges.MOVES.split("forever")[0] + "wait 20\nmove sub 1 at 48\ncommit in 24\njoin\n"
        self.compile(self.folder, "moved", script)
        self.write("a", b"".join(self.stream("edi", 40)))
        status, _, messages = self.bridge("run moved.code --in a --out b")
        self.assertEqual(status, 5)
        self.assertIn("sub 1: at 48 size 24 eep 3-A in the plan, at 0 size 24 eep 3-A in the multiplexer", messages)

    def test_a_multiplexer_with_another_layout_is_an_alarm(self):
        """It comes back with another place for sub-channel 2, while the plan is on 1; at the swap the plan is wrong,
        and at the next one it is not."""
        stc = (STC[0], (2, 28, 0x22, 12), STC[2])
        for form in FORMS:
            feed = self.started("run moves.code --in - --out - --state s")
            frames = self.stream(form, 20) + made(form, self.own(100, 20), 20, stc=stc) + made(form, self.own(20, 120), 120)
            found = feed.through(frames[:20])
            self.assertIn(b"\ndab_fits 1\n", self.read("s"))
            found += feed.through(frames[20:24])
            self.assertTrue(bridges.until(lambda: b'\ndab_fits 0\n' in self.read("s")))
            self.assertIn(b'\ndab_alarm{alarm="unfit"} 1\n', self.read("s"))
            found += feed.through(frames[24:])
            status, _, messages = feed.end()
            self.assertEqual(status, 0, messages)
            self.assertIn(b"\ndab_fits 1\n", self.read("s"))
            plan = bridges.fics(self.plan(140))
            wanted = made(form, b"".join(plan[:20])) + made(form, b"".join(plan[20:120]), 20, stc=stc) + made(form, b"".join(plan[120:]), 120)
            self.same(b"".join(wanted), b"".join(found), form)
            text = "sub 2: at 24 size 24 eep 3-A in the plan, at 28 size 24 eep 3-A in the multiplexer\n"
            for said in (f"frame 20: the plan will not fit the multiplexer: {text}",
                         f"frame 44: from the swap on the plan does not fit the multiplexer: {text}",
                         f"frame 88: the plan will not fit the multiplexer: {text}", "frame 120: the plan fits the multiplexer again\n"):
                self.assertIn(said, messages)

    def test_a_multiplexer_that_changes_is_told(self):
        for form in FORMS:
            frames = self.stream(form, 20) + made(form, self.own(20, 20), 20, stc=STC[1:])
            self.write("a", b"".join(frames))
            status, _, messages = self.bridge("run moves.code --in a --out b")
            self.assertEqual(status, 0, messages)
            self.assertIn("frame 20: the plan does not fit the multiplexer: sub 1: at 0 size 24 eep 3-A in the plan, not there in the multiplexer\n",
                          messages)

    def test_another_ensemble_or_mode(self):
        other = self.played(OWN.replace("E1C5", "E1C6"), "frames 20", "--count 2")
        for form in FORMS:
            self.write("b", b"")
            self.write("a", b"".join(made(form, other, 2)))
            self.assertEqual(self.bridge("run moves.code --in a --out b --log l"), (
                5, b"", "dabplan-bridge: moves.code: ensemble E1C5; that of the stream is E1C6\n"))
            self.write("a", b"".join(self.stream(form, 20, 0, 3)))
            self.assertEqual(self.bridge("run moves.code --in a --out b --log l"), (
                5, b"", "dabplan-bridge: moves.code: transmission mode 1; that of the stream is 3\n"))
            self.assertEqual(self.read("b"), b"")
            self.assertFalse((self.folder / "l").exists())
            self.write("a", b"".join(self.stream(form, 20) + made(form, self.played(OWN.replace("E1C5", "E1C6"), "frames 20", "--count 20"), 20)))
            status, _, messages = self.bridge("run moves.code --in a --out b")
            self.assertEqual(status, 0)
            self.assertEqual(messages.count("the ensemble of the stream is E1C6; that of the plan is E1C5"), 1)
            self.filled(form, self.read("b"), self.plan(40))


class Damaged(bridges.Case):
    """Frames that can't be filled, and frames with a wrong CRC."""

    def test_no_foreign_fic_goes_out(self):
        """Frames that can't be filled are replaced by nothing; the plan's frames have their counts all the same."""
        for form in FORMS:
            frames, plan = self.stream(form, 120), bridges.fics(self.plan(120))
            whole = list(frames)
            start = 24 if form == "eti" else 40
            gone = {}
            for number in (10, 11, 12):
                gone[number] = bytes(len(frames[number]))
            gone[30] = frames[30][:start - 5] + bytes(5) + frames[30][start:]     # header and count
            if form == "eti":
                head = frames[50][4:5] + bytes([frames[50][5] & 0x7F]) + frames[50][6:22]
                gone[50] = frames[50][:4] + head + bridges.crc(head) + frames[50][24:]      # no FIC
                gone[60] = frames[60][:2] + b"\0" + frames[60][3:]
            else:
                head = frames[50][:34] + bytes([frames[50][34] & 0xBF]) + frames[50][35:-2]
                gone[50] = head + bridges.crc(head)     # no FIC
                gone[60] = frames[60][:26] + b"detx" + frames[60][30:]
            for number, frame in gone.items():
                frames[number] = frame
            self.write("a", b"".join(frames))
            status, _, messages = self.bridge("run moves.code --in a --out b")
            self.assertEqual(status, 1, messages)
            wanted = b"".join(bridges.MAKERS[form](number, plan[number]) for number in range(120) if number not in gone)
            self.same(wanted, self.read("b"), f"{form}: {messages}")
            self.assertLessEqual(messages.count("nothing goes out for it"), 1, "told once")
            self.assertIn("could not be filled: nothing went out for them\n", messages)
            self.assertEqual(len(whole), 120)

    def test_a_wrong_crc_stays_wrong(self):
        for form in FORMS:
            frames, plan = self.stream(form, 60), self.plan(60)
            wanted = made(form, plan)
            at = -1 if form == "edi" else 24 + 96 + 216 + 1
            for each in (frames, wanted):
                for number in (20, 21, 41):
                    frame = bytearray(each[number])
                    frame[at] ^= 0x5A
                    each[number] = bytes(frame)
            self.write("a", b"".join(frames))
            status, _, messages = self.bridge("run moves.code --in a --out b")
            self.assertEqual(status, 0, messages)
            self.same(b"".join(wanted), self.read("b"), form)

    def test_synchronisation_comes_back(self):
        for form in FORMS:
            frames, plan = self.stream(form, 100), bridges.fics(self.plan(100))
            for what, data, lost in (
                    ("100 bytes too many", frames[:40] + [b"\x55" * 100] + frames[40:], range(0)),
                    ("a new writer in the middle of a frame", frames[:40] + [frames[40][:len(frames[40]) // 3]] + frames[41:], range(40, 41)),
                    ("bytes lost", frames[:40] + [frames[40][100:]] + frames[41:], range(40, 42))):
                self.write("a", b"".join(data))
                status, _, messages = self.bridge("run moves.code --in a --out b")
                self.assertEqual(status, 1, f"{what}: {messages}")
                wanted = [bridges.MAKERS[form](number, plan[number]) for number in range(100)]
                out = self.read("b")
                missing = [number for number in range(100) if wanted[number] not in out]
                self.assertTrue(set(missing) <= set(lost) or set(missing) <= {40, 41}, f"{form}, {what}: {missing}")
                self.same(b"".join(frame for number, frame in enumerate(wanted) if number not in missing), out, f"{form}, {what}")
                self.assertIn("could not be filled", messages)

    def test_a_stream_without_fig_0_0(self):
        for form in FORMS:
            self.write("a", b"".join(made(form, bridges.EMPTY_FIB * 3 * 40)))
            self.assertEqual(self.bridge("run moves.code --in a --out b --log l"), (1, b"", "dabplan-bridge: a: no FIG 0/0\n"))
            self.assertFalse((self.folder / "l").exists())
        self.write("a", b"")
        self.assertEqual(self.bridge("run moves.code --in a --out b"), (1, b"", "dabplan-bridge: a: no frames\n"))
        # A FIG 0/0 whose count is not that of its frame.
        self.write("a", b"".join(made("eti", self.own(20, 20), 12)))
        status, _, messages = self.bridge("run moves.code --in a --out b")
        self.assertEqual((status, messages), (1, "dabplan-bridge: frame 0: its FIG 0/0 has another count than the frame: it is passed over\n"
                                              "dabplan-bridge: 4 more FIG 0/0 that are passed over\ndabplan-bridge: a: no FIG 0/0\n"))
        self.write("a", b"".join(self.stream("eti", 20))[:-1])
        status, _, messages = self.bridge("run moves.code --in a --out b")
        self.assertEqual(status, 1)
        self.assertIn("a: not whole frames", messages)
        self.filled("eti", self.read("b"), self.plan(19))


if __name__ == "__main__":
    units.main()
