#!/usr/bin/env python3
"""'dabplan play' and 'dabplan listen': listeners started at each frame of a playback. The last line is 'N
passed, M failed'."""
import rows
from codes import ADDED, AT_64, PROGRAMME, SMALL_SUBS, code

# Each mode: the FIBs of a frame, and the counts at which FIG 0/0 is sent.
MODES = ((1, 3, 4), (2, 3, 1), (3, 4, 1), (4, 3, 2))


def listing(kbits):
    """The listing of the programme at this rate, in kbit/s; nothing for 0."""
    size = {128: 96, 96: 72, 64: 48}.get(kbits)
    return f"sub 1 at 0 size {size} eep 3-A\nservice C221\n  audio 63 sub 1 primary\n" if kbits else ""


def subs(first):
    """The listing of the small sub-channels from this one on."""
    return "".join(f"sub {number} at {4 * number} size 4 eep 4-A\n" for number in range(first, 64))


class Playback:
    """The bytes of frames from a count on, and the frames at which notices begin and swaps are made, with the current
    configuration from each swap on."""

    def __init__(self, rows, mode, file, events, count, notices, swaps, period=4, day=0):
        self.rows, (_, self.fibs, self.step) = rows, next(each for each in MODES if each[0] == mode)
        rows.run(f"play x.code x.events x.fib --count {count} --day {day}", {"x.code": file, "x.events": events})
        self.bytes, self.count, self.period = rows.made("x.fib") or b"", count, period
        self.notices, self.swaps = notices, swaps
        self.frames = len(self.bytes) // (32 * self.fibs)

    def current(self, frame):
        """The current configuration in this frame."""
        return [reported for first, reported in self.swaps if first <= frame][-1]

    def decodes(self, first, end):
        """A listener of the frames from one up to another knows the current configuration in the last of them."""
        reported = self.rows.run("listen x.fib", {"x.fib": self.bytes[32 * self.fibs * first:32 * self.fibs * end]})
        reported = reported.printed.decode().split("current\n")[-1].split("next\n")[0]
        self.rows.tally.same(f"frames {first} to {end} from count {self.count}", self.current(end - 1), reported)

    def is_heard(self):
        """A listener that is started at any frame knows the current configuration after each period of a phase that it was
        tuned in, and from the frame of a swap on whose notice it heard completely."""
        begins = sorted({0, *self.notices, *(first for first, _ in self.swaps)})
        for first in range(self.frames - self.period - self.step + 1):
            tuned = next(frame for frame in range(first, self.frames) if (self.count + frame) % 5000 % self.step == 0)
            end = tuned + self.period
            if not any(tuned < begin < end for begin in begins):
                self.decodes(first, end)
            for notice, (swap, _) in zip(self.notices, self.swaps[1:]):
                if tuned <= notice:
                    self.decodes(first, swap + 1)


def first_swaps(rows):
    """A programme is put on the air in 24 frames, from count 4990 on."""
    for mode, swap in ((1, 26), (2, 24), (3, 24), (4, 24)):
        file = code(f"{ADDED}, commit in 24, join, end", "0 cost 6", mode=mode)
        Playback(rows, mode, file, "frames 60", 4990, [swap - 24], [(0, ""), (swap, listing(128))]).is_heard()


def swaps_at_a_count(rows):
    """The swap is a whole cycle of the count away: its last 80 frames are heard."""
    for mode, *_ in MODES:
        file = code(f"{ADDED}, commit at 1000, join, end", "0 cost 6", mode=mode)
        playback = Playback(rows, mode, file, "frames 5020", 1000, [36], [(0, ""), (60, listing(128))])
        playback.bytes, playback.count = playback.bytes[32 * playback.fibs * 4940:], 940
        playback.frames = 80
        playback.is_heard()


def swaps_there_and_back(rows):
    """A contact lowers the rate of a programme, and raises it again."""
    events = "frames 1 contact 3 closed contact 3 open contact 3 closed frames 39 contact 3 open frames 30"
    for mode, there, back in ((1, 28, 64), (2, 25, 64), (3, 25, 64), (4, 26, 64)):
        file = code("wait contact 3 closed, rate sub 1 96, commit in 24, join, wait contact 3 open, rate sub 1 128, "
                    "commit in 24, join, jump 0", "0 cost 1", [PROGRAMME], mode=mode)
        Playback(rows, mode, file, events, 0, [there - 24, back - 24],
                 [(0, listing(128)), (there, listing(96)), (back, listing(128))]).is_heard()


def swaps_that_are_settled(rows):
    """The script waits for contact 3 in a notice: it is closed at the start, or after the swap. The second swap follows the
    first at once, or the frame in which the contact is found closed."""
    for mode, late in ((1, 56), (2, 54), (3, 54), (4, 54)):
        file = code("rate sub 1 64, commit in 24, wait contact 3 closed, settle, rate sub 1 96, commit in 24, settle, end",
                    "0 cost 5", [PROGRAMME], mode=mode)
        for events, second in (("contact 3 closed frames 70", 48), ("frames 30 contact 3 closed frames 40", late)):
            Playback(rows, mode, file, events, 0, [0, second - 24],
                     [(0, listing(128)), (24, listing(64)), (second, listing(96))]).is_heard()


def swaps_while_an_hour_comes(rows):
    """The script waits for a frame of the day in the notice; contact 1 is closed, or open."""
    for mode, *_ in MODES:
        file = code("rate sub 1 64, commit in 24, until 3300000, test 1 5, wait 1, settle, end",
                    "0 cost 3, 5 of 0 1 perhaps 26 cost 2", [PROGRAMME, AT_64], mode=mode)
        for events in ("frames 40", "contact 1 closed frames 40"):
            Playback(rows, mode, file, events, 0, [0], [(0, listing(128)), (24, listing(64))], day=3299990).is_heard()


def swaps_of_many_pages(rows):
    """One of 64 sub-channels is dropped."""
    for mode, *_ in MODES:
        file = code("drop sub 0, commit in 24, join, end", "0 cost 3", [SMALL_SUBS], mode=mode, period=7, notice=21)
        Playback(rows, mode, file, "frames 60", 0, [3], [(0, subs(0)), (24, subs(1))], period=7).is_heard()


if __name__ == "__main__":
    rows.main([first_swaps, swaps_at_a_count, swaps_there_and_back, swaps_that_are_settled, swaps_while_an_hour_comes,
               swaps_of_many_pages])
