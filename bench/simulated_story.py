"""The story of `bridge_simulation.py`: what happens to a multiplexer, a network and the bridge, and what has to come of
it."""
import enum
import random

from simulated_parts import COUNTS, FRAME, Clock, Disk, Maker, Oracle, Receiver, decoded, foreign, log_of, own_fics

NEAR = 250
"""Steps up to this are what the count says."""
KEPT = 700
"""So many frames back a count may step."""
JITTER = 90
"""The frames by which a multiplexer that is started again may be off: 2.2 s."""
TOLERANCE = 3.0
PATIENCE = 3000
"""The frames after which a plan that was held has to go on, where counts and clock agree."""


class Killed(Exception):
    """The bridge is killed here."""


def step_of(frames):
    """A number of frames as a step of the count."""
    return (frames + COUNTS // 2) % COUNTS - COUNTS // 2


def by_clock(step, seconds):
    """The number of frames of a step that last so many seconds; None if there is none within the tolerance."""
    turns = round((seconds - step * FRAME) / (COUNTS * FRAME))
    frames = step + COUNTS * turns
    return frames if abs(frames * FRAME - seconds) <= TOLERANCE else None


def apart(frames, seconds):
    """The seconds by which frames and a time differ, modulo the turns of the counts."""
    turn = COUNTS * FRAME
    return abs((frames * FRAME - seconds + turn / 2) % turn - turn / 2)


class Mode(enum.Enum):
    """What a frame of the multiplexer has to get."""

    PLAN = 0
    HELD = 1
    EITHER = 2
    """What is held, until the plan can go on."""


class Due:
    """What has to come of a frame of the multiplexer."""

    def __init__(self, serial, count, offset, mode, must):
        self.serial, self.count, self.mode, self.must = serial, count, mode, must
        self.offset = offset
        """The number of the plan's frame less that of the life's base."""
        self.now = None
        """When it came."""
        self.is_out = False


class World:
    """A multiplexer and all that happens, by a seed. For the bridge it is its FIFO of contacts, too."""

    def __init__(self, seed, frames, folder, program):
        self.chance = random.Random(seed)
        self.program, self.code, self.log = program, folder / "p.code", folder / "log"
        self.clock, self.disk = Clock(), Disk(self.chance)
        self.form = "edi" if seed % 3 else "eti"
        self.is_of_datagrams = seed % 3 == 2
        self.maker = Maker(self.form, own_fics(program, folder))
        self.receiver = Receiver()
        self.oracle = None
        self.frames_in = self.frames_out = self.held = self.lives = self.holds = self.contacts = 0
        self.wrong = []
        self._most = frames
        self._life = None
        self._count = self.chance.randrange(COUNTS)
        self._offset = 0
        self._anchor = (0, 0.0, 0)
        """The last frame that was explained: its number, when it came, and its count."""
        self._is_explained = True
        self._due = {}
        self._base = self._true = None
        self._waiting = []
        self._entries, self._next, self._low = None, set(), None
        """What is held, and what is announced while it is."""
        self._kept = None
        """What was held when a life ended; None if nothing was, or not all of it is in the log."""
        self._pieces = []
        self._clean = 0
        self._returning = 0
        self._is_gap = False
        self._highest = self._least = self._start = 0

    def told(self):
        """What was found."""
        return (f"{self.frames_in} frames in, {self.frames_out} out, {self.held} of them held in {self.holds} holds, {self.lives} starts, "
                f"{self.contacts} contacts; other configurations behind gaps {self.receiver.in_gaps}, unannounced swaps "
                f"{len(self.receiver.unannounced)}, wrong {len(self.wrong)}")

    # The bridge's life.

    def begins(self, life):
        """A bridge is there: what its log says is what it has to do."""
        self._life, self._base, self._past = life, None, log_of(self.log)
        self.lives += 1
        self._due, self._pieces, self._is_gap = {}, [], True
        self._clean, self._start = 12, self.frames_in
        self._is_explained, self._returning = True, 0
        if self.oracle is not None:
            self.oracle.close()
            self.oracle = None
        if self._past is not None:
            first, steps, _, _, _ = self._past
            self.oracle = Oracle(self.program, str(self.code), first, steps)

    def ended(self, is_whole, is_holding):
        """The bridge is gone: the multiplexer goes on meanwhile. `is_whole` says whether its log had all, `is_holding`
        whether a configuration was held."""
        for due in list(self._due.values()):
            if due.serial < self.frames_in - 10:
                self._miss(due)
        self._true = self._base if is_whole and self._is_explained else None
        self._kept = self._entries if is_whole and is_holding else None
        self.disk.is_full = False
        if self.chance.random() < 0.1:
            self._true = self._kept = None
            self._tear()
        seconds = self.chance.choice([0.5, 1.0, 2.0, 5.0, 60.0, 120.0, 300.0, 4000.0])
        frames = round(seconds / FRAME)
        self._waiting.clear()
        self.clock.now += seconds
        self._pass(frames, frames)

    def _tear(self):
        """The last line of the log is cut short, as by a kill within it."""
        data = self.log.read_bytes() if self.log.exists() else b""
        if data.count(b"\n") > 2:
            last = data.rstrip(b"\n").rfind(b"\n") + 1
            if data[last:].startswith(b"frames"):
                self.log.write_bytes(data[:self.chance.randrange(last, len(data))])

    # Contacts, as the bridge's FIFO has them.

    def lines(self):
        """The lines of contacts since the last call."""
        found, self._waiting = self._waiting[:16], self._waiting[16:]
        for line in found:
            self.contacts += 1
            if self.oracle is None:
                self.oracle = Oracle(self.program, str(self.code), self._life.first)
            self.oracle.given(line, self._life.made)
        return [line.encode() for line in found]

    def close(self):
        """Nothing is open."""

    # What comes in.

    def next_piece(self):
        """The next bytes."""
        while not self._pieces:
            if self._clean > 0:
                self._clean -= 1
                self._emit()
            else:
                self._event()
        seconds, data, due = self._pieces.pop(0)
        self.clock.now += seconds
        if due is not None:
            due.now = self.clock.now
            self._now = due
            self._due[due.serial & 0xFFFF] = due
            old = self._due.get(due.serial - 60 & 0xFFFF)
            if old is not None and old.serial == due.serial - 60:
                self._miss(old)
        return data

    def _emit(self, seconds=FRAME, must=True):
        """A frame of the multiplexer; `must` says whether it has to go out."""
        mode = Mode.EITHER if self._returning else Mode.PLAN if self._is_explained else Mode.HELD
        due = Due(self.frames_in, self._count, self._offset, mode, must)
        self._pieces.append((seconds, self.maker.frame(self._count, self.frames_in), due))
        self.frames_in += 1
        self._pass(1, 1)
        return due

    def _pass(self, frames, numbers):
        """So many frames are not sent, and the plan has so many."""
        self._count = (self._count + frames) % COUNTS
        self._offset += numbers

    def _event(self):
        """Something happens."""
        if self.frames_in >= self._most:
            raise Killed
        self._clean = self.chance.choice([8, 20, 60, 150, 400, 800])
        if self.chance.random() < 0.4:
            self._contact()
        if self._returning:
            self._returning -= 1
            if self._returning == 0:
                self.wrong.append(f"frame {self.frames_in}: the plan does not go on")
                self._is_explained = True
            self._clean = 1
        elif not self._is_explained:
            self.chance.choice([self._jump, self._restart, self._restart, self._kill])()
        else:
            self.chance.choice([self._lose, self._back, self._restart_near, self._restart_near, self._pause, self._jump, self._stall,
                                self._noise, self._noise, self._contact, self._contact, self._contact, self._fill_disk, self._kill])()

    def _lose(self):
        """Frames are lost on the way."""
        frames = self.chance.randrange(1, NEAR)
        self._pass(frames, frames)
        self._later(frames * FRAME)

    def _back(self):
        """The count steps back."""
        frames = self.chance.randrange(1, NEAR)
        if self.form == "edi" and self._base is not None and self._number() - frames > max(self._highest - KEPT, self._least):
            self._pass(-frames, -frames)
            self._later(FRAME)

    def _restart_near(self):
        """The multiplexer is started again: its count is that of the clock, or nearly."""
        seconds = self.chance.choice([0.5, 2.0, 5.0, 20.0, 60.0, 100.0, 120.0, 240.0, 1000.0]) + self.chance.random()
        frames = round(seconds / FRAME) + self.chance.randrange(-JITTER, JITTER + 1)
        step = step_of(frames)
        if self.form == "eti" and (step % 250 == 0 or step < 0):
            return
        numbers = step if abs(step) <= NEAR else frames
        if self._base is None or self._number() + numbers <= max(self._highest - KEPT, self._least):
            return
        self._pass(frames, numbers)
        self._later(seconds)
        self._clean += 140

    def _pause(self):
        """The multiplexer pauses, and goes on with the next count."""
        self._later(self.chance.choice([1.0, 30.0, 118.5, 119.9, 120.0, 121.5, 240.0, 500.0]))
        self._clean += 140

    def _jump(self):
        """The count is any other one, which the time does not explain."""
        seconds = self.chance.choice([0.024, 1.0, 5.0])
        step = self.chance.randrange(NEAR + 1, COUNTS - NEAR)
        elapsed = self.clock.now + seconds - self._anchor[1]
        since = (self._count + step - self._anchor[2]) % COUNTS
        if apart(since, elapsed) < 11 or apart(step, seconds) < 11 or self.form == "eti" and step % 250 == 0 or self._base is None:
            return
        if self._is_explained:
            self._entries = None
            self.holds += 1
        self._is_explained = False
        self._pass(step, 0)
        self._later(seconds)
        self._clean += 40

    def _restart(self):
        """The multiplexer is started again, as the clock has it since the last frame that was explained."""
        number, then, count = self._anchor
        seconds = self.chance.choice([0.5, 3.0, 30.0])
        frames = round((self.clock.now + seconds - then) / FRAME) + self.chance.randrange(-JITTER, JITTER + 1)
        new = (count + frames) % COUNTS
        if self.form == "eti" and (new - self._count) % 250 == 0:
            return
        self._count, self._offset = new, number + frames - (self._base or 0)
        self._returning = PATIENCE
        self._later(seconds)

    def _stall(self):
        """The bridge stands still; what waited for it comes at once, and the rest is lost."""
        seconds = self.chance.choice([0.5, 2.0, 20.0, 60.0, 90.0])
        waiting = self.chance.randrange(0, int(seconds / FRAME) + 1)
        self._later(seconds)
        for _ in range(waiting):
            self._emit(0.0001)
        lost = max(0, round(seconds / FRAME) - waiting)
        if self.form == "eti" and lost % 250 == 0:
            lost += 1
        self._pass(lost, lost)
        self._clean = max(self._clean, 140)

    def _noise(self):
        """A frame is damaged, comes twice or late, or bytes of others come between."""
        kind = self.chance.randrange(5)
        if self.is_of_datagrams and kind < 3:
            self._datagrams(kind)
            return
        due = self._emit(must=False)
        seconds, data, _ = self._pieces.pop()
        if kind == 0 and not self.is_of_datagrams:
            data = self.chance.randbytes(self.chance.randrange(1, 500)) + data
        elif kind == 1 and not self.is_of_datagrams:
            data = data[:self.chance.randrange(1, len(data))]
        else:
            damaged = bytearray(data)
            for _ in range(self.chance.randrange(1, 8)):
                at = self.chance.randrange(len(damaged))
                damaged[at] ^= self.chance.randrange(1, 256) if at not in self.maker.serial_at else 0
            data = bytes(damaged)
        self._pieces.append((seconds, data, due))
        for _ in range(6):
            self._emit(must=False)
        self._clean += 8

    def _datagrams(self, kind):
        """Datagrams of others, one twice, two that change places."""
        if kind == 0:
            for data in (self.chance.randbytes(self.chance.randrange(0, 300)), foreign(self.maker, self._count, self.chance)):
                self._pieces.append((0.001, data, None))
            self._emit()
        elif kind == 1:
            self._emit()
            self._pieces.append((0.0, self._pieces[-1][1], None))
        else:
            self._emit()
            self._emit()
            self._pieces[-1], self._pieces[-2] = self._pieces[-2], self._pieces[-1]
        self._clean += 8

    def _contact(self):
        """Somebody gives a contact."""
        self._waiting.append(f"contact {self.chance.choice([3, 5, 9])} {self.chance.choice(['closed', 'open'])}")

    def _fill_disk(self):
        """The disk of the log is full, or has room again."""
        self.disk.is_full = not self.disk.is_full

    def _kill(self):
        """The bridge is killed."""
        raise Killed

    def _later(self, seconds):
        """The next frame comes so much later, and not by what noise has left of the one before."""
        self._emit(seconds)
        self._clean = max(self._clean, 12)

    # What comes out.

    def _number(self):
        """The number of the plan's frame that is due."""
        return self._base + self._offset

    def came_out(self, data):
        """Compares a frame that goes out."""
        self.frames_out += 1
        serial, fic = self.maker.serial(data), self.maker.fic(data)
        due = self._due.get(serial)
        if due is None:
            self.wrong.append(f"frame {self.frames_in}: a frame goes out that never came, serial {serial}")
            return
        due.is_out = True
        if self._base is None:
            self._settle(due)
        what = self._held(due, fic) if self._life.is_holding else self._planned(due, fic)
        if what:
            self.wrong.append(f"frame {due.serial} of count {due.count}, {self.lives} starts: {what}")
        wrong = self.receiver.take(due.count, fic, self._is_gap)
        self._is_gap = False
        if wrong:
            self.wrong.append(f"frame {due.serial}: {wrong}")
        for frame, count in self.receiver.unannounced:
            self.wrong.append(f"frame {due.serial}: an unannounced swap at count {count}, after {frame} frames")
        self.receiver.unannounced.clear()

    def _miss(self, due):
        """A frame has to be out by now, but for the first ones of a life."""
        del self._due[due.serial & 0xFFFF]
        if due.must and not due.is_out and due.serial >= self._start + 4:
            self.wrong.append(f"frame {due.serial} of count {due.count}: nothing goes out for it")

    def _settle(self, due):
        """The first frame of a life: which one of the plan it has."""
        if self._past is None:
            self._base, self._least, self._highest = -due.offset, 0, 0
            if self.oracle is None:
                self.oracle = Oracle(self.program, str(self.code), due.count)
            return
        first, _, frames, wall, is_held = self._past
        seconds = due.now + self.clock.offset - wall
        missed = by_clock(step_of(due.count - first - frames), seconds)
        agrees = missed is not None and missed >= -min(NEAR, frames)
        self._least, self._highest = max(0, frames - KEPT), frames - 1
        self._base = frames + missed - due.offset if agrees else -due.offset
        if agrees and is_held is None:
            if self._true is not None and self._base != self._true:
                self.wrong.append(f"frame {due.serial}: after a start the plan is {self._base - self._true} frames ahead")
            return
        self._anchor = (frames - 1, wall - self.clock.offset, (first + frames - 1) % COUNTS)
        self._entries = self.oracle.configuration(frames - 1 if is_held is None else is_held, is_held is not None)
        if is_held is not None and self._kept is not None and self._entries != self._kept:
            self.wrong.append(f"frame {due.serial}: after a start another configuration is held than before it")
        self._next, self._low = set(), None
        self.holds += 1
        self._is_explained, self._returning = False, PATIENCE if agrees else 0
        for each in self._due.values():
            each.mode = Mode.EITHER if agrees else Mode.HELD

    def _planned(self, due, fic):
        """A frame of the plan; returns what is wrong with it."""
        if due.mode is Mode.HELD:
            return "the count is not explained, and the plan goes on"
        if due.mode is Mode.EITHER:
            self._is_explained, self._returning = True, 0
        number = self._base + due.offset
        self._anchor, self._highest = (number, due.now, due.count), max(number, self._highest)
        wanted = self.oracle.fic(number)
        if wanted is None:
            return f"frame {number} of the plan is not kept here"
        return "" if wanted == fic else f"other FIBs than those of frame {number}"

    def _held(self, due, fic):
        """A frame of what is held; returns what is wrong with it."""
        self.held += 1
        if due.mode is Mode.PLAN:
            return "the count is explained, and the plan does not go on"
        if self._entries is None:
            self._entries = self.oracle.configuration(self._highest)
            self._next, self._low = set(), None
        if self._low is not None and due.count % 250 == self._low:
            self._entries, self._next, self._low = self._next, set(), None
        heads, current, following = decoded(fic) or ([], {"a wrong CRC"}, set())
        for _, low in heads:
            if low is not None and self._low is None:
                self._low, self._next = low, set()
        self._next |= following
        if (following or self._low is not None) and due.mode is Mode.HELD:
            return "a change is announced while counts are not explained"
        return "" if current <= self._entries else f"entries that are not held: {sorted(current - self._entries)}"
