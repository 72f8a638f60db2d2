"""Parts of `bridge_simulation.py`: a clock that is set, a disk that is full, the plan's frames from `dabplan live`
alone, and a receiver.

Nothing here comes from the bridge: what FIBs say is decoded here, by the standard."""
import binascii
import calendar
import errno
import functools
import os
import re
import subprocess
import time

COUNTS = 5000
FRAME = 0.024
STC = ((1, 0, 0x22, 12), (2, 24, 0x22, 12), (3, 48, 0x22, 12))
PLAN = """\
ensemble E1C5
period 4 notice 24 budget 20
sub 1 at 0 eep 3-A 32
service C221
audio 63 sub 1 in C221
begin
forever {
wait contact 3 closed or 90
drop component sub 1 in C221
drop sub 1
sub 2 at 24 eep 3-A 32
audio 63 sub 2 in C221
commit in 24
join
wait contact 5 closed or 40
sub 3 at 48 eep 3-A 32
service C222
audio 63 sub 3 in C222
commit in 40
join
wait contact 3 open or 60
drop component sub 3 in C222
drop service C222
drop sub 3
drop component sub 2 in C221
drop sub 2
sub 1 at 0 eep 3-A 32
audio 63 sub 1 in C221
commit in 24
join
}
"""
OWN = """\
ensemble E1C5
period 4 notice 24 budget 20
sub 1 at 0 eep 3-A 32
sub 2 at 24 eep 3-A 32
sub 3 at 48 eep 3-A 32
service C2FF
audio 63 sub 1 in C2FF
audio 63 sub 2 in C2FF
audio 63 sub 3 in C2FF
begin
"""


def crc(data):
    """The two bytes of the CRC."""
    return (binascii.crc_hqx(data, 0xFFFF) ^ 0xFFFF).to_bytes(2, "big")


class Maker:
    """Makes the frames of the multiplexer: each has a serial number where the standards have MNSC."""

    def __init__(self, form, fics):
        self.form = form
        self._fics = fics
        self._parts = {}

    def frame(self, count, serial):
        """The frame of a count."""
        parts = self._parts.get(count)
        if parts is None:
            parts = self._parts[count] = (eti_parts if self.form == "eti" else edi_parts)(count, self._fics[count])
        head, rest = parts
        number = (serial & 0xFFFF).to_bytes(2, "big")
        if self.form == "eti":
            return head + number + crc(head[4:] + number) + rest
        packet = head + number + rest
        return packet + crc(packet)

    @property
    def serial_at(self):
        """The offsets of the serial number."""
        at = 8 + 4 * len(STC) if self.form == "eti" else 38
        return range(at, at + 2)

    def serial(self, frame):
        """The serial number of a frame, modulo 65,536."""
        return int.from_bytes(frame[self.serial_at.start:self.serial_at.stop], "big")

    def fic(self, frame):
        """The FIC of a frame."""
        at = 8 + 4 * len(STC) + 4 if self.form == "eti" else 40
        return frame[at:at + 96]


def eti_parts(count, fic):
    """A frame of ETI(NI) before its MNSC, and behind the CRC of its header."""
    entries = b"".join((sub << 26 | start << 16 | level << 10 | words).to_bytes(4, "big") for sub, start, level, words in STC)
    main = fic + bytes([count % 251]) * (8 * sum(words for *_, words in STC))
    head = bytes([count % 250, 0x80 | len(STC)]) + (count % 8 << 13 | 1 << 11 | len(STC) + 1 + len(main) // 4).to_bytes(2, "big") + entries
    rest = main + crc(main) + b"\xff" * 6
    head = b"\xff" + (b"\x07\x3a\xb6", b"\xf8\xc5\x49")[count % 2] + head
    return head, rest + b"\x55" * (6144 - len(head) - 4 - len(rest))


def edi_parts(count, fic):
    """A packet of EDI before its MNSC, and behind it up to its CRC."""
    def tag(name, value):
        return name + (8 * len(value)).to_bytes(4, "big") + value
    items = tag(b"*ptr", b"DETI" + bytes(4))
    items += tag(b"deti", bytes([0x40 | count // 250, count % 250, 0xFF, 1 << 6 | count % 8 << 3, 0, 0]) + fic)
    for number, (sub, start, level, words) in enumerate(STC, 1):
        items += tag(b"est" + bytes([number]), (sub << 18 | start << 8 | level << 2).to_bytes(3, "big") + bytes([count % 251]) * (8 * words))
    items += bytes(-len(items) % 8)
    packet = b"AF" + len(items).to_bytes(4, "big") + (count % 65536).to_bytes(2, "big") + b"\x90T" + items
    return packet[:38], packet[40:]


class Clock:
    """The module `time` of the bridge: it says what it is set to."""

    def __init__(self):
        self.now = 1_000_000.0
        self.offset = 1_800_000_000.0

    def monotonic(self):
        """Seconds since some time."""
        return self.now

    def time(self):
        """Seconds since 1970."""
        return self.now + self.offset

    def __getattr__(self, name):
        return getattr(time, name)


class Disk:
    """The module `os` of the log: where it is full, a part of each line is written, and then nothing."""

    def __init__(self, chance):
        self.is_full = False
        self._chance = chance

    def write(self, file, data):
        """Writes to a file."""
        if self.is_full:
            if len(data) > 1 and self._chance.random() < 0.5:
                os.write(file, data[:self._chance.randrange(1, len(data))])
            raise OSError(errno.ENOSPC, "No space left on device")
        return os.write(file, data)

    def __getattr__(self, name):
        return getattr(os, name)


@functools.lru_cache(maxsize=65536)
def figs_of(fib):
    """The bodies of the FIGs of type 0 of a FIB; None where its CRC is wrong."""
    if crc(fib[:30]) != fib[30:]:
        return None
    found, at = [], 0
    while at < 30 and fib[at] != 0xFF:
        length = fib[at] & 0x1F
        if fib[at] >> 5 == 0:
            found.append(fib[at + 1:at + 1 + length])
        at += 1 + length
    return found


def entries_of(body):
    """The entries of a FIG 0/1 of long form, or of a FIG 0/2 of one component each, that the plans here have."""
    step = 4 if body[0] & 0x1F == 1 else 5
    return [(body[0] & 0x1F, body[at:at + step]) for at in range(1, len(body), step)]


def decoded(fic):
    """What a FIC says: its FIG 0/0 as (count, low of the swap or None), the entries of the current and of the next
    configuration. None where a CRC is wrong."""
    heads, current, following = [], set(), set()
    for at in range(0, len(fic), 32):
        bodies = figs_of(fic[at:at + 32])
        if bodies is None:
            return None
        for body in bodies:
            if body[0] & 0x1F == 0:
                heads.append(((body[3] & 0x1F) * 250 + body[4], body[5] if body[3] >> 6 else None))
            else:
                (following if body[0] & 0x80 else current).update(entries_of(body))
    return heads, current, following


class Receiver:
    """What a receiver makes of the frames: what is wrong with them, and which configuration it has."""

    WINDOW = 12
    """After so many frames it has all entries of a configuration: three periods of the plan."""

    def __init__(self):
        self.unannounced = []
        """Where entries came that no announcement had: frame and count."""
        self.in_gaps = 0
        """How often another configuration was found behind frames that are missing."""
        self.frames = 0
        self._current = None
        self._before = ()
        self._found, self._left = set(), self.WINDOW
        self._next, self._low = set(), None
        self._last = None

    def take(self, count, fic, is_gap):
        """Takes the FIC of a frame; returns what is wrong with it, or None."""
        self.frames += 1
        what = decoded(fic)
        if what is None:
            return "a FIB with a wrong CRC"
        heads, current, following = what
        if [head[0] for head in heads] != ([] if count % 4 else [count]):
            return f"{heads} in the frame of count {count}"
        if is_gap or (self._last is not None and count != (self._last + 1) % COUNTS):
            self._lose()
        self._last = count
        if self._low is not None and count % 250 == self._low:
            self._swap()
        for _, low in heads:
            self._announce(low)
        self._next |= following
        if self._low is None and following:
            return "entries of a next configuration without an announcement" if self._current is not None else None
        self._hear(current, count)
        return None

    def _announce(self, low):
        if low is None and self._low is not None:
            # The change flags are gone before the swap: receivers take over what was announced.
            self._lose()
        elif low is not None and self._low is None:
            self._low, self._next = low, set()

    def _swap(self):
        if self._current is not None:
            self._current = self._next
        self._next, self._low = set(), None
        self._found = set()

    def _lose(self):
        """Frames are missing: what is there is found again."""
        if self._current is not None:
            self._before = (self._current, self._next)
        self._current, self._found, self._left = None, set(), self.WINDOW
        self._next, self._low = set(), None

    def _hear(self, entries, count):
        if self._current is None:
            self._found |= entries
            self._left -= 1
            if not self._left:
                self._current = self._found
                self.in_gaps += bool(self._before) and self._current not in self._before
        elif not entries <= self._current:
            self.unannounced.append((self.frames, count))
            self._lose()


def first_steps(steps, frames):
    """The steps of so many frames."""
    found, left = [], frames
    for step in steps:
        if step.startswith("frames"):
            now = min(left, int(step.split()[1]))
            left -= now
            found += [f"frames {now}"] if now else []
            if not left:
                break
        else:
            found.append(step)
    return found


class Oracle:
    """The plan's own frames, by number, from `dabplan live` alone. `steps` are frames and contacts so far."""

    KEPT = 1500

    def __init__(self, program, code, first, steps=()):
        self.first = first
        self._words = [program, "live", code, "--count", str(first)]
        self._steps = list(steps)
        past = sum(int(step.split()[1]) for step in self._steps if step.startswith("frames"))
        self.made = max(0, past - self.KEPT)
        self._job = subprocess.Popen([*self._words, "--skip", str(self.made)], stdin=subprocess.PIPE, stdout=subprocess.PIPE, bufsize=0)
        self._kept = {}
        self._write("\n".join(self._steps))
        self._read(past - self.made)

    def given(self, line, number):
        """Contacts before the frame of a number."""
        if number < self.made:
            raise RuntimeError(f"a contact before frame {number}, but {self.made} are made")
        self.fic(number - 1)
        self._steps.append(line)
        self._write(line)

    def fic(self, number):
        """The FIC of a frame; None if it is not kept any more."""
        if number >= self.made:
            self._make(number + 1 - self.made)
        return self._kept.get(number)

    def configuration(self, number, is_current=False):
        """The entries of the configuration that receivers hold after the frame of a number, or of the one that is
        announced there; `is_current` for the one that holds in that frame, whatever is announced."""
        copy = Oracle(self._words[0], self._words[2], self.first, first_steps(self._steps, number + 1))
        try:
            return copy.settled(number, is_current)
        finally:
            copy.close()

    def settled(self, number, is_current):
        """The same, of an oracle that nobody needs any more."""
        first, low = max(0, number - 300), None
        start, at, before = first, first, None
        while at <= number or (low is not None and not is_current):
            if low is not None and (self.first + at) % 250 == low:
                start, low = at, None
            before = low
            heads = decoded(self.fic(at))[0]
            if at <= number or low is not None:
                low = heads[-1][1] if heads else low
            at += 1
        start, low = (number, before) if is_current else (start, None)
        found = set()
        for at in range(start, max(number, start + 12) + 1):
            if at > start and low is not None and (self.first + at) % 250 == low:
                break
            heads, current, _ = decoded(self.fic(at))
            low = heads[-1][1] if heads else low
            found |= current
        return found

    def _make(self, frames):
        self._steps.append(f"frames {frames}")
        self._write(self._steps[-1])
        self._read(frames)
        if len(self._steps) > 2 and self._steps[-2].startswith("frames") and frames == 1:
            self._steps[-2:] = [f"frames {int(self._steps[-2].split()[1]) + 1}"]

    def _write(self, text):
        self._job.stdin.write(text.encode() + b"\n")

    def _read(self, frames):
        for _ in range(frames):
            data = b""
            while len(data) < 96:
                piece = self._job.stdout.read(96 - len(data))
                if not piece:
                    raise RuntimeError("'dabplan live' has ended")
                data += piece
            self._kept[self.made] = data
            self._kept.pop(self.made - self.KEPT, None)
            self.made += 1

    @property
    def files(self):
        """Its descriptors."""
        return {self._job.stdin.fileno(), self._job.stdout.fileno()}

    @property
    def pid(self):
        """Its process."""
        return self._job.pid

    def close(self):
        """Ends it."""
        self._job.kill()
        self._job.wait()
        self._job.stdin.close()
        self._job.stdout.close()


def log_of(path):
    """What a log says, read here: the count of the first frame, the steps, the frames, the wall time of the last of
    them, and the frame whose configuration is held, or None; None without a log."""
    try:
        lines = [line.decode() for line in path.read_bytes().splitlines(True) if line.endswith(b"\n")]
    except FileNotFoundError:
        return None
    if not lines:
        return None
    first, steps, held, wall = 0, [], None, 0.0
    for line in lines:
        if line.startswith("# held") or line.startswith("# not held"):
            held = int(line.split()[2]) if line.startswith("# held") else None
        head = re.match(r"# dabplan-bridge: count (\d+)", line)
        first = int(head[1]) if head else first
        found = re.search(r" at (\d{4}-\d\d-\d\dT\d\d:\d\d:\d\d)(\.\d{3})Z", line)
        if found:
            wall = calendar.timegm(time.strptime(found[1], "%Y-%m-%dT%H:%M:%S")) + float(found[2])
        steps += re.findall(r"contact \d+ (?:closed|open)|frames \d+", line.split("#")[0])
    frames = sum(int(step.split()[1]) for step in steps if step.startswith("frames"))
    return first, steps, frames, wall, held


def compiled(program, folder):
    """Writes the code of the plan, p.code."""
    (folder / "p.plan").write_text(PLAN)
    subprocess.run([program, "compile", "p.plan", "p.code"], cwd=folder, check=True, stdout=subprocess.DEVNULL)


def own_fics(program, folder):
    """The FIC of the multiplexer for each count."""
    (folder / "own.plan").write_text(OWN)
    subprocess.run([program, "compile", "own.plan", "own.code"], cwd=folder, check=True, stdout=subprocess.DEVNULL)
    done = subprocess.run([program, "live", "own.code"], cwd=folder, check=True, input=b"frames 5000\n", stdout=subprocess.PIPE)
    return [done.stdout[at:at + 96] for at in range(0, len(done.stdout), 96)]


def foreign(maker, count, chance):
    """A packet of somebody else: whole, and with another count."""
    return maker.frame((count + chance.randrange(10, COUNTS - 10)) % COUNTS, chance.randrange(65536))
