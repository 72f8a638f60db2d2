"""Shared by the scripts of tests/cli/bridge/: streams of ETI and EDI that are made byte by byte, and the bridge over
them.

Nothing here comes from the bridge: what it has to write is computed from the standards, and from the frames of `dabplan
play`."""
import collections
import functools
import lzma
import os
import pathlib
import random
import select
import shutil
import socket
import subprocess
import sys
import tempfile
import time
import unittest

import common

FOLDER = common.TOP / "bridge"
BRIDGE = FOLDER / "dabplan-bridge"
ETI = 6144
# Sub-channels of the multiplexer: SubChId, first capacity unit, TPL (3-A), and words of 64 bits a frame (12: 32
# kbit/s).
STC = ((1, 0, 0x22, 12), (2, 24, 0x22, 12), (63, 850, 0x23, 3))
# A service that moves to another sub-channel and back, every 44 frames or some more.
MOVES = """\
ensemble E1C5
period 4 notice 24 budget 20
sub 1 at 0 eep 3-A 32
service C221
audio 63 sub 1 in C221
begin
forever {
wait 20
drop component sub 1 in C221
drop sub 1
sub 2 at 24 eep 3-A 32
audio 63 sub 2 in C221
commit in 24
join
wait 20
drop component sub 2 in C221
drop sub 2
sub 1 at 0 eep 3-A 32
audio 63 sub 1 in C221
commit in 24
join
}
"""
# The same by a contact.
CONTACTS = MOVES.replace("wait 20", "wait contact 3 closed", 1).replace("wait 20", "wait contact 3 open", 1)
# The FIC of the multiplexer itself: another configuration of the same ensemble.
OWN = """\
ensemble E1C5
period 4 notice 24 budget 20
sub 1 at 0 eep 3-A 32
sub 2 at 24 eep 3-A 32
sub 63 at 850 eep 4-A 8
service C2FF
audio 63 sub 1 in C2FF
audio 63 sub 2 in C2FF
audio 63 sub 63 in C2FF
begin
"""
# The seconds after which something does not come any more, on a machine with much else to do.
PATIENCE = 120.0
# What keeps the last ports for this script.
CLAIMS = collections.deque(maxlen=300)
EMPTY_FIB = bytes.fromhex("FF" + "00" * 29 + "A8A8")
# A time stamp of EDI that has no time: SECONDS is 0 (TS 102 693).
NO_TIME = b"\x05" + bytes(7)


def table():
    """The table of the CRC x^16 + x^12 + x^5 + 1."""
    found = []
    for byte in range(256):
        register = byte << 8
        for _ in range(8):
            register = register << 1 & 0xFFFF ^ (0x1021 if register >> 15 else 0)
        found.append(register)
    return found


TABLE = table()


def crc(data):
    """The two bytes of that CRC, started with ones and inverted."""
    register = 0xFFFF
    for byte in data:
        register = register << 8 & 0xFFFF ^ TABLE[register >> 8 ^ byte]
    return (register ^ 0xFFFF).to_bytes(2, "big")


def fib(figs):
    """A FIB of the hexadecimal digits of FIGs."""
    data = bytes.fromhex(figs)
    data = data if len(data) == 30 else (data + b"\xff").ljust(30, b"\0")
    return data + crc(data)


def size_of(mode):
    """The bytes of a FIC in a mode."""
    return 128 if mode == 3 else 96


def streams_of(count, stc=STC):
    """The bytes of all streams of a frame, random by its count."""
    return random.Random(count).randbytes(8 * sum(words for *_, words in stc))


@functools.lru_cache(maxsize=4096)
def eti_frame(count, fic, mode=1, stc=STC, rest=b"\x00\x01\x02\x03"):
    """A frame of ETI(NI) with this CIF count."""
    entries = b"".join((sub << 26 | start << 16 | level << 10 | words).to_bytes(4, "big") for sub, start, level, words in stc)
    main = fic + streams_of(count, stc)
    length = len(stc) + 1 + len(main) // 4
    head = bytes([count % 250, 0x80 | len(stc)]) + (count % 8 << 13 | mode % 4 << 11 | length).to_bytes(2, "big")
    head += entries + b"\x12\x34"
    frame = b"\xff" + (b"\x07\x3a\xb6", b"\xf8\xc5\x49")[count % 2] + head + crc(head) + main + crc(main) + b"\xff\xff" + rest
    return frame + b"\x55" * (ETI - len(frame))


@functools.lru_cache(maxsize=4096)
def edi_packet(count, fic, mode=1, stc=STC, stamp=b""):
    """A packet of EDI with this CIF count; its sequence number is the count too. `stamp` is a time stamp, if any."""
    def tag(name, value):
        return name + (8 * len(value)).to_bytes(4, "big") + value
    flags = (0x80 if stamp else 0) | 0x40
    deti = bytes([flags | count // 250, count % 250, 0xFF, mode % 4 << 6 | count % 8 << 3, 0x12, 0x34]) + stamp + fic
    items, streams, at = tag(b"*ptr", b"DETI" + bytes(4)) + tag(b"deti", deti), streams_of(count, stc), 0
    for number, (sub, start, level, words) in enumerate(stc, 1):
        head = (sub << 18 | start << 8 | level << 2).to_bytes(3, "big")
        items += tag(b"est" + bytes([number]), head + streams[at:at + 8 * words])
        at += 8 * words
    items += bytes(-len(items) % 8)
    packet = b"AF" + len(items).to_bytes(4, "big") + count.to_bytes(2, "big") + b"\x90T" + items
    return packet + crc(packet)


MAKERS = {"eti": eti_frame, "edi": edi_packet}


def made(form, fic, count=0, mode=1, **others):
    """The frames of a FIC, from this count on."""
    size = size_of(mode)
    return [MAKERS[form]((count + number) % 5000, fic[at:at + size], mode, **others)
            for number, at in enumerate(range(0, len(fic), size))]


def fics(fic, mode=1):
    """The FIC of each frame."""
    return [fic[at:at + size_of(mode)] for at in range(0, len(fic), size_of(mode))]


def unpacked(path):
    """The bytes of a file that is packed by xz."""
    return lzma.decompress(path.read_bytes())


def is_free(port, kind):
    """Whether nobody has a port of the loopback address."""
    with socket.socket(socket.AF_INET, kind) as found:
        try:
            found.bind(("127.0.0.1", port))
        except OSError:
            return False
    return True


def free_port(kind=socket.SOCK_STREAM):
    """A port of the loopback address that nobody has, and that nobody gets by chance before it is used: it is none of
    those that the system gives out by itself, and no other script that runs meanwhile gets it here."""
    with open("/proc/sys/net/ipv4/ip_local_port_range", encoding="ascii") as file:
        last = int(file.read().split()[0]) - 1
    for port in random.sample(range(10_000, last), 500):
        claim = socket.socket(socket.AF_UNIX, socket.SOCK_STREAM)
        try:
            # A name without a file, which goes with this process.
            claim.bind(f"\0port {port} of a test of dabplan-bridge")
        except OSError:
            claim.close()
            continue
        if is_free(port, kind):
            CLAIMS.append(claim)
            return port
        claim.close()
    raise RuntimeError("no free port")


def until(holds, seconds=PATIENCE):
    """Waits until something holds; returns whether it does."""
    end = time.monotonic() + seconds
    while not holds() and time.monotonic() < end:
        time.sleep(0.01)
    return bool(holds())


def connected(port, seconds=PATIENCE):
    """A connection to a port of the loopback address, as soon as there is one."""
    end = time.monotonic() + seconds
    while True:
        try:
            return socket.create_connection(("127.0.0.1", port), 5)
        except ConnectionRefusedError:
            if time.monotonic() > end:
                raise
            time.sleep(0.02)


def read_within(descriptor, size, seconds=PATIENCE):
    """So many bytes of a descriptor, fewer if they do not come in time or it ends."""
    found, end = b"", time.monotonic() + seconds
    while len(found) < size and select.select([descriptor], [], [], max(0, end - time.monotonic()))[0]:
        piece = os.read(descriptor, size - len(found))
        if not piece:
            break
        found += piece
    return found


class Running:
    """A bridge that runs, whose standard input gets frames."""

    def __init__(self, words, folder, **options):
        self.job = subprocess.Popen([sys.executable, str(BRIDGE), *words], cwd=folder, stdin=subprocess.PIPE, stdout=subprocess.PIPE,
                                    stderr=subprocess.PIPE, bufsize=0, **options)

    def give(self, frames):
        """Gives it frames."""
        self.job.stdin.write(b"".join(frames))

    def get(self, size, seconds=PATIENCE):
        """So many bytes of its output."""
        return read_within(self.job.stdout.fileno(), size, seconds)

    def through(self, frames):
        """Gives it frames, one after the other, and returns what comes for each."""
        found = []
        for frame in frames:
            self.give([frame])
            found.append(self.get(len(frame)))
        return found

    def children(self):
        """The processes that it started."""
        return [int(pid) for pid in
                subprocess.run(["ps", "-o", "pid=", "--ppid", str(self.job.pid)], capture_output=True, text=True, check=False).stdout.split()]

    def end(self, number=None):
        """Ends its input, or sends a signal; returns its status, what it wrote still, and its messages."""
        if number is None:
            self.job.stdin.close()
        else:
            self.job.send_signal(number)
        try:
            rest, messages = self.job.stdout.read(), self.job.stderr.read().decode()
            return self.job.wait(PATIENCE), rest, messages
        finally:
            self.job.kill()
            for pipe in (self.job.stdin, self.job.stdout, self.job.stderr):
                pipe.close()


class Case(unittest.TestCase):
    """A folder with the codes of MOVES and CONTACTS, `moves.code` and `contacts.code`, and the bridge."""

    maxDiff = 1000
    program = None

    @classmethod
    def setUpClass(cls):
        cls.program = str(common.dabplan())
        cls.codes = tempfile.TemporaryDirectory()
        for name, script in (("moves", MOVES), ("contacts", CONTACTS), ("moves3", MOVES.replace("E1C5", "E1C5 mode 3"))):
            cls.compile(cls.codes.name, name, script)

    @classmethod
    def tearDownClass(cls):
        cls.codes.cleanup()

    @classmethod
    def compile(cls, folder, name, script):
        """Writes NAME.plan and NAME.code."""
        pathlib.Path(folder, f"{name}.plan").write_text(script)
        done = subprocess.run([cls.program, "compile", f"{name}.plan", f"{name}.code"], cwd=folder, capture_output=True, check=False)
        assert done.returncode == 0, done.stdout

    def setUp(self):
        self.temporary = tempfile.TemporaryDirectory()
        self.folder = pathlib.Path(self.temporary.name)
        for file in pathlib.Path(self.codes.name).iterdir():
            shutil.copy(file, self.folder)

    def tearDown(self):
        self.temporary.cleanup()

    @classmethod
    @functools.lru_cache(maxsize=256)
    def played(cls, script, steps, options=""):
        """The FIBs of a script over these steps."""
        with tempfile.TemporaryDirectory() as folder:
            cls.compile(folder, "p", script)
            pathlib.Path(folder, "p.events").write_text(steps)
            words = [cls.program, "play", "p.code", "p.events", "p.fib", *options.split()]
            subprocess.run(words, cwd=folder, check=True, capture_output=True)
            return pathlib.Path(folder, "p.fib").read_bytes()

    def own(self, frames, count=0, mode=1):
        """The FIC of the multiplexer, from this count on."""
        script = OWN if mode == 1 else OWN.replace("E1C5", f"E1C5 mode {mode}")
        return self.played(script, f"frames {frames}", f"--count {count}")

    def stream(self, form, frames, count=0, mode=1, **others):
        """The frames of the multiplexer, from this count on."""
        return made(form, self.own(frames, count, mode), count, mode, **others)

    def plan(self, frames, count=0, script=MOVES, options=""):
        """The FIC of a plan, from this count on."""
        return self.played(script, f"frames {frames}", f"--count {count} {options}".strip())

    def write(self, name, content):
        """Writes a file."""
        (self.folder / name).write_bytes(content if isinstance(content, bytes) else content.encode())

    def read(self, name):
        """The bytes of a file."""
        return (self.folder / name).read_bytes()

    def words(self, line):
        """The arguments of a line; `run` gets the program."""
        found = line.split()
        return found + ["--dabplan", self.program] if found[:1] == ["run"] else found

    def bridge(self, line, stdin=b"", **options):
        """Runs the bridge: its status, its output and its messages."""
        done = subprocess.run([sys.executable, str(BRIDGE), *self.words(line)], cwd=self.folder, input=stdin, capture_output=True,
                              check=False, timeout=600, **options)
        return done.returncode, done.stdout, done.stderr.decode()

    def started(self, line, **options):
        """Starts the bridge."""
        return Running(self.words(line), self.folder, **options)

    def checked(self, fic, mode=1):
        """The last line of `dabplan check`."""
        done = subprocess.run([self.program, "check", "-", "--mode", str(mode)], input=fic, capture_output=True, check=False)
        return done.stdout.decode().splitlines()[-1]

    def same(self, wanted, found, what=""):
        """Asserts that bytes are the same, and shows little of them where they are not."""
        if wanted != found:
            at = next((at for at, (one, other) in enumerate(zip(wanted, found)) if one != other), min(len(wanted), len(found)))
            self.fail(f"{what}: {len(wanted)} bytes wanted, {len(found)} found, different at {at}")

    def filled(self, form, stream, fic, first=0, count=0, mode=1, **others):
        """Asserts that a stream of frames from this count on has this FIC, frame by frame, and is otherwise as it was
        made."""
        self.same(b"".join(made(form, fic, (count + first) % 5000, mode, **others)), stream, f"{form}, mode {mode}")
