"""Frames of ETI and EDI whose sub-channels are named one by one: those of several multiplexers, and those that a bridge has
to make of them. Nothing here comes from the bridge."""
import functools
import random
import socket
import subprocess

import bridges

# Words of 64 bits a frame, by kbit/s: a frame of 24 ms of R kbit/s has 24 R bits (ETS 300 799, 5.4.1).
WORDS_OF_KBITS = 24 / 64
# Capacity units of 8 kbit/s at 1-A to 4-A, and of 32 kbit/s at 1-B to 4-B (EN 300 401, 6.2.1).
UNITS = {"A": (12, 8, 6, 4), "B": (27, 21, 18, 15)}


def entry(sub, start, protection, kbits):
    """A sub-channel of a profile like `3-A`: SubChId, first capacity unit, TPL and words."""
    level, profile = int(protection[0]), protection[2]
    return sub, start, 0x20 | (profile == "B") << 2 | level - 1, int(kbits * WORDS_OF_KBITS)


def size(protection, kbits):
    """The capacity units of a sub-channel."""
    return kbits * UNITS[protection[2]][int(protection[0]) - 1] // (8 if protection[2] == "A" else 32)


@functools.lru_cache(maxsize=65536)
def data(name, sub, count, words):
    """The bytes of a sub-channel of a multiplexer of this name in the frame of a count."""
    return random.Random(f"{name} {sub} {count}").randbytes(8 * words)


def parts(name, count, layout):
    """The sub-channels of a multiplexer in a frame."""
    return [(each, data(name, each[0], count, each[3])) for each in layout]


def eti(count, fic, given, mode=1, rest=b"\x00\x01\x02\x03", mnsc=b"\x12\x34", sync=None):
    """A frame of ETI(NI) with these sub-channels: each an entry and its bytes. `sync`: which of the words of
    synchronisation, by default by the count."""
    stc = b"".join((sub << 26 | start << 16 | level << 10 | words).to_bytes(4, "big") for (sub, start, level, words), _ in given)
    main = fic + b"".join(part for _, part in given)
    length = len(given) + 1 + len(main) // 4
    head = bytes([count % 250, 0x80 | len(given)]) + (count % 8 << 13 | mode % 4 << 11 | length).to_bytes(2, "big") + stc + mnsc
    word = (b"\x07\x3a\xb6", b"\xf8\xc5\x49")[(count if sync is None else sync) % 2]
    frame = b"\xff" + word + head + bridges.crc(head) + main + bridges.crc(main) + b"\xff\xff" + rest
    return frame + b"\x55" * (bridges.ETI - len(frame))


def tag(name, value):
    """A TAG item."""
    return name + (8 * len(value)).to_bytes(4, "big") + value


def edi(count, fic, given, mode=1, stamp=None, mnsc=b"\x12\x34", sequence=None, extra=b"", aligned=True):
    """A packet of EDI with these sub-channels; `stamp` are the 8 bytes of a time stamp, `extra` are further TAG
    items; `aligned`: filled up to a multiple of 8 bytes."""
    deti = bytes([(0x80 if stamp else 0) | 0x40 | count // 250, count % 250, 0xFF, mode % 4 << 6 | count % 8 << 3]) + mnsc
    items = tag(b"*ptr", b"DETI" + bytes(4)) + tag(b"deti", deti + (stamp or b"") + fic)
    items += b"".join(tag(b"est" + bytes([number]), (sub << 18 | start << 8 | level << 2).to_bytes(3, "big") + part)
                      for number, ((sub, start, level, _), part) in enumerate(given, 1)) + extra
    items += bytes(-len(items) % 8) if aligned else b""
    packet = b"AF" + len(items).to_bytes(4, "big") + (count if sequence is None else sequence).to_bytes(2, "big") + b"\x90T" + items
    return packet + bridges.crc(packet)


MAKERS = {"eti": eti, "edi": edi}

# Two multiplexers: by night the first service has half its rate, the second one moves, and a third one is in the freed units.
DAY = (entry(1, 0, "3-A", 128), entry(2, 96, "3-A", 64))
NIGHT = (entry(1, 0, "3-A", 64), entry(2, 48, "3-A", 64), entry(5, 96, "3-A", 64))
HEAD = "ensemble E1C5\nperiod 4 notice 24 budget 20\n"
DAY_SUBS = "sub 1 at 0 eep 3-A 128\nsub 2 at 96 eep 3-A 64\n"
SERVICES = "service C221\naudio 63 sub 1 in C221\nservice C222\naudio 63 sub 2 in C222\n"
TO_NIGHT = "rate sub 1 64\nmove sub 2 at 48\nsub 5 at 96 eep 3-A 64\nservice C225\naudio 63 sub 5 in C225\ncommit in 24\njoin\n"
TO_DAY = "drop service C225\ndrop sub 5\nmove sub 2 at 96\nrate sub 1 128\ncommit in 24\njoin\n"
# By day and by night in turn, a swap each 44 frames.
TURNS = HEAD + DAY_SUBS + SERVICES + "begin\nforever {\nwait 20\n" + TO_NIGHT + "wait 20\n" + TO_DAY + "}\n"


class Case(bridges.Case):
    """A bridge over the streams of several multiplexers."""

    def fic(self, frames, count=0, mode=1):
        """The FIC of a multiplexer: FIG 0/0 to 0/3 of the ensemble."""
        mode_words = "E1C5" if mode == 1 else f"E1C5 mode {mode}"
        script = (HEAD + DAY_SUBS + SERVICES).replace("E1C5", mode_words) + "begin\n"
        return bridges.fics(self.played(script, f"frames {frames}", f"--count {count}"), mode)

    def give(self, name, layout, frames, first=0, form="edi", mode=1, **others):
        """The frames of a multiplexer, from a count on, and a file NAME of them. `layout` is one for all frames."""
        fics = self.fic(frames, first, mode)
        found = [MAKERS[form]((first + at) % 5000, fics[at], parts(name, (first + at) % 5000, layout), mode, **others)
                 for at in range(frames)]
        self.write(name, b"".join(found))
        return found

    def swaps(self, fic, first=0):
        """The frames in which a swap falls, of frames from a count on, by `dabplan check`."""
        done = subprocess.run([self.program, "check", "-"], input=fic, capture_output=True, check=False)
        found = [line.split() for line in done.stdout.decode().splitlines() if line.endswith(" swap")]
        return [(int(count) - first) % 5000 for _, count, _ in found]

    def turns(self, fic, *sides, first=0):
        """For each frame of a FIC, from a count on, the side that is on air: the sides follow each other at swaps."""
        swaps, found = self.swaps(fic, first), []
        for at in range(len(fic) // 96):
            found.append(sides[sum(swap <= at for swap in swaps) % len(sides)])
        return found

    def made(self, fic, sides, first=0, form="edi", silent=(), **others):
        """The frames that have to go out from a count on: of each the FIC, and of its side each entry with the name of the
        multiplexer from which it is, and the SubChId there. `silent`: the SubChIds without a stream, by frame. Sequence
        numbers grow by one."""
        found = []
        for at, side in enumerate(sides):
            count = (first + at) % 5000
            given = [(each, bytes(8 * each[3]) if at in silent and each[0] in silent[at] else data(name, sub, count, each[3]))
                     for each, name, sub in sorted(side, key=lambda row: row[0][1])]
            numbers = {"sequence": first + at} if form == "edi" else {}
            found.append(MAKERS[form](count, fic[96 * at:96 * at + 96], given, **numbers, **others))
        return found


def side(layout, name, *others):
    """A side: a layout all of one multiplexer, and others."""
    return tuple((each, name, each[0]) for each in layout) + others


class Server:
    """A multiplexer as a TCP server on the loopback address, for one client at a time."""

    def __init__(self):
        self.server = socket.create_server(("127.0.0.1", 0))
        self.server.settimeout(bridges.PATIENCE)
        self.address = f"tcp://127.0.0.1:{self.server.getsockname()[1]}"
        self.client = None

    def accept(self):
        """Takes the client that connects."""
        self.client = self.server.accept()[0]

    def give(self, frames):
        """Sends frames."""
        self.client.sendall(b"".join(frames))

    def drop(self):
        """Closes the connection."""
        if self.client is not None:
            self.client.close()
            self.client = None

    def close(self):
        """Closes all."""
        self.drop()
        self.server.close()


# Of the night all comes from the second multiplexer, but for sub-channel 2: it stays with the first one, which carries it too.
DAY_SIDE = side(DAY, "day")
NIGHT_SIDE = ((NIGHT[0], "night", 1), (NIGHT[1], "day", 2), (NIGHT[2], "night", 5))


class Turns(Case):
    """The plan of day and night."""

    def setUp(self):
        super().setUp()
        self.compile(self.folder, "turns", TURNS)
        self.servers = []

    def tearDown(self):
        for each in self.servers:
            each.close()
        super().tearDown()

    def wanted(self, frames, first=0, form="edi", sides=(DAY_SIDE, NIGHT_SIDE), **others):
        """The frames from a count on."""
        fic = self.plan(frames, first, TURNS)
        return self.made(fic, self.turns(fic, *sides, first=first), first, form, **others)

    def live(self, options=""):
        """A bridge over two servers, `day` and `night`, that are both connected."""
        self.servers = [Server(), Server()]
        day, night = self.servers
        feed = self.started(f"run turns.code --compose --in day={day.address} --in night={night.address} --out - {options}".strip())
        day.accept()
        night.accept()
        return feed, day, night


def next_packet(feed):
    """The next packet of EDI that a bridge writes."""
    head = feed.get(10)
    return head + feed.get(int.from_bytes(head[2:6], "big") + 2)


def packets_of(data):
    """The AF packets of a stream."""
    found, at = [], 0
    while at < len(data):
        size = int.from_bytes(data[at + 2:at + 6], "big") + 12
        found.append(data[at:at + size])
        at += size
    return found


def values(packet):
    """The names and values of the TAG items of a packet."""
    at = 10
    while at + 8 <= len(packet) - 2:
        bits = int.from_bytes(packet[at + 4:at + 8], "big")
        yield packet[at:at + 4], packet[at + 8:at + 8 + bits // 8]
        at += 8 + bits // 8


def count_of(packet):
    """The CIF count of a packet of EDI."""
    deti = next(value for name, value in values(packet) if name == b"deti")
    return (deti[0] & 0x1F) * 250 + deti[1]


def streams_of(packet):
    """The sub-channels of a packet of EDI: by SubChId what the header says of it, and its bytes."""
    return {value[0] >> 2: (value[:3], value[3:]) for name, value in values(packet) if name[:3] == b"est"}
