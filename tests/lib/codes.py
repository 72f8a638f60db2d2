"""Code files from texts: their configurations, labels and instructions in the notation of scripts and by their numbers.

An instruction is a statement of the script language, or one that only code has: `until 42` (a frame of the day),
`test 3 5` (contact, target), `jump 0`, `set 0 3` (counter, times), `loop 0 1` (counter, target), `any 8 0 42 750` (contacts to
be closed, contacts to be open, a frame of the day or `none`, frames or 0), `window 3300000 900000 3` (from, to, target). Instructions
and items are separated by commas. A label is its pc, and then, each optional, `of 0 1` (its current and its next
configuration), `within 24 27` or `perhaps 26` (a swap that is pending), `counters 81` and `cost 3`."""
import struct

# A sub-channel of 128 kbit/s with a service of audio in it, and the same at 64 kbit/s. As instructions, these are the edits
# that add it.
PROGRAMME = "sub 1 at 0 eep 3-A 128, service C221, audio 63 sub 1 in C221"
AT_64 = PROGRAMME.replace("128", "64")
ADDED = PROGRAMME

# 64 adjacent sub-channels of four capacity units.
SMALL_SUBS = ", ".join(f"sub {number} at {4 * number} eep 4-A 8" for number in range(64))


def parts(text):
    """The statements or items of a text."""
    return [part.split() for part in text.split(",") if part.strip()]


def sid(word):
    """A service's identifier: its kind, and 16 or 32 bits."""
    return bytes([len(word) == 8]) + bytes.fromhex(word)


def sub(words):
    """A sub-channel: `sub 1 at 0 eep 3-A 128`."""
    return struct.pack(">BHBBH", int(words[1]), int(words[3]), words[5][2] == "B", int(words[5][0]), int(words[6]))


def component(words):
    """A component: `audio 63 sub 1`, `data 5 sub 2` or `carry 7`."""
    if words[0] == "carry":
        return struct.pack(">BH", 3, int(words[1]))
    return bytes([words[0] == "data", int(words[1]), int(words[3])])


def packet(words):
    """A packet component: `packet 1 groups type 60 sub 2 address 9`."""
    return struct.pack(">HBBBH", int(words[1]), words[2] == "raw", int(words[4]), int(words[6]), int(words[8]))


def record(text):
    """The configuration record of items, in ascending order of identifiers."""
    items = parts(text)
    subs = [sub(words) for words in items if words[0] == "sub"]
    packets = [packet(words) for words in items if words[0] == "packet"]
    services = []
    for words in items:
        if words[0] == "service":
            carried = [component(other) for other in items if other[-2:] == ["in", words[1]]]
            services.append(sid(words[1]) + bytes([len(carried)]) + b"".join(carried))
    return bytes([len(subs), len(services), len(packets)]) + b"".join(subs + services + packets)


def dropped(words):
    """`drop sub 1`, `drop service C221`, `drop packet 1`, `drop component sub 1 in C221`."""
    if words[1] == "sub":
        return bytes([0x11, int(words[2])])
    if words[1] == "service":
        return b"\x15" + sid(words[2])
    if words[1] == "packet":
        return struct.pack(">BH", 0x19, int(words[2]))
    return b"\x17" + sid(words[5]) + struct.pack(">BH", words[2] == "packet", int(words[3]))


def edited(words):
    """An edit, except those that drop."""
    if words[0] == "sub":
        return b"\x10" + sub(words)
    if words[0] == "move":
        return struct.pack(">BBH", 0x12, int(words[2]), int(words[4]))
    if words[0] == "rate":
        return struct.pack(">BBH", 0x13, int(words[2]), int(words[3]))
    if words[0] == "service":
        return b"\x14" + sid(words[1])
    if words[0] == "packet":
        return b"\x18" + packet(words)
    return b"\x16" + sid(words[-1]) + component(words)


def instruction(words):
    """The opcode and the operands of an instruction."""
    word, last = words[0], words[-1]
    if word == "drop":
        return dropped(words)
    if word == "wait" and words[1] == "contact":
        return bytes([0x03, int(words[2]), last == "closed"])
    if word in ("join", "end", "settle"):
        return bytes([{"join": 0x06, "end": 0x07, "settle": 0x08}[word]])
    if word in ("wait", "commit", "jump"):
        opcode = {"wait": 0x01, "commit": 0x04 if words[1] == "in" else 0x05, "jump": 0x21}[word]
        return struct.pack(">BH", opcode, int(last))
    if word == "until":
        return struct.pack(">BI", 0x02, int(last))
    if word == "any":
        until = 0xFFFF_FFFF if words[3] == "none" else int(words[3])
        return struct.pack(">BHHIH", 0x09, int(words[1], 16), int(words[2], 16), until, int(last))
    if word == "window":
        return struct.pack(">BIIH", 0x24, int(words[1]), int(words[2]), int(last))
    if word in ("test", "set", "loop"):
        return struct.pack(">BBH", {"test": 0x20, "set": 0x22, "loop": 0x23}[word], int(words[1]), int(last))
    return edited(words)


def label(words):
    """A label."""
    where = {word: index for index, word in enumerate(words)}

    def after(word, place, otherwise):
        return words[where[word] + place] if word in where else otherwise

    current, following = int(after("of", 1, 0)), int(after("of", 2, 0))
    pending = 1 if "within" in where else 2 if "perhaps" in where else 0
    low, high = int(after("within", 1, 0)), int(after("within", 2, after("perhaps", 1, 0)))
    counters, cost = int(after("counters", 1, "0"), 16), int(after("cost", 1, 1))
    return struct.pack(">HHHBHHBB", int(words[0]), current, following, pending, low, high, counters, cost)


def version(mode, reserve):
    """The version of a code file, with the mode and the reserve if it has them."""
    if reserve:
        return bytes([3, mode, reserve])
    return b"\x01" if mode == 1 else bytes([2, mode])


def code(instructions, labels="0 cost 1", configs=("",), mode=1, reserve=0, period=4, notice=24, budget=20, lines=None):
    """The code file of these parts; by default its instructions are in the lines 1, 2 and so on."""
    table, each = parts(labels), [instruction(words) for words in parts(instructions)]
    numbers = lines or range(1, len(each) + 1)
    return b"".join([
        b"DABP", version(mode, reserve), b"\xe1\xc5", bytes([period, notice, budget]),
        struct.pack(">HHH", len(configs), len(table), len(each)),
        *map(record, configs), *map(label, table),
        *(struct.pack(">H", number) + bytes_of for number, bytes_of in zip(numbers, each)),
    ])


def rates(**plan):
    """The code of the script RATES of rows.py, with the lines of its statements, in this plan."""
    return code("wait contact 3 closed, rate sub 1 96, commit in 24, join, "
                "wait contact 3 open, rate sub 1 128, commit in 24, join, jump 0",
                configs=[PROGRAMME], lines=[8, 9, 10, 11, 12, 13, 14, 15, 7], **plan)


# The code of RATES, a code that ends at once, and one whose only instruction is a join without a pending swap.
RATES_CODE, NOTHING_CODE, REFUSED_CODE = rates(), code("end"), code("join")
