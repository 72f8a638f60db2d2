#!/usr/bin/env python3
"""Every command at the limits of its input, within a stack of 1 MB.

Scripts, codes, configurations and nesting at their limits and one past them; texts of 1,048,576 bytes of each kind of
token, in scripts, events and commands; events and commands of half a gigabyte and of 75 MB, in little more memory than
their bytes. The expected
lines are those of docs/guide/COMMANDS.md, derived next to each text. At the end it prints the smallest stack with which each command works. The last line is 'N passed, M failed'.
"""
import os
import tempfile

import common

STACK = 1024
MOST = 1_048_576
HEAD = "ensemble E1C5 period 4 notice 24 budget 20 "
PLAN = HEAD + "sub 1 at 0 eep 3-A 128 service C221 audio 63 sub 1 in C221 begin\n"
END = b"\x00\x01\x07"



# Commands over 75 MB that end so, and the line that they print, where LINE is the number of the last line.
LONG_FAULTS = [
    ("play", ["long.fib"], b"frames 0", "events LINE:8: Number"),
    ("play", ["long.fib"], b"frames", "events LINE:7: Expected"),
    ("play", ["long.fib"], b"frames 0 frames 1 @", "events LINE:19: Byte"),
    ("play", ["long.fib"], b"frames 1 # \x80", "cannot read long.text"),
    ("debug", [], b"run 0", "commands LINE:5: Number"),
    ("debug", [], b"show show show9", "commands LINE:11: Expected"),
    ("debug", [], b"run 0 run 1 @", "commands LINE:13: Byte"),
    ("debug", [], b"next # \x80", "cannot read long.text"),
]


def room_for(size):
    """The address space, in KB, in which a command keeps a text of so many bytes, with a sixty-fourth that is not used."""
    return 5_500 + size * 65 // 64 // 1024


def word(number):
    """Two bytes, the high one first."""
    return number.to_bytes(2, "big")


def full_record():
    """A record of 64 sub-channels, 64 services with the most components, and 64 packet components."""
    subs = b"".join(bytes([sub]) + word(4 * sub) + b"\x00\x04" + word(8) for sub in range(64))
    services = b""
    for service in range(64):
        components = b"".join(b"\x00\x3f" + bytes([(service + place) % 64]) for place in range(12 - service // 32))
        sid = b"\x00" + word(256 * service) if service < 32 else b"\x01\xe1\xc2" + word(256 * service)
        services += sid + bytes([12 - service // 32]) + components
    packets = b"".join(word(packet) + b"\x00\x3c\x05" + word(packet + 1) for packet in range(64))
    return b"\x40\x40\x40" + subs + services + packets


def code(records, labels, lines, period=60, notice=248, budget=255):
    """A code file of version 1."""
    counts = word(len(records)) + word(len(labels)) + word(len(lines))
    return b"DABP\x01\xe1\xc5" + bytes([period, notice, budget]) + counts + b"".join(records + labels + lines)


def label(pc, cur, upcoming, cost, swap=b"\x00\x00\x00\x00\x00", counters=0):
    """A label of a code file."""
    return word(pc) + word(cur) + word(upcoming) + swap + bytes([counters, cost])


def crc_is_right(digits):
    """Whether the last two bytes of a FIB are the CRC of the others (EN 300 401 clause 5.2.1)."""
    fib = bytes.fromhex(digits)
    register = 0xFFFF
    for byte in fib[:30]:
        for bit in range(7, -1, -1):
            top = (register >> 15) ^ (byte >> bit & 1)
            register = (register << 1 & 0xFFFF) ^ (0x1021 if top else 0)
    return fib[30:] == word(register ^ 0xFFFF)


def filled(start, part, size=MOST, end=""):
    """A text of this many bytes: `start`, then `part` repeated, then blanks, then `end`."""
    room = size - len(start) - len(end)
    text = start + part * (room // len(part))
    return text + " " * (size - len(end) - len(text)) + end


def nested(innermost):
    """A script of 64 blocks, each of which applies the one before inside 15 braces; the first has these statements there."""
    text = HEAD.replace("20", "255")
    for number in range(64):
        inner = f"apply b{number - 1} " if number else innermost
        text += f"define b{number} {{ " + "wait 1 if contact 0 { " * 15 + inner + "wait 1 } " * 15 + "} "
    return text + "begin apply b63"


def script_rows():
    """Scripts with the output of `compile`."""
    waits = "wait 1 "
    ways = "if contact 0 { wait 1 } wait 1\n"
    moves = "".join(f"move sub 1 at {place} commit in 24 join if contact 0 {{ wait 1 }} wait 1\n" for place in range(1, 257))
    blocks = "define b0 { } " + "".join(f"define b{n} {{ apply b{n - 1} apply b{n - 1} }} " for n in range(1, 64))
    ladder = "define b0 { wait 1 } " + "".join(f"define b{n} {{ apply b{n - 1} apply b{n - 1} }} " for n in range(1, 64))
    braces = HEAD.replace("20", "255") + "begin " + "repeat 2 { " * 8 + "if contact 1 { " * 8
    return [
        ("4,096 instructions", PLAN + waits * 4095, b"instructions 4096 labels 1 configurations 1\n"),
        ("4,097 instructions", PLAN + waits * 4096, b"refused: Limit\n"),
        ("1,024 labels", PLAN + ways * 1023, b"instructions 3070 labels 1024 configurations 1\n"),
        ("1,025 labels", PLAN + ways * 1024, b"refused: Limit\n"),
        ("256 configurations", PLAN + "".join(moves.splitlines(True)[:255]),
         b"instructions 1531 labels 256 configurations 256\n"),
        ("257 configurations", PLAN + moves, b"refused: Limit\n"),
        ("64 blocks that emit nothing", HEAD + blocks + "begin apply b63",
         b"instructions 1 labels 1 configurations 1\n"),
        ("64 blocks that emit 2 to the 63 instructions", HEAD + ladder + "begin apply b63", b"refused: Limit\n"),
        ("65 blocks", HEAD + blocks + "define b64 { } begin", None),
        ("64 blocks, 15 braces deep each", nested("wait 1 "), b"instructions 2882 labels 961 configurations 1\n"),
        ("64 blocks, 15 braces deep each, with a fault innermost", nested("join "), b"refused line 1: JoinIdle\n"),
        ("braces 16 deep", braces + "wait 1 " + "} " * 8 + "wait 1 " + "} " * 8,
         b"instructions 27 labels 10 configurations 1\n"),
        ("braces 17 deep", braces + "if contact 1 { } " + "} " * 16, None),
        ("nine repeats", HEAD + "begin " + "repeat 2 { " * 9 + "wait 1 " + "} " * 9, b"refused: Limit\n"),
        ("8,192 statements", HEAD + "define b { " + waits * 8192 + "} begin", b"instructions 1 labels 1 configurations 1\n"),
        ("8,193 statements", HEAD + "define b {\n" + waits * 8193 + "} begin", f"2:{7 * 8192 + 1}: Limit\n".encode()),
        ("a token on line 65,535", HEAD + "\n" * 65534 + "begin", b"instructions 1 labels 1 configurations 1\n"),
        ("a token on line 65,536", HEAD + "\n" * 65535 + "begin", b"65536:1: Limit\n"),
    ]


def long_rows():
    """Texts of 1,048,576 bytes of each kind of token, as scripts."""
    past = f"1:{MOST + 1}: Expected\n".encode()
    return [
        ("nothing", "", b"1:1: Expected\n"),
        ("blanks", " " * MOST, past), ("tabs", "\t" * MOST, past), ("carriage returns", "\r" * MOST, past),
        ("semicolons", ";" * MOST, past), ("a comment", "#" * MOST, past),
        ("line feeds", "\n" * MOST, f"{MOST + 1}:1: Expected\n".encode()),
        ("comments", "#\n" * (MOST // 2), f"{MOST // 2 + 1}:1: Expected\n".encode()),
        ("opening braces", "{" * MOST, b"1:1: Expected\n"), ("closing braces", "}" * MOST, b"1:1: Expected\n"),
        ("one atom", "a" * MOST, b"1:1: Limit\n"), ("atoms of a letter", "a " * (MOST // 2), b"1:1: Expected\n"),
        ("atoms of 32 letters", filled("", "a" * 32 + " "), b"1:1: Expected\n"),
        ("digits", "9" * MOST, b"1:1: Limit\n"), ("colons", ":" * MOST, b"1:1: Limit\n"),
        ("the first word", filled("", "ensemble "), b"1:10: Number\n"),
        ("a byte too many", " " * (MOST + 1), b"1:1: Limit\n"),
        ("a wrong byte at the end", filled("", " ", end="@"), f"1:{MOST}: Byte\n".encode()),
        ("a wrong byte after many tokens", filled(HEAD, "wait ", end="@"), f"1:{MOST}: Byte\n".encode()),
        ("zero bytes", "\0" * MOST, b"1:1: Byte\n"), ("letters of two bytes", "\u00e9" * (MOST // 2), b"1:1: Byte\n"),
        ("items", filled(HEAD, "service C221 "), f"1:{len(HEAD) + 13 * 8192 + 1}: Limit\n".encode()),
        ("statements", filled(HEAD + "begin ", "join "), f"1:{len(HEAD) + 6 + 5 * 8192 + 1}: Limit\n".encode()),
        ("blocks in blocks", filled(HEAD + "begin ", "forever { "), f"1:{len(HEAD) + 6 + 10 * 16 + 9}: Depth\n".encode()),
        ("a good script with a long comment", filled(HEAD + "begin #", "x"), b"instructions 1 labels 1 configurations 1\n"),
    ]


def event_rows():
    """Texts of 1,048,576 bytes as events."""
    past = f"events 1:{MOST + 1}: Expected\n".encode()
    nothing = b"played 0 frames\n"
    return [
        ("nothing", "", nothing), ("blanks", " " * MOST, nothing), ("line feeds", "\n" * MOST, nothing),
        ("a comment", "#" * MOST, nothing), ("semicolons", ";" * MOST, nothing),
        ("frames", filled("", "frames 1 "), f"played {MOST // 9} frames\n".encode()),
        ("contacts", filled("", "contact 15 closed "), nothing),
        ("one atom", "a" * MOST, b"events 1:1: Expected\n"), ("braces", "{" * MOST, b"events 1:1: Expected\n"),
        ("a number without end", filled("frames ", "9"), b"events 1:8: Number\n"),
        ("a number of zeros", filled("frames ", "0"), b"events 1:8: Number\n"),
        ("an end in a step", filled("", "frames 1 ", end="frames"), past),
        ("a wrong byte at the end", filled("", "frames 1 ", end="@"), f"events 1:{MOST}: Byte\n".encode()),
        ("four times as many bytes", filled("", "frames 1 ", 4 * MOST), f"played {4 * MOST // 9} frames\n".encode()),
    ]


def command_rows():
    """Texts of 1,048,576 bytes as commands, with the number of lines that `debug` prints; None: the one line given."""
    return [
        ("blanks", " " * MOST, 0, b""), ("commands of one word", filled("", "clear "), MOST // 6, None),
        ("runs", filled("", "run 1 ", 131_072), 131_072 // 6, None),
        ("one atom", "a" * MOST, 1, b"commands 1:1: Expected\n"), ("braces", "}" * MOST, 1, b"commands 1:1: Expected\n"),
        ("a number without end", filled("break ", "9"), 1, b"commands 1:7: Number\n"),
        ("a wrong byte at the end", filled("", "next ", end="@"), 1, f"commands 1:{MOST}: Byte\n".encode()),
    ]


def try_scripts(tally, program, folder):
    """Compiles scripts; compiled ones are verified, played and debugged."""
    for name, text, wanted in script_rows() + long_rows():
        common.write(folder, "a.plan", text)
        ended = common.run([program, "compile", "a.plan", "a.code"], folder, stack=STACK)
        if wanted is None:
            mark, fault = ("define", "Limit") if name == "65 blocks" else ("{", "Depth")
            wanted = f"1:{text.rindex(mark) + 1}: {fault}\n".encode()
        tally.same(f"compile, {name}", (0 if wanted.startswith(b"instr") else 1, wanted), ended.lines())
        explained = common.run([program, "compile", "a.plan", "b.code", "--explain"], folder, stack=STACK)
        tally.same(f"compile --explain, {name}", ended.lines(), (explained.status, explained.printed[:len(wanted)]))
        tally.hold(ended.status == 0 or explained.printed.count(b"\n") > 1, f"compile --explain, {name}: nothing more is said")
        mapped = common.run([program, "map", "a.plan"], folder, stack=STACK)
        tally.hold(mapped.status == ended.status and (ended.status == 0 or mapped.printed == ended.printed), f"map, {name}: {mapped.printed[:99]}")
        if ended.status == 0:
            try_code(tally, program, folder, name)


def try_code(tally, program, folder, name):
    """Verifies a.code, plays it and debugs it."""
    events = "contact 0 closed frames 5000\ncontact 0 open frames 5000\n"
    common.write(folder, "a.events", events)
    common.write(folder, "a.commands", "contact 0 closed next next break 1 run 10000 show")
    verified = common.run([program, "verify", "a.code"], folder, stack=STACK)
    tally.same(f"verify, {name}", (0, b"accepted\n"), verified.lines())
    played = common.run([program, "play", "a.code", "a.events", "a.fib"], folder, stack=STACK)
    tally.same(f"play, {name}", (0, b"played 10000 frames\n"), played.lines())
    live = common.run([program, "live", "a.code"], folder, events.encode(), stack=STACK)
    tally.hold(live.lines() == (0, open(f"{folder}/a.fib", "rb").read()) and not live.messages, f"live, {name}: {live.messages}")
    heard = common.run([program, "listen", "a.fib"], folder, stack=STACK)
    tally.hold(heard.status == 0 and heard.printed.startswith(b"fibs 30000 damaged 0\n"), f"listen, {name}: {heard.printed[:99]}")
    led = common.run([program, "debug", "a.code", "a.commands"], folder, stack=STACK)
    tally.hold(led.status == 0 and led.printed.startswith(b"frames 0 steps 0 pc 0 "), f"debug, {name}: {led.printed[:99]}")


def try_codes(tally, program, folder):
    """Codes at the limits of the file: the largest one, and the most labels and instructions."""
    full = full_record()
    lines = [word(65535) + b"\x01\x00\x01"] * 4095 + [END]
    labels = [label(pc, pc % 256, pc % 256, 255) for pc in range(1024)]
    rows = [
        ("4,096 instructions over a full configuration", code([full], [label(0, 0, 0, 1)], lines), b"accepted\n"),
        ("the most of all tables", code([full] * 256, labels, lines), b"accepted\n"),
        ("one label too many", code([full], [label(0, 0, 0, 1)] * 1025, lines), b"code: Limit\n"),
        ("one configuration too many", code([full] * 257, labels, lines), b"code: Limit\n"),
        ("one instruction too many", code([full], labels, lines + [END]), b"code: Limit\n"),
        ("a full configuration in one page a frame", code([full], [label(0, 0, 0, 1)], [END], period=1), b"refused at 0 line 1: Round\n"),
    ]
    for name, file, wanted in rows:
        common.write(folder, "a.code", file)
        ended = common.run([program, "verify", "a.code"], folder, stack=STACK)
        tally.same(f"verify, {name}, {len(file)} bytes", (0 if wanted == b"accepted\n" else 1, wanted), ended.lines())
        explained = common.run([program, "verify", "a.code", "--explain"], folder, stack=STACK)
        tally.same(f"verify --explain, {name}", ended.lines(), (explained.status, explained.printed[:len(wanted)]))
        if wanted == b"accepted\n":
            try_code(tally, program, folder, name)


def try_frames(tally, program, folder):
    """All pages of a full configuration, and their listing."""
    common.write(folder, "full.rec", full_record())
    fibs, page = [], 0
    while True:
        ended = common.run([program, "frame", "full.rec", "--ensemble", "E1C5", "--count", str(4 * page), "--page",
                            str(page)], folder, stack=STACK)
        if ended.status != 0:
            break
        lines = ended.printed.decode().split()
        tally.hold(len(lines) == 3 and all(map(crc_is_right, lines)), f"frame, page {page}: {lines}")
        fibs += map(bytes.fromhex, lines)
        page += 1
    tally.same(f"frame, page {page}", (1, b"refused: no such page\n"), ended.lines())
    tally.hold(page > 16, f"frame: {page} pages")
    common.write(folder, "full.fib", b"".join(fibs))
    heard = common.run([program, "listen", "full.fib"], folder, stack=STACK)
    lines = heard.printed.decode().splitlines()
    tally.same("listen, a full configuration: FIBs", f"fibs {3 * page} damaged 0", lines[0])
    kinds = [sum(line.startswith(kind) for line in lines) for kind in ("sub ", "service ", "  audio ", "packet ")]
    tally.same("listen, a full configuration: its parts", [64, 64, 32 * 12 + 32 * 11, 64], kinds)
    common.write(folder, "all.fib", b"\xff" * 3_200_000 + b"\x00" * 3_200_000)
    damaged = common.run([program, "listen", "all.fib"], folder, stack=STACK)
    tally.same("listen, FIBs of ones and of zeros", (0, b"fibs 200000 damaged 200000\ncurrent\nnext\nno swap\n"), damaged.lines())


def try_texts(tally, program, folder):
    """Long texts of events and commands over a small code."""
    common.write(folder, "small.code", (common.SAMPLES / "contact_lowers_a_rate.code").read_bytes())
    for name, text, wanted in event_rows():
        common.write(folder, "a.events", text)
        ended = common.run([program, "play", "small.code", "a.events", "/dev/null"], folder, stack=STACK)
        tally.same(f"events, {name}", (0 if wanted.startswith(b"played") else 1, wanted), ended.lines())
    for name, text, count, wanted in command_rows():
        common.write(folder, "a.commands", text)
        ended = common.run([program, "debug", "small.code", "a.commands"], folder, stack=STACK)
        tally.same(f"commands, {name}: status", 0 if wanted is None or not wanted else 1, ended.status)
        tally.same(f"commands, {name}: lines", count, ended.printed.count(b"\n"))
        tally.hold(wanted is None or ended.printed == wanted, f"commands, {name}: {ended.printed[:99]}")


def try_zeros(tally, program, folder):
    """Half a gigabyte of zeros, and of a comment that a zero follows, as events and as commands: refused at the first zero, or
    for memory where there is less of it; and half a gigabyte that is no text is not read."""
    common.write(folder, "small.code", (common.SAMPLES / "contact_lowers_a_rate.code").read_bytes())
    commands = (["play", "small.code", "zeros", "/dev/null"], "events"), (["debug", "small.code", "zeros"], "commands")
    for start, wanted in ((b"", "1:1"), (b"frames 1 # zeros\n", "2:1")):
        common.write(folder, "zeros", start)
        os.truncate(f"{folder}/zeros", 500_000_000)
        for words, name in commands:
            ended = common.run([program, *words], folder, memory=room_for(500_000_000))
            tally.same(f"{name}, zeros behind {start}", (1, f"{name} {wanted}: Byte\n".encode()), ended.lines())
            ended = common.run([program, *words], folder, memory=65_536)
            tally.same(f"{name}, zeros behind {start}, in 64 MB", (1, b"no memory\n"), ended.lines())
    common.write(folder, "zeros", b"\x05\x00\xe1\xc5")
    os.truncate(f"{folder}/zeros", 500_000_000)
    for words, name in commands:
        ended = common.run([program, *words], folder, memory=65_536)
        tally.same(f"{name}, frames", (1, b"cannot read zeros\n"), ended.lines())


def try_long_texts(tally, program, folder):
    """75 MB of steps and of commands: a file, or a pipe, is kept with little more memory than its bytes, and no list of them."""
    common.write(folder, "small.code", (common.SAMPLES / "contact_lowers_a_rate.code").read_bytes())
    memory = room_for(75_000_000)
    for name, steps in (("lines", b"contact 3 open\n"), ("one line", b"contact 3 open "), ("a token a line", b"contact\n3\nopen\n"),
                        ("comments", b"contact 3 # frames 1\n  open # frames 2\n")):
        common.write(folder, "long.events", b"frames 2 " + steps * (75_000_000 // len(steps)) + b"frames 1")
        ended = common.run([program, "play", "small.code", "long.events", "/dev/null"], folder, memory=memory)
        tally.same(f"75 MB of events, {name}", (0, b"played 3 frames\n"), ended.lines())
    line = f"cat long.events | '{program}' play small.code /dev/stdin /dev/null"
    ended = common.run(["bash", "-c", line], folder, memory=memory)
    tally.same("75 MB of events through a pipe", (0, b"played 3 frames\n"), ended.lines())
    command = b"contact 3 open\n"
    count = 20_000_000 // len(command)
    common.write(folder, "long.commands", command * count)
    for name, line in (("", f"'{program}' debug small.code long.commands"), (" through a pipe", f"cat long.commands | '{program}' debug small.code /dev/stdin")):
        ended = common.run(["bash", "-c", f"set -o pipefail; {line} | wc -l"], folder, memory=room_for(20_000_000))
        tally.same(f"20 MB of commands{name}", (0, f"{count}\n".encode()), ended.lines())
    command = b"contact 3 open # " + b"show " * 20 + b"\n"
    count = 75_000_000 // len(command)
    common.write(folder, "long.commands", command * count)
    line = f"set -o pipefail; '{program}' debug small.code long.commands | wc -l"
    tally.same("75 MB of commands", (0, f"{count}\n".encode()), common.run(["bash", "-c", line], folder, memory=memory).lines())


def try_long_faults(tally, program, folder):
    """75 MB of steps and of commands with a fault at the end: it comes before the first frame and line."""
    common.write(folder, "small.code", (common.SAMPLES / "contact_lowers_a_rate.code").read_bytes())
    step = b"contact 3 open\n"
    count = 75_000_000 // len(step)
    for command, out, end, wanted in LONG_FAULTS:
        common.write(folder, "long.text", step * count + end)
        ended = common.run([program, command, "small.code", "long.text", *out], folder, memory=room_for(75_000_000))
        line = wanted.replace("LINE", str(count + 1))
        tally.same(f"{command}, 75 MB and {end}", (1, f"{line}\n".encode()), ended.lines())
    tally.same("its frames", 0, os.path.getsize(f"{folder}/long.fib"))


def try_stacks(tally, program, folder):
    """The smallest stack with which each command works, in steps of 16 KB, over the files that the other parts left."""
    common.write(folder, "a.plan", PLAN + "wait 1 " * 4095)
    common.write(folder, "a.code", code([full_record()], [label(0, 0, 0, 1)], [word(9) + b"\x01\x00\x01"] * 4095 + [END]))
    common.write(folder, "a.events", "frames 1000")
    common.write(folder, "a.commands", "run 1000 show")
    for words in (["frame", "full.rec", "--ensemble", "E1C5", "--count", "0"], ["listen", "full.fib"],
                  ["compile", "a.plan", "b.code"], ["verify", "a.code"], ["play", "a.code", "a.events", "b.fib"],
                  ["debug", "a.code", "a.commands"], ["live", "a.code"], ["--help"]):
        least = STACK
        while common.run([program, *words], folder, stack=least - 16).status == 0:
            least -= 16
        print(f"{words[0]} ends on a stack of {least} KB", flush=True)
        tally.hold(least < STACK, f"{words[0]} on a stack of {least} KB")


def main():
    """Runs all of it."""
    tally = common.Tally()
    program = common.dabplan()
    with tempfile.TemporaryDirectory() as folder:
        for part in (try_scripts, try_codes, try_frames, try_texts, try_zeros, try_long_texts, try_long_faults, try_stacks):
            part(tally, program, folder)
    tally.end()


if __name__ == "__main__":
    main()
