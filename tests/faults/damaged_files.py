#!/usr/bin/env python3
"""Damaged files.

Code files truncated to each length and with each byte changed to each other value: a named fault, or a code that `verify`
accepts or refuses; accepted ones are played for 100 frames, in which each FIB is valid in CRC and grammar. The code
of a contact in version 1, and one of version 2 with a label at which a swap is perhaps pending.

And files of each kind with random changes, from a seed that is printed: each command ends with 0 or 1, and prints one
of the lines of docs/guide/COMMANDS.md and no other; if it can explain a refusal, the line and the status are the same with
the explanation, and only warnings about an accepted script are on standard error. Lines of `live`: `play` makes the same frames of those that are not reported as bad. The last line is
'N passed, M failed'.
"""
import random
import re
import sys
import tempfile

import common
import rows

CONTACT = (common.SAMPLES / "contact_lowers_a_rate.code").read_bytes()
PERHAPS = """\
ensemble E1C5 mode 2 period 4 notice 24 budget 20
sub 1 at 0 eep 3-A 128 service C221 audio 63 sub 1 in C221 begin
rate sub 1 64 commit in 24 until 22:00:00 if contact 1 { wait 1 } settle
"""
CAUSE = (r"(Target|Table|Edit (IdUsed|IdAbsent|TooManyComponents|TableFull|PastEnd|BadRate|BadAddress)"
         r"|Config (Overlap \d+ \d+|Orphan|AddressUsed|EmptyService)|Pending|NoChange|Notice|Count|JoinIdle"
         r"|SwapUncertain|CounterUnset|Mismatch|Cost|Round|FallsOff)")
CODE_FAULT = r"code: (Magic|Version|Truncated|Field \d+|Limit|Trailing)|refused at \d+ line \d+: " + CAUSE
LISTED = (r"fibs \d+ damaged \d+\ncurrent\n(ENTRY\n)*next\n(ENTRY\n)*(swap at low \d+|no swap)").replace(
    "ENTRY", r"(sub \d+ at \d+ (size \d+ (eep [1-4]-[AB]|option \d level [1-4])|switch [01] table \d+)"
             r"|service ([0-9A-F]{4}){1,2}|  (audio|data) \d+ sub \d+ (primary|secondary)"
             r"|  packet \d+ (primary|secondary)|  other [0-9A-F]{4}|packet \d+ (groups|raw) type \d+ sub \d+ address \d+)")
EXPLAINED = re.compile(r"a\.file:\d+(:\d+)?: .+|hint: .+|    .*")
UNREAD = re.compile(r"a\.file(:\d+:\d+)?: error: .+")
WARNING = re.compile(r"a\.file:\d+: warning: .+")
BAD_LINE = re.compile(r"line (\d+): (\d+: (Byte|Number|Expected)|Limit|Byte)")
REPORTED = (r"(frames \d+ steps \d+ pc \d+ line \d+ count \d+ remaining (\d+|none)\n(break\n)?"
            r"(announced \d+ swap \d+ change [123]\n)*)*")


def outcomes(printed):
    """The counts printed by the trial of damaged code files, by name."""
    return {name: int(number) for name, number in re.findall(r"([A-Za-z]+) (\d+)", printed)}


def try_codes(tally, program, trials, folder):
    """Each truncation and each change of two code files."""
    common.write(folder, "a.plan", PERHAPS)
    compiled = common.run([program, "compile", "a.plan", "perhaps.code"], folder)
    tally.same("the code of version 2", (0, b"instructions 7 labels 2 configurations 2\n"), compiled.lines())
    perhaps = open(f"{folder}/perhaps.code", "rb").read()
    tally.hold(bytes.fromhex("020000") + b"\x00" in perhaps and perhaps[4] == 2, "its label and its version")
    # one change of the mode makes a code of mode III, which has an additional FIB in each of its frames
    for name, file, more in (("version 1", CONTACT, 0), ("version 2", perhaps, 100)):
        ended = common.run([trials, "damaged"], folder, file)
        cuts, changes, whole = re.split(r"^(?:each of .*|whole)\n", ended.printed.decode(), flags=re.M)
        print(f"{name}, {len(file)} bytes\n{ended.printed.decode()}", end="", flush=True)
        tally.same(f"{name}: status", 0, ended.status)
        found = outcomes(cuts)
        tally.same(f"{name}: cuts", len(file), found["Truncated"])
        found = outcomes(changes)
        judged = sum(found[kind] for kind in ("Magic", "Version", "Truncated", "Field", "Limit", "Trailing", "refused",
                                              "accepted"))
        tally.same(f"{name}: changes", 255 * len(file), judged)
        tally.same(f"{name}: changes of the magic", 4 * 255, found["Magic"])
        tally.same(f"{name}: want of memory", 0, found["Memory"])
        tally.same(f"{name}: frames", 100 * found["accepted"], found["frames"])
        tally.same(f"{name}: FIBs", (3 * found["frames"] + more, 0), tuple(map(int, re.findall(r"FIBs (\d+)", changes))))
        tally.hold(found["accepted"] > 1000 and found["refused"] > 100, f"{name}: both verdicts come")
        tally.same(f"{name}: whole", 1, outcomes(whole)["accepted"])


def mutated(chance, content):
    """A file with a few random changes: bits inverted, bytes changed, pieces removed, duplicated and exchanged."""
    content = bytearray(content)
    for _ in range(chance.choice((1, 1, 1, 2, 3, 8))):
        at = chance.randrange(len(content) + 1)
        size = chance.choice((1, 1, 2, 4, 32, 32))
        kind = chance.randrange(6)
        if kind == 0 and at < len(content):
            content[at] ^= 1 << chance.randrange(8)
        elif kind == 1 and at < len(content):
            content[at] = chance.randrange(256)
        elif kind == 2:
            del content[at:at + size]
        elif kind == 3:
            content[at:at] = content[at:at + size]
        elif kind == 4:
            content[at:at] = bytes(chance.randrange(256) for _ in range(size))
        else:
            other = chance.randrange(len(content) + 1)
            content[at:at + size], content[other:other + size] = content[other:other + size], content[at:at + size]
    return bytes(content)


def resealed(chance, content):
    """FIBs with random changes and corrected CRCs, so that they are decoded."""
    content = bytearray(mutated(chance, content))
    del content[len(content) // 32 * 32:]
    for start in range(0, len(content), 32):
        content[start + 30:start + 32] = check_word(content[start:start + 30])
    return bytes(content)


def check_word(data):
    """The CRC of the 30 bytes of a FIB (EN 300 401 clause 5.2.1)."""
    register = 0xFFFF
    for byte in data:
        register ^= byte << 8
        for _ in range(8):
            register = (register << 1 ^ 0x1021 if register & 0x8000 else register << 1) & 0xFFFF
    return (register ^ 0xFFFF).to_bytes(2, "big")


def kinds(folder):
    """Each kind of file: its name, examples of it, how it is changed, the command, and what the command may print."""
    examples = common.EXAMPLES
    plans = [path.read_bytes() for path in sorted(examples.glob("*.plan"))] + [PERHAPS.encode()]
    records = [path.read_bytes() for path in sorted(examples.glob("*.rec"))]
    fibs = [open(f"{folder}/a.fib", "rb").read()]
    events = [b"frames 1 contact 3 closed frames 30 # a comment\ncontact 3 open; frames 40"]
    commands = [b"break 9 run 100 contact 3 closed run 2 next # a comment\nclear show; next"]
    script_fault = r"\d+:\d+: (Byte|Number|Expected|Depth|NameUsed|NameUnknown|Limit)|cannot read a.file"
    text_fault = r"\d+:\d+: (Byte|Number|Expected)|cannot read a.file"
    return [
        ("script", plans, mutated, ["compile", "a.file", "b.code"],
         rf"instructions \d+ labels \d+ configurations \d+|refused: Limit|refused line \d+: {CAUSE}|{script_fault}"),
        ("code", [CONTACT], mutated, ["verify", "a.file"], rf"accepted|{CODE_FAULT}"),
        ("code, played", [CONTACT], mutated, ["play", "a.file", "a.events", "b.fib"], rf"played 70 frames|{CODE_FAULT}"),
        ("code, debugged", [CONTACT], mutated, ["debug", "a.file", "a.commands"], rf"{REPORTED}|({CODE_FAULT})"),
        ("record", records, mutated, ["frame", "a.file", "--ensemble", "E1C5", "--count", "0"],
         r"([0-9A-F]{64}\n){2}[0-9A-F]{64}|record: (Short|Field \d+|Order|trailing)"
         r"|refused: (Overlap \d+ \d+|Orphan|AddressUsed|EmptyService)"),
        ("FIBs", fibs, mutated, ["listen", "a.file"], rf"{LISTED}|refused: (not whole FIBs|Full)"),
        ("FIBs with right CRCs", fibs, resealed, ["listen", "a.file"], rf"{LISTED}|refused: Full"),
        ("events", events, mutated, ["play", "small.code", "a.file", "b.fib"], rf"played \d+ frames|events {text_fault}"),
        ("commands", commands, mutated, ["debug", "small.code", "a.file"], rf"{REPORTED}|commands {text_fault}"),
    ]


def try_random(tally, program, folder, seed, times):
    """Files of each kind with random changes."""
    common.write(folder, "small.code", CONTACT)
    common.write(folder, "a.events", "frames 1 contact 3 closed frames 39 contact 3 open frames 30")
    common.write(folder, "a.commands", "break 9 run 100 contact 3 closed run 2 next clear show")
    made = common.run([program, "play", "small.code", "a.events", "a.fib"], folder)
    tally.same("FIBs to be changed", (0, b"played 70 frames\n"), made.lines())
    chance = random.Random(seed)
    for name, examples, change, words, pattern in kinds(folder):
        done = 0
        for _ in range(times):
            content = change(chance, chance.choice(examples))
            common.write(folder, "a.file", content)
            ended = common.run([program, *words], folder)
            holds = re.fullmatch(f"(?:{pattern})\n?", ended.printed.decode(errors="replace")) is not None
            done += ended.status == 0
            tally.hold(holds and ended.status in (0, 1) and not rows.without_notes(ended.messages),
                       f"{name}, seed {seed}: {content.hex()}: {ended.lines()} {ended.messages}")
            if words[0] in ("compile", "verify"):
                explained = common.run([program, *words, "--explain"], folder)
                first, *rest = explained.printed.decode(errors="replace").removesuffix("\n").split("\n")
                tally.same(f"{name}, seed {seed}: {content.hex()}, explained", ended.lines(), (explained.status, f"{first}\n".encode()))
                tally.hold(all(map(EXPLAINED.fullmatch, rest)), f"{name}, seed {seed}: {content.hex()}: {rest}")
                notes = explained.messages.decode(errors="replace").splitlines()
                warnings = [note for note in notes if UNREAD.fullmatch(note) is None]
                tally.hold(all(map(WARNING.fullmatch, warnings)) and (not warnings or ended.status == 0 and words[0] == "compile"),
                           f"{name}, seed {seed}: {content.hex()}: {warnings}")
        print(f"{name}: {times} files with random changes, {done} of them done, the others refused", flush=True)


def try_lines(tally, program, folder, seed, times):
    """Lines with random changes are played without those that are reported as bad, as `play` plays the others."""
    lines = b"frames 1\ncontact 3 closed # a comment\nframes 30\n\ncontact 3 open; frames 9\nframes 7 contact 4 open\n"
    chance = random.Random(seed)
    reported = 0
    for _ in range(times):
        content = mutated(chance, lines)
        ended = common.run([program, "live", "small.code"], folder, stdin=content)
        bad = [BAD_LINE.fullmatch(line) for line in ended.messages.decode().splitlines()]
        tally.hold(all(bad) and ended.status == 0, f"lines, seed {seed}: {content.hex()}: {ended.lines()} {ended.messages}")
        numbers = {int(found[1]) for found in bad if found}
        reported += len(numbers)
        good = [line for number, line in enumerate(content.split(b"\n"), 1) if number not in numbers]
        common.write(folder, "a.events", b"\n".join(good))
        played = common.run([program, "play", "small.code", "a.events", "b.fib"], folder)
        tally.hold(played.status == 0, f"lines, seed {seed}: {content.hex()}: {played.lines()}")
        tally.same(f"lines, seed {seed}: {content.hex()}", open(f"{folder}/b.fib", "rb").read(), ended.printed)
    print(f"lines: {times} texts with random changes, {reported} lines reported as bad", flush=True)


def main():
    """Runs everything: '[--program] [SEED [TIMES]]'. With --program, only the random changes, which need only the program."""
    words = [word for word in sys.argv[1:] if word != "--program"]
    seed = int(words[0]) if words else 300401
    times = int(words[1]) if len(words) > 1 else 250
    tally = common.Tally()
    program = common.dabplan()
    with tempfile.TemporaryDirectory() as folder:
        if len(words) == len(sys.argv) - 1:
            try_codes(tally, program, common.trials(), folder)
        try_random(tally, program, folder, seed, times)
        try_lines(tally, program, folder, seed, times)
    print(f"seed {seed}")
    tally.end()


if __name__ == "__main__":
    main()
