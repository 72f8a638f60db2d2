#!/usr/bin/env python3
"""Events and commands with random mistakes, judged by a reader written here: 'event_texts.py [SEED [TEXTS]]'.

The texts are longer than the 64 KB that are read at once, with their mistakes near multiples of it: a token left out,
doubled or changed, a byte that is not allowed or is no UTF-8, a comment without an end, the end of the text. Each is given as
a file and through a pipe: both print what the reader here says, a number of frames or the first fault at its position, or
that the text can't be read; a file that is there is left as it is by a text that is refused; the frames of one that is
accepted are those of its steps, one a line. Enough of the texts are refused, for each reason. The last line is 'N passed, M
failed'."""
import os
import pathlib
import random
import re
import sys
import tempfile
from concurrent.futures import ThreadPoolExecutor

import common
import rows

PIECE = 65_536
STEPS = ["contact 3 closed", "contact 15 open", "frames 1", "frames 2"]
COMMANDS = ["contact 3 closed", "contact 0 open", "run 1", "next", "break 9", "clear", "show"]
BLANKS = [" ", "\n", ";", "\t", "\r\n", "  ", " # frames 1\n", "#\n", "# run \u00e4 @\n", " ;# c\n\n"]
WRONG = ["0", "01", "16", "3600001", "65536", "shut", "frame", "c", "clo", "cle", "}", "{", "begin", "frames", "contact", "next",
         "show", "1", "open", "f" * 300, "9" * 40]
REFUSED = 4 * [b"@", b"\0", b"\xc3\xa4", b"\xe2\x82\xac", b"~"] + [b"\xff", b"\xc3", b"\xe2\x82", b"\xf0\x9f\x98", b"\x80"]
CAUSES = ("Byte", "Number", "Expected")
BEFORE = b"what was there"

# What follows the first token of an item: the range of a number, or a level.
LEVEL = None
ITEMS = {"play": {"frames": [(1, 3_600_000)], "contact": [(0, 15), LEVEL]},
         "debug": {"run": [(1, 3_600_000)], "break": [(1, 65_535)], "next": [], "clear": [], "show": [], "contact": [(0, 15), LEVEL]}}


def items(chance, kinds, size):
    """A text of items of at least this many bytes, as a list of tokens and what is between them."""
    found, length = [], 0
    while length < size:
        for token in chance.choice(kinds).split():
            found += [token, chance.choice(BLANKS) if chance.random() < 0.3 else " "]
            length += len(token) + len(found[-1].encode())
    return found


def filler(kinds, size):
    """Items of about this many bytes that play no frame."""
    return (kinds[0] + "\n") * (size // (len(kinds[0]) + 1))


def with_mistakes(chance, found):
    """The pieces of a text with some mistakes, as bytes."""
    pieces = [piece.encode() for piece in found]
    for _ in range(chance.choice((0, 0, 1, 1, 2))):
        place = chance.randrange(0, len(pieces), 2)
        kind = chance.randrange(5)
        if kind == 0:
            del pieces[place:place + 2]
        elif kind == 1:
            pieces[place:place] = pieces[place:place + 2]
        elif kind == 2:
            pieces[place] = chance.choice(WRONG).encode()
        elif kind == 3:
            pieces[place] += chance.choice(REFUSED)
        else:
            pieces[place + 1] += b"# " + chance.choice(REFUSED) + b"\n"
    return b"".join(pieces)


def text(chance, kinds):
    """A text of one to three pieces, with mistakes near their ends."""
    found = b""
    for _ in range(chance.randint(1, 3)):
        room = PIECE * chance.randint(1, 2) - chance.randint(0, 500)
        found += filler(kinds, room - len(found) % PIECE).encode()
        found += with_mistakes(chance, items(chance, kinds, chance.randint(20, 900)))
    if chance.random() < 0.05:
        found += b"# " + b"c" * (PIECE + chance.randint(-300, 300)) + chance.choice((b"", b"\n", b"\n" + kinds[2].encode()))
    if chance.random() < 0.2:
        found = found[:len(found) - chance.randint(1, 30)]
    return found


def position(content, offset):
    """The line and the column of a byte, both counted from 1, in bytes."""
    return f"{content.count(10, 0, offset) + 1}:{offset - content.rfind(10, 0, offset)}"


def tokens(content):
    """The tokens of a text, each with its offset; or the offset of the first byte that is not allowed."""
    plain = re.sub(rb"#[^\n]*", lambda comment: b" " * len(comment[0]), content)
    refused = re.search(rb"[^\t\r\n ;0-9A-Za-z_:{}-]", plain)
    if refused:
        return [], refused.start()
    return [(found[0].decode(), found.start()) for found in re.finditer(rb"[{}]|[0-9A-Za-z_:-]+", plain)], None


def is_read(token, wanted):
    """Whether a token is a number in a range, written as its digits, or a level."""
    if wanted is LEVEL:
        return token in ("open", "closed")
    low, high = wanted
    return re.fullmatch(r"0|[1-9]\d{0,8}", token) is not None and low <= int(token) <= high


def judged(kind, content):
    """The fault of a text as it is printed, and none if it has one; else its items, each a list of its tokens."""
    try:
        content.decode()
    except UnicodeDecodeError:
        return "cannot read", None
    found, refused = tokens(content)
    if refused is not None:
        return f"{position(content, refused)}: Byte", None
    read, at = [], 0
    while at < len(found):
        first, offset = found[at]
        if first not in ITEMS[kind]:
            return f"{position(content, offset)}: Expected", None
        item = [first]
        for wanted in ITEMS[kind][first]:
            at += 1
            token, offset = found[at] if at < len(found) else (None, len(content))
            if token is None or not is_read(token, wanted):
                is_number = wanted is not LEVEL and token is not None and token not in "{}"
                return f"{position(content, offset)}: {'Number' if is_number else 'Expected'}", None
            item.append(token)
        read.append(item)
        at += 1
    return None, read


def answer(program, folder, line, out):
    """The status, the lines and the messages of a command line, and what the file of this name then holds."""
    pathlib.Path(folder, out).write_bytes(BEFORE)
    ended = common.run(["bash", "-c", line.replace("dabplan", f"'{program}'")], folder)
    return ended.status, ended.printed, ended.messages, pathlib.Path(folder, out).read_bytes()


def is_explained(path, fault, messages):
    """Whether standard error says why a text is refused, at the place of the fault: its first line; and nothing of another text."""
    if fault is None:
        return messages == b""
    if fault == "cannot read":
        return rows.without_notes(messages) == b""
    place = fault.rsplit(":", 1)[0]
    return messages.startswith(f"{path}:{place}: error: ".encode()) and messages.endswith(b"\n")


def wrong_of(program, folder, name, kind, content, ended):
    """What is wrong with how a command ended, if anything is."""
    fault, read = judged(kind, content)
    status, printed, messages, frames = ended
    if not is_explained(f"{name}.text", fault, messages):
        return f"messages {messages[-99:]}"
    if fault is not None:
        line = f"cannot read {name}.text" if fault == "cannot read" else f"{'events' if kind == 'play' else 'commands'} {fault}"
        if (status, printed, frames) != (1, f"{line}\n".encode(), BEFORE):
            return f"wanted {line}, found {status}, {printed[-99:]} and {len(frames)} bytes"
        return None
    if kind == "debug":
        lines = re.findall(rb"^frames ", printed, re.MULTILINE)
        return None if (status, len(lines), frames) == (0, len(read), BEFORE) else f"wanted {len(read)} commands, found {len(lines)}"
    count = sum(int(item[1]) for item in read if item[0] == "frames")
    common.write(folder, f"{name}.plain", "\n".join(" ".join(item) for item in read))
    plain = common.run(["bash", "-c", f"'{program}' live small.code <{name}.plain"], folder).printed
    os.unlink(f"{folder}/{name}.plain")
    if (status, printed) != (0, f"played {count} frames\n".encode()):
        return f"wanted {count} frames, found {status} and {printed[-99:]}"
    return None if frames == plain and len(frames) == 96 * count else "other frames than those of its steps"


def tried(program, folder, number, kind, content):
    """The last bytes that are printed of a text, and what is wrong with how the command ended, if anything is."""
    common.write(folder, f"{number}.text", content)
    if kind == "play":
        line = f"dabplan play small.code {number}.text {number}.fib"
    else:
        line = f"dabplan debug small.code {number}.text"
    by_file = answer(program, folder, line, f"{number}.fib")
    piped = f"cat {number}.text | " + line.replace(f"{number}.text", "/dev/stdin")
    by_pipe = answer(program, folder, piped, f"{number}.fib")
    by_pipe = tuple(part.replace(b"/dev/stdin", f"{number}.text".encode()) if index in (1, 2) else part
                    for index, part in enumerate(by_pipe))
    wrong = wrong_of(program, folder, str(number), kind, content, by_file)
    # What is no UTF-8 in a pipe can't be read again to say where.
    if wrong is None and (by_pipe != by_file and (by_pipe[2] or (by_file[:2], by_file[3:]) != (by_pipe[:2], by_pipe[3:]))):
        wrong = f"through a pipe {by_pipe[:3]}"
    for name in ("text", "fib"):
        os.unlink(f"{folder}/{number}.{name}")
    return by_file[1][-40:].decode() if by_file[0] else "", None if wrong is None else f"{kind}, text {number}: {wrong}"


def main():
    """Tries so many texts."""
    words = sys.argv[1:]
    seed = int(words[0]) if words else 300401
    times = int(words[1]) if len(words) > 1 else 2000
    tally = common.Tally()
    program = common.dabplan()
    chance = random.Random(seed)
    kinds = [("play", STEPS), ("debug", COMMANDS)]
    texts = [(number, kinds[number % 2][0], text(chance, kinds[number % 2][1])) for number in range(times)]
    counts = {}
    with tempfile.TemporaryDirectory() as folder, ThreadPoolExecutor(os.cpu_count()) as pool:
        common.write(folder, "small.code", (common.SAMPLES / "contact_lowers_a_rate.code").read_bytes())
        for line, wrong in pool.map(lambda row: tried(program, folder, *row), texts):
            cause = re.search(r"(Byte|Number|Expected)\n$|(cannot read)", line)
            name = (cause[1] or cause[2]) if cause else "accepted"
            counts[name] = counts.get(name, 0) + 1
            tally.hold(wrong is None, wrong)
    for cause in (*CAUSES, "cannot read", "accepted"):
        tally.hold(counts.get(cause, 0) >= times // 40, f"too few texts: {cause}, {counts}")
    print(f"seed {seed}: {times} texts, {counts}")
    tally.end()


if __name__ == "__main__":
    main()
