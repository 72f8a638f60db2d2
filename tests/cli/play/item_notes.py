#!/usr/bin/env python3
"""What standard error says of event files and command files that list no items: the position, what is expected there, the line
with a caret, and a hint, which was tried. The first line of standard output does not change. The last line is 'N passed, M
failed'."""
import rows
from codes import NOTHING_CODE

FRAMES = "a number of frames, 1 to 3600000"
LEVELS = "write 'closed' where the input's circuit is closed, 'open' where it is not"
THEN = "; then it is accepted"


def noted(rows, command, text, fault, sentence, shown, caret, hint):
    """Counts that a command with this text prints this fault, and explains it so."""
    name, path = ("events", "e.ev") if command == "play" else ("commands", "e.ev")
    line, column, _cause = fault.replace(":", " ").split()
    wanted = f"{path}:{line}:{column}: error: {sentence}\n    {shown}\n    {' ' * caret}^\n"
    if hint:
        wanted += f"{path}:{line}: hint: {hint}\n"
    out = " x.fib" if command == "play" else ""
    ended = rows.run(f"{command} x.code {path}{out}", {"x.code": NOTHING_CODE, path: text})
    rows.tally.same(f"{command}: {text!r}", (1, f"{name} {fault}\n".encode(), wanted.encode()), (*ended.lines(), ended.messages))


def steps(rows):
    """Faults of event files."""
    item = "'frames' or 'contact'"
    for text, fault, sentence, hint in (
        ("frames 10s", "1:8: Number", f"expected {FRAMES}; found '10s': a frame is 24 ms, so 10s is 417 frames",
         f"write '417' in place of '10s'{THEN}"),
        ("frames 500ms", "1:8: Number", f"expected {FRAMES}; found '500ms': a frame is 24 ms, so 500ms is 21 frames",
         f"write '21' in place of '500ms'{THEN}"),
        ("frames 00:00:10", "1:8: Number", f"expected {FRAMES}; found '00:00:10': a frame is 24 ms, so 00:00:10 is 417 frames",
         f"write '417' in place of '00:00:10'{THEN}"),
        ("frames 10 s", "1:11: Expected", f"expected {item}; found 's'", f"write 'frames 417' in place of 'frames 10 s'{THEN}"),
        ("frames 010", "1:8: Number", f"expected {FRAMES}; found '010'", f"write '10' in place of '010'{THEN}"),
        ("frames 3600001", "1:8: Number", f"expected {FRAMES}; found '3600001'", ""),
        ("frames", "1:7: Expected", f"expected {FRAMES}; the text ends here", ""),
        ("3 close", "1:1: Expected", f"expected {item}; found '3'", f"write 'contact 3 closed' in place of '3 close'{THEN}"),
        ("closed 3", "1:1: Expected", f"expected {item}; found 'closed'", f"write 'contact 3 closed' in place of 'closed 3'{THEN}"),
        ("contact 3 close", "1:11: Expected", "expected 'closed' or 'open'; found 'close'", f"write 'closed' in place of 'close'{THEN}"),
        ("contact 3 on", "1:11: Expected", "expected 'closed' or 'open'; found 'on'", LEVELS),
        ("contact 16 open", "1:9: Number", "expected a contact, 0 to 15; found '16'", ""),
        ("contact closed 3", "1:9: Number", "expected a contact, 0 to 15; found 'closed'",
         f"write '3 closed' in place of 'closed 3'{THEN}"),
        ("Frames 10", "1:1: Expected", f"expected {item}; found 'Frames'", f"write 'frames' in place of 'Frames'{THEN}"),
        ("wait 10", "1:1: Expected", f"expected {item}; found 'wait'", f"write 'frames' in place of 'wait'{THEN}"),
        ("frames 10s wait", "1:8: Number", f"expected {FRAMES}; found '10s': a frame is 24 ms, so 10s is 417 frames",
         "write '417' in place of '10s'"),
    ):
        column = int(fault.split(":")[1])
        noted(rows, "play", text, fault, sentence, text, column - 1, hint)
    noted(rows, "play", "frames 1\n\tframes 2x # twice\n", "2:9: Number", f"expected {FRAMES}; found '2x'", " frames 2x # twice", 8, "")


def commands(rows):
    """Faults of command files."""
    item = "'run', 'next', 'contact', 'break', 'clear' or 'show'"
    for text, fault, sentence, hint in (
        ("run 10s", "1:5: Number", f"expected {FRAMES}; found '10s': a frame is 24 ms, so 10s is 417 frames",
         f"write '417' in place of '10s'{THEN}"),
        ("frames 10", "1:1: Expected", f"expected {item}; found 'frames'", f"write 'run' in place of 'frames'{THEN}"),
        ("step", "1:1: Expected", f"expected {item}; found 'step'", f"write 'next' in place of 'step'{THEN}"),
        ("break 0", "1:7: Number", "expected a line of the script, 1 to 65535; found '0'", ""),
        ("contact 3 close", "1:11: Expected", "expected 'closed' or 'open'; found 'close'", f"write 'closed' in place of 'close'{THEN}"),
    ):
        column = int(fault.split(":")[1])
        noted(rows, "debug", text, fault, sentence, text, column - 1, hint)


def bytes_outside(rows):
    """Bytes and characters that are not allowed, which are named where texts from elsewhere have them."""
    allowed = "letters, digits, '_', ':', '-', '{', '}', blanks and ';' are allowed there; '#' begins a comment"
    noted(rows, "play", "frames 1, 2", "1:9: Byte", "the byte 2C is not allowed in an event file outside comments", "frames 1, 2", 8, allowed)
    noted(rows, "debug", "run\u00a01", "1:4: Byte", "a no-break space (U+00A0) is not allowed in a command file outside comments",
          "run??1", 3, allowed)


def elsewhere(rows):
    """The same of a run to standard output, behind its line; and nothing where the code is refused first."""
    files = {"x.code": NOTHING_CODE, "e.ev": "frames 10s"}
    ended = rows.run("play x.code e.ev -", files)
    said = ended.messages.decode().splitlines()
    rows.tally.same("play x.code e.ev -", (1, b"", "events 1:8: Number", "e.ev:1:8: error: expected"),
                    (*ended.lines(), said[0], said[1][:25]))
    ended = rows.run("play e.ev e.ev x.fib", files)
    rows.tally.same("a code that is none", (1, b"code: Magic\n", b""), (*ended.lines(), ended.messages))


if __name__ == "__main__":
    rows.main([steps, commands, bytes_outside, elsewhere])
