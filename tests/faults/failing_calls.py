#!/usr/bin/env python3
"""Each system call fails in turn, under every command: those that open, create and read its files, and each write
to standard output.

If a call for a file fails, the command prints only the line of that file, or `no memory` if the system reports that, ends with 1, and
leaves no file; `check`, which prints as it reads, may have printed a part of its lines before. Where `compile` can't create a file beside
OUT, it creates OUT. A command may look at the file once more then, and where it refuses one, to say on standard error why: if these calls
fail nothing else changes. `live` reports that line on standard error, `cannot read -` for its lines, and may have written frames before;
so does `merge`, which goes on without its second file if that was opened. An interrupted call is retried.
If a write fails, takes nothing or is interrupted, nothing is written after it, and the status is 1; `live` and `merge`
report how much was written.
The last line is 'N passed, M failed'.
"""
import os
import pathlib
import tempfile

import common
import rows

# Errors of the system: an input or output error, an interrupted call, no memory.
EIO, EINTR, ENOMEM = 5, 4, 12

# A command, and its lines for its first, second and third file.
ROWS = [
    ("frame x.record --ensemble E1C5 --count 1", ["cannot read x.record\n"]),
    ("frame - --ensemble E1C5 --count 1", ["cannot read -\n"]),
    ("listen x.fib", ["cannot read x.fib\n"]),
    ("check x.fib", ["cannot read x.fib\n"]),
    ("compile x.script x.out", ["cannot read x.script\n", "cannot write x.out\n"]),
    ("compile x.script x.out --explain", ["cannot read x.script\n", "cannot write x.out\n"]),
    ("compile x.schedule x.out", ["cannot read x.schedule\n", "cannot write x.out\n"]),
    ("compile x.script x.out --from x.schedule", ["cannot read x.script\n", "cannot read x.schedule\n", "cannot write x.out\n"]),
    ("verify x.code", ["cannot read x.code\n"]),
    ("verify x.code --explain", ["cannot read x.code\n"]),
    ("play x.code x.events x.out", ["cannot read x.code\n", "cannot read x.events\n", "cannot write x.out\n"]),
    ("timeline x.code x.events", ["cannot read x.code\n", "cannot read x.events\n"]),
    ("timeline x.schedule x.events", ["cannot read x.schedule\n", "cannot read x.events\n"]),
    ("debug x.code x.commands", ["cannot read x.code\n", "cannot read x.commands\n"]),
]

# The same where the events or the commands have a fault.
REFUSED_ROWS = [
    ("play x.code x.mistake x.out", ["cannot read x.code\n", "cannot read x.mistake\n", "cannot write x.out\n"]),
    ("debug x.code x.mistake", ["cannot read x.code\n", "cannot read x.mistake\n"]),
]

# A plan driven for 30 frames of 96 bytes, with a notice and a swap.
LIVE = "live x.code --status"
LINES = b"frames 1\ncontact 3 closed\nframes 29\n"
FRAME = 96

# These frames with FIGs of a multiplexer: its calls, and for each the file that it opens or reads. The first read of each
# is of no bytes.
MERGE = "merge x.fib y.fib"
MERGE_CALLS = [("o", "x.fib"), ("r", "x.fib"), ("o", "y.fib"), ("r", "y.fib"), ("r", "x.fib"), ("r", "y.fib"), ("r", "x.fib")]
REAL = common.TOP / "bench" / "samples" / "real_fic.fib"


class Failing:
    """The program over its files, with a library that makes its calls fail."""

    def __init__(self, folder):
        self.program = common.dabplan()
        self.folder = folder
        self.library = common.preloaded(folder, "fail")
        self.record = (common.EXAMPLES / "one_programme.rec").read_bytes()
        common.write(folder, "x.record", self.record)
        common.write(folder, "x.wrong", (common.SAMPLES / "contact_rate.plan").read_bytes().replace(b"join", b"joi"))
        common.write(folder, "x.script", (common.SAMPLES / "contact_rate.plan").read_bytes())
        common.write(folder, "x.schedule", (common.EXAMPLES / "night_and_region.plan").read_bytes())
        common.write(folder, "x.code", (common.SAMPLES / "contact_lowers_a_rate.code").read_bytes())
        common.write(folder, "x.events", "contact 3 closed frames 30")
        common.write(folder, "x.mistake", "contact 3 shut")
        common.write(folder, "x.commands", "contact 3 closed run 30 show")
        common.run([self.program, "play", "x.code", "x.events", "x.fib"], folder)
        common.write(folder, "y.fib", REAL.read_bytes()[:30 * FRAME])

    def run(self, line, stdin=None, **settings):
        """How a command ends, and the calls that it made, a letter each. A setting is the end of the name of a variable.
        The default standard input is a record."""
        pathlib.Path(self.folder, "x.out").unlink(missing_ok=True)
        environment = dict(os.environ, LD_PRELOAD=str(self.library))
        environment.update({f"FAIL_{name.upper()}": str(value) for name, value in settings.items()})
        with tempfile.TemporaryFile() as reported:
            environment["FAIL_TELLS"] = str(reported.fileno())
            given = self.record if stdin is None else stdin
            ended = common.run([self.program, *line.split()], self.folder, given, environment=environment,
                               pass_fds=(reported.fileno(),))
            reported.seek(0)
            return ended, reported.read().decode()

    def is_made(self):
        """Whether the last command left its file."""
        return pathlib.Path(self.folder, "x.out").exists()


def try_own(tally, failing, line, number, refusal, whole, calls):
    """A call for a file of the command fails, also with out of memory."""
    for error, wanted in ((EIO, refusal), (ENOMEM, "no memory\n")):
        ended, made = failing.run(line, at=number, **{"as": error})
        what = f"{line}: call {number} fails as {error}"
        before = ended.printed.removesuffix(wanted.encode()) if line.startswith("check") else b""
        tally.same(what, (1, before + wanted.encode(), b""), (*ended.lines(), rows.without_notes(ended.messages)))
        tally.hold(whole.startswith(before), f"{what}: what is printed before it")
        made = made.replace("w", "")
        tally.same(f"{what}: calls", calls[:number], made[:number])
        tally.hold(set(made[number:]) <= set("or"), f"{what}: calls that only read, after it")
        tally.hold(not failing.is_made(), f"{what}: a file is made")


def try_beside(tally, failing, line, number, whole, calls):
    """The file beside OUT can't be created: OUT is."""
    for error in (EIO, ENOMEM):
        ended, made = failing.run(line, at=number, **{"as": error})
        what = f"{line}: call {number}, for a file beside OUT, fails as {error}"
        tally.same(what, (0, whole, b""), (*ended.lines(), rows.without_notes(ended.messages)))
        tally.same(f"{what}: calls", calls[:number] + "c" + calls[number:], made.replace("w", ""))
        tally.hold(failing.is_made(), f"{what}: no file is made")


def try_files(tally, failing):
    """Each call that opens, creates or reads a file fails, also with out of memory, or is interrupted."""
    for line, refusals, status in [(*row, 0) for row in ROWS] + [(*row, 1) for row in REFUSED_ROWS]:
        ended, calls = failing.run(line)
        tally.same(f"{line}: status", status, ended.status)
        printed, calls = ended.printed, calls.replace("w", "")
        # standard input is open from the start
        files = [calls[:number].count("o") + calls[:number].count("c") for number in range(1, len(calls) + 1)]
        files = [max(file, 1) for file in files]
        tally.hold(max(files, default=0) >= len(refusals), f"{line}: files")
        tally.hold(status == 1 or max(files, default=0) == len(refusals), f"{line}: no other file")
        for number, file in enumerate(files, 1):
            if line.startswith("compile") and calls[number - 1] == "c":
                try_beside(tally, failing, line, number, printed, calls)
            elif file <= len(refusals):
                try_own(tally, failing, line, number, refusals[file - 1], printed, calls)
            else:
                ended, _ = failing.run(line, at=number, **{"as": EIO})
                tally.same(f"{line}: call {number}, to say why, fails", (status, printed, b""),
                           (*ended.lines(), rows.without_notes(ended.messages)))
            ended, made = failing.run(line, at=number, **{"as": EINTR})
            what = f"{line}: call {number} is interrupted"
            tally.same(what, (status, printed, b""), (*ended.lines(), rows.without_notes(ended.messages)))
            tally.same(f"{what}: calls", calls[:number] + calls[number - 1:], made.replace("w", ""))


def flushed(line, printed):
    """The parts of an output that are flushed: `check` flushes the findings in its one piece before it reads on."""
    end = printed[:-1].rfind(b"\n") + 1 if line.startswith("check") else 0
    return [part for part in (printed[:end], printed[end:]) if part]


def try_writes(tally, failing, line, takes):
    """Each write to standard output fails, with a limit on the bytes per write."""
    whole, calls = failing.run(line, takes=takes)
    writes = calls.count("w")
    sizes = [min(takes, len(part) - at) for part in flushed(line, whole.printed) for at in range(0, len(part), takes)]
    tally.same(f"{line}: writes", len(sizes), writes)
    for number in range(writes):
        for error in (EIO, EINTR, 0):
            ended, calls = failing.run(line, takes=takes, after=number, **{"as": error})
            what = f"{line}: write {number + 1} fails as {error}"
            tally.same(what, (1, whole.printed[:sum(sizes[:number])], b""), (*ended.lines(), ended.messages))
            tally.same(f"{what}: writes", number + 1, calls.count("w"))


def try_live_reads(tally, failing):
    """Each call of `live` that opens or reads fails, or is interrupted."""
    whole, calls = failing.run(LIVE, LINES)
    calls = calls.replace("w", "")
    tally.same(LIVE, (0, 30 * FRAME, 2), (whole.status, len(whole.printed), whole.messages.count(b"\n")))
    # without lines the last call reads standard input
    of_code = len(failing.run(LIVE, b"")[1]) - 1
    for number in range(1, len(calls) + 1):
        before = (whole.printed, whole.messages) if number > of_code + 1 else (b"", b"")
        for error in (EIO, ENOMEM):
            ended, _ = failing.run(LIVE, LINES, at=number, **{"as": error})
            wanted = b"cannot read -\n"
            if number <= of_code:
                wanted = b"no memory\n" if error == ENOMEM else b"cannot read x.code\n"
            tally.same(f"{LIVE}: call {number} fails as {error}", (1, before[0], before[1] + wanted),
                       (*ended.lines(), ended.messages))
        ended, _ = failing.run(LIVE, LINES, at=number, **{"as": EINTR})
        tally.same(f"{LIVE}: call {number} is interrupted", (0, whole.printed, whole.messages), (*ended.lines(), ended.messages))


def try_live_writes(tally, failing):
    """Each write of frames fails, with at most 40 bytes per write, so that a frame takes three."""
    whole, _ = failing.run(LIVE, LINES)
    notes = [(int(note.split()[1]), note) for note in whole.messages.splitlines(keepends=True)]
    for number in range(90):
        frames, part = number // 3, number % 3 * 40
        reported = b"".join(note for frame, note in notes if frame < frames)
        reported += f"write failed after {frames} frames and {part} bytes\n".encode()
        for error in (EIO, EINTR, 0):
            ended, calls = failing.run(LIVE, LINES, takes=40, after=number, **{"as": error})
            what = f"{LIVE}: write {number + 1} fails as {error}"
            tally.same(what, (1, whole.printed[:FRAME * frames + part], reported), (*ended.lines(), ended.messages))
            tally.same(f"{what}: writes", number + 1, calls.count("w"))


def try_merge_reads(tally, failing):
    """Each call of `merge` that opens or reads fails, or is interrupted. Only a later read of the second file lets it go
    on."""
    whole, calls = failing.run(MERGE)
    plan = pathlib.Path(failing.folder, "x.fib").read_bytes()
    tally.same(MERGE, (0, len(plan), "".join(call for call, _ in MERGE_CALLS)),
               (whole.status, len(whole.printed), calls.replace("w", "")))
    tally.hold(whole.printed != plan, f"{MERGE}: nothing is carried")
    tally.same(f"{MERGE}: frames that are read together are written together", 1, calls.count("w"))
    for number, (_, file) in enumerate(MERGE_CALLS, 1):
        goes_on, is_last = number == 6, number == 7
        printed = plan if goes_on else whole.printed if is_last else b""
        wanted = f"cannot read {file}\n" + ("frames 30 carried 0 waiting 0 dropped 0 stale 0 damaged 0\n" if goes_on else "")
        ended, _ = failing.run(MERGE, at=number, **{"as": EIO})
        tally.same(f"{MERGE}: call {number} fails", (1, printed, wanted.encode()), (*ended.lines(), ended.messages))
        ended, _ = failing.run(MERGE, at=number, **{"as": EINTR})
        tally.same(f"{MERGE}: call {number} is interrupted", (0, whole.printed, whole.messages), (*ended.lines(), ended.messages))


def try_merge_writes(tally, failing):
    """Each write of merged frames fails, with at most 40 bytes per write of the 30 frames that are written together."""
    whole, _ = failing.run(MERGE)
    for number in range(72):
        frames, part = divmod(number * 40, FRAME)
        reported = f"write failed after {frames} frames and {part} bytes\n".encode()
        for error in (EIO, EINTR, 0):
            ended, calls = failing.run(MERGE, takes=40, after=number, **{"as": error})
            what = f"{MERGE}: write {number + 1} fails as {error}"
            tally.same(what, (1, whole.printed[:FRAME * frames + part], reported), (*ended.lines(), ended.messages))
            tally.same(f"{what}: writes", number + 1, calls.count("w"))


def main():
    """Runs all of it."""
    tally = common.Tally()
    with tempfile.TemporaryDirectory() as folder:
        failing = Failing(folder)
        try_files(tally, failing)
        try_live_reads(tally, failing)
        try_live_writes(tally, failing)
        try_merge_reads(tally, failing)
        try_merge_writes(tally, failing)
        for line in [line for line, _ in ROWS] + ["help", "--version", "help live", "live --help"]:
            try_writes(tally, failing, line, 16)
        # a refusal that is explained: its status is 1 anyway
        try_writes(tally, failing, "compile x.wrong x.out --explain", 16)
        # a result, a fault of the input and one of the command line, a byte at a time
        for options in ("--count 1", "--count 1 --page 1", "--count 5000"):
            try_writes(tally, failing, f"frame - --ensemble E1C5 {options}", 1)
    tally.end()


if __name__ == "__main__":
    main()
