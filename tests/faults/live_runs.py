#!/usr/bin/env python3
"""Live runs that are killed and resumed, lines without steps, and failing streams.

A hundred runs that are killed, and resumed with the written frames skipped; a million lines
of garbage; a million frames, and a line without an end, in constant memory; a year that is skipped; outputs with a size limit; messages that
nobody reads. The last line is 'N passed, M failed'.
"""
import pathlib
import random
import resource
import subprocess
import tempfile
import time

import common

CODE = common.SAMPLES / "contact_lowers_a_rate.code"
FRAME = 96
YEAR = 365 * 3_600_000
# Four changes of a rate a day, by the clock.
DAYS = "ensemble E1C5 period 4 notice 240 budget 20\nsub 1 at 0 eep 3-A 128 service C221 audio 63 sub 1 in C221\nbegin forever {\n" + "".join(
    f"until {hour}:59:54 rate sub 1 {rate} commit in 250 join\n" for hour, rate in (("01", 96), ("05", 112), ("11", 96), ("21", 128))) + "}\n"


def some_lines(source, count):
    """This many lines, most of them of one frame; some hold more, or a contact, or nothing, or no steps."""
    others = ["contact 3 closed", "contact 3 open", "frames 7", "", "# on", "frame", "frames 0", "contact 3 closed frames 2"]
    return [source.choice(others) if source.random() < 0.2 else "frames 1" for _ in range(count)]


def steps_of(lines):
    """The text of an event file: the lines that list steps."""
    return "\n".join(line for line in lines if line not in ("frame", "frames 0"))


def frames_of(program, folder, lines):
    """The bytes that `play` makes of these lines."""
    common.write(folder, "a.events", steps_of(lines))
    common.run([program, "play", CODE, "a.events", "a.fib"], folder)
    return pathlib.Path(folder, "a.fib").read_bytes()


def killed(program, lines, path, wanted):
    """Gives these lines to a run that writes to a file, and kills it when this many bytes are written, or after a second."""
    with open(path, "wb") as out, \
         subprocess.Popen([program, "live", CODE], stdin=subprocess.PIPE, stdout=out, stderr=subprocess.DEVNULL) as job:
        job.stdin.write("".join(line + "\n" for line in lines).encode())
        job.stdin.flush()
        latest = time.monotonic() + 1
        while path.stat().st_size < wanted and time.monotonic() < latest:
            pass
        job.kill()
        job.wait()


def try_kills(tally, program, folder, source):
    """The stream of a run that was killed, and that of the run that resumes it, are the stream of one run."""
    path = pathlib.Path(folder, "live.fib")
    cut = 0
    for trial in range(100):
        lines = some_lines(source, 400)
        whole = frames_of(program, folder, lines)
        at = source.randrange(401)
        given = len(frames_of(program, folder, lines[:at]))
        killed(program, lines[:at], path, source.randrange(given + 1))
        frames = path.stat().st_size // FRAME
        cut += 0 < frames < len(whole) // FRAME
        with open(path, "r+b") as out:
            out.truncate(FRAME * frames)
        with open(path, "ab") as out:
            ended = subprocess.run([program, "live", CODE, "--skip", str(frames)], stdout=out, stderr=subprocess.DEVNULL,
                                   input="".join(line + "\n" for line in lines).encode(), check=False)
        tally.same(f"trial {trial}, killed at line {at}, with {frames} frames",
                   (0, whole), (ended.returncode, path.read_bytes()))
    tally.hold(cut > 50, f"{cut} runs were killed between their first and their last frame")


def measured(program, folder, lines, *options):
    """The status, the output, the lines of messages, and the most memory of a run over the bytes of a file, in KB."""
    path = pathlib.Path(folder, "a.lines")
    path.write_bytes(lines)
    with open(path, "rb") as given, open(pathlib.Path(folder, "a.fib"), "wb") as out:
        ended = subprocess.run(["/usr/bin/time", "-f", "%M", "-o", "a.memory", program, "live", CODE, *options], cwd=folder,
                               stdin=given, stdout=out, stderr=subprocess.PIPE, check=False)
    memory = int(pathlib.Path(folder, "a.memory").read_text(encoding="ascii").split()[-1])
    return ended.returncode, pathlib.Path(folder, "a.fib").read_bytes(), ended.stderr.splitlines(), memory


def least_memory(program, folder, lines, *options):
    """The lowest peak memory of five runs, in KB: runs of the same lines differ by up to 330 KB."""
    return min(measured(program, folder, lines, *options)[3] for _ in range(5))


def garbage(source):
    """A line of random bytes without steps."""
    line = bytes(source.choices(range(256), k=source.randrange(1, 40))).replace(b"\n", b"?").replace(b"#", b"?")
    return b"%" + line


def try_garbage(tally, program, folder, source):
    """A million lines of garbage change nothing, and each is reported."""
    some = [garbage(source) for _ in range(1000)]
    lines = (b"\n".join(some) + b"\nframes 1\n") * 1000
    status, written, reported, _ = measured(program, folder, lines)
    alone = measured(program, folder, b"frames 1\n" * 1000)
    memory = least_memory(program, folder, lines)
    least = least_memory(program, folder, b"frames 1\n" * 1000)
    tally.same("a million lines of garbage", (0, alone[1], 1_000_000), (status, written, len(reported)))
    tally.same("the first and the last of them", [(b"line", b"1:", b"Byte"), (b"line", b"1000999:", b"Byte")],
               [(*line.split()[:2], line.split()[-1]) for line in (reported[0], reported[-1])])
    tally.hold(memory <= least + 256, f"garbage takes {memory} KB, without it {least} KB")


def try_memory(tally, program, folder):
    """Memory does not grow with lines, frames or the length of a line."""
    least = least_memory(program, folder, b"frames 1\n", "--skip", "4000000000")
    for what, lines in (("a million lines", b"frames 1\n" * 1_000_000), ("ten million frames", b"frames 1000000\n" * 10),
                        ("a line of 100 MB", b"x" * 100_000_000 + b"\nframes 1")):
        status, written, reported, _ = measured(program, folder, lines, "--skip", "4000000000")
        wanted = [b"line 1: Limit"] if what == "a line of 100 MB" else []
        tally.same(what, (0, b"", wanted), (status, written, reported))
        memory = least_memory(program, folder, lines, "--skip", "4000000000")
        tally.hold(memory <= least + 256, f"{what}: {memory} KB, a line {least} KB")
    full = measured(program, folder, b"frames 1 " * 7281 + b"\n", "--skip", "4000000000")
    tally.same("a full line of steps", (0, b"", []), full[:3])
    tally.hold(full[3] <= least + 8192, f"a full line of steps: {full[3]} KB")


def try_year(tally, program, folder, source):
    """A year of frames with four swaps a day and 1,000 contacts is skipped within two seconds."""
    common.write(folder, "year.plan", DAYS)
    common.run([program, "compile", "year.plan", "year.code"], folder)
    lines, left = [], YEAR
    for number in range(1000):
        frames = left // (1000 - number)
        left -= frames
        lines.append(f"frames {frames}\ncontact {source.randrange(16)} {source.choice(('closed', 'open'))}\n")
    begun = time.monotonic()
    ended = common.run([program, "live", "year.code", "--skip", str(YEAR), "--status"], folder, stdin=("".join(lines) + "frames 1\n").encode())
    lasted = time.monotonic() - begun
    tally.same("a year", (0, FRAME, 365 * 4), (ended.status, len(ended.printed), ended.messages.count(b" swap\n")))
    tally.hold(lasted < 2, f"a year took {lasted:.1f} s")


def try_outputs(tally, program, folder):
    """An output with a size limit: the reported numbers are those of the bytes that it took, and no later line is reported."""
    for skip in (0, 3):
        for most in (0, 1, 95, 96, 97, 480, 959):
            def limit(most=most):
                resource.setrlimit(resource.RLIMIT_FSIZE, (most, most))
            line = f"trap '' XFSZ; exec '{program}' live '{CODE}' --skip {skip} >live.fib"
            ended = subprocess.run(["bash", "-c", line], cwd=folder, capture_output=True, preexec_fn=limit, check=False,
                                   input=b"frames 4\nframes 9\nframe\n")
            wanted = f"write failed after {most // FRAME} frames and {most % FRAME} bytes\n".encode()
            tally.same(f"live into {most} bytes, {skip} skipped", (1, wanted), (ended.returncode, ended.stderr))
            tally.same("its size", most, pathlib.Path(folder, "live.fib").stat().st_size)


def try_ends(tally, program, folder):
    """Messages that can't be written are lost; an input that can't be read, and a reader that closes the pipe, end the run."""
    lines = "frames 1\\nframe\\nframes 2\\n"
    wanted = frames_of(program, folder, ["frames 3"])
    for redirection in ("2>/dev/full", "2>&-"):
        line = f"printf '{lines}' | '{program}' live '{CODE}' --status {redirection} >live.fib"
        ended = common.run(["bash", "-c", line], folder)
        tally.same(f"live {redirection}", (0, wanted), (ended.status, pathlib.Path(folder, "live.fib").read_bytes()))
    for redirection in ("<&-", "<."):
        ended = common.run(["bash", "-c", f"'{program}' live '{CODE}' {redirection}"], folder)
        tally.same(f"live {redirection}", (1, b"", b"cannot read -\n"), (*ended.lines(), ended.messages))
    line = f"trap '' PIPE; printf 'frames 9\\nframes 9999\\nframe\\n' | '{program}' live '{CODE}' 2>reported | head -c 500 >live.fib"
    common.run(["bash", "-c", line], folder)
    reported = pathlib.Path(folder, "reported").read_text(encoding="utf-8")
    tally.hold(reported.startswith("write failed after ") and reported.count("\n") == 1, f"a reader that goes away: {reported!r}")


def main():
    """Runs all of it. The lines are the same each time."""
    tally = common.Tally()
    program = common.dabplan()
    source = random.Random(300401)
    with tempfile.TemporaryDirectory() as folder:
        try_kills(tally, program, folder, source)
        try_garbage(tally, program, folder, source)
        try_memory(tally, program, folder)
        try_year(tally, program, folder, source)
        try_outputs(tally, program, folder)
        try_ends(tally, program, folder)
    tally.end()


if __name__ == "__main__":
    main()
