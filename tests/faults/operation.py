#!/usr/bin/env python3
"""Nothing is lost in operation: standard streams in non-blocking mode, outputs named like inputs, refusals that leave
files as they were, size limits of files, control bytes in names, a folder whose name is not UTF-8, and outputs on
standard output. The last line is 'N passed, M failed'."""
import fcntl
import os
import pathlib
import resource
import select
import shutil
import signal
import subprocess
import tempfile
import threading
import time

import common
import rows

CODE = common.SAMPLES / "contact_lowers_a_rate.code"
FRAME = 96


def set_non_blocking(descriptor):
    """Sets the non-blocking mode of a descriptor."""
    fcntl.fcntl(descriptor, fcntl.F_SETFL, fcntl.fcntl(descriptor, fcntl.F_GETFL) | os.O_NONBLOCK)


def slowly(descriptor, pieces):
    """Writes pieces with pauses, and closes."""
    for piece in pieces:
        time.sleep(0.05)
        os.write(descriptor, piece)
    os.close(descriptor)


def over_pipes(words, folder, pieces, slow_reader):
    """Runs a program whose standard input and output are pipes in non-blocking mode, at both ends of which this one waits."""
    read, write = os.pipe()
    taken, given = os.pipe()
    set_non_blocking(read)
    set_non_blocking(given)
    with subprocess.Popen([str(word) for word in words], cwd=folder, stdin=read, stdout=given, stderr=subprocess.PIPE) as job:
        os.close(read)
        os.close(given)
        feeder = threading.Thread(target=slowly, args=(write, pieces))
        feeder.start()
        printed = b""
        while True:
            if slow_reader:
                time.sleep(0.01)
            piece = os.read(taken, 65536)
            if not piece:
                break
            printed += piece
        os.close(taken)
        feeder.join()
        messages = job.stderr.read()
        return job.wait(), printed, messages


def streams_that_do_not_block(tally, program, folder):
    """EAGAIN is not the end: a read or a write waits."""
    common.write(folder, "a.events", "frames 2000")
    common.run([program, "play", CODE, "a.events", "a.fib"], folder)
    wanted = pathlib.Path(folder, "a.fib").read_bytes()
    lines = [b"frames 1\n"] * 5 + [b"frames 1995\n"]
    for slow_reader in (False, True):
        tally.same(f"live, standard streams that do not block, slow reader {slow_reader}", (0, wanted, b""),
                   over_pipes([program, "live", CODE], folder, lines, slow_reader))
    pieces = [wanted[at:at + 20000] for at in range(0, len(wanted), 20000)]
    for words in (["listen", "-"], ["check", "-"]):
        common.write(folder, "b.fib", wanted)
        in_file = common.run([program, words[0], "b.fib"], folder)
        tally.same(f"{words[0]} -, standard streams that do not block", (in_file.status, in_file.printed, b""),
                   over_pipes([program, *words], folder, pieces, False))


def messages_that_do_not_block(tally, program, folder):
    """No message of a standard error in non-blocking mode is lost, however slowly it is read."""
    taken, given = os.pipe()
    set_non_blocking(given)
    with subprocess.Popen([program, "live", CODE, "--every", "1"], cwd=folder, stdin=subprocess.PIPE, stdout=subprocess.DEVNULL,
                          stderr=given) as job:
        os.close(given)
        job.stdin.write(b"frames 20000\n")
        job.stdin.close()
        time.sleep(0.2)
        messages = b""
        while piece := os.read(taken, 65536):
            messages += piece
        os.close(taken)
    wanted = "".join(f"frame {n} count {n % 5000}\n" for n in range(20000)).encode()
    tally.hold(messages == wanted, f"{len(messages)} bytes of messages, not {len(wanted)}")


def held(folder, files):
    """The bytes of these files; None for one that is not there."""
    paths = [pathlib.Path(folder, name) for name in files]
    return {path.name: path.read_bytes() if path.exists() else None for path in paths}


def equal_paths(tally, program, folder):
    """An output named like an input is a fault of the command line, and no file changes."""
    code = CODE.read_bytes()
    script = (common.EXAMPLES / "night_rate.plan").read_bytes()
    files = {"s.code": code, "e.ev": b"frames 3", "x.plan": script}
    for words, named in ((["play", "s.code", "e.ev", "s.code"], "CODE and OUT"),
                         (["play", "s.code", "e.ev", "e.ev"], "EVENTS and OUT"),
                         (["compile", "x.plan", "x.plan"], "SCRIPT and OUT"),
                         (["map", "x.plan", "--svg", "x.plan"], "SCRIPT and --svg <OUT>")):
        for name, content in files.items():
            common.write(folder, name, content)
        ended = common.run([program, *words], folder)
        tally.same(" ".join(words), (2, f"error: {named} are the same file: '{words[-1]}'\n".encode(), files),
                   (ended.status, ended.printed, held(folder, files)))


def refusals(tally, program, folder):
    """Where the code, the start or the events are refused, OUT keeps its bytes; where there is none it is made empty."""
    common.write(folder, "s.code", CODE.read_bytes())
    common.write(folder, "bad.code", CODE.read_bytes()[:40])
    common.write(folder, "e.ev", "frames 3")
    common.write(folder, "bad.ev", "frames 3 frames 0")
    common.write(folder, "none.ev", "")
    for words, line in ((["s.code", "e.ev", "--count", "5000"], "start: Count"),
                        (["s.code", "e.ev", "--day", "3600000"], "start: Day"),
                        (["s.code", "bad.ev"], "events 1:17: Number"), (["bad.code", "e.ev"], "code: Truncated")):
        for before, after in ((b"yesterday", b"yesterday"), (None, b"")):
            out = pathlib.Path(folder, "day.fib")
            out.unlink(missing_ok=True)
            if before is not None:
                out.write_bytes(before)
            ended = common.run([program, "play", words[0], words[1], "day.fib", *words[2:]], folder)
            tally.same(f"play {' '.join(words)} over {before}", (1, f"{line}\n".encode(), after),
                       (ended.status, ended.printed, out.read_bytes() if out.exists() else None))
    common.write(folder, "day.fib", b"yesterday")
    ended = common.run([program, "play", "s.code", "none.ev", "day.fib"], folder)
    tally.same("no frame", (0, b"played 0 frames\n", {"day.fib": b""}), (ended.status, ended.printed, held(folder, ["day.fib"])))
    for words in (["s.code", "e.ev"], ["bad.code", "e.ev"]):
        ended = common.run([program, "play", *words, "missing/day.fib"], folder)
        tally.same(f"play {words} in no folder", (1, b"cannot write missing/day.fib\n"), ended.lines())


def limited(words, folder, size, ignored):
    """The end of a run whose files have at most this many bytes, with the signal of the limit ignored or not."""
    def limit():
        resource.setrlimit(resource.RLIMIT_FSIZE, (size, size))
        resource.setrlimit(resource.RLIMIT_CORE, (0, 0))
        signal.signal(signal.SIGXFSZ, signal.SIG_IGN if ignored else signal.SIG_DFL)

    with open(pathlib.Path(folder, "printed"), "wb") as out:
        done = subprocess.run([str(word) for word in words], cwd=folder, stdout=out, stderr=subprocess.PIPE, check=False,
                              input=b"frames 10\n", preexec_fn=limit, restore_signals=False)
    return done.returncode, done.stderr


def events_as_file_and_pipe(tally, program, folder):
    """Events in a file and through a pipe, longer than what is read at once: the same line and bytes."""
    common.write(folder, "s.code", CODE.read_bytes())
    steps = [f"contact {n % 16} {'closed' if n % 3 else 'open'}" for n in range(8000)] + ["frames 3", "frames 70"] * 300
    texts = {
        "lines": "\n".join(steps), "indented lines": "".join(f"\t  {step} # frames 9\n\n" for step in steps),
        "one line": " ".join(steps), "a token a line": "\r\n".join(steps).replace(" ", "\r\n;"),
        "a comment of 70,000 bytes": "frames 2 #" + "frames 1 " * 7800 + "\nframes 3", "blanks": "frames 2" + " " * 70_000 + "frames 3",
        "65,536 bytes": "frames 3 " + " " * 65_518 + "frames 30"[:9], "nothing": "", "a step that is cut": "\n".join(steps) + "\nframes",
        "a number out of range": "\n".join(steps) + "\nframes 0\n" + "frames 1\n" * 9000, "a bad byte": "\n".join(steps) + " @",
        "a bad byte behind a fault": "frames\n" * 20_000 + "@", "a brace": "frames 1\n" * 20_000 + "{",
    }
    for name, text in texts.items():
        common.write(folder, "e.ev", text)
        for out in ("a.fib", "b.fib"):
            pathlib.Path(folder, out).unlink(missing_ok=True)
        by_file = common.run([program, "play", "s.code", "e.ev", "a.fib"], folder)
        by_pipe = common.run(["bash", "-c", f"cat e.ev | '{program}' play s.code /dev/stdin b.fib"], folder)
        tally.same(f"events, {name}", by_pipe.lines(), by_file.lines())
        tally.hold(pathlib.Path(folder, "a.fib").read_bytes() == pathlib.Path(folder, "b.fib").read_bytes(), f"events, {name}: other frames")
        streamed = common.run([program, "play", "s.code", "e.ev", "-"], folder)
        tally.hold(streamed.printed == pathlib.Path(folder, "a.fib").read_bytes(), f"events, {name}: other frames on standard output")


def commands_as_file_and_pipe(tally, program, folder):
    """Commands in a file and through a pipe, longer than what is read at once: the same lines."""
    common.write(folder, "s.code", CODE.read_bytes())
    commands = [f"contact {n % 16} {'closed' if n % 3 else 'open'}" for n in range(6000)] + ["run 3", "next", "break 9", "clear", "show"] * 60
    texts = {
        "lines": "\n".join(commands), "indented lines": "".join(f"\t  {command} # show\n\n" for command in commands),
        "one line": " ".join(commands), "a token a line": "\r\n".join(commands).replace(" ", "\r\n;"),
        "a comment of 70,000 bytes": "run 2 #" + "show " * 14_000 + "\nshow", "nothing": "",
        "a command that is cut": "\n".join(commands) + "\nrun", "a cut command in the middle": "run\n" + "\n".join(commands),
        "a number out of range": "\n".join(commands) + "\nrun 0\n" + "show\n" * 9000, "a bad byte": "\n".join(commands) + " @",
        "a bad byte behind a fault": "run\n" * 20_000 + "@", "a brace": "show\n" * 20_000 + "{",
    }
    for name, text in texts.items():
        common.write(folder, "e.commands", text)
        by_file = common.run([program, "debug", "s.code", "e.commands"], folder)
        by_pipe = common.run(["bash", "-c", f"cat e.commands | '{program}' debug s.code /dev/stdin"], folder)
        tally.hold(by_pipe.lines() == by_file.lines(), f"commands, {name}: {by_pipe.printed[-99:]} and {by_file.printed[-99:]}")


def changed_commands(tally, program, folder):
    """Standard output is another name of COMMANDS, which is overwritten while they are executed: they were all read before."""
    common.write(folder, "s.code", CODE.read_bytes())
    common.write(folder, "e.commands", "show\n" * 20_000)
    wanted = common.run([program, "debug", "s.code", "e.commands"], folder).printed
    with open(f"{folder}/e.commands", "r+b") as out:
        done = subprocess.run([str(program), "debug", "s.code", "e.commands"], cwd=folder, stdout=out, check=False)
    tally.same("commands that are overwritten", 0, done.returncode)
    tally.hold(pathlib.Path(folder, "e.commands").read_bytes() == wanted, "commands that are overwritten: other lines")


def changed_events(tally, program, folder):
    """Standard output is another name of EVENTS, which is overwritten while they are played: they were all read before."""
    common.write(folder, "s.code", CODE.read_bytes())
    common.write(folder, "e.ev", "frames 1\n" * 20_000)
    whole = common.run([program, "play", "s.code", "e.ev", "-"], folder).printed
    with open(f"{folder}/e.ev", "r+b") as out:
        done = subprocess.run([str(program), "play", "s.code", "e.ev", "-"], cwd=folder, stdout=out, stderr=subprocess.PIPE, check=False)
    tally.same("events that are overwritten", (0, b"played 20000 frames\n"), (done.returncode, done.stderr))
    tally.hold(pathlib.Path(folder, "e.ev").read_bytes() == whole, "events that are overwritten: other frames")


def size_limits(tally, program, folder):
    """A file limit: with its signal ignored, a write that failed; else the signal ends the program."""
    common.write(folder, "a.events", "frames 10")
    wanted = b"write failed after 4 frames and 16 bytes\n"
    status, _ = limited([program, "play", CODE, "a.events", "a.fib"], folder, 400, True)
    tally.same("play under a limit", (1, wanted), (status, pathlib.Path(folder, "printed").read_bytes()))
    tally.same("live under a limit", (1, wanted), limited([program, "live", CODE], folder, 400, True))
    status, _ = limited([program, "play", CODE, "a.events", "a.fib"], folder, 400, False)
    tally.same("play under a limit, by its signal", -signal.SIGXFSZ, status)


def hostile_names(tally, program, folder):
    """Control bytes of names and arguments are shown as '\\xHH', and forge no line."""
    name = "no\nplayed 7 frames\x1b[31m\x7f"
    shown = "no\\x0Aplayed 7 frames\\x1B[31m\\x7F"
    line = f"cannot read {shown}\n".encode()
    for words in (["listen", name], ["verify", name], ["frame", name, "--ensemble", "E1C5", "--count", "0"]):
        tally.same(f"{words[0]} of a hostile name", (1, line), common.run([program, *words], folder).lines())
    ended = common.run([program, "diff", name, name], folder)
    tally.same("diff of a hostile name", (1, b"", line), (*ended.lines(), rows.without_notes(ended.messages)))
    ended = common.run([program, "live", name], folder)
    why = f"{shown}: error: No such file or directory\n"
    tally.same("live of a hostile name", (1, b"", f"cannot read {shown}\n{why}".encode()), (*ended.lines(), ended.messages))
    for words in (["listen", "a", "--\x1b[31m\nx"], ["\x1b]0;x\x07"], ["play", "a", "b", "c", "--contacts", "\x1b\n12"],
                  ["play", "a", "b", "c", "--time", "\x1b\n12"], ["play", "a", "b", "c", "--count", "\x1b\n12"]):
        ended = common.run([program, *words], folder)
        tally.same(f"{words}: status", 2, ended.status)
        tally.hold(ended.printed.count(b"\n") == 1 and b"\x1b" not in ended.printed and b"\\x1B" in ended.printed,
                   f"{words}: {ended.printed}")
    common.write(folder, "a\nb.plan", "ensemble\n")
    ended = common.run([program, "diff", "a\nb.plan", "a\nb.plan"], folder)
    tally.same("diff of a hostile name", (1, b"", b"a\\x0Ab.plan:2:1: Expected\n"), (*ended.lines(), rows.without_notes(ended.messages)))
    tally.hold(b"a\\x0Ab.plan:2:1: error: " in ended.messages and b"a\nb" not in ended.messages, f"explained: {ended.messages}")
    ended = common.run([program, "compile", "a\nb.plan", "o", "--explain"], folder)
    tally.hold(b"a\\x0Ab.plan:2:1: " in ended.printed and b"a\nb" not in ended.printed, f"explained: {ended.printed}")
    common.write(folder, "é.plan", "ensemble\n")
    ended = common.run([program, "diff", "é.plan", "é.plan"], folder)
    tally.same("a name that is not ASCII", (1, b"", "é.plan:2:1: Expected\n".encode()),
               (*ended.lines(), rows.without_notes(ended.messages)))


def a_folder_that_is_no_text(tally, program, folder):
    """The name of the program is no argument."""
    place = os.path.join(os.fsencode(folder), b"\xff\xfe")
    os.mkdir(place)
    shutil.copy(program, os.path.join(place, b"dabplan"))
    done = subprocess.run([os.path.join(place, b"dabplan"), b"verify", os.fsencode(CODE)], capture_output=True, check=False)
    tally.same("a folder that is not UTF-8", (0, b"accepted\n"), (done.returncode, done.stdout))
    done = subprocess.run([os.path.join(place, b"dabplan"), b"verify", b"\xff"], capture_output=True, check=False)
    tally.same("an argument that is not UTF-8", (2, b"error: an argument is not UTF-8\n"), (done.returncode, done.stdout))


def standard_output(tally, program, folder):
    """'-' as the output of play and compile is standard output; the lines go to standard error."""
    common.write(folder, "a.events", "frames 100")
    common.run([program, "play", CODE, "a.events", "a.fib"], folder)
    wanted = pathlib.Path(folder, "a.fib").read_bytes()
    ended = common.run([program, "play", CODE, "a.events", "-"], folder)
    tally.same("play to standard output", (0, wanted, b"played 100 frames\n"), (*ended.lines(), ended.messages))
    ended = common.run([program, "play", CODE, "a.events", "-", "--count", "5000"], folder)
    tally.same("play refused", (1, b"", b"start: Count\n"), (*ended.lines(), ended.messages))
    ended = common.run([program, "play", CODE, "a.events", "-", "--count", "x"], folder)
    tally.hold(ended.status == 2 and ended.printed == b"" and ended.messages.startswith(b"error: "), f"play -: {ended.messages}")
    script = common.EXAMPLES / "night_rate.plan"
    made = common.run([program, "compile", script, "a.code"], folder)
    ended = common.run([program, "compile", script, "-"], folder)
    tally.same("compile to standard output", (0, pathlib.Path(folder, "a.code").read_bytes(), made.printed),
               (*ended.lines(), rows.without_notes(ended.messages)))
    common.write(folder, "bad.plan", "ensemble\n")
    ended = common.run([program, "compile", "bad.plan", "-"], folder)
    tally.same("compile refused", (1, b"", b"2:1: Expected\n"), (*ended.lines(), rows.without_notes(ended.messages)))
    tally.hold(not pathlib.Path(folder, "-").exists(), "a file named '-'")
    with open("/dev/full", "wb") as full:
        done = subprocess.run([program, "play", CODE, "a.events", "-"], cwd=folder, stdout=full, stderr=subprocess.PIPE, check=False)
        tally.same("play to a full output", (1, b"write failed after 0 frames and 0 bytes\n"), (done.returncode, done.stderr))
        done = subprocess.run([program, "compile", script, "-"], cwd=folder, stdout=full, stderr=subprocess.PIPE, check=False)
        tally.same("compile to a full output", (1, b"cannot write -\n"), (done.returncode, done.stderr))


def messages_after_frames(tally, program, folder):
    """Where both go to one pipe, messages come after the frames of their line; 61 at a time if there are more."""
    def of_frame(frame):
        return b"frame %d count %d\n" % (frame, frame)

    for lines, places in ((b"frames 3\nframe\nframes 1\n",
                           [*((of_frame(frame), 3) for frame in range(3)), (b"line 2: 1: Expected\n", 3), (of_frame(3), 4)]),
                          (b"frames 200\n", [(of_frame(frame), min(200, 61 * (frame // 61 + 1))) for frame in range(200)])):
        done = subprocess.run([program, "live", CODE, "--every", "1"], cwd=folder, input=lines,
                              stdout=subprocess.PIPE, stderr=subprocess.STDOUT, check=False)
        wanted, found, before, at = [], [], 0, 0
        for message, frames in places:
            wanted.append((message, FRAME * frames + before))
            at = done.stdout.find(message, at)
            found.append((message, at))
            before += len(message)
        tally.same(f"places of messages, {lines}", wanted, found)


def messages_that_nobody_reads(tally, program, folder):
    """The frames of a line come out where standard error takes no more."""
    taken, given = os.pipe()
    set_non_blocking(given)
    try:
        while True:
            os.write(given, b"x" * 4096)
    except BlockingIOError:
        pass
    os.set_blocking(given, True)
    found = b""
    with subprocess.Popen([program, "live", CODE, "--every", "1", "--status"], cwd=folder, stdin=subprocess.PIPE,
                          stdout=subprocess.PIPE, stderr=given, bufsize=0) as job:
        os.close(given)
        job.stdin.write(b"frames 50\n")
        while len(found) < 50 * FRAME and select.select([job.stdout], [], [], 20)[0]:
            found += job.stdout.read(65536)
        os.close(taken)
        job.stdin.close()
    tally.same("frames of a line whose messages nobody reads", 50 * FRAME, len(found))


def main():
    """The main program."""
    tally = common.Tally()
    program = common.dabplan()
    for part in (streams_that_do_not_block, messages_that_do_not_block, equal_paths, refusals, events_as_file_and_pipe,
                 commands_as_file_and_pipe, changed_events, changed_commands, size_limits, hostile_names,
                 a_folder_that_is_no_text, standard_output, messages_after_frames,
                 messages_that_nobody_reads):
        with tempfile.TemporaryDirectory() as folder:
            part(tally, program, folder)
    tally.end()


if __name__ == "__main__":
    main()
