#!/usr/bin/env python3
"""Failing files and outputs of the system.

Output that takes nothing (`/dev/full`), that is closed, or that fails after some bytes; files that can't be read or
created; files that fill the disk; too little address space. The last line is 'N passed, M failed'.
"""
import pathlib
import resource
import shutil
import signal
import subprocess
import tempfile

import common

CODE = common.SAMPLES / "contact_lowers_a_rate.code"
SCRIPT = common.SAMPLES / "contact_rate.plan"
RECORD = common.EXAMPLES / "one_programme.rec"
# In less address space, in KB, the system can't load the program.
LOADED = 4000
FRAME = ["--ensemble", "E1C5", "--count", "0"]


def try_outputs(tally, program, folder):
    """`/dev/full` as the output file, and as standard output; standard output that is closed."""
    common.write(folder, "a.events", "frames 5000")
    common.write(folder, "a.commands", "run 1 " * 5000)
    common.write(folder, "a.fib", b"")
    played = common.run([program, "play", CODE, "a.events", "/dev/full"], folder)
    tally.same("play into /dev/full", (1, b"write failed after 0 frames and 0 bytes\n"), played.lines())
    compiled = common.run([program, "compile", SCRIPT, "/dev/full"], folder)
    tally.same("compile into /dev/full", (1, b"cannot write /dev/full\n", b"/dev/full: error: No space left on device\n"),
               (*compiled.lines(), compiled.messages))
    for words in (["frame", RECORD, *FRAME], ["listen", "a.fib"], ["verify", CODE], ["compile", SCRIPT, "b.code"],
                  ["play", CODE, "a.events", "b.fib"], ["debug", CODE, "a.commands"], ["--help"], ["nothing"]):
        for redirection in (">/dev/full", ">&-"):
            line = " ".join(f"'{word}'" for word in [program, *words]) + " " + redirection
            ended = common.run(["bash", "-c", line], folder)
            tally.same(f"{words[0]} {redirection}", (1, b"", b""), (*ended.lines(), ended.messages))


def try_pipes(tally, program, folder):
    """A reader that closes the pipe after some bytes: nothing more is printed, and the status is 1."""
    for most in (0, 1, 2047, 2048, 2049, 100_000):
        script = f"set -o pipefail; '{program}' debug '{CODE}' a.commands | head -c {most} >b.text; echo ${{PIPESTATUS[0]}}"
        ended = common.run(["bash", "-c", f"trap '' PIPE; {script}"], folder)
        tally.same(f"debug into a reader of {most} bytes: status", (0, b"1\n"), ended.lines())
        tally.same(f"debug into a reader of {most} bytes", most, pathlib.Path(folder, "b.text").stat().st_size)


def try_small_disk(tally, program, folder):
    """A file with a size limit: the reported numbers are those of the bytes that it took."""
    common.write(folder, "a.events", "frames 3000")

    def run(most):
        def limit():
            resource.setrlimit(resource.RLIMIT_FSIZE, (most, most))
        return subprocess.run(["bash", "-c", f"trap '' XFSZ; exec '{program}' play '{CODE}' a.events b.fib"], cwd=folder,
                              capture_output=True, preexec_fn=limit)

    for most in (0, 1, 95, 96, 97, 98_303, 98_304, 98_305, 196_608, 287_999):
        pathlib.Path(folder, "b.fib").unlink(missing_ok=True)
        ended = run(most)
        line = f"write failed after {most // 96} frames and {most % 96} bytes\n".encode()
        tally.same(f"play into {most} bytes of disk", (1, line), (ended.returncode, ended.stdout))
        tally.same(f"play into {most} bytes of disk: its size", most, pathlib.Path(folder, "b.fib").stat().st_size)
    ended = run(288_000)
    tally.same("play into 288,000 bytes of disk", (0, b"played 3000 frames\n"), (ended.returncode, ended.stdout))


def try_full_disk(tally, program, folder):
    """A file system that is full: what is there keeps its bytes, a new file is gone, and the reason is said; a file whose bytes
    need no more room is written."""
    if shutil.which("unshare") is None:
        return
    place = pathlib.Path(folder, "disk")
    place.mkdir()
    common.write(folder, "s.plan", SCRIPT.read_bytes())
    common.run([program, "map", "s.plan", "--svg", "small"], folder)
    small = pathlib.Path(folder, "small").read_bytes()
    tally.hold(4096 < len(small) < 40_000, f"{len(small)} bytes are more than a page, and leave room")
    line = f"""mount -t tmpfs -o size=64k none disk && echo before >disk/o && cp small disk/same && echo >>disk/same &&
        cat /dev/zero >disk/full; for out in o new same; do '{program}' map s.plan --svg disk/$out >printed; echo $?; tail -1 printed;
        done; ls disk; cat disk/o disk/same"""
    done = subprocess.run(["unshare", "-m", "bash", "-c", line], cwd=folder, capture_output=True, check=False)
    if b"unshare:" in done.stderr or b"mount:" in done.stderr:
        print(f"nothing can be mounted here: {done.stderr}")
        return
    for out in ("o", "new"):
        tally.hold(f"disk/{out}: error: No space left on device".encode() in done.stderr.splitlines(), f"a full disk: {done.stderr}")
    said = done.stdout.partition(b"full\no\nsame\n")
    tally.hold(said[0].startswith(b"1\ncannot write disk/o\n1\ncannot write disk/new\n0\n"), f"a full disk: {said[0]}")
    tally.same("a full disk: what is left", b"before\n" + small, said[2])


def try_files(tally, program, folder):
    """Files that can't be read or created, and what is left of output files."""
    common.write(folder, "latin.text", b"frames 1 # caf\xe9")
    common.write(folder, "kept", "kept")
    absent = [
        (["frame", "absent", *FRAME], "cannot read absent"), (["listen", "absent"], "cannot read absent"),
        (["check", "absent"], "cannot read absent"), (["check", "."], "cannot read ."),
        (["verify", "absent"], "cannot read absent"), (["compile", "absent", "kept"], "cannot read absent"),
        (["play", "absent", "a.events", "kept"], "cannot read absent"),
        (["play", CODE, "absent", "kept"], "cannot read absent"),
        (["debug", "absent", "absent"], "cannot read absent"), (["debug", CODE, "absent"], "cannot read absent"),
        (["compile", "latin.text", "kept"], "cannot read latin.text"),
        (["play", CODE, "latin.text", "kept"], "cannot read latin.text"),
        (["debug", CODE, "latin.text"], "cannot read latin.text"),
        (["listen", "."], "cannot read ."), (["verify", "."], "cannot read ."), (["listen", ""], "cannot read "),
        (["play", CODE, "a.events", "."], "cannot write ."), (["compile", SCRIPT, "."], "cannot write ."),
        (["play", CODE, "a.events", "absent/b.fib"], "cannot write absent/b.fib"),
        (["compile", SCRIPT, "absent/b.code"], "cannot write absent/b.code"),
        (["play", "a.events", "a.events", "b.fib"], "code: Magic"),
        (["listen", "/proc/self/mem"], "cannot read /proc/self/mem"),
    ]
    common.write(folder, "a.events", "frames 3")
    for words, line in absent:
        ended = common.run([program, *words], folder)
        tally.same(" ".join(map(str, words)), (1, line.encode() + b"\n"), ended.lines())
    tally.same("what is kept", b"kept", pathlib.Path(folder, "kept").read_bytes())
    tally.hold(not pathlib.Path(folder, "absent").exists(), "nothing absent is made")


def try_input(tally, program, folder):
    """Standard input that is closed, or that is a folder, for `frame -`."""
    for redirection in ("<&-", "<."):
        ended = common.run(["bash", "-c", f"'{program}' frame - {' '.join(FRAME)} {redirection}"], folder)
        tally.same(f"frame - {redirection}", (1, b"cannot read -\n"), ended.lines())
    ended = common.run(["bash", "-c", f"cat '{RECORD}' | '{program}' frame - {' '.join(FRAME)}"], folder)
    tally.same("frame - from a pipe", 0, ended.status)


def try_merge(tally, program, folder):
    """`merge`: standard output that fails, is closed or is a small disk; files that can't be opened, or not be read on."""
    common.write(folder, "a.events", "frames 3000")
    common.run([program, "play", CODE, "a.events", "m.fib"], folder)
    plan = pathlib.Path(folder, "m.fib").read_bytes()
    told = b"frames 3000 carried 0 waiting 0 dropped 0 stale 0 damaged 0\n"
    tally.same("merge", (0, plan, told), merged(program, folder, "m.fib m.fib"))
    for redirection in (">/dev/full", ">&-"):
        wanted = (1, b"", b"write failed after 0 frames and 0 bytes\n")
        tally.same(f"merge {redirection}", wanted, merged(program, folder, f"m.fib m.fib {redirection}"))

    def limit_to(most):
        return lambda: resource.setrlimit(resource.RLIMIT_FSIZE, (most, most))

    for most in (0, 1, 95, 96, 97, 98_303, 98_304, 98_305, 287_999):
        pathlib.Path(folder, "b.fib").unlink(missing_ok=True)
        ended = merged(program, folder, "m.fib m.fib >b.fib", limit_to(most))
        line = f"write failed after {most // 96} frames and {most % 96} bytes\n".encode()
        tally.same(f"merge into {most} bytes of disk", (1, b"", line), ended)
        tally.same(f"merge into {most} bytes of disk: what is written", plan[:most], pathlib.Path(folder, "b.fib").read_bytes())
    for words, path, why in (("absent m.fib", "absent", "absent: error: No such file or directory\n"),
                             ("m.fib absent", "absent", "absent: error: No such file or directory\n"),
                             (". m.fib", ".", ".: error: Is a directory\n"), ("m.fib .", ".", ".: error: Is a directory\n"),
                             ("/proc/self/mem m.fib", "/proc/self/mem", "")):
        tally.same(f"merge {words}", (1, b"", f"cannot read {path}\n{why}".encode()), merged(program, folder, words))
    wanted = (1, plan, b"cannot read /proc/self/mem\n" + told)
    tally.same("merge m.fib /proc/self/mem", wanted, merged(program, folder, "m.fib /proc/self/mem"))


def merged(program, folder, words, before=None):
    """The status, the output and the messages of `merge`."""
    ended = subprocess.run(["bash", "-c", f"trap '' XFSZ; exec '{program}' merge {words}"], cwd=folder, capture_output=True,
                           preexec_fn=before)
    return ended.returncode, ended.stdout, ended.stderr


def try_address_space(tally, program, folder):
    """Less and less address space: the result, or `no memory`; where the stack can't grow any more, the system ends the program
    before it prints anything, which happens in few of these limits; and nothing between."""
    common.write(folder, "big.fib", bytes(4_000_000))
    common.write(folder, "big.events", "frames 1 " * 200_000)
    whole = {}
    answered = refused = ended_by_stack = 0
    for words in (["listen", "big.fib"], ["play", CODE, "big.events", "/dev/null"], ["compile", SCRIPT, "b.code"]):
        whole[words[0]] = common.run([program, *words], folder).lines()
        for memory in list(range(3000, 12_000, 100)) + [16_000, 32_000, 64_000]:
            ended = common.run([program, *words], folder, memory=memory)
            if ended.status == 127 or (ended.status < 0 and memory < LOADED):
                continue  # the system could not load the program
            if ended.status == -signal.SIGSEGV and not ended.printed + ended.messages:
                ended_by_stack += 1
                continue
            answered += ended.lines() == whole[words[0]]
            refused += ended.lines() == (1, b"no memory\n")
            tally.hold(ended.lines() in (whole[words[0]], (1, b"no memory\n")), f"{words[0]} in {memory} KB: {ended.lines()}")
    what = f"address space: {answered} answers, {refused} times no memory, {ended_by_stack} times no room for the stack"
    print(what)
    tally.hold(answered > 30 and refused > 0 and ended_by_stack < 25, what)


def main():
    """Runs all of it."""
    tally = common.Tally()
    program = common.dabplan()
    with tempfile.TemporaryDirectory() as folder:
        for part in (try_outputs, try_pipes, try_small_disk, try_full_disk, try_files, try_input, try_merge, try_address_space):
            part(tally, program, folder)
    tally.end()


if __name__ == "__main__":
    main()
