#!/usr/bin/env python3
"""Each allocation fails in turn: in every library call that allocates, and in every command.

A run lets the allocation of one number fail, from 1 on, until a run has no further allocation. Each is done twice:
once with only that allocation failing, and once with all later ones too. A call must report out of memory by its
own name, with nothing lost, and the same call with memory then gives its result; `run` has written nothing, and
`Debugger::new` returns the player. A command prints `no memory` alone, ends with 1 and leaves nothing in its output
file; or it tolerates a single failed allocation, and ends as it does with memory. If it refuses its input, the line of the
refusal may stand without the explanation on standard error, and with `--explain` may precede `no memory`, as the first lines of
`timeline` may, which prints as it plays; if a script is
accepted, `no memory` may be on standard error in place of the warnings. `live` reports `no memory` on standard error, and has
written whole frames of lines before.
The last line is 'N passed, M failed', where each failing run is one, and each complete run one more.
"""
import os
import pathlib
import re
import tempfile

import common

SCRIPT = common.SAMPLES / "contact_rate.plan"
SCHEDULE = common.EXAMPLES / "night_and_region.plan"
CODE = common.SAMPLES / "contact_lowers_a_rate.code"
EVENTS = "frames 1 contact 3 closed contact 3 open contact 3 closed frames 39 contact 3 open frames 30"
COMMANDS = "break 9 run 100 contact 3 closed run 2 next clear show"
RECORD = "0101000100000003008000C22101003F01"
PRINTED = """\
ensemble E1C5
period 4 notice 24 budget 20
sub 1 at 0 eep 3-A 128
service C221
audio 63 sub 1 in C221
begin
forever {
  wait contact 3 closed
  rate sub 1 96
  commit in 24
  join
  wait contact 3 open
  rate sub 1 128
  commit in 24
  join
}
"""


def remove(folder, names):
    """Removes the files of these names."""
    for name in names:
        pathlib.Path(folder, name).unlink(missing_ok=True)


def requests(library, words, folder, goes_on, between, stdin=b"", made=()):
    """Runs a program with its first allocation failing, then its second, and so on, each time without its output
    files; yields each number, how it ended, and whether an allocation failed. Ends after the first run in which none
    did."""
    number, is_refused = 0, True
    while is_refused:
        number += 1
        remove(folder, made)
        environment = dict(os.environ, LD_PRELOAD=str(library), REFUSE=str(number))
        if goes_on:
            environment["REFUSE_GOES_ON"] = "1"
        if between:
            environment["REFUSE_BETWEEN"] = "1"
        with tempfile.TemporaryFile() as reported:
            environment["REFUSE_TELLS"] = str(reported.fileno())
            ended = common.run(words, folder, stdin, environment=environment, pass_fds=(reported.fileno(),))
            is_refused = os.fstat(reported.fileno()).st_size > 0
        yield number, ended, is_refused


def tokens(text):
    """The start and end of each token of a script, as the trial prints them."""
    bare = re.sub(r"#[^\n]*", lambda comment: " " * len(comment[0]), text)
    return "".join(f"{found.start()}-{found.end()} " for found in re.finditer(r"[{}]|[A-Za-z0-9_:-]+", bare)) + "\n"


def answers(program, folder):
    """The result of each call: from the examples and the texts above, and for `run` the output of `play`."""
    code = CODE.read_bytes().hex().upper() + "\n"
    common.write(folder, "a.events", EVENTS)
    played = common.run([program, "play", CODE, "a.events", "a.fib"], folder)
    frames = pathlib.Path(folder, "a.fib").read_bytes()
    assert played.lines() == (0, b"played 70 frames\n") and len(frames) == 6720
    return {
        "write_config": RECORD + "\n", "decode": code, "encode": code, "lex": tokens(SCRIPT.read_text()),
        "parse": PRINTED, "print": PRINTED, "compile": code, "read_events": EVENTS + " \n",
        "read_commands": COMMANDS + " \n", "run": "70\n" + frames.hex().upper() + "\n",
        "debugger": "frames 0 steps 3 pc 4 line 12 count 2\nframes 30 steps 0 pc 5 line 13 count 32\n",
    }


def try_calls(tally, library, program, trials, folder):
    """Lets each allocation of each call fail."""
    for name, answer in answers(program, folder).items():
        for goes_on in (False, True):
            refused = 0
            for number, ended, is_refused in requests(library, [trials, "call", name], folder, goes_on, True,
                                                      SCRIPT.read_bytes()):
                outcome = "no memory" if is_refused else "answered"
                refused += is_refused
                tally.same(f"{name}, request {number} refused: {is_refused}",
                           (0, f"ready\ncalled\n{outcome}\n{answer}".encode()), ended.lines())
            print(f"{name}: {refused} requests refused{', each with all later ones' if goes_on else ''}", flush=True)
            tally.hold(refused > 0, f"{name} makes a request")


def commands():
    """Each command, with its inputs and its output files."""
    return [
        (["frame", common.EXAMPLES / "one_programme.rec", "--ensemble", "E1C5", "--count", "0"], []),
        (["frame", "-", "--ensemble", "E1C5", "--count", "0", "--page", "1"], []),
        (["listen", "a.fib"], []),
        (["check", "a.fib"], []),
        (["compile", SCRIPT, "made.code"], ["made.code"]),
        (["compile", "wrong.plan", "made.code"], ["made.code"]),
        (["compile", SCHEDULE, "made.code"], ["made.code"]),
        (["compile", "apart.plan", "made.code", "--explain"], ["made.code"]),
        (["compile", SCRIPT, "made.code", "--from", SCHEDULE], ["made.code"]),
        (["timeline", CODE, "a.events"], []),
        (["timeline", SCHEDULE, "a.events", "--json"], []),
        (["verify", CODE], []),
        (["verify", "wrong.code"], []),
        (["compile", "wrong.plan", "made.code", "--explain"], ["made.code"]),
        (["compile", "typo.plan", "made.code", "--explain"], ["made.code"]),
        (["compile", "costly.plan", "made.code", "--explain"], ["made.code"]),
        (["verify", "early.code", "--explain"], []),
        (["play", CODE, "a.events", "made.fib"], ["made.fib"]),
        (["play", CODE, "wrong.events", "made.fib"], ["made.fib"]),
        (["debug", CODE, "a.commands"], []),
        (["--help"], []),
        (["help", "play"], []),
        (["--version"], []),
        (["frame", "x"], []),
        (["listen"], []),
        ([], []),
    ]


def contents(folder, names):
    """The contents of the files of these names; nothing for missing ones."""
    return {name: pathlib.Path(folder, name).read_bytes() if pathlib.Path(folder, name).exists() else b""
            for name in names}


def has_refused(words, printed, whole):
    """Whether a command printed that there is no memory, with `--json` perhaps as an object, and nothing before that; `timeline`,
    which prints as it plays, may have printed the first of its lines before, and `compile --explain` the line of the refusal."""
    line = next((line for line in (b"no memory\n", b'{"kind":"refused","cause":"no memory"}\n') if printed.endswith(line)), None)
    if line is None or line.startswith(b"{") and "--json" not in words:
        return False
    front = printed.removesuffix(line)
    if "--explain" in words:
        return front in (b"", whole.partition(b"\n")[0] + b"\n")
    return not front or words[0] == "timeline" and whole.startswith(front)


def try_commands(tally, library, program, folder):
    """Lets each allocation of each command fail."""
    record = (common.EXAMPLES / "one_programme.rec").read_bytes()
    common.write(folder, "a.commands", COMMANDS)
    common.write(folder, "wrong.plan", SCRIPT.read_text().replace("wait contact 3 open", "join"))
    common.write(folder, "typo.plan", SCRIPT.read_text().replace("commit", "comit"))
    common.write(folder, "apart.plan", SCHEDULE.read_text().replace("sub 2 at 96", "sub 2 at 90"))
    common.write(folder, "costly.plan", SCRIPT.read_text().replace("budget 20", "budget 1"))
    common.write(folder, "early.code", CODE.read_bytes().replace(b"\x04\x00\x18", b"\x04\x00\x17"))
    common.write(folder, "wrong.code", CODE.read_bytes()[:-1])
    common.write(folder, "wrong.events", EVENTS + " frames 0")
    for words, made in commands():
        shown = "dabplan " + " ".join(str(word).rsplit("/", 1)[-1] for word in words)
        remove(folder, made)
        done = common.run([program, *words], folder, record)
        whole, files = done.lines(), contents(folder, made)
        without_notes = b"no memory\n" if whole[0] == 0 and "compile" in words else b""
        for goes_on in (False, True):
            refused = without = 0
            for number, ended, is_refused in requests(library, [program, *words], folder, goes_on, False, record, made):
                refused += is_refused
                found = (*ended.lines(), contents(folder, made))
                messages = (done.messages, without_notes) if is_refused else (done.messages,)
                is_whole = found == (*whole, files) and ended.messages in messages
                without += is_refused and is_whole
                if is_refused and not (is_whole and (not goes_on or whole[0] == 1)):
                    is_silent = found[0] == 1 and has_refused(words, found[1], whole[1])
                    is_silent = is_silent and not any(found[2].values()) and not ended.messages
                    tally.hold(is_silent, f"{shown}, request {number} refused: {found}")
                else:
                    tally.hold(is_whole, f"{shown}, request {number}: {found}")
            print(f"{shown}: {refused} requests refused, {'each with all later ones' if goes_on else 'each alone'}, "
                  f"{without} of them done without", flush=True)
            tally.hold(refused > 0, f"{shown} makes a request")


def try_warned(tally, library, program, folder):
    """Lets each allocation of `compile --explain` fail, for an accepted script with a warning: `no memory` alone, and no code file;
    or the code file and its line, and `no memory` on standard error in place of the warning; or it tolerates the failure. Each of
    these happens."""
    made = ["made.code"]
    common.write(folder, "warned.plan", SCRIPT.read_text().replace("begin\n", "sub 3 at 300 eep 3-A 32\nbegin\n"))
    words = [program, "compile", "warned.plan", *made, "--explain"]
    remove(folder, made)
    whole = common.run(words, folder)
    tally.hold(b"warning: no component names sub 3" in whole.messages, "a warning about warned.plan")
    files = contents(folder, made)
    done, unwarned, silent = (*whole.lines(), whole.messages, files), (*whole.lines(), b"no memory\n", files), (1, b"no memory\n", b"", {"made.code": b""})
    seen = []
    for goes_on in (False, True):
        for number, ended, is_refused in requests(library, words, folder, goes_on, False, b"", made):
            found = (*ended.lines(), ended.messages, contents(folder, made))
            tally.hold(found in ((done, unwarned, silent) if is_refused else (done,)), f"warned.plan, request {number} refused: {found}")
            seen.append(found)
    print(f"dabplan compile warned.plan made.code --explain: {len(seen)} runs, {seen.count(unwarned)} of them without the warning", flush=True)
    tally.hold(unwarned in seen and silent in seen, "warned.plan: no memory for the warning, and none for the code")


def try_live(tally, library, program, folder):
    """Lets each allocation of `live` fail, over lines and with an invalid command line: `no memory` on standard error,
    status 1, and the frames of the lines before; or it tolerates the failure."""
    lines = b"frames 1\ncontact 3 closed frames 30\nframe\nframes 9\n"
    for words in (["live", CODE, "--status"], ["live", "wrong.code"], ["live", CODE, "--time", "24:00:00"]):
        shown = "dabplan " + " ".join(str(word).rsplit("/", 1)[-1] for word in words)
        whole = common.run([program, *words], folder, lines)
        for goes_on in (False, True):
            refused = without = 0
            for number, ended, is_refused in requests(library, [program, *words], folder, goes_on, False, lines):
                refused += is_refused
                is_whole = (*ended.lines(), ended.messages) == (*whole.lines(), whole.messages)
                without += is_refused and is_whole
                if is_refused and not (is_whole and not goes_on):
                    reported = ended.messages.removesuffix(b"no memory\n")
                    holds = (ended.status == 1 and ended.messages.endswith(b"no memory\n") and whole.messages.startswith(reported)
                             and whole.printed.startswith(ended.printed) and len(ended.printed) % 96 == 0)
                    # A code that is refused may stand without what its file is.
                    first_line = whole.messages.partition(b"\n")[0] + b"\n"
                    holds = holds or (*ended.lines(), ended.messages) == (*whole.lines(), first_line) and words[1] == "wrong.code"
                    tally.hold(holds, f"{shown}, request {number} refused: {ended.lines()} {ended.messages}")
                else:
                    tally.hold(is_whole, f"{shown}, request {number}: {ended.lines()} {ended.messages}")
            print(f"{shown}: {refused} requests refused, {'each with all later ones' if goes_on else 'each alone'}, "
                  f"{without} of them done without", flush=True)
            tally.hold(refused > 0, f"{shown} makes a request")


def main():
    """Runs all of it."""
    tally = common.Tally()
    program, trials = common.dabplan(), common.trials()
    with tempfile.TemporaryDirectory() as folder:
        library = common.preloaded(folder, "refuse")
        try_calls(tally, library, program, trials, folder)
        try_commands(tally, library, program, folder)
        try_warned(tally, library, program, folder)
        try_live(tally, library, program, folder)
    tally.end()


if __name__ == "__main__":
    main()
