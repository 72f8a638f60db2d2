#!/usr/bin/env python3
"""'dabplan live': the frames of lines as they arrive, skipped frames, messages, and refusals; and '--time' for
'play' and 'debug'. The last line is 'N passed, M failed'."""
import subprocess

import rows
from rows import NOTHING_FILE, RATES_FILE, REFUSED_FILE, hexadecimal

# Contact 3 is closed after the first frame: the swap is announced from count 4 on and made at 28. It is opened after
# frame 39: the second one is announced from 40 on and made at 64.
LINES = ("frames 1", "contact 3 closed", "frames 39", "contact 3 open", "frames 30")
STATUS = """\
frame 4 count 4 announced 1 swap at low 28
frame 28 count 28 swap
frame 40 count 40 announced 1 swap at low 64
frame 64 count 64 swap
"""


def played(rows, code, text, options=""):
    """The bytes that `play` writes for the same steps."""
    rows.run(f"play x.code x.events x.fib {options}", {"x.code": hexadecimal(code), "x.events": text})
    return rows.made("x.fib")


def live(rows, code, lines, options, status, written, reported):
    """A code driven by these bytes ends with this output."""
    ended = rows.run(f"live x.code {options}", {"x.code": hexadecimal(code)}, lines)
    rows.tally.same(f"live {lines[:60]} {options}", (status, written, reported), (*ended.lines(), ended.messages.decode()))


def lines_are_played(rows):
    """Steps over several lines, blank lines, comments, and a last line without a line feed."""
    wanted = played(rows, RATES_FILE, " ".join(LINES))
    for lines in ("\n".join(LINES) + "\n", "\n".join(LINES), "# on\n\n" + "\n\r\n".join(LINES) + " # frames 3\n",
                  " ".join(LINES) + "\n", "frames 1\ncontact 3 closed\n" + "frames 1\n" * 39 + "contact 3 open\n" + "frames 1\n" * 30):
        live(rows, RATES_FILE, lines.encode(), "", 0, wanted, "")
        live(rows, RATES_FILE, lines.encode(), "--status", 0, wanted, STATUS)
    for lines in (b"", b"\n", b"\n\n# nothing"):
        live(rows, RATES_FILE, lines, "--status", 0, b"", "")


def frames_are_skipped(rows):
    """The first frames are made, counted and reported, but not written."""
    wanted = played(rows, RATES_FILE, " ".join(LINES))
    lines = "\n".join(LINES).encode()
    for skip in (0, 1, 28, 69, 70, 71, 4294967296, 2 ** 63 - 1):
        live(rows, RATES_FILE, lines, f"--skip {skip} --status", 0, wanted[96 * skip:], STATUS)


def a_plan_ends(rows):
    """The end is reported once, in the frame that executes it."""
    for options, reported in (("", "frame 0 count 0 end\n"), ("--count 4999", "frame 0 count 4999 end\n")):
        wanted = played(rows, NOTHING_FILE, "frames 3", options)
        live(rows, NOTHING_FILE, b"frames 1\nframes 2\n", f"{options} --status", 0, wanted, reported)


def frames_are_reported(rows):
    """`--every N`: the last of each N frames, after the other messages of it, skipped ones too."""
    wanted = played(rows, RATES_FILE, " ".join(LINES))
    lines = "\n".join(LINES).encode()
    for every in (1, 7, 29, 70):
        reported = "".join(f"frame {n} count {n}\n" for n in range(every - 1, 70, every))
        live(rows, RATES_FILE, lines, f"--every {every}", 0, wanted, reported)
        live(rows, RATES_FILE, lines, f"--every {every} --skip 8", 0, wanted[96 * 8:], reported)
    for every in (71, 4294967295):
        live(rows, RATES_FILE, lines, f"--every {every}", 0, wanted, "")
    first, second, third, fourth = STATUS.splitlines(keepends=True)
    live(rows, RATES_FILE, lines, "--every 29 --status", 0, wanted,
         first + second + "frame 28 count 28\n" + third + "frame 57 count 57\n" + fourth)
    live(rows, NOTHING_FILE, b"frames 1", "--every 1 --status --count 4999", 0, played(rows, NOTHING_FILE, "frames 1", "--count 4999"),
         "frame 0 count 4999 end\nframe 0 count 4999\n")


def messages_as_json(rows):
    """`--json`: each message as an object; without it and `--every`, those of bad lines and refusals alone."""
    wanted = played(rows, RATES_FILE, " ".join(LINES))
    lines = "\n".join(LINES).encode()
    status = """\
{"kind":"announced","frame":4,"count":4,"change":1,"low":28,"swap_count":28,"left":24}
{"kind":"swap","frame":28,"count":28}
{"kind":"announced","frame":40,"count":40,"change":1,"low":64,"swap_count":64,"left":24}
{"kind":"swap","frame":64,"count":64}
"""
    live(rows, RATES_FILE, lines, "--json", 0, wanted, "")
    live(rows, RATES_FILE, lines, "--json --status", 0, wanted, status)
    live(rows, RATES_FILE, lines, "--every 70 --json", 0, wanted, '{"kind":"frame","frame":69,"count":69}\n')
    live(rows, NOTHING_FILE, b"frames 1", "--json --status --count 4999", 0, played(rows, NOTHING_FILE, "frames 1", "--count 4999"),
         '{"kind":"end","frame":0,"count":4999}\n')
    # The swap is at the count 4980 + 24 - 5000.
    late = "\n".join(LINES[1:3]).encode()
    live(rows, RATES_FILE, late, "--json --status --count 4977", 0, played(rows, RATES_FILE, " ".join(LINES[1:3]), "--count 4977"),
         '{"kind":"announced","frame":3,"count":4980,"change":1,"low":4,"swap_count":4,"left":24}\n'
         '{"kind":"swap","frame":27,"count":4}\n')
    for line, fields in ((b"frames 0", '"column":8,"fault":"Number"'), (b"frames", '"column":7,"fault":"Expected"'),
                         (b"\x00", '"column":1,"fault":"Byte"'), (b"\xff", '"fault":"Byte"'), (b" " * 65537, '"fault":"Limit"')):
        live(rows, RATES_FILE, b"\n" + line + b"\n", "--json", 0, b"", f'{{"kind":"line","line":2,{fields}}}\n')
    for code, options, cause in (("44 41 42 50", "", "code: Truncated"), (REFUSED_FILE, "", "refused at 0 line 1: JoinIdle"),
                                 (RATES_FILE, "--count 5000", "start: Count")):
        live(rows, code, b"frames 1\n", f"{options} --json", 1, b"", f'{{"kind":"refused","cause":"{cause}"}}\n')
    for name, shown in (("absent.code", "absent.code"), ('a"b\\c', 'a\\"b\\\\c'), ("\t\n\r\b\f\x01\x1f\x7f", "\\t\\n\\r\\b\\f\\u0001\\u001f\x7f")):
        ended = rows.run(["live", name, "--json"], {}, b"frames 1\n")
        rows.tally.same(f"no code {name}", (1, b"", f'{{"kind":"refused","cause":"cannot read {shown}"}}\n'.encode()),
                        (*ended.lines(), ended.messages))
    rows.run("", {"x.code": hexadecimal(RATES_FILE)})
    with open("/dev/full", "wb") as full:
        ended = subprocess.run([rows.program, "live", "x.code", "--json"], cwd=rows.folder, stdout=full, input=b"frames 5\n",
                               stderr=subprocess.PIPE, check=False)
    rows.tally.same("live --json into /dev/full", (1, b'{"kind":"refused","cause":"write failed after 0 frames and 0 bytes"}\n'),
                    (ended.returncode, ended.stderr))


def bad_lines_do_nothing(rows):
    """Each is reported with its number and column, and the next one is read."""
    wanted = played(rows, RATES_FILE, "frames 3")
    for line, fault in (
        (b"frames 0", "8: Number"), (b"frames 3600001", "8: Number"), (b"frames", "7: Expected"),
        (b"frames 1 contact 16 open", "18: Number"), (b"contact 3 shut", "11: Expected"), (b"frame 1", "1: Expected"),
        (b"frames 1 {", "10: Expected"), (b"frames 1 frames 1 \x00", "19: Byte"), (b"frames 1 \xc3\xa9", "10: Byte"),
        (b"frames 1 # \xff", "Byte"), (b"\xff" * 65537, "Limit"), (b" " * 65529 + b"frames 1", "Limit"),
    ):
        live(rows, RATES_FILE, b"frames 1\n\n" + line + b"\nframes 2\n", "", 0, wanted, f"line 3: {fault}\n")
        live(rows, RATES_FILE, b"frames 1\nframes 2\n" + line, "", 0, wanted, f"line 3: {fault}\n")
    live(rows, RATES_FILE, b" " * 65528 + b"frames 3\n", "", 0, wanted, "")


def it_does_not_begin(rows):
    """The faults of `play`, in its order and with its texts; no line is read."""
    for code, options, reported in (
        ("44 41 42 50", "", "code: Truncated"), (RATES_FILE.replace("44 41", "45 41", 1), "", "code: Magic"),
        (REFUSED_FILE, "--count 5000", "refused at 0 line 1: JoinIdle"),
        (RATES_FILE, "--count 5000 --day 3600000", "start: Count"), (RATES_FILE, "--day 3600000", "start: Day"),
    ):
        live(rows, code, b"frames 1\nframe\n", options, 1, b"", reported + "\n")
    ended = rows.run("live absent.code", {}, b"frames 1\n")
    why = b"absent.code: error: No such file or directory\n"
    rows.tally.same("no code", (1, b"", b"cannot read absent.code\n" + why), (*ended.lines(), ended.messages))


def the_output_fails(rows):
    """The written frames are reported, not counting those skipped; no further line is read."""
    for options, reported in (("", ""), ("--skip 3 --status", "")):
        rows.run("", {"x.code": hexadecimal(RATES_FILE)})
        with open("/dev/full", "wb") as full:
            ended = subprocess.run([rows.program, "live", "x.code", *options.split()], cwd=rows.folder, stdout=full,
                                   input=b"frames 5\nframe\n", stderr=subprocess.PIPE, check=False)
        rows.tally.same(f"live into /dev/full {options}", (1, f"{reported}write failed after 0 frames and 0 bytes\n".encode()),
                        (ended.returncode, ended.stderr))


def each_line_comes_out(rows):
    """The frames of a line are written before the next line is given, and the run waits for the end of the input."""
    wanted = played(rows, RATES_FILE, "frames 4")
    rows.run("", {"x.code": hexadecimal(RATES_FILE)})
    with subprocess.Popen([rows.program, "live", "x.code"], cwd=rows.folder, stdin=subprocess.PIPE, stdout=subprocess.PIPE,
                          stderr=subprocess.PIPE, bufsize=0) as job:
        found = b""
        for line, frames in ((b"frames 1\n", 1), (b"frame 2\nframes 2\n", 2), (b"\n# \nframes 1\n", 1)):
            job.stdin.write(line)
            while len(found) < len(wanted) and frames > 0:
                found += job.stdout.read(96)
                frames -= 1
        rows.tally.same("line by line", wanted, found)
        rows.tally.same("it waits", None, job.poll())
        job.stdin.close()
        rows.tally.same("and ends", 0, job.wait())
        rows.tally.same("and reported", b"line 2: 1: Expected\n", job.stderr.read())


def until(day):
    """A code that waits until this frame of the day, then for a frame, and ends: the instructions 0, 1 and 2."""
    head = NOTHING_FILE.replace("00 01 00 01 00 01\n", "00 01 00 01 00 03\n")
    return head.replace("00 01 07", f"00 01 02 {day:08X} 00 02 01 00 01 00 03 07")


def a_time_is_a_day_frame(rows):
    """`--time` is the first frame at or after that time; three seconds have 125 frames."""
    for time, day in (("00:00:00", 0), ("00:00:01", 42), ("00:00:02", 84), ("00:00:03", 125), ("12:00:00", 1800000),
                      ("11:59:59", 1799959), ("23:59:59", 3599959), ("00:00:00.000", 0), ("00:00:00.001", 1), ("00:00:00.024", 1),
                      ("00:00:00.025", 2), ("12:00:00.048", 1800002), ("23:59:59.976", 3599999), ("23:59:59.977", 0)):
        files = {"x.code": hexadecimal(until((day + 10) % 3_600_000)), "x.commands": "next next", "x.events": "frames 20"}
        ended = rows.run(f"debug x.code x.commands --time {time}", files)
        wanted = "frames 1 steps 1 pc 1 line 2 count 1 remaining none\nframes 10 steps 1 pc 2 line 3 count 11 remaining none\n"
        rows.tally.same(f"debug --time {time}", (0, wanted.encode()), ended.lines())
        ended = rows.run(f"live x.code --status --time {time}", files, b"frames 20\n")
        rows.tally.same(f"live --time {time}", (0, b"frame 11 count 11 end\n"), (ended.status, ended.messages))
        ended = rows.run(f"play x.code x.events x.fib --time {time}", files)
        rows.tally.same(f"play --time {time}", (0, b"played 20 frames\n"), ended.lines())


def wrong_command_lines(rows):
    """They are reported on standard error, and nothing goes to standard output; help does."""
    for options in ("--time 24:00:00", "--time 12:60:00", "--time 12:00", "--time 1:00:00", "--time=", "--day 0 --time 00:00:00",
                    "--skip -1", "--skip 9223372036854775808", "--skip x", "--status --status",
                    "--every 0", "--every 4294967296", "--every x", "--json --json", "--json=1", "--page 1", "x", "--contacts 00g0"):
        ended = rows.run(f"live x.code {options}", {"x.code": hexadecimal(RATES_FILE)}, b"frames 1\n")
        rows.tally.same(f"live {options}", (2, b"", b"error: ", 1),
                        (ended.status, ended.printed, ended.messages[:7], ended.messages.count(b"\n")))
    for command in ("play x.code x.events x.fib", "debug x.code x.commands"):
        for options in ("--time 24:00:00", "--time 00:00:00 --day 0"):
            ended = rows.run(f"{command} {options}")
            rows.tally.same(f"{command} {options}", (2, b"error: ", b""), (ended.status, ended.printed[:7], ended.messages))
    ended = rows.run("live")
    rows.tally.same("live", (2, b"", b"error: the following required arguments were not provided: <CODE>\n"),
                    (*ended.lines(), ended.messages))
    for line in ("live --help", "live -h", "help live"):
        ended = rows.run(line)
        rows.tally.same(line, (0, True, b""), (ended.status, b"dabplan live <CODE>" in ended.printed, ended.messages))


if __name__ == "__main__":
    rows.main([lines_are_played, frames_are_skipped, a_plan_ends, frames_are_reported, messages_as_json, bad_lines_do_nothing,
               it_does_not_begin, the_output_fails, each_line_comes_out, a_time_is_a_day_frame, wrong_command_lines])
