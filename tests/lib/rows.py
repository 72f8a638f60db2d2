"""Shared by the scripts of tests/cli/: runs a command line over its files, and compares the output with the expected one."""
import pathlib
import re
import tempfile

import common

# Sub-channel 1 at 0, 3-A, 128 kbit/s, and service C221 with audio of type 63 on it.
ONE_PROGRAMME = "01 01 00 01 00 00 00 03 00 80 00 C2 21 01 00 3F 01"

# A rate is lowered and raised when contact 3 is closed and opened.
RATES = """\
ensemble E1C5
period 4 notice 24 budget 20
sub 1 at 0 eep 3-A 128
service C221
audio 63 sub 1 in C221
begin
forever {
wait contact 3 closed
rate sub 1 96
commit in 24
join
wait contact 3 open
rate sub 1 128
commit in 24
join
}
"""

# Its code file, byte by byte: header, configuration, label, nine instructions.
RATES_FILE = f"""
44 41 42 50 01 E1 C5 04 18 14 00 01 00 01 00 09
{ONE_PROGRAMME}
00 00 00 00 00 00 00 00 00 00 00 00 01
00 08 03 03 01  00 09 13 01 00 60  00 0A 04 00 18  00 0B 06  00 0C 03 03 00
00 0D 13 01 00 80  00 0E 04 00 18  00 0F 06  00 07 21 00 00
"""

# A script that ends at once, and its code file.
NOTHING = "ensemble E1C5 period 4 notice 24 budget 20 begin"
NOTHING_FILE = """
44 41 42 50 01 E1 C5 04 18 14 00 01 00 01 00 01
00 00 00  00 00 00 00 00 00 00 00 00 00 00 00 01  00 01 07
"""

# What is said of a file without one whole FIB.
NO_FIB = "no whole FIB: 32 bytes each are expected"

# A code whose only instruction is a join without a pending swap, in line 1.
REFUSED_FILE = NOTHING_FILE.replace("00 01 07", "00 01 06")


# A line of an explanation, a warning, or the reason why a file can't be read, on standard error, as editors read it; the shown
# lines and carets are indented.
NOTE = re.compile(rb"[^\n]+:(\d+:(\d+:)?)? (error|hint|warning): .+|    .*")


def is_note(line):
    """Whether a line of standard error is part of an explanation or a warning."""
    return NOTE.fullmatch(line.rstrip(b"\n")) is not None


def without_notes(messages):
    """The lines of standard error that are no explanations and no warnings."""
    return b"".join(line for line in messages.splitlines(keepends=True) if not is_note(line))


def hexadecimal(text):
    """The bytes of a text of hexadecimal pairs."""
    return bytes.fromhex(text)


class Rows:
    """The built program, the folder that its rows are run in, and the numbers passed and failed."""

    def __init__(self, folder):
        self.tally = common.Tally()
        self.program = common.dabplan()
        self.folder = folder

    def run(self, line, files=None, stdin=b""):
        """Runs `dabplan` with the arguments of a line, split at blanks, in a folder with exactly these files."""
        for path in pathlib.Path(self.folder).iterdir():
            path.unlink()
        for name, content in (files or {}).items():
            common.write(self.folder, name, content)
        words = line.split() if isinstance(line, str) else line
        return common.run([self.program, *words], self.folder, stdin=stdin)

    def made(self, name):
        """The bytes of a file that the last run left in the folder; None if there is none."""
        path = pathlib.Path(self.folder, name)
        return path.read_bytes() if path.exists() else None

    def answers(self, line, status, printed, files=None, stdin=b"", messages=""):
        """Counts that a command line ends with this status, prints this text, and these messages on standard error. Where they
        have no explanation and no warning, any may stand there."""
        if not common.is_asked(f"dabplan {line}"):
            return
        ended = self.run(line, files, stdin)
        wanted = messages.encode()
        found = ended.messages if any(map(is_note, wanted.splitlines())) else without_notes(ended.messages)
        self.tally.same(f"dabplan {line}", (status, printed.encode(), wanted), (*ended.lines(), found))

    def refuses(self, line, messages, files=None, stdin=b""):
        """Counts that a command whose output is a product prints nothing, reports these messages on standard error, and ends
        with status 1."""
        self.answers(line, 1, "", files, stdin, messages)

    def listens(self, line, printed, files=None, stdin=b""):
        """Counts that `listen FILE` prints this listing; if all FIBs are damaged, a message says that these are none."""
        fibs, damaged = re.match(r"fibs (\d+) damaged (\d+)\n", printed).groups()
        messages = f"{line.split()[1]}: {NO_FIB}\n" if fibs == damaged != "0" else ""
        self.answers(line, 0, printed, files, stdin, messages)


def main(parts):
    """Runs these parts, each over the rows of one folder, and prints the count."""
    with tempfile.TemporaryDirectory() as folder:
        rows = Rows(folder)
        for part in parts:
            part(rows)
    rows.tally.end()
