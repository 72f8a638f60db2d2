#!/usr/bin/env python3
"""Names of files and arguments in messages: what a terminal obeys, and what is not seen, is shown by its number. The last line is 'N
passed, M failed'."""
import rows

# Characters, and how each is shown.
SHOWN = [("\t", r"\x09"), ("\r", r"\x0D"), ("\x1b", r"\x1B"), ("\x7f", r"\x7F"), ("\x9b", r"\u{9B}"), ("\u00ad", r"\u{AD}"),
         ("\u200b", r"\u{200B}"), ("\u200d", r"\u{200D}"), ("\u200e", r"\u{200E}"), ("\u2028", r"\u{2028}"), ("\u2029", r"\u{2029}"),
         ("\u202e", r"\u{202E}"), ("\u2060", r"\u{2060}"), ("\ufe0f", r"\u{FE0F}"), ("\ufeff", r"\u{FEFF}"), ("\U000e0041", r"\u{E0041}")]
# Others, which are shown as they are.
PLAIN = ["a", "\u00e9", "\u2013", "\u00a0", "\u65e5", "\U0001f600", "\u2027", "\u202f", "\u2070", "\ufefe", "\ufdff"]


def paths(rows):
    """In the path of a file that is not there, on standard output and on standard error."""
    for character, shown in SHOWN + [(each, each) for each in PLAIN]:
        ended = rows.run(["compile", f"x{character}y.plan", "o"])
        rows.tally.same(repr(character), (1, f"cannot read x{shown}y.plan\n".encode(), f"x{shown}y.plan: error: No such file or directory\n".encode()),
                        (*ended.lines(), ended.messages))


def arguments(rows):
    """In an argument that is no command, and in the value of an option."""
    for character, shown in SHOWN[5:] + [(each, each) for each in PLAIN]:
        ended = rows.run([f"check{character}x"])
        rows.tally.hold(ended.status == 2 and f"'check{shown}x'".encode() in ended.printed, f"{character!r}: {ended.printed}")
        ended = rows.run(["play", "a", "b", "c", "--count", f"1{character}"])
        rows.tally.hold(ended.status == 2 and f"'1{shown}'".encode() in ended.printed, f"{character!r}: {ended.printed}")


if __name__ == "__main__":
    rows.main([paths, arguments])
