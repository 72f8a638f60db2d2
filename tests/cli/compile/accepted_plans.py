#!/usr/bin/env python3
"""The warnings of 'dabplan compile' about accepted plans: those of 'map', on standard error. The last line is 'N passed,
M failed'."""
import rows

HEAD = """\
ensemble E1C5
period 8 notice 48 budget 20
sub 1 at 0 eep 3-A 128
sub 2 at 96 eep 3-A 64
service C221
audio 63 sub 1 in C221
data 5 sub 2 in C221
"""
NO_NAME = "warning: no component names sub 3"


def warned(rows, script, *warnings):
    """Counts that these are the warnings about a script, and those of `map`; and that there are none with `--quiet`, and all else is
    the same. With `-` they follow the line of the numbers."""
    files = {"x.plan": script}
    plain = rows.run("compile x.plan x.code --quiet", files)
    code = rows.made("x.code")
    rows.tally.same(f"quiet: {script}", (0, b""), (plain.status, plain.messages))
    messages = "".join(f"x.plan:{warning}\n" for warning in warnings).encode()
    for option in ("", " --explain"):
        warned = rows.run(f"compile x.plan x.code{option}", files)
        rows.tally.same(f"compiled{option}: {script}", (*plain.lines(), messages, code),
                        (*warned.lines(), warned.messages, rows.made("x.code")))
        streamed = rows.run(f"compile x.plan -{option}", files)
        rows.tally.same(f"to standard output{option}: {script}", (0, code, plain.printed + messages),
                        (*streamed.lines(), streamed.messages))
    rows.tally.same(f"of map: {script}", messages, rows.run("map x.plan", files).messages)
    streamed = rows.run("compile x.plan - --quiet", files)
    rows.tally.same(f"to standard output, quiet: {script}", (0, code, plain.printed), (*streamed.lines(), streamed.messages))


def each_warning(rows):
    """Each warning once, and a plan without one."""
    sub = "sub 3 at 300 eep 3-A 32\n"
    warned(rows, HEAD + "begin\n")
    warned(rows, HEAD + "begin\n" + sub + "audio 63 sub 3 in C221\ncommit in 60\n")
    warned(rows, HEAD + sub + "begin\n", f"9: {NO_NAME}")
    warned(rows, HEAD + sub + "service E1C20001\naudio 63 sub 3 in E1C20001\nbegin\n",
           "11: warning: service E1C20001 has audio on sub 3: its SId has 32 bits, as those of data services")
    warned(rows, HEAD + "begin\ndrop component sub 1 in C221\naudio 63 sub 1 in C221\ncommit in 60\n",
           "11: warning: the primary component of service C221 changes from audio 63 sub 1 to data 5 sub 2")
    # that of a service with one component is no warning
    one = HEAD.replace("data 5 sub 2 in C221", "service C222\ndata 5 sub 2 in C222")
    warned(rows, one + "begin\n" + sub + "drop component sub 2 in C222\ndata 5 sub 3 in C222\ndrop sub 2\ncommit in 60\n")
    warned(rows, HEAD + "begin\nuntil 22:00:00\nrate sub 1 96\ncommit in 60\n",
           "9: warning: the plan begins with 'until 22:00:00': started at any time, it stays in the configuration of 'begin' until then")
    warned(rows, HEAD + "define lower {\nrate sub 1 96\ncommit in 60\njoin\n}\nbegin\n",
           "9: warning: no path reaches this statement: nothing that is reached applies its block")
    warned(rows, HEAD + "begin\nwait contact 3 closed\nuntil 22:00:00\n",
           "10: warning: until comes after the wait; for whichever comes first write 'wait contact 3 closed or until 22:00:00'")
    warned(rows, HEAD + "begin\nwait 1\nuntil 22:00:00\nrate sub 1 96\ncommit in 250\njoin\nuntil 22:00:03\n",
           "14: warning: waits until 22:00:03 of the next day: the swap before it comes at 22:00:06")


def traps(rows):
    """A wait for a time of day that is past where a test of the time before it is passed late: from when, to when; with a block that
    is applied, in the first block of another `if`, and outside of a window. None where the window ends a whole way before the
    time; and what is said ends with the window."""
    window = HEAD + "define on {\nrate sub 1 96\ncommit in 250\njoin\n}\nbegin\nforever {\nwait contact 5 closed\n"
    inside = "apply on\nwait contact 5 open or until 09:00:00 early 250\nrate sub 1 128\ncommit in 250\njoin\n"
    text = "warning: until 08:59:54 is that of the next day where line 16 is passed from"
    swap = "the swap between them comes 250 frames later"
    for end, said in (("08:59:48", ()), ("08:59:47", ()), ("08:59:49", (f"18: {text} 08:59:48 to 08:59:49: {swap}",)),
                      ("08:59:54", (f"18: {text} 08:59:48 to 08:59:54: {swap}",)),
                      ("09:30:00", (f"18: {text} 08:59:48 to 09:30:00: {swap}",))):
        warned(rows, window + f"if time 06:00:00 to {end} {{\n{inside}}} else {{\nwait contact 5 open\n}}\n}}\n", *said)
    nested = HEAD + "begin\nforever {\nwait 1\nif time 06:00:00 to 09:00:00 {\nif contact 5 {\nwait 25\nuntil 09:00:00\n}\n}\n}\n"
    warned(rows, nested, "14: warning: until 09:00:00 is that of the next day where line 11 is passed from 08:59:59.400 to 09:00:00:"
           " what is between them takes 25 frames")
    outside = HEAD + "begin\nforever {\nif time 22:00:00 to 06:00:00 {\nwait 1\n} else {\nrate sub 1 96\ncommit in 250\nsettle\nuntil 22:00:00\nrate sub 1 128\ncommit in 250\njoin\n}\n}\n"
    warned(rows, outside, "16: warning: until 22:00:00 is that of the next day where line 10 is passed from 21:59:54 to 22:00:00:"
           f" {swap}")
    past = HEAD + "begin\nforever {\nwait 1\nif time 06:00:00 to 09:00:00 {\nuntil 07:00:00\n}\n}\n"
    warned(rows, past, "12: warning: until 07:00:00 is that of the next day where line 11 is passed from 07:00:00 to 09:00:00")
    warned(rows, past.replace("07:00:00", "09:00:00"))


def several(rows):
    """Three warnings about one plan, in their order."""
    warned(rows, HEAD + "define lower {\nrate sub 1 96\ncommit in 60\njoin\n}\nbegin\nuntil 06:00:00\nsub 3 at 300 eep 3-A 32\ncommit in 60\n",
           f"16: {NO_NAME}",
           "14: warning: the plan begins with 'until 06:00:00': started at any time, it stays in the configuration of 'begin' until then",
           "9: warning: no path reaches this statement: nothing that is reached applies its block")


def paths(rows):
    """A control byte of the path is shown by its number; the file has its own name."""
    ended = rows.run(["compile", "x\n.plan", "x.code", "--explain"], {"x\n.plan": HEAD + "sub 3 at 300 eep 3-A 32\nbegin\n"})
    rows.tally.same("a path with a line feed", (0, f"x\\x0A.plan:9: {NO_NAME}\n".encode()), (ended.status, ended.messages))


def refused(rows):
    """A refused script has no warnings, however it is explained."""
    ended = rows.run("compile x.plan x.code --explain", {"x.plan": HEAD + "sub 3 at 300 eep 3-A 32\nbegin\njoin\n"})
    rows.tally.same("a refused script", (1, b"refused line 10: JoinIdle", b""), (ended.status, ended.printed.split(b"\n")[0], ended.messages))


if __name__ == "__main__":
    rows.main([each_warning, traps, several, paths, refused])
