#!/usr/bin/env python3
"""The warnings of 'dabplan map' about accepted plans: each where it is given, and where it is not. The last line is 'N passed,
M failed'."""
import rows

HEAD = """\
ensemble E1C5
period 8 notice 48 budget 20
sub 1 at 0 eep 3-A 128
sub 2 at 96 eep 3-A 64
service C221
audio 63 sub 1 in C221
data 5 sub 2 in C221
"""


def warned(rows, script, *warnings):
    """Counts that `map` accepts a script, and that these are the warnings about it; that the status and what is printed are
    those of any plan; and that `map --quiet` says nothing of them."""
    ended = rows.run("map x.plan", {"x.plan": script})
    messages = "".join(f"x.plan:{warning}\n" for warning in warnings)
    rows.tally.same(script, (0, messages), (ended.status, ended.messages.decode()))
    rows.tally.hold(ended.printed.startswith(b"begin "), f"no map of {script}")
    quiet = rows.run("map x.plan --quiet", {"x.plan": script})
    rows.tally.same(script, (0, ended.printed, b""), (*quiet.lines(), quiet.messages))


def unnamed(rows):
    """A sub-channel that no component of a service and no packet component names."""
    warning = "warning: no component names sub 3"
    sub = "sub 3 at 300 eep 3-A 32\n"
    warned(rows, HEAD + "begin\n")
    warned(rows, HEAD + sub + "begin\n", f"9: {warning}")
    warned(rows, HEAD + sub + "audio 63 sub 3 in C221\nbegin\n")
    warned(rows, HEAD + sub + "packet 7 raw type 5 sub 3 address 1\nbegin\n")
    # in the line of the commit with which it comes, and once
    warned(rows, HEAD + "begin\n" + sub + "commit in 60\njoin\nmove sub 3 at 400\ncommit in 60\n", f"10: {warning}")
    # its last component is dropped
    warned(rows, HEAD + "begin\ndrop component sub 2 in C221\ncommit in 60\n", "10: warning: no component names sub 2")
    # on each of two paths
    warned(rows, HEAD + "begin\nif contact 1 {\n" + sub + "commit in 60\njoin\ndrop sub 3\ncommit in 60\njoin\n}\n" + sub + "commit in 60\n",
           f"11: {warning}", f"18: {warning}")


def long_audio(rows):
    """Audio in a service with a 32-bit SId."""
    warning = "warning: service E1C20001 has audio on sub 3: its SId has 32 bits, as those of data services"
    items = "sub 3 at 300 eep 3-A 32\nservice E1C20001\n"
    warned(rows, HEAD + items + "audio 63 sub 3 in E1C20001\nbegin\n", f"11: {warning}")
    warned(rows, HEAD + items + "data 5 sub 3 in E1C20001\nbegin\n")
    warned(rows, HEAD + items.replace("E1C20001", "C222") + "audio 63 sub 3 in C222\nbegin\n")
    warned(rows, HEAD + "begin\n" + items + "audio 63 sub 3 in E1C20001\ncommit in 60\njoin\nmove sub 3 at 400\ncommit in 60\n", f"12: {warning}")


def primaries(rows):
    """A service whose first component is another one after a commit."""
    warning = "warning: the primary component of service C221 changes from audio 63 sub 1 to data 5 sub 2"
    drop, add = "drop component sub 1 in C221\n", "audio 63 sub 1 in C221\n"
    warned(rows, HEAD + "begin\n" + drop + add + "commit in 60\n", f"11: {warning}")
    warned(rows, HEAD + "begin\ndrop component sub 2 in C221\ndata 5 sub 2 in C221\nrate sub 1 96\ncommit in 60\n")
    # the same components in the same order at last
    both = drop + "drop component sub 2 in C221\n" + add + "data 5 sub 2 in C221\n"
    warned(rows, HEAD + "begin\n" + both + "rate sub 1 96\ncommit in 60\n")
    # another type on the same sub-channel
    warned(rows, HEAD + "begin\n" + both.replace("audio 63", "audio 0") + "commit in 60\n",
           "13: warning: the primary component of service C221 changes from audio 63 sub 1 to audio 0 sub 1")
    # dropped in one configuration, and there again in a later one
    warned(rows, HEAD + "begin\ndrop service C221\nservice C222\naudio 63 sub 1 in C222\ndata 5 sub 2 in C222\ncommit in 60\njoin\ndrop service C222\n"
           + "service C221\ndata 5 sub 2 in C221\naudio 63 sub 1 in C221\ncommit in 60\n")


def first_waits(rows):
    """A plan that waits for a time of day before anything else."""
    warning = "the plan begins with 'until 22:00:00': started at any time, it stays in the configuration of 'begin' until then"
    change = "rate sub 1 96\ncommit in 60\njoin\n"
    warned(rows, HEAD + "begin\nuntil 22:00:00\n" + change, f"9: warning: {warning}")
    warned(rows, HEAD + "begin\nforever {\nuntil 22:00:00\n" + change + "rate sub 1 128\ncommit in 60\njoin\n}\n", f"10: warning: {warning}")
    warned(rows, HEAD + "begin\nrate sub 1 96\nuntil 22:00:00\ncommit in 60\n", f"10: warning: {warning}")
    warned(rows, HEAD + "begin\nrepeat 2 {\nuntil 22:00:00\n}\n" + change, f"10: warning: {warning}")
    warned(rows, HEAD + "begin\nwait 1\nuntil 22:00:00\n" + change)
    warned(rows, HEAD + "begin\n" + change + "until 22:00:00\n")
    warned(rows, HEAD + "begin\nif contact 1 {\nuntil 22:00:00\n}\n")


def unreached(rows):
    """A defined block of which the code has nothing."""
    warning = "warning: no path reaches this statement: nothing that is reached applies its block"
    lower = "define lower {\nrate sub 1 96\ncommit in 60\njoin\n}\n"
    twice = "define twice {\napply lower\nwait 1\n}\n"
    warned(rows, HEAD + lower + "begin\n", f"9: {warning}")
    warned(rows, HEAD + lower + "begin\napply lower\n")
    # applied by a block that is not applied: both
    warned(rows, HEAD + lower + twice + "begin\n", f"9: {warning}", f"15: {warning}")
    warned(rows, HEAD + lower + twice + "begin\napply twice\n")
    # a block without a statement of its own
    warned(rows, HEAD + "define none { }\nbegin\n")


def late_untils(rows):
    """An `until` directly behind a `wait contact`."""
    closed = "warning: until comes after the wait; for whichever comes first write 'wait contact 3 closed or until 22:00:00'"
    opened = "warning: until comes after the wait; for whichever comes first write 'wait contact 15 open or until 05:59:59'"
    wait, until = "wait contact 3 closed\n", "until 22:00:00\n"
    change = "rate sub 1 96\ncommit in 60\njoin\n"
    warned(rows, HEAD + "begin\n" + wait + until + change, f"10: {closed}")
    warned(rows, HEAD + "begin\nwait contact 15 open until 05:59:59\n", f"9: {opened}")
    warned(rows, HEAD + "begin\nforever {\nwait contact 15 open\nif contact 3 {\n" + wait + until + "} else {\nwait 1\n"
           + wait + until + "}\n}\n", f"13: {closed}", f"17: {closed}")
    # the block comes before the statements, and once if it is applied twice; one that is not applied too
    warned(rows, HEAD + "define late {\n" + wait + until + "}\nbegin\nwait contact 15 open until 05:59:59\napply late\napply late\n",
           f"10: {closed}", f"13: {opened}")
    warned(rows, HEAD + "define late {\n" + wait + until + "}\nbegin\n",
           "9: warning: no path reaches this statement: nothing that is reached applies its block", f"10: {closed}")
    # something between them, another order, another block
    for statements in ("{wait}wait 1\n{until}", "{wait}rate sub 1 96\n{until}commit in 60\n", "wait 1\n{until}{wait}",
                       "if contact 1 {{\n{wait}}}\n{until}", "repeat 2 {{\n{wait}}}\n{until}", "{wait}repeat 2 {{\n{until}}}\n",
                       "if contact 1 {{\n{wait}}} else {{\n{until}}}\n", "{wait}if contact 1 {{\nwait 1\n}}\n{until}",
                       "{wait}{wait}"):
        warned(rows, HEAD + "begin\n" + statements.format(wait=wait, until=until))
    warned(rows, HEAD + "define waits {\n" + wait + "}\nbegin\napply waits\n" + until)
    warned(rows, HEAD + "define waits { }\nbegin\n" + wait + "apply waits\n" + until)


def next_days(rows):
    """An `until` whose time is past when the plan comes to it from another one."""
    def late(time, swap):
        return f"warning: waits until {time} of the next day: the swap before it comes at {swap}"

    begins = "9: warning: the plan begins with 'until 22:00:00': started at any time, it stays in the configuration of 'begin' until then"
    swap = "until 22:00:00\nrate sub 1 96\ncommit in 250\njoin\n"
    warned(rows, HEAD + "begin\n" + swap + "until 22:00:03\n", begins, f"13: {late('22:00:03', '22:00:06')}")
    # the frame of the swap is not a later one; the next second is
    warned(rows, HEAD + "begin\n" + swap + "until 22:00:06\n", begins, f"13: {late('22:00:06', '22:00:06')}")
    warned(rows, HEAD + "begin\n" + swap + "until 22:00:07\n", begins)
    warned(rows, HEAD + "begin\n" + swap + "until 21:59:59\n", begins)
    # each wait counts as one frame, `wait N` as N; from a commit to its join the delay, whatever is between them
    warned(rows, HEAD + "begin\n" + swap.replace("join", "wait 100\njoin") + "until 22:00:07\n", begins)
    warned(rows, HEAD + "begin\n" + swap + "wait 42\nuntil 22:00:07\n", begins, f"14: {late('22:00:07', '22:00:06')}")
    warned(rows, HEAD + "begin\n" + swap + "wait 41\nuntil 22:00:07\n", begins)
    warned(rows, HEAD + "begin\n" + swap + "wait contact 1 open or 500\nuntil 22:00:07\n", begins)
    warned(rows, HEAD + "begin\nwait 1\nuntil 22:00:00\nwait 125\nuntil 22:00:03\n",
           "12: warning: waits until 22:00:03 of the next day: what is before it lasts until 22:00:03")
    warned(rows, HEAD + "begin\nwait 1\nuntil 22:00:00\nwait 124\nuntil 22:00:03\n")
    # the same time again, as a plan says that counts days
    warned(rows, HEAD + "begin\nwait 1\nuntil 22:00:00\nuntil 22:00:00\n",
           "11: warning: waits until 22:00:00 of the next day: what is before it lasts until 22:00:00")
    # over midnight, and early
    warned(rows, HEAD + "begin\nwait 1\nuntil 23:59:58\nrate sub 1 96\ncommit in 250\njoin\nuntil 00:00:01\n",
           f"14: {late('00:00:01', '00:00:04')}")
    warned(rows, HEAD + "begin\nwait 1\nuntil 22:00:00 early 250\nrate sub 1 96\ncommit in 250\njoin\nuntil 22:00:01 early 125\n",
           f"14: {late('22:00:01 early 125', '22:00:00')}")
    # from an alternative; not to one
    warned(rows, HEAD + "begin\nwait contact 1 closed or until 22:00:00\nrate sub 1 96\ncommit in 250\njoin\nuntil 22:00:03\n",
           f"13: {late('22:00:03', '22:00:06')}")
    warned(rows, HEAD + "begin\n" + swap + "wait contact 1 closed or until 22:00:03\n", begins)
    # in braces; not past braces or a block
    warned(rows, HEAD + "begin\nforever {\nwait 1\n" + swap + "until 22:00:03\nrate sub 1 128\ncommit in 250\njoin\n}\n",
           f"15: {late('22:00:03', '22:00:06')}")
    warned(rows, HEAD + "begin\nwait 1\n" + swap + "repeat 2 {\nuntil 22:00:03\n}\n")
    warned(rows, HEAD + "define none { }\nbegin\nwait 1\n" + swap + "apply none\nuntil 22:00:03\n")


def repeated(rows):
    """A block that is applied twice has its warnings once; two paths with the same one have one each."""
    sub = "sub 3 at 300 eep 3-A 32\n"
    adds = sub + "commit in 60\njoin\ndrop sub 3\ncommit in 60\njoin\n"
    warning = "warning: no component names sub 3"
    warned(rows, HEAD + "define adds {\n" + adds + "}\nbegin\napply adds\nwait 1\napply adds\n", f"10: {warning}")
    warned(rows, HEAD + "begin\n" + adds + adds, f"10: {warning}", f"16: {warning}")
    turns = "drop component sub 1 in C221\naudio 63 sub 1 in C221\ncommit in 60\njoin\n"
    turns += "drop component sub 2 in C221\ndata 5 sub 2 in C221\ncommit in 60\njoin\n"
    sub_1, sub_2 = "audio 63 sub 1", "data 5 sub 2"
    changes = "warning: the primary component of service C221 changes from"
    warned(rows, HEAD + "define turns {\n" + turns + "}\nbegin\napply turns\napply turns\n",
           f"11: {changes} {sub_1} to {sub_2}", f"15: {changes} {sub_2} to {sub_1}")


if __name__ == "__main__":
    rows.main([unnamed, long_audio, primaries, first_waits, unreached, late_untils, next_days, repeated])
