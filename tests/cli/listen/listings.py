#!/usr/bin/env python3
"""'dabplan listen': its listing of valid and damaged FIBs, and refused files. The last line is 'N passed, M
failed'."""
import rows
from streams import ONE_PROGRAMME, fib, sixty_five, stream

def listings(rows):
    """The listing of valid FIBs."""
    for data, wanted in (
        ((), "fibs 0 damaged 0\ncurrent\nnext\nno swap\n"),
        (ONE_PROGRAMME, "fibs 3 damaged 0\ncurrent\nsub 1 at 0 size 96 eep 3-A\nservice C221\n"
                        "  audio 63 sub 1 primary\nnext\nno swap\n"),
        # Entries before the first FIG 0/0 are skipped.
        (("04 01 04 00 05 FF", "05 00 E1 C5 00 00 FF"), "fibs 2 damaged 0\ncurrent\nnext\nno swap\n"),
        (("05 00 E1 C5 00 00 04 01 04 00 05 FF",),
         "fibs 1 damaged 0\ncurrent\nsub 1 at 0 switch 0 table 5\nnext\nno swap\n"),
        # A FIG with an incomplete entry makes its FIB damaged, including earlier FIGs.
        (("05 00 E1 C5 00 00 04 01 04 00 88 FF",), "fibs 1 damaged 1\ncurrent\nnext\nno swap\n"),
    ):
        rows.listens("listen x.fib", wanted, {"x.fib": stream(*data)})
        rows.listens("listen -", wanted, stdin=stream(*data))


def damaged_fibs(rows):
    """A FIB with an inverted bit is counted, and otherwise ignored."""
    for place in range(32):
        turned = bytearray(fib(ONE_PROGRAMME[0]))
        turned[place] ^= 1
        rows.listens("listen x.fib", "fibs 1 damaged 1\ncurrent\nnext\nno swap\n", {"x.fib": bytes(turned)})


def all_forms(rows):
    """Each form of an entry."""
    data = (
        "05 00 E1 C5 00 00 09 01 04 00 A8 60 08 60 9C 1E FF",
        "0A 02 C2 21 03 45 FC 8A BC C0 1E 08 22 E1 C2 00 01 01 3F 06 06 03 00 70 BC 14 01 FF",
        "06 03 00 80 3C 17 FF FF",
    )
    wanted = (
        "fibs 3 damaged 0\ncurrent\nsub 1 at 0 size 96 option 2 level 3\nsub 2 at 96 size 30 eep 4-B\n"
        "service C221\n  data 5 sub 63 secondary\n  other 8ABC\n  packet 7 primary\n"
        "service E1C20001\n  audio 63 sub 1 primary\n"
        "packet 7 raw type 60 sub 5 address 1\npacket 8 groups type 60 sub 5 address 1023\nnext\nno swap\n"
    )
    rows.answers("listen x.fib", 0, wanted, {"x.fib": stream(*data)})
    wanted = (
        '{"fibs":3,"damaged":0,"current":[{"sub":1,"start":0,"size":96,"option":2,"level":3},'
        '{"sub":2,"start":96,"size":30,"protection":"4-B","kbits":64},'
        '{"service":"C221","components":[{"data":5,"sub":63,"primary":false},{"other":"8ABC"},{"packet":7,"primary":true}]},'
        '{"service":"E1C20001","components":[{"audio":63,"sub":1,"primary":true}]},'
        '{"packet":7,"transport":"raw","type":60,"sub":5,"address":1},'
        '{"packet":8,"transport":"groups","type":60,"sub":5,"address":1023}],"next":[],"swap_at":null}\n'
    )
    rows.answers("listen x.fib --json", 0, wanted, {"x.fib": stream(*data)})
    # The short form of a sub-channel, and one of 97 capacity units, a size that no rate has.
    data = ("05 00 E1 C5 00 00 08 01 04 00 05 08 61 88 61 FF",)
    wanted = ('{"fibs":1,"damaged":0,"current":[{"sub":1,"start":0,"switch":0,"table":5},'
              '{"sub":2,"start":97,"size":97,"protection":"3-A"}],"next":[],"swap_at":null}\n')
    rows.answers("listen x.fib --json", 0, wanted, {"x.fib": stream(*data)})


def a_reconfiguration(rows):
    """A reconfiguration from 128 to 96 kbit/s: announced at count 4 for count 28, and made there."""
    data = (
        "06 00 E1 C5 40 04 1C 05 01 04 00 88 60 06 02 C2 21 01 3F 06 05 81 04 00 88 48 FF",
        "06 82 C2 21 01 3F 06 FF",
        "05 00 E1 C5 00 1C 05 01 04 00 88 48 06 02 C2 21 01 3F 06 FF",
    )
    service = "service C221\n  audio 63 sub 1 primary\n"
    at_128, at_96 = f"sub 1 at 0 size 96 eep 3-A\n{service}", f"sub 1 at 0 size 72 eep 3-A\n{service}"
    rows.answers("listen x.fib", 0, f"fibs 2 damaged 0\ncurrent\n{at_128}next\n{at_96}swap at low 28\n",
                 {"x.fib": stream(*data[:2])})
    rows.answers("listen x.fib", 0, f"fibs 3 damaged 0\ncurrent\n{at_96}next\nno swap\n", {"x.fib": stream(*data)})
    sub = '{{"sub":1,"start":0,"size":{},"protection":"3-A","kbits":{}}}'
    service = '{"service":"C221","components":[{"audio":63,"sub":1,"primary":true}]}'
    current, following = (f"[{sub.format(size, rate)},{service}]" for size, rate in ((96, 128), (72, 96)))
    rows.answers("listen x.fib --json", 0, f'{{"fibs":2,"damaged":0,"current":{current},"next":{following},"swap_at":28}}\n',
                 {"x.fib": stream(*data[:2])})


def full_pictures(rows):
    """A picture has room for 64 services or packet components, and not for a 65th."""
    for are_packets in (False, True):
        whole = sixty_five(are_packets)
        rows.answers("listen x.fib", 1, "refused: Full\n", {"x.fib": whole})
        rows.answers("listen x.fib --json", 1, '{"kind":"refused","cause":"Full"}\n', {"x.fib": whole})
        ended = rows.run("listen x.fib", {"x.fib": whole[:65 * 32]})
        rows.tally.same("64 have room", (0, b"fibs 65 damaged 0"), (ended.status, ended.printed.split(b"\n")[0]))


def refused_files(rows):
    """Files that are refused: not whole FIBs, which is tested first, and one that can't be read."""
    whole = sixty_five(False)
    for part in (whole[:65], whole[:-1]):
        rows.answers("listen x.fib", 1, "refused: not whole FIBs\n", {"x.fib": part})
        rows.answers("listen x.fib --json", 1, '{"kind":"refused","cause":"not whole FIBs"}\n', {"x.fib": part})
        rows.answers("listen -", 1, "refused: not whole FIBs\n", stdin=part)
    rows.answers("listen x.fib", 1, "cannot read x.fib\n")


def pieces(rows):
    """Streams that end before, at and after the end of a piece of 8,192 FIBs, and full pictures or partial FIBs after it."""
    first, second = fib("05 00 E1 C5 00 00 05 01 04 00 88 60 FF"), fib("05 01 04 00 88 48 FF")
    for count in (8191, 8192, 8193, 16384, 16385):
        data = first + second * (count - 2) + first
        wanted = f"fibs {count} damaged 0\ncurrent\nsub 1 at 0 size 96 eep 3-A\nnext\nno swap\n"
        rows.answers("listen x.fib", 0, wanted, {"x.fib": data})
        rows.answers("listen x.fib", 1, "refused: not whole FIBs\n", {"x.fib": data + b"\0"})
        rows.answers("listen x.fib", 1, "refused: Full\n", {"x.fib": data + sixty_five(False)})
        rows.answers("listen x.fib", 1, "refused: not whole FIBs\n", {"x.fib": sixty_five(False) + data + b"\0"})


def forgotten_fibs(rows):
    """A FIB without new entries has new ones again after another one, or a swap, has changed the picture."""
    at_96, at_128 = "05 01 04 00 88 48 FF", "05 01 04 00 88 60 FF"
    tuned, next_at_96 = "05 00 E1 C5 00 00 FF", "05 81 04 00 88 48 FF"
    announced, swapped = "06 00 E1 C5 40 04 1C FF", "05 00 E1 C5 00 1C FF"
    current_96, current_128 = ("sub 1 at 0 size 72 eep 3-A\n", "sub 1 at 0 size 96 eep 3-A\n")
    for data, current, following, swap in (
        ((tuned, at_96, at_96, at_96, at_128, at_96), current_96, "", "no swap"),
        ((tuned, at_96, at_96, at_96, at_128, at_128, at_96, at_96, at_128), current_128, "", "no swap"),
        ((at_96, at_96, tuned, at_96), current_96, "", "no swap"),
        ((tuned, at_128, at_128, announced, next_at_96, next_at_96, at_128), current_128, current_96, "swap at low 28"),
        ((tuned, at_128, at_128, announced, next_at_96, next_at_96, at_128, swapped, at_128), current_128, "", "no swap"),
        ((tuned, at_128, at_128, announced, next_at_96, next_at_96, swapped, announced, next_at_96), current_96, current_96,
         "swap at low 28"),
    ):
        wanted = f"fibs {len(data)} damaged 0\ncurrent\n{current}next\n{following}{swap}\n"
        rows.answers("listen x.fib", 0, wanted, {"x.fib": stream(*data)})


if __name__ == "__main__":
    rows.main([listings, damaged_fibs, all_forms, a_reconfiguration, full_pictures, pieces, forgotten_fibs, refused_files])
