#!/usr/bin/env python3
"""'dabplan check': its findings in valid and invalid streams of FIBs, as text and as JSON, its options, refused files, and
lines that come as a stream is fed. The last line is 'N passed, M failed'."""
import pathlib
import subprocess
import threading
import rows
from rows import hexadecimal
from streams import crc, other_formats, stream

SAMPLES = pathlib.Path(__file__).resolve().parents[3] / "bench/samples"

# Sub-channel 1 at 0 by 3-A: 128 kbit/s, and 96. Service C221 with audio of type 63 on it, and the same with type 5.
AT_128, AT_96 = "01 04 00 88 60", "01 04 00 88 48"
RADIO, OTHER_RADIO = "02 C2 21 01 3F 06", "02 C2 21 01 05 06"


def fig(entry, following=False):
    """A FIG of one entry, given with its extension before it; with C/N 1 if it is of the next configuration."""
    extension, rest = entry.split(" ", 1)
    second = int(extension, 16) | (0x80 if following else 0)
    return f"{1 + len(rest.split()):02X} {second:02X} {rest}"


def ensemble(count, flags=0, low=None, eid="E1C5"):
    """A FIG 0/0."""
    front = f"{eid[:2]} {eid[2:]} {flags << 6 | count // 250:02X} {count % 250:02X}"
    return fig(f"00 {front}" + ("" if low is None else f" {low:02X}"))


def frame(figs, following):
    """A frame of mode I: FIGs in the first FIB, those of the next configuration in the second, and an empty third FIB."""
    return stream(" ".join([*figs, "FF"]), " ".join([*following, "FF"]), "FF")


def run(frames, first=4, swap=28, flags=1, low=28, flagged=None, moved=None, before=(AT_128, RADIO), after=(AT_96, RADIO)):
    """Frames from count 0 on, all entries in each. The notice begins at `first`, the flags end at `swap`.

    `flagged` are the counts whose FIG 0/0 has the flags, by default all of the notice; from `moved[0]` on the
    occurrence change is `moved[1]`."""
    out = b""
    for count in range(frames):
        figs, is_notice = [], first <= count < swap
        if count % 4 == 0:
            if is_notice and (flagged is None or count in flagged):
                figs.append(ensemble(count, flags, moved[1] if moved and count >= moved[0] else low))
            else:
                figs.append(ensemble(count))
        figs += [fig(entry) for entry in (before if count < swap else after)]
        out += frame(figs, [fig(entry, True) for entry in after] if is_notice else [])
    return out


def good_streams(rows):
    """Streams without a fault."""
    for data, words, wanted in (
        (run(40), "", "0 0 ensemble E1C5\n4 4 announced 1 swap at low 28\n28 28 swap\n"
                      "frames 40 skipped 0 left over 0 damaged 0 swaps 1 faults 0\n"),
        (run(40), " --period 1", "0 0 ensemble E1C5\n4 4 announced 1 swap at low 28\n28 28 swap\n"
                                 "frames 40 skipped 0 left over 0 damaged 0 swaps 1 faults 0\n"),
        # FIBs before the first FIG 0/0 are skipped, and those after the last whole frame are left over.
        (run(40)[96:] + stream("FF"), "", "0 4 ensemble E1C5\n0 4 announced 1 swap at low 28\n24 28 swap\n"
                                          "frames 36 skipped 9 left over 1 damaged 0 swaps 1 faults 0\n"),
        (run(40, flags=3, after=(AT_96, OTHER_RADIO)), "", "0 0 ensemble E1C5\n4 4 announced 3 swap at low 28\n28 28 swap\n"
         "frames 40 skipped 0 left over 0 damaged 0 swaps 1 faults 0\n"),
    ):
        rows.answers("check x.fib" + words, 0, wanted, {"x.fib": data})


def broken_announcements(rows):
    """Streams with a faulty announcement: its occurrence change, its flags, and unannounced changes."""
    first, last = "0 0 ensemble E1C5\n", "frames 40 skipped 0 left over 0 damaged 0 swaps 1 faults {}\n"
    for data, wanted in (
        # The occurrence change is four late.
        (run(40, low=32), "4 4 announced 1 swap at low 32\n28 28 swap\n28 28 fault: announced for low 32\n" + last.format(1)),
        # The flags are sent only once: when they are gone, the swap is made, twenty frames too early.
        (run(40, flagged={4}), "4 4 announced 1 swap at low 28\n8 8 swap\n8 8 fault: announced for low 28\n"
         "8 8 fault: announced 1 times\n8 8 fault: changed: sub 1\n8 8 fault: next without change flags\n"
         "28 28 fault: changed: sub 1\n" + last.format(5)),
        # It moves in the middle of the notice.
        (run(40, moved=(16, 32)), "4 4 announced 1 swap at low 28\n16 16 fault: announced again: 1 at low 32\n28 28 swap\n"
                                  "28 28 fault: announced for low 32\n" + last.format(2)),
        # The flags hide a change of services.
        (run(40, after=(AT_96, OTHER_RADIO)), "4 4 announced 1 swap at low 28\n28 28 swap\n"
                                              "28 28 fault: flags 1, but 3 changes\n" + last.format(1)),
    ):
        rows.answers("check x.fib", 3, first + wanted, {"x.fib": data})


def refusals(rows):
    """Files that are refused, after their findings."""
    for data, wanted in (
        (b"", "refused: no ensemble\n"),
        (stream("FF"), "refused: no ensemble\n"),
        (stream("FF") + b"\0", "refused: not whole FIBs\n"),
        (run(4) + b"\0" * 31, "0 0 ensemble E1C5\nrefused: not whole FIBs\n"),
    ):
        rows.answers("check x.fib", 1, wanted, {"x.fib": data})
    rows.answers("check absent.fib", 1, "cannot read absent.fib\n")


def changed(data, first, old, new):
    """A stream with these bytes instead of those, in each FIB from this one on, and a new CRC."""
    fibs = [data[at:at + 32] for at in range(0, len(data), 32)]
    later = [front[:30].replace(old, new) for front in fibs[first:]]
    return b"".join(fibs[:first]) + b"".join(front + crc(front).to_bytes(2, "big") for front in later)


def a_real_stream(rows):
    """A stream that another multiplexer wrote, with its stored findings; and with an unannounced change."""
    data, wanted = (SAMPLES / "real_fic.fib").read_bytes(), (SAMPLES / "real_fic.check").read_text()
    rows.answers("check x.fib", 0, wanted, {"x.fib": data})
    rows.answers("check -", 0, wanted, stdin=data)
    # Sub-channel 63 has 24 capacity units, and from frame 200 on 25: it is the 606th FIB, as six are skipped.
    old, new = hexadecimal("FC DE 80 18"), hexadecimal("FC DE 80 19")
    at = next(at for at in range(606, len(data) // 32) if old in data[32 * at:32 * at + 32])
    number = (at - 6) // 3
    first, last = wanted.splitlines()
    rows.answers("check x.fib", 3, f"{first}\n{number} {4460 + number} fault: changed: sub 63\n{last[:-1]}1\n",
                 {"x.fib": changed(data, 606, old, new)})


# ---- the table of faults

# Service E1C2 0001 (long), service C222, and packet component 5 in sub-channel 1, at two addresses.
LONG, OTHER_LONG = "22 E1 C2 00 01 01 3F 06", "22 E1 C2 00 01 01 05 06"
SECOND = "02 C2 22 01 3F 06"
PACKET, OTHER_PACKET = "03 00 50 3C 04 01", "03 00 50 3C 04 02"


def air(frames, alter=None, entries=(AT_128, RADIO)):
    """Frames of mode I from count 0 on, all entries in each. `alter` gives the FIGs and next FIGs of a count."""
    out = b""
    for count in range(frames):
        figs = ([ensemble(count)] if count % 4 == 0 else []) + [fig(entry) for entry in entries]
        figs, following = alter(count, figs) if alter else (figs, [])
        out += frame(figs, following)
    return out


def without(data, number):
    """A stream without the FIB of this number."""
    return data[:32 * number] + data[32 * number + 32:]


def damaged(data, number):
    """A stream in which the CRC of the FIB of this number is wrong."""
    at = 32 * number + 31
    return data[:at] + bytes([data[at] ^ 1]) + data[at + 1:]


def heard_in(data, counts):
    """A stream whose frames have no next entries but at these counts."""
    return b"".join(data[at:at + 32] + (data[at + 32:at + 64] if at // 96 in counts else stream("FF")) + data[at + 64:at + 96]
                    for at in range(0, len(data), 96))


def at(place, figs, following=()):
    """These FIGs at one count, and the usual ones at all others."""
    return lambda count, usual: (figs, list(following)) if count == place else (usual, [])


def entries_from(place, entries):
    """Other entries from a count on."""
    def alter(count, usual):
        if count < place:
            return usual, []
        return ([ensemble(count)] if count % 4 == 0 else []) + [fig(entry) for entry in entries], []
    return alter


def announced_from(place, following, low=100, flags=1):
    """From a count on a notice without an end, with these next entries at each count, by a function."""
    def alter(count, usual):
        if count < place:
            return usual, []
        figs = [ensemble(count, flags, low)] if count % 4 == 0 else []
        return figs + [fig(AT_128), fig(RADIO)], [fig(entry, True) for entry in following(count)]
    return alter


def faults_table():
    """For each fault a stream, options, its findings after the first line, as text and as fields, and frames, damaged FIBs,
    swaps."""
    begun = (4, 4, "announced 1 swap at low 28", ',"change":1,"low":28')
    swapped = (28, 28, "swap", "")
    usual = [fig(AT_128), fig(RADIO)]
    yield without(air(8), 11), "", [(3, 3, "fault: frame of 2 FIBs", ',"fault":"short-frame","fibs":2')], (8, 0, 0)
    yield damaged(air(8), 4), "", [(1, 1, "fault: damaged 1", ',"fault":"damaged","fibs":1')], (8, 1, 0)
    yield air(8, at(4, usual)), "", [(4, 4, "fault: FIG 0/0 is missing", ',"fault":"no-ensemble"')], (8, 0, 0)
    yield (air(8, at(4, [ensemble(4, eid="E1C6"), *usual])), "",
           [(4, 4, "fault: ensemble E1C6", ',"fault":"other-ensemble","eid":"E1C6"')], (8, 0, 0))
    yield (air(8, at(4, [ensemble(8), *usual])), "",
           [(4, 8, "fault: count: 4 was due", ',"fault":"count","due":4')], (8, 0, 0))
    yield (air(4, at(1, [*usual, ensemble(1)])), "",
           [(1, 1, "fault: FIG 0/0 out of place", ',"fault":"out-of-place"')], (4, 0, 0))
    yield (run(24, moved=(16, 32)), "",
           [begun, (16, 16, "fault: announced again: 1 at low 32", ',"fault":"announced-again","change":1,"low":32')],
           (24, 0, 0))
    yield (air(8, announced_from(4, lambda count: (), low=251)), "",
           [(4, 4, "announced 1 swap at low 251", ',"change":1,"low":251'),
            (4, 4, "fault: no swap can fall at low 251", ',"fault":"no-swap-at","low":251')], (8, 0, 0))
    yield (air(4, at(0, [ensemble(0), *usual], [fig(AT_96, True)])), "",
           [(0, 0, "fault: next without change flags", ',"fault":"next-unannounced"')], (4, 0, 0))
    for before, after, text, field in ((AT_128, AT_96, "sub 1", ',"sub":1'), (RADIO, OTHER_RADIO, "service C221", ',"service":"C221"'),
                                       (LONG, OTHER_LONG, "service E1C20001", ',"service":"E1C20001"'),
                                       (PACKET, OTHER_PACKET, "packet 5", ',"packet":5')):
        yield (air(6, entries_from(5, [after]), [before]), "",
               [(5, 5, f"fault: changed: {text}", f',"fault":"changed"{field}')], (6, 0, 0))
        yield (air(6, announced_from(4, lambda count, one=before, other=after: [one if count == 4 else other])), "",
               [(4, 4, "announced 1 swap at low 100", ',"change":1,"low":100'),
                (5, 5, f"fault: next changed: {text}", f',"fault":"next-changed"{field}')], (6, 0, 0))
        yield (air(6, entries_from(5, [SECOND, before]), [SECOND]), " --period 4",
               [(5, 5, f"fault: appeared: {text}", f',"fault":"appeared"{field}')], (6, 0, 0))
        yield (air(8, entries_from(2, [SECOND]), [SECOND, before]), " --period 4",
               [(5, 5, f"fault: silent: {text}", f',"fault":"silent"{field}')], (8, 0, 0))
    yield (run(40, low=32), "",
           [(4, 4, "announced 1 swap at low 32", ',"change":1,"low":32'), swapped,
            (28, 28, "fault: announced for low 32", ',"fault":"announced-for","low":32')], (40, 0, 1))
    yield (run(40, first=20), "", [(20, 20, *begun[2:]), swapped, (28, 28, "fault: announced 2 times", ',"fault":"announced-times","times":2')],
           (40, 0, 1))
    yield (heard_in(run(40), (8, 9)), "",
           [begun, swapped, (28, 28, "fault: next heard 2 times", ',"fault":"next-heard","times":2')], (40, 0, 1))
    yield (run(40, after=(AT_96, OTHER_RADIO)), "",
           [begun, swapped, (28, 28, "fault: flags 1, but 3 changes", ',"fault":"flags","change":1,"changes":3')], (40, 0, 1))
    overlapping = "01 08 32 88 60"  # sub-channel 2 at 50, in the middle of sub-channel 1
    yield (run(40, before=(AT_128, RADIO), after=(AT_128, overlapping, RADIO)), "",
           [begun, swapped, (28, 28, "fault: overlap 1 2", ',"fault":"overlap","subs":[1,2]')], (40, 0, 1))
    late = "01 07 20 88 60"  # sub-channel 1 at 800, of 96 capacity units
    yield (run(40, after=(late, RADIO)), "",
           [begun, swapped, (28, 28, "fault: past the end: 1", ',"fault":"past-end","sub":1')], (40, 0, 1))


# ---- FIGs that name what is not there

# FIGs of each form that contradict sub-channel 1, service C221 with audio on it, and packet component 5, with what is
# reported of them, as text and as fields. Of FIG 0/4: SubChId, CAOrg; of 0/5: SubChId or SCId, language; of 0/8: SId, Ext
# and SCIdS, SubChId or SCId, Rfa; of 0/14: SubChId and scheme; of 0/19: cluster, ASw, SubChId, region.
CONTRADICTING = (
    ("04 04 02 00 00", "FIG 0/4 names sub 2, which is not there", "not-there", ',"extension":4,"sub":2'),
    ("03 05 02 0F", "FIG 0/5 names sub 2, which is not there", "not-there", ',"extension":5,"sub":2'),
    ("04 05 80 07 0F", "FIG 0/5 names packet 7, which is not there", "not-there", ',"extension":5,"packet":7'),
    ("05 08 C2 21 00 02", "FIG 0/8 names sub 2 of service C221, which is not there", "not-there",
     ',"extension":8,"sub":2,"service":"C221"'),
    ("06 08 C2 21 80 02 00", "FIG 0/8 names sub 2 of service C221, which is not there", "not-there",
     ',"extension":8,"sub":2,"service":"C221"'),
    ("05 08 C2 22 00 01", "FIG 0/8 names sub 1 of service C222, which is not there", "not-there",
     ',"extension":8,"sub":1,"service":"C222"'),
    ("06 08 C2 21 00 80 05", "FIG 0/8 names packet 5 of service C221, which is not there", "not-there",
     ',"extension":8,"packet":5,"service":"C221"'),
    ("07 28 E1 C2 00 01 00 01", "FIG 0/8 names sub 1 of service E1C20001, which is not there", "not-there",
     ',"extension":8,"sub":1,"service":"E1C20001"'),
    # The byte behind Ext is no entry: the second one is read behind it.
    ("0B 08 C2 21 80 01 00 C2 21 01 02 FF", "FIG 0/8 is not whole entries", "not-whole", ',"extension":8'),
    ("0A 08 C2 21 80 01 00 C2 21 01 02", "FIG 0/8 names sub 2 of service C221, which is not there", "not-there",
     ',"extension":8,"sub":2,"service":"C221"'),
    ("02 0E 09", "FIG 0/14 names sub 2, which is not there", "not-there", ',"extension":14,"sub":2'),
    ("05 13 01 00 20 02", "FIG 0/19 names sub 2, which is not there", "not-there", ',"extension":19,"sub":2'),
    ("06 13 01 00 20 42 05", "FIG 0/19 names sub 2, which is not there", "not-there", ',"extension":19,"sub":2'),
    ("04 08 C2 21 00", "FIG 0/8 is not whole entries", "not-whole", ',"extension":8'),
    # With C/N 1, which says nothing in these three.
    ("03 85 02 0F", "FIG 0/5 names sub 2, which is not there", "not-there", ',"extension":5,"sub":2'),
    ("02 8E 09", "FIG 0/14 names sub 2, which is not there", "not-there", ',"extension":14,"sub":2'),
    ("05 93 01 00 20 02", "FIG 0/19 names sub 2, which is not there", "not-there", ',"extension":19,"sub":2'),
    ("01 0E", "FIG 0/14 is not whole entries", "not-whole", ',"extension":14'),
)

# Others that do not: what they name is there, is a channel of the FIC, or is of another ensemble; or they name nothing, or speak
# of the next configuration, as FIG 0/4 and 0/8 do with C/N 1, whether what they name is there or not, and whole or not.
AGREEING = ("04 04 01 00 00", "04 04 42 00 00", "03 05 01 0F", "03 05 42 0F", "04 05 80 05 0F", "05 08 C2 21 00 01",
            "05 08 C2 21 00 42", "06 08 C2 21 80 01 00", "05 48 C2 21 00 02", "05 88 C2 21 00 01", "02 0E 05", "02 4E 09",
            "05 13 01 00 20 01", "06 13 01 00 20 41 05", "02 0A 09", "04 84 02 00 00", "05 88 C2 21 00 02",
            "06 88 C2 21 00 80 06", "07 A8 E1 C2 00 01 00 01", "04 88 C2 21 00")


def sent_with(others, frames=8):
    """Frames of sub-channel 1, service C221 and packet component 5, with other FIGs in the second FIB of each."""
    return air(frames, lambda count, usual: (usual, others(count)), (AT_128, RADIO, PACKET))


def contradictions(rows):
    """FIGs that name what is not there, from the frame on in which all should be known; and others."""
    for data, text, name, fields in CONTRADICTING:
        for json in (False, True):
            found = (4, 4, "fault: " + text, f',"fault":"{name}"{fields}')
            rows.answers("check x.fib --period 4" + (" --json" if json else ""), 3,
                         line_of(FIRST, json) + line_of(found, json) + totals(8, 0, 0, 1, json),
                         {"x.fib": sent_with(lambda count, data=data: [data])})
    for data in AGREEING:
        rows.answers("check x.fib --period 4", 0, line_of(FIRST, False) + totals(8, 0, 0, 0, False),
                     {"x.fib": sent_with(lambda count, data=data: [data])})
    # With the usual period nothing is expected to be known in so few frames.
    rows.answers("check x.fib", 0, line_of(FIRST, False) + totals(8, 0, 0, 0, False),
                 {"x.fib": sent_with(lambda count: ["02 0E 09"])})


def reported_once(rows):
    """A contradiction is reported once between two swaps, and again after one; at most 64 are."""
    names = [f"fault: FIG 0/14 names sub {sub}, which is not there" for sub in range(64) if sub != 1]
    entries = [f"{sub << 2:02X}" for sub in range(64) if sub != 1]
    figs = [" ".join(["16 0E", *entries[at:at + 21]]) for at in (0, 21, 42)]
    wanted = [FIRST, *((4 + at // 21, 4 + at // 21, text, "") for at, text in enumerate(names)),
              (7, 7, "fault: FIG 0/4 names sub 2, which is not there", "")]
    sent = sent_with(lambda count: [figs[count - 4]] if count in (4, 5, 6) else ["07 04 02 00 00 03 00 00"] if count > 6 else [], 12)
    rows.answers("check x.fib --period 4", 3, "".join(line_of(found, False) for found in wanted) + totals(12, 0, 0, 64, False),
                 {"x.fib": sent})
    # At the swap sub-channel 1 becomes sub-channel 2. The FIGs are sent in the third FIB of each frame.
    moved = run(40, flags=3, after=("01 08 00 88 48", "02 C2 21 01 3F 0A"))
    for others, findings in (
        ("02 0E 05", [(28, "sub 1")]),
        ("02 0E 09", [(4, "sub 2")]),
        ("03 0E 05 0D", [(4, "sub 3"), (28, "sub 1"), (28, "sub 3")]),
    ):
        data = b"".join(moved[at:at + 64] + stream(others + " FF") for at in range(0, len(moved), 96))
        lines = [FIRST, (4, 4, "announced 3 swap at low 28", "")]
        faults = [(count, count, f"fault: FIG 0/14 names {text}, which is not there", "") for count, text in findings]
        swap = [(28, 28, "swap", "")]
        lines += [found for found in faults if found[0] < 28] + swap + [found for found in faults if found[0] >= 28]
        rows.answers("check x.fib --period 4", 3, "".join(line_of(found, False) for found in lines)
                     + totals(40, 0, 1, len(faults), False), {"x.fib": data})


def line_of(found, json):
    """A finding as a line of text or JSON."""
    number, count, text, fields = found
    if json:
        kind = "fault" if text.startswith("fault: ") else text.split()[0]
        return f'{{"kind":"{kind}","frame":{number},"count":{count}{fields}}}\n'
    return f"{number} {count} {text}\n"


def totals(frames, damaged_fibs, swaps, faults, json, kind="summary", left_over=0):
    """A line of totals as text or JSON."""
    if json:
        return (f'{{"kind":"{kind}","frames":{frames},"skipped":0,"left_over":{left_over},"damaged":{damaged_fibs},'
                f'"swaps":{swaps},"faults":{faults}}}\n')
    return (("alive " if kind == "alive" else "") + f"frames {frames} skipped 0 left over {left_over} damaged {damaged_fibs} "
            f"swaps {swaps} faults {faults}\n")


FIRST = (0, 0, "ensemble E1C5", ',"eid":"E1C5"')


def each_fault(rows):
    """Each fault, as text and as JSON."""
    for data, words, findings, (frames, bad, swaps) in faults_table():
        faults = sum(text.startswith("fault: ") for _, _, text, _ in findings)
        for json in (False, True):
            wanted = "".join(line_of(found, json) for found in [FIRST, *findings]) + totals(frames, bad, swaps, faults, json)
            rows.answers("check x.fib" + words + (" --json" if json else ""), 3, wanted, {"x.fib": data})


def options(rows):
    """--every, --time, --until-fault and --json; modes and periods."""
    data = without(air(8), 11)
    fault = (3, 3, "fault: frame of 2 FIBs", ',"fault":"short-frame","fibs":2')
    for json in (False, True):
        words = " --json" if json else ""
        lines = [line_of(FIRST, json), line_of(fault, json)]
        alive = [totals(frames, 0, 0, int(frames > 3), json, "alive") for frames in (3, 6)]
        end = totals(8, 0, 0, 1, json)
        rows.answers("check x.fib --every 3" + words, 3, lines[0] + alive[0] + lines[1] + alive[1] + end, {"x.fib": data})
        # Nothing after the first frame with a fault is checked, be it no FIB at all.
        rows.answers("check x.fib --until-fault --every 2" + words, 3, "".join(
            [lines[0], totals(2, 0, 0, 0, json, "alive"), lines[1], totals(4, 0, 0, 1, json, "alive"), totals(4, 0, 0, 1, json)]),
            {"x.fib": data + b"no FIB"})
        rows.answers("check x.fib --until-fault" + words, 0, lines[0] + totals(8, 0, 0, 0, json), {"x.fib": air(8)})
    # The time of a frame is 24 ms after that of the one before, over midnight.
    rows.answers("check x.fib --time 23:59:59", 3, "23:59:59.000 0 0 ensemble E1C5\n00:00:00.008 42 42 fault: damaged 1\n"
                 + totals(44, 1, 0, 1, False), {"x.fib": damaged(air(44), 127)})
    rows.answers("check x.fib --time 21:59:54 --json", 0, '{"kind":"ensemble","time":"21:59:54.000","frame":0,"count":0,"eid":"E1C5"}\n'
                 + totals(8, 0, 0, 0, True), {"x.fib": air(8)})
    # In mode II every frame has a FIG 0/0, in mode III frames have four FIBs, in mode IV every other frame has one.
    for mode, fibs, step in ((2, 3, 1), (3, 4, 1), (4, 3, 2)):
        data = b"".join(stream(" ".join([*([ensemble(count)] if count % step == 0 else []), fig(AT_128), "FF"]), *["FF"] * (fibs - 1))
                        for count in range(8))
        rows.answers(f"check x.fib --mode {mode}", 0, line_of(FIRST, False) + totals(8, 0, 0, 0, False), {"x.fib": data})
    # The same stream of mode IV in mode I: its FIG 0/0 at counts 2 and 6 are out of place.
    rows.answers("check x.fib --mode 1", 3, "".join(line_of(found, False) for found in (
        FIRST, (2, 2, "fault: FIG 0/0 out of place", ""), (6, 6, "fault: FIG 0/0 out of place", ""))) + totals(8, 0, 0, 2, False),
        {"x.fib": data}, messages="x.fib: FIG 0/0 in every second frame: --mode 4?\n")
    # With a longer period the same entry is not silent yet.
    silent = air(8, entries_from(2, [SECOND]), [SECOND, AT_128])
    rows.answers("check x.fib --period 7", 0, line_of(FIRST, False) + totals(8, 0, 0, 0, False), {"x.fib": silent})
    # A fault in the last of 2,800 frames, behind the first 262,144 bytes.
    far = damaged(air(2800), 8397)
    rows.answers("check x.fib", 3, line_of(FIRST, False) + "2799 2799 fault: damaged 1\n" + totals(2800, 1, 0, 1, False), {"x.fib": far})


def full(rows):
    """A stream whose current configuration would get a 65th service."""
    services = [fig(f"02 D0 {number:02X} 01 3F 06") for number in range(65)]
    groups = [" ".join([*services[at:at + 4], "FF"]) for at in range(0, 72, 4)]
    data = b"".join(stream(" ".join([*([ensemble(count)] if count % 4 == 0 else []), "FF"]), *groups[2 * count:2 * count + 2])
                    for count in range(9))
    rows.answers("check x.fib", 1, "0 0 ensemble E1C5\nrefused: Full\n", {"x.fib": data + stream("FF")})
    rows.answers("check x.fib --json", 1, '{"kind":"ensemble","frame":0,"count":0,"eid":"E1C5"}\n{"kind":"refused","cause":"Full"}\n',
                 {"x.fib": data + stream("FF")})


def hints(rows):
    """Files that are no streams of FIBs: a line on standard error, once, whatever is printed."""
    plain = "x.fib: no whole FIB: 32 bytes each are expected"
    eti = " (ETI: dabplan-bridge fic takes out its FIBs)"
    for data, hint in (
        (b"\0" * 32, plain), (b"\0" * 100, plain), (b"\0", plain),
        (bytes([255]) + hexadecimal("073AB6") + b"\0" * 60, plain + eti), (b"\0" * 3 + hexadecimal("F8C549") + b"\0" * 60, plain + eti),
        (b"05 00 E1 c5\r\n" * 8, plain + " (hexadecimal text: xxd -r -p)"),
        (b"\0" * 32 * 2048 + stream("FF"), plain),
    ):
        for command in ("check x.fib", "check x.fib --json", "listen x.fib", "listen x.fib --json"):
            ended = rows.run(command, {"x.fib": data})
            rows.tally.same(f"dabplan {command}, a hint", hint.encode() + b"\n", ended.messages)
    for name, data in other_formats():
        # Of real EDI, of which some FIBs are right where they lie, no bytes are said to be lost.
        data = data[:12_800]
        rights = sum(crc(data[at:at + 30]).to_bytes(2, "big") == data[at + 30:at + 32] for at in range(0, len(data), 32))
        for command in ("check x.fib", "check x.fib --json", "listen x.fib", "listen x.fib --json"):
            ended = rows.run(command, {"x.fib": data})
            rows.tally.same(f"dabplan {command}, {name}", f"{plain} ({name}{eti[5:]}\n".encode(), ended.messages)
            if command.startswith("listen"):
                rows.tally.same(f"dabplan {command}, {name} with {rights} FIBs", 0 if rights else 1, ended.status)
                counts = f"fibs {len(data) // 32} damaged {len(data) // 32 - rights}\n"
                rows.tally.hold("json" in command or ended.printed.startswith(counts.encode()), f"{name}: {ended.printed[:80]}")
    for data in (bytes(960), b"AF" + bytes(958), b"PF" + b"\1" * 958, b"\7\x3a\xb6" + bytes(957), b"05" * 480):
        ended = rows.run("listen x.fib", {"x.fib": data})
        rows.tally.same("listen of damaged FIBs", (0, b"fibs 30 damaged 30\n"), (ended.status, ended.printed[:19]))
    for data in (b"", stream("FF"), b"\0" * 32 + stream("FF"), b"\0" * 32 * 2047 + stream("FF")):
        rows.tally.same("no hint", b"", rows.run("check x.fib", {"x.fib": data}).messages)


def json_refusals(rows):
    """Refusals and failures as JSON."""
    rows.answers("check x.fib --json", 1, '{"kind":"refused","cause":"no ensemble"}\n', {"x.fib": b""})
    rows.answers("check x.fib --json", 1, '{"kind":"refused","cause":"not whole FIBs"}\n', {"x.fib": stream("FF") + b"\0"})
    for path, wanted in (
        ('a"b\\c', '{"kind":"refused","cause":"cannot read a\\"b\\\\c"}\n'),
        ("a\n\t\x01\x7f\u00e9", '{"kind":"refused","cause":"cannot read a\\n\\t\\u0001\x7f\u00e9"}\n'),
    ):
        rows.answers(["check", path, "--json"], 1, wanted)


def lines_as_they_come(rows):
    """Over a pipe that is fed frame by frame, each line is read at the other end before the next frame is fed."""
    data = run(40, low=32)
    wanted = {0: ["0 0 ensemble E1C5"], 4: ["4 4 announced 1 swap at low 32"], 28: ["28 28 swap", "28 28 fault: announced for low 32"]}
    program = subprocess.Popen([rows.program, "check", "-", "--every", "20"], stdin=subprocess.PIPE, stdout=subprocess.PIPE, cwd=rows.folder)
    guard = threading.Timer(120, program.kill)  # a program that holds its lines back would wait for ever
    guard.start()
    read = {}
    for count in range(40):
        # In three parts, which cut FIBs.
        for front, back in ((0, 40), (40, 90), (90, 96)):
            program.stdin.write(data[96 * count + front:96 * count + back])
            program.stdin.flush()
        lines = list(wanted.get(count, []))
        if count in (19, 39):
            lines.append(totals(count + 1, 0, int(count > 28), int(count > 28), False, "alive").strip())
        if lines:
            read[count] = (lines, [program.stdout.readline().decode().strip() for _ in lines])
    program.stdin.close()
    last = program.stdout.read().decode()
    guard.cancel()
    for count, (lines, got) in read.items():
        rows.tally.same(f"lines after frame {count}", lines, got)
    rows.tally.same("the last line", (totals(40, 0, 1, 1, False), 3), (last, program.wait()))


if __name__ == "__main__":
    rows.main([good_streams, broken_announcements, each_fault, contradictions, reported_once, options, full, refusals, json_refusals,
               hints, lines_as_they_come, a_real_stream])
