#!/usr/bin/env python3
"""What 'compile --explain' says of refused scripts, judged by a second reading of them: 'facts.py [SEED [SCRIPTS]]'.

The scripts are those of tests/lib/mistakes.py. What is said of a refused plan, that a sub-channel is there, which swap is pending, what two
paths differ in, must be so where tests/lib/plans.py comes to the refused line; a line that 'added', 'changed' or 'dropped' a member
must do so. What could stand at a place that is no script must be accepted there, and a number out of the range that is printed
refused. A sentence that no reading is known of fails. The last line is 'N passed, M failed'."""
import os
import random
import re
import sys
import tempfile
from concurrent.futures import ThreadPoolExecutor

import common
import mistakes
import plans

SUB = r"sub \d+ at \d+ eep \d-[AB] \d+"
PACKET = r"packet \d+ (?:groups|raw) type \d+ sub \d+ address \d+"
SERVICE = r"service [0-9A-F]+ \([^)]*\)"
MEMBER = f"(?:{SUB}|{PACKET}|{SERVICE})"
DID = r"(?:; line (\d+) (added|adds|dropped|drops|changed|changes)(?: it| (sub \d+))?)?"
BY = r"(?:, by the commit in line (\d+))?"
FREEZE = "; until then the next configuration stays as it is"
WORDS = {"added": ("sub", "packet", "service", "audio", "data", "carry"), "dropped": ("drop",), "changed": ("rate", "move", "sub")}


class Refused:
    """A refused script, the line of its refusal, and what a second reading has seen there."""

    def __init__(self, text, line):
        self.text, self.line = text, line
        self.reading = plans.Reading(text).read()
        self.here = [(words, flow) for at, words, flow in self.reading.seen if at == line]
        self.merges = [(one, other) for at, one, other in self.reading.merges if at == line]

    def some(self, test):
        """Whether a statement of the refused line is so, with the flow before it."""
        return any(test(words, flow) for words, flow in self.here)

    def member(self, shown):
        """Whether a member is there, as it is shown."""
        kind, key = shown.split()[:2]
        key = key if kind == "service" else int(key)
        return self.some(lambda words, flow: plans.described(flow.next, kind, key) == shown)

    def lacks(self, kind, key):
        """Whether a member is not there."""
        key = key if kind == "service" else int(key)
        return self.some(lambda words, flow: key not in flow.next[kind])

    def did(self, line, verb, what):
        """Whether a line adds, drops or changes a member; nothing is to be shown where no line is named."""
        if line is None:
            return True
        verb = {"adds": "added", "drops": "dropped", "changes": "changed"}.get(verb, verb)
        name = " ".join(what.split()[:2])
        for at, words, _flow in self.reading.seen:
            shown = " ".join(words)
            if at == int(line) and words[0] in WORDS[verb] and f"{name} " in f"{shown} ":
                return True
        return False


def swap_is(refused, low, high):
    """Whether a swap is pending that comes after so many frames."""
    return refused.some(lambda words, flow: flow.swap == ("within", int(low), int(high or low)))


def commits(refused, line):
    """Whether a line has a commit; nothing is to be shown where no line is named."""
    return line is None or any(at == int(line) and words[0] == "commit" for at, words, _flow in refused.reading.seen)


def occupied(shown):
    """The first and the last capacity unit of a sub-channel as it is shown."""
    _sub, _id, _at, start, _eep, profile, rate = shown.split()
    return int(start), int(start) + plans.units(profile, int(rate)) - 1


def shared(refused, one, low, high, other, begin, end, first, last, *did):
    """Whether two sub-channels are there, with these capacity units, of which they share those."""
    ranges = [(int(low), int(high)), (int(begin), int(end))]
    common_units = (max(int(low), int(begin)), min(int(high), int(end)))
    return (ranges == [occupied(one), occupied(other)] and common_units == (int(first), int(last)) and int(first) <= int(last)
            and refused.member(one) and refused.member(other) and refused.did(*did[:2], did[2] or "sub")
            and refused.did(*did[3:5], did[5] or "sub"))


def too_long(refused, shown, size, first, last):
    """Whether a sub-channel ends after the multiplex."""
    return occupied(shown) == (int(first), int(last)) and int(last) - int(first) + 1 == int(size) and int(last) > 863


def service_named(refused, sid, rest):
    """Whether a service is not there, and which ones are, or where it comes or went."""
    if not refused.lacks("service", sid):
        return False
    listed = re.fullmatch(r"; the services there are ((?:[0-9A-F]+ ?)+)", rest)
    if listed:
        return refused.some(lambda words, flow: list(flow.next["service"]) == listed[1].split())
    if rest == "; there is no service":
        return refused.some(lambda words, flow: not flow.next["service"])
    comes = re.fullmatch(r"; it comes in line (\d+)", rest)
    if comes:
        line = refused.text.split("\n")[int(comes[1]) - 1]
        return int(comes[1]) > refused.line and f"service {sid}" in " ".join(line.split())
    went = re.fullmatch(r"; line (\d+) (dropped|drops) it", rest)
    return went is not None and refused.did(went[1], went[2], f"service {sid}")


def sub_named(refused, name, rest):
    """Whether a sub-channel or a packet component is not there, and which sub-channels are, or which line dropped it."""
    if not refused.lacks(*name.split()):
        return False
    listed = re.fullmatch(r"; the sub-channels there are ((?:\d+ ?)+)", rest)
    if listed:
        return refused.some(lambda words, flow: sorted(flow.next["sub"]) == sorted(map(int, listed[1].split())))
    if rest == "; there is no sub-channel":
        return refused.some(lambda words, flow: not flow.next["sub"])
    went = re.fullmatch(r"; line (\d+) (dropped|drops) it", rest)
    return rest == "" or went is not None and refused.did(went[1], went[2], name)


def orphan(refused, sid, carrier, line, verb, _sub):
    """Whether a service has a component on what is not there."""
    return refused.lacks(*carrier.split()) and refused.did(line, verb, carrier) and refused.some(
        lambda words, flow: any(part[1] == carrier for part in flow.next["service"].get(sid, [])))


def orphan_packet(refused, shown, sub, line, verb, _sub):
    """Whether a packet component names a sub-channel that is not there."""
    return refused.member(shown) and f" {sub} " in shown and refused.lacks(*sub.split()) and refused.did(line, verb, sub)


def sides(refused, which, one, other):
    """Whether a member differs between two flows: in the current configuration, in the next one, or in that after the swap,
    which is the next one where the swap is pending and the current one where none is."""
    name = [words for words in (one.split(), other.split()) if words[0] != "no"][0]
    kind, key = name[0], name[1] if name[0] == "service" else int(name[1])
    def shown(flow):
        is_current = which.startswith("current") or which.endswith("after the swap") and flow.swap is None
        return plans.described(flow.current if is_current else flow.next, kind, key)
    return any((shown(first), shown(second)) in ((one, other), (other, one)) for first, second in refused.merges)


def swap_shown(flow):
    """A swap as it is printed."""
    if flow.swap is None:
        return "no swap is pending"
    if flow.swap[0] == "perhaps":
        return f"a swap may be pending, that comes after {flow.swap[1]} frames at most"
    low, high = flow.swap[1:]
    return f"a swap is pending that comes after {low} frames" if low == high else f"a swap is pending that comes after {low} to {high} frames"


def swap_sides(refused, one, other):
    """Whether the swap differs between two flows."""
    return any((swap_shown(first), swap_shown(second)) in ((one, other), (other, one)) for first, second in refused.merges)


def unreached(refused, line):
    """Whether the statement of a line does not continue, and it is one that can't."""
    words = [token for token, at in plans.tokens(refused.text) if at == int(line)]
    return int(line) <= refused.line and not refused.here and any(word in words for word in ("end", "forever", "if", "apply", "repeat"))


def rate(refused, kbits, multiple):
    """Whether a rate is no multiple of its step, where a statement of the line has it."""
    return int(kbits) % int(multiple) != 0 and multiple in ("8", "32") and refused.some(lambda words, flow: kbits in words)


SENTENCES = [(re.compile(pattern), judge) for pattern, judge in (
    (r"service ([0-9A-F]+) has no component", lambda r, sid: r.some(lambda words, flow: flow.next["service"].get(sid) == [])),
    (rf"service ([0-9A-F]+) has a component on ((?:sub|packet) \d+), which is not there{DID}", orphan),
    (rf"({PACKET}) names (sub \d+), which is not there{DID}", orphan_packet),
    (rf"a swap is pending that comes after (\d+)(?: to (\d+))? frames{BY}{FREEZE}",
     lambda r, low, high, line: swap_is(r, low, high) and commits(r, line)),
    (rf"a swap may be pending, that comes after (\d+) frames at most{BY}{FREEZE}",
     lambda r, high, line: r.some(lambda words, flow: flow.swap == ("perhaps", int(high))) and commits(r, line)),
    (r"nothing differs: the next configuration is the current one", lambda r: r.some(lambda words, flow: flow.next == flow.current)),
    (rf"({MEMBER}) is there already{DID}", lambda r, shown, line, verb, _sub: r.member(shown) and r.did(line, verb, shown)),
    (r"no swap is pending here, so that there is none to wait for", lambda r: r.some(lambda words, flow: flow.swap is None)),
    (r"the swap may have come already, so that none is pending",
     lambda r: r.some(lambda words, flow: flow.swap is not None and flow.swap[0] == "perhaps")),
    (r"service ([0-9A-F]+) is not there(|; .*)", service_named),
    (r"((?:sub|packet) \d+) is not there(|; .*)", sub_named),
    (rf"({SERVICE}) has a component on ((?:sub|packet) \d+) already", lambda r, shown, carrier: r.member(shown) and carrier in shown.replace("carry", "packet")),
    (r"service ([0-9A-F]+) has no component on ((?:sub|packet) \d+)", lambda r, sid, carrier: r.some(
        lambda words, flow: sid in flow.next["service"] and all(part[1] != carrier for part in flow.next["service"][sid]))),
    (rf"({SUB}) has CU (\d+) to (\d+), ({SUB}) has CU (\d+) to (\d+): they share CU (\d+) to (\d+){DID}{DID}", shared),
    (rf"({SUB}) has (\d+) CU, so CU (\d+) to (\d+); the last one is 863", too_long),
    (r"a rate of (\d+) kbit/s is no multiple of (\d+), as those of the profile are", rate),
    (r"a rate of 0 kbit/s has no size", lambda r: r.some(lambda words, flow: "0" in words)),
    (r"(\d+) is no packet address", lambda r, address: r.some(lambda words, flow: words[-1] == address) and not 1 <= int(address) <= 1023),
    (rf"({PACKET}) and ({PACKET}) have one address on one sub-channel",
     lambda r, one, other: r.member(one) and r.member(other) and one != other and one.split(" sub ")[1] == other.split(" sub ")[1]),
    (r"the swap would come after (\d+) frames; the notice is (\d+) frames",
     lambda r, frames, notice: r.reading.numbers["notice"] == int(notice) > int(frames) and r.some(lambda words, flow: words[-1] == frames)),
    (r"no swap falls on count (\d+): in this mode swaps fall on the multiples of 4 from 0 to 4999",
     lambda r, count: int(count) % 4 != 0 and r.some(lambda words, flow: words == ["commit", "at", count])),
    (rf"after (\d+) frames the swap has come or not, as the count allows: it comes after (\d+) to (\d+) frames{BY}",
     lambda r, frames, low, high, line: swap_is(r, low, high) and int(low) <= int(frames) < int(high) and commits(r, line)),
    (r"it can't be reached: the statement in line (\d+) does not continue to it", unreached),
    (rf"the (?:loop does not come back as it began|two paths through the 'if' differ): in the (current configuration|next configuration|configuration after the swap) "
     rf"((?:no )?(?:{MEMBER}|(?:sub|packet|service) [0-9A-F]+)) (?:at its end|on one path), ((?:no )?(?:{MEMBER}|(?:sub|packet|service) [0-9A-F]+)) "
     r"(?:at its beginning|on the other)", sides),
    (r"(?:the loop does not come back as it began|the two paths through the 'if' differ): (.*?) (?:at its end|on one path); (.*?) "
     r"(?:at its beginning|on the other)", swap_sides),
)]

# What could stand at a place: a token that is accepted there, and one that is not.
KINDS = {"an SId: four or eight digits 0-9 A-F, in capitals and without 0x": (["C123", "E1C5A001"], ["C12", "c123"]),
         "a statement": (["join", "end"], ["joint"]),
         "a protection profile, 1-A to 4-A or 1-B to 4-B": (["1-A", "4-B"], ["5-A", "3-a"]),
         "a start address in capacity units, 0 to 863": (["0", "863"], ["1024", "x"]),
         "the name of a block: a lower-case letter, then lower-case letters, digits or '_', and no keyword": (["swing_2", "a"], ["_a", "wait"]),
         "a time HH:MM:SS, 00:00:00 to 23:59:59": (["00:00:00", "23:59:59"], ["24:00:00", "6:00"])}
EXPECTED = re.compile(r"expected (.*?)(?: to go on from line (\d+))?; (?:found '(.*?)'(?:: .*)?|the script ends here)")


def candidates(expected):
    """The tokens that can stand at a place, and those that can't, as it is printed; and whether the script may end there."""
    good, bad, may_end = [], [], False
    for name, (fits, fails) in KINDS.items():
        if name in expected:
            expected = expected.replace(name, "")
            good, bad = good + fits, bad + fails
    if "the end of the script" in expected:
        expected, may_end = expected.replace("the end of the script", ""), True
    for word in re.findall(r"'([^']+)'", expected):
        good.append(word)
    for low, high in re.findall(r"[^,']*, (\d+) to (\d+)", expected):
        good += [low, high]
        bad += [str(int(high) + 1)] + ([str(int(low) - 1)] if low != "0" else [])
    return good, bad, may_end


def is_defined(before, name):
    """Whether a text has a whole definition of a block with this name."""
    words = [word for word, _line in plans.tokens(before)]
    for at in range(len(words) - 1):
        if words[at:at + 2] == ["define", name]:
            depth = [words[at:end].count("{") - words[at:end].count("}") for end in range(at + 4, len(words) + 1)]
            return 0 in depth
    return False


def syntax(program, folder, name, text, line, column, sentence):
    """What is wrong with what could stand at a place of a text that is no script, if anything is."""
    matched = EXPECTED.fullmatch(sentence)
    undefined = re.fullmatch(r"'(.*)' is not the name of a block that is defined before", sentence)
    rows = text.split("\n")
    at = sum(len(row) + 1 for row in rows[:line - 1]) + column - 1
    if undefined:
        return "it is defined" if is_defined(text[:at], undefined[1]) else None
    if matched is None:
        return "no reading of it"
    if matched[3] is not None and not text[at:].startswith(matched[3]):
        return f"{matched[3]} is not there"
    if matched[2] is not None and int(matched[2]) > line:
        return f"it goes on from line {matched[2]}"
    good, bad, may_end = candidates(matched[1])
    if not good:
        return "nothing could stand there"
    place = rf"{line}:{column}: (Expected|Number)"
    for token in good + bad:
        first = refusal(program, folder, name, f"{text[:at]}{token} {text[at:]}")
        if (re.fullmatch(place, first) is None) != (token in good):
            return f"{token} there: {first}"
    if may_end and re.fullmatch(r"\d+:\d+: .*", refusal(program, folder, name, text[:at])):
        return "the script can't end there"
    return None


def refusal(program, folder, name, text):
    """The first line that `compile` prints."""
    common.write(folder, f"{name}.plan", text)
    return common.run([program, "compile", f"{name}.plan", f"{name}.code", "--quiet"], folder).printed.decode().partition("\n")[0]


def restless(program, folder, name, text, first, last):
    """What is wrong with a loop of these lines that can run without a wait, if anything is: no budget allows it, and a wait at
    its end does."""
    most = re.sub(r"budget \d+", "budget 255", text)
    rows = most.split("\n")
    rows[last - 1] = "wait 1 }".join(rows[last - 1].rsplit("}", 1))
    found = [refusal(program, folder, name, other).startswith(f"refused line {first}: Cost") for other in (most, "\n".join(rows))]
    return None if found == [True, False] else f"{found}"


def judged(program, folder, name, text):
    """How often what was said was judged, and what is wrong with it, if anything is."""
    common.write(folder, f"{name}.plan", text)
    ended = common.run([program, "compile", f"{name}.plan", f"{name}.code", "--explain"], folder)
    if ended.status == 0:
        return 0, None
    lines = ended.printed.decode().split("\n")
    said = re.fullmatch(rf"{name}\.plan:(\d+)(?::(\d+))?: (.*)", lines[1])
    if said is None:
        return 1, f"{lines[:2]}: nothing is said"
    if said[2] is not None:
        wrong = syntax(program, folder, name, text, int(said[1]), int(said[2]), said[3])
        return 1, None if wrong is None else f"{said[0]}: {wrong}"
    budget = re.fullmatch(r"the longest path runs (\d+) instructions in one frame, .*; the budget is (\d+)", said[3])
    if budget:
        lower = [re.sub(r"budget \d+", f"budget {int(budget[1]) - less}", text) for less in (0, 1)]
        costs = ["Cost" in refusal(program, folder, name, other) for other in lower]
        return 1, None if costs == [False, True] and f"budget {budget[2]}" in text else f"{said[0]}: {costs}"
    loop = re.fullmatch(r"(?:an iteration of )?the loop of lines (\d+) to (\d+) can (?:run|repeat) without a wait[:,] .*", said[3])
    if loop:
        wrong = restless(program, folder, name, text, *map(int, loop.groups()))
        return 1, None if wrong is None else f"{said[0]}: {wrong}"
    refused = Refused(text, int(said[1]))
    for pattern, judge in SENTENCES:
        matched = pattern.fullmatch(said[3])
        if matched:
            return 1, None if judge(refused, *matched.groups()) else f"{said[0]}: it is not so"
    return 1, f"{said[0]}: no reading of it"


def main():
    """Judges what is said of so many scripts."""
    words = sys.argv[1:]
    seed = int(words[0]) if words else 300401
    times = int(words[1]) if len(words) > 1 else 1500
    tally, program = common.Tally(), common.dabplan()
    chance = random.Random(seed)
    scripts = [mistakes.script(chance) for _ in range(times)]
    with tempfile.TemporaryDirectory() as folder, ThreadPoolExecutor(os.cpu_count()) as pool:
        found = pool.map(lambda row: judged(program, folder, f"s{row[0]}", row[1]), enumerate(scripts))
        refused = 0
        for number, (count, wrong) in enumerate(found):
            refused += count
            if count:
                tally.hold(wrong is None, f"script {number}: {wrong}\n{scripts[number] if wrong else ''}")
    tally.hold(refused > times // 2, f"{refused} of {times} scripts are refused")
    print(f"seed {seed}: {times} scripts, {refused} refused")
    tally.end()


if __name__ == "__main__":
    main()
