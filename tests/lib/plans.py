"""A second reading of scripts, written from the guide alone: which configurations and which swap there are before each statement.

It follows the statements of a script in their order, an `if` by both branches, a loop by one turn, and stops where a statement
has a fault. What it yields is compared with what the program says of a refused script."""
import copy
import re

STEP = 4
TOKEN = re.compile(r"[{}]|[0-9A-Za-z_:-]+")
PROFILES = {"1-A": 96, "2-A": 64, "3-A": 48, "4-A": 32, "1-B": 27, "2-B": 21, "3-B": 18, "4-B": 15}


def bare(text):
    """The text with its comments blanked."""
    return re.sub(r"#[^\n]*", lambda comment: " " * len(comment[0]), text)


def tokens(text):
    """The tokens of a script, each with its line."""
    found = []
    for number, line in enumerate(bare(text).split("\n"), 1):
        found += [(token[0], number) for token in TOKEN.finditer(line)]
    return found


def units(profile, rate):
    """The capacity units of a rate, or `None` if it is no multiple of its step (EN 300 401 clause 6.2.1)."""
    step = 8 if profile.endswith("A") else 32
    if rate == 0 or rate % step != 0:
        return None
    # The A profiles take 12, 8, 6 and 4 units for 8 kbit/s.
    return rate // step * (PROFILES[profile] // 8 if step == 8 else PROFILES[profile])


class Flow:
    """What is there before a statement: both configurations, and a swap: none, ('within', low, high) or ('perhaps', high)."""

    def __init__(self):
        self.current = self.next = {"sub": {}, "packet": {}, "service": {}}
        self.swap = None

    def copy(self):
        """Another one with the same contents."""
        return copy.deepcopy(self)

    def has_same(self, other):
        """Whether both have the same configurations."""
        return (self.current, self.next) == (other.current, other.next)

    def fits(self, other):
        """Whether all that another one says holds here too."""
        if self.swap is None or other.swap is None:
            is_over = other.swap is not None and other.swap[0] == "perhaps" and self.current == self.next == other.next
            return self.swap is None and (is_over or other.swap is None and self.has_same(other))
        if other.swap[0] == "within" and (self.swap[0] != "within" or self.swap[1] < other.swap[1]):
            return False
        return self.has_same(other) and self.swap[-1] <= other.swap[-1]

    def merged(self, other):
        """What holds of both; `None` if their configurations do not allow it."""
        pending = self if self.swap is not None else other
        swaps = [flow.swap for flow in (self, other) if flow.swap is not None]
        found = pending.copy()
        if [swap[0] for swap in swaps] == ["within", "within"]:
            found.swap = ("within", min(swaps[0][1], swaps[1][1]), max(swaps[0][2], swaps[1][2]))
        elif swaps:
            found.swap = ("perhaps", max(swap[-1] for swap in swaps))
        return found if self.fits(found) and other.fits(found) else None

    def swapped(self):
        """After the swap that was pending."""
        if self.swap is not None:
            self.current, self.swap = copy.deepcopy(self.next), None


class Ended(Exception):
    """The statements behind are not reached, or one has a fault."""


class Reading:
    """The statements of a script: `seen` has each one as its line, its words and the flow before it; `merges` has the lines of
    `if` and of loops, with the two flows that must be the same."""

    def __init__(self, text):
        self.tokens, self.at = tokens(text), 0
        self.blocks, self.seen, self.merges = {}, [], []
        self.flow = Flow()
        self.numbers = {}

    def take(self):
        """The next token."""
        if self.at >= len(self.tokens):
            raise Ended
        self.at += 1
        return self.tokens[self.at - 1]

    def peek(self):
        """The word of the next token; nothing at the end."""
        return self.tokens[self.at][0] if self.at < len(self.tokens) else ""

    def words(self, count):
        """The next words."""
        return [self.take()[0] for _ in range(count)]

    def read(self):
        """Reads all that can be read."""
        try:
            self.header()
            while self.at < len(self.tokens):
                self.statement()
        except (Ended, ValueError, KeyError, IndexError):
            pass
        return self

    def header(self):
        """The numbers of the header, the opening, and the blocks."""
        while self.peek() in ("ensemble", "mode", "period", "notice", "budget", "reserve"):
            name, value = self.words(2)
            self.numbers[name] = int(value, 16 if name == "ensemble" else 10)
        while self.peek() != "begin":
            if self.peek() == "define":
                _define, name = self.words(2)
                self.blocks[name] = self.at
                self.skip_block()
            else:
                self.statement()
        line = self.take()[1]
        self.seen.append((line, ["begin"], self.flow.copy()))
        self.flow.current = copy.deepcopy(self.flow.next)

    def skip_block(self):
        """Passes over a block in braces."""
        depth = 0
        while True:
            word = self.take()[0]
            depth += {"{": 1, "}": -1}.get(word, 0)
            if depth == 0:
                return

    def block(self):
        """Follows a block in braces; whether its end is reached."""
        start = self.at
        try:
            if self.take()[0] != "{":
                raise Ended
            while self.peek() != "}":
                self.statement()
            self.take()
            return True
        except Ended:
            self.at = start
            self.skip_block()
            return False

    def statement(self):
        """Follows one statement."""
        word, line = self.take()
        if word in ("if", "forever", "repeat", "apply"):
            getattr(self, word + "_")(line)
            return
        rest = {"join": 0, "settle": 0, "end": 0, "service": 1, "commit": 2, "move": 4, "rate": 3, "sub": 6,
                "audio": 5, "data": 5, "carry": 3, "packet": 8}
        if word == "wait":
            words = [word, *self.alternatives()]
        elif word == "until":
            words = [word, *self.moment()]
        elif word == "drop":
            words = [word, *self.words(5 if self.peek() == "component" else 2)]
        else:
            words = [word, *self.words(rest[word])]
        self.seen.append((line, words, self.flow.copy()))
        step(self.flow, words, self.numbers)

    def moment(self):
        """A time of day, and by how many frames earlier."""
        return self.words(3 if self.at + 1 < len(self.tokens) and self.tokens[self.at + 1][0] == "early" else 1)

    def alternatives(self):
        """What a wait waits for, with `or` between."""
        words = []
        while True:
            if self.peek() == "until":
                words += [*self.words(1), *self.moment()]
            else:
                words += self.words(3 if self.peek() == "contact" else 1)
            if self.peek() != "or":
                return words
            words += self.words(1)

    def if_(self, line):
        """Both branches; what is behind has the flow of one that comes to its end."""
        self.words(4 if self.peek() == "time" else 2)
        before = self.flow.copy()
        self.seen.append((line, ["if"], before))
        first = self.flow if self.block() else None
        self.flow, second = before.copy(), before
        if self.peek() == "else":
            self.take()
            second = self.flow if self.block() else None
        both = first if second is None else second
        if first is not None and second is not None:
            self.merges.append((line, first.copy(), second.copy()))
            both = first.merged(second)
        if both is None:
            raise Ended
        self.flow = both.copy()

    def forever_(self, line):
        """One turn of a loop without end."""
        before = self.flow.copy()
        self.seen.append((line, ["forever"], before))
        if self.block():
            self.merges.append((line, self.flow.copy(), before))
        raise Ended

    def repeat_(self, line):
        """One turn of a loop."""
        self.words(1)
        before = self.flow.copy()
        self.seen.append((line, ["repeat"], before))
        if not self.block():
            raise Ended
        self.merges.append((line, self.flow.copy(), before))
        if not self.flow.fits(before):
            raise Ended

    def apply_(self, line):
        """The statements of a block."""
        name = self.words(1)[0]
        self.seen.append((line, ["apply"], self.flow.copy()))
        back, self.at = self.at, self.blocks[name]
        is_done = self.block()
        self.at = back
        if not is_done:
            raise Ended


def step(flow, words, numbers):
    """What a statement does to a flow; `Ended` if it has a fault, or nothing follows it."""
    first = words[0]
    if first in ("commit", "join", "settle", "wait", "until"):
        swap_step(flow, words, numbers)
    elif first == "end":
        raise Ended
    else:
        if flow.swap is not None:
            raise Ended
        edit(flow.next, words)


def swap_step(flow, words, numbers):
    """What a commit or a wait does to a flow."""
    if words[0] == "commit":
        if flow.swap is not None:
            raise Ended
        low = int(words[2]) if words[1] == "in" else numbers["notice"]
        # A swap falls on a multiple of the step; of a count, that comes at the next time that the notice allows.
        high = low + STEP - 1 if words[1] == "in" else low + 4999
        flow.swap = ("within", low, high)
    elif words[0] in ("join", "settle"):
        if words[0] == "join" and (flow.swap is None or flow.swap[0] == "perhaps"):
            raise Ended
        flow.swapped()
    elif flow.swap is not None:
        wait(flow, int(words[1]) if words[0] == "wait" and len(words) == 2 else None)


def wait(flow, frames):
    """What a wait does to a pending swap: of so many frames, or of one at least."""
    high = flow.swap[-1]
    if frames is None:
        flow.swap = ("perhaps", high - 1)
        if high == 1:
            flow.swapped()
    elif frames >= high:
        flow.swapped()
    elif flow.swap[0] == "perhaps":
        flow.swap = ("perhaps", high - frames)
    elif frames < flow.swap[1]:
        flow.swap = ("within", flow.swap[1] - frames, high - frames)
    else:
        raise Ended


def edit(config, words):
    """What an edit does to a configuration."""
    first = words[0]
    if first in ("sub", "packet", "service"):
        add(config, words)
    elif first == "move":
        start, profile, rate = config["sub"][int(words[2])]
        config["sub"][int(words[2])] = (int(words[4]), profile, rate)
    elif first == "rate":
        start, profile, rate = config["sub"][int(words[2])]
        config["sub"][int(words[2])] = (start, profile, int(words[3]))
    elif first in ("audio", "data", "carry"):
        carrier = f"packet {words[1]}" if first == "carry" else f"sub {words[3]}"
        shown = f"carry {words[1]}" if first == "carry" else f"{first} {words[1]} sub {words[3]}"
        parts = config["service"][words[-1]]
        if any(part[1] == carrier for part in parts):
            raise Ended
        parts.append((shown, carrier))
    elif first == "drop":
        drop(config, words[1:])
    else:
        raise Ended


def add(config, words):
    """Adds a sub-channel, a packet component or a service."""
    if words[0] == "service":
        key, value = words[1], []
    elif words[0] == "sub":
        key, value = int(words[1]), (int(words[3]), words[5], int(words[6]))
    else:
        key, value = int(words[1]), (words[2], int(words[4]), int(words[6]), int(words[8]))
    if key in config[words[0]]:
        raise Ended
    config[words[0]][key] = value


def drop(config, words):
    """Takes a member of a configuration out of it."""
    if words[0] == "component":
        parts = config["service"][words[-1]]
        kept = [part for part in parts if part[1] != " ".join(words[1:3])]
        if len(kept) == len(parts):
            raise Ended
        config["service"][words[-1]] = kept
    else:
        del config[words[0]][words[1] if words[0] == "service" else int(words[1])]


def described(config, kind, key):
    """A member of a configuration as it is printed; with 'no' before it if it is not there."""
    if key not in config[kind]:
        return f"no {kind} {key}"
    value = config[kind][key]
    if kind == "sub":
        return f"sub {key} at {value[0]} eep {value[1]} {value[2]}"
    if kind == "packet":
        return f"packet {key} {value[0]} type {value[1]} sub {value[2]} address {value[3]}"
    return f"service {key} ({', '.join(part[0] for part in value) or 'no component'})"
