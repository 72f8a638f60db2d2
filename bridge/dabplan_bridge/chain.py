"""The two children: `dabplan live`, which makes the frames of the plan, and behind it `dabplan merge`, which adds the
multiplexer's other FIGs."""
from __future__ import annotations

import io
import os
import re
import select
import subprocess
import threading
import time
from dataclasses import dataclass
from typing import IO, Iterable, Iterator, List, Optional

from .faults import Trouble, say, say_as_it_is, why
from .fibs import EMPTY_FIB, FIB, size_of

MOST_FRAMES = 3_600_000
"""The most frames of a step of `dabplan live`."""
BULK = 250
"""How many frames are made at once where none of them is sent: their FIBs fit into the buffer of a pipe."""
END_SECONDS = 5.0
"""The seconds after which a child that does not end is killed."""
ONE_FRAME = b"frames 1\n"
"""The line for one frame."""
STATUS = re.compile(rb"frame (\d+) ")
"""How a message of `dabplan live --status` begins."""


def frame_lines(frames: int) -> Iterator[bytes]:
    """The lines that let `dabplan live` make so many frames."""
    most, rest = divmod(frames, MOST_FRAMES)
    for count in [MOST_FRAMES] * most + [rest] * (rest > 0):
        yield b"frames %d" % count


class Progress:
    """Says each second that something still goes on; used by `with`."""

    def __init__(self, text: str) -> None:
        self._text = text
        self._over = threading.Event()
        self._thread = threading.Thread(target=self._run, daemon=True)

    def __enter__(self) -> Progress:
        self._thread.start()
        return self

    def __exit__(self, *_: object) -> None:
        self._over.set()
        self._thread.join()

    def _run(self) -> None:
        start = time.monotonic()
        while not self._over.wait(1.0):
            say(f"{self._text}: {time.monotonic() - start:.0f} s so far")


class Child:
    """A child with pipes."""

    def __init__(self, words: List[str], stdin: int, pass_fds: Iterable[int] = (),
                 stderr: Optional[int] = None) -> None:
        self.name = f"'dabplan {words[1]}'"
        try:
            self.process = subprocess.Popen(words, stdin=stdin, stdout=subprocess.PIPE, stderr=stderr, bufsize=0,
                                            pass_fds=tuple(pass_fds))
        except (OSError, ValueError) as fault:
            raise Trouble(f"cannot run {words[0]}: {why(fault) if isinstance(fault, OSError) else fault}") from None

    def end(self) -> int:
        """Waits for its end, kills it if that does not come; returns its exit status."""
        try:
            return self.process.wait(END_SECONDS)
        except subprocess.TimeoutExpired:
            self.process.kill()
            return self.process.wait()


def put(descriptor: int, data: bytes, name: str) -> None:
    """Writes to a child; `Trouble` if it has ended."""
    try:
        written = os.write(descriptor, data)
        while written < len(data):
            written += os.write(descriptor, memoryview(data)[written:])
    except OSError:
        raise Trouble(f"{name} has ended") from None


def taken(descriptor: int, size: int) -> bytes:
    """The next bytes of a child, fewer than `size` only at its end."""
    found = os.read(descriptor, size)
    while found and len(found) < size:
        more = os.read(descriptor, size - len(found))
        if not more:
            break
        found += more
    return found


@dataclass(frozen=True)
class Code:
    """A code file for `dabplan live`: one at a path, or one in memory."""

    path: str
    file: Optional[int] = None
    """The descriptor of the one in memory, which its path names."""

    @property
    def files(self) -> List[int]:
        """The descriptors that a child needs."""
        return [] if self.file is None else [self.file]


class StatusLines:
    """The messages of `dabplan live --status`, but for those about frames before one: they were written when these went
    out."""

    def __init__(self, pipe: IO[bytes], first: int) -> None:
        self._pipe = pipe
        self._first = first
        self._thread = threading.Thread(target=self._run, daemon=True)
        self._thread.start()

    def end(self) -> None:
        """Waits until all are written."""
        self._thread.join(END_SECONDS)

    def _run(self) -> None:
        for line in io.BufferedReader(self._pipe):  # type: ignore[arg-type]
            found = STATUS.match(line)
            if found is None or int(found[1]) >= self._first:
                say_as_it_is(line)


class Live:
    """`dabplan live` alone: the frames of a plan. Where `told_from` is given, what happens from that frame on is
    reported."""

    def __init__(self, program: str, code: Code, options: List[str], told_from: Optional[int] = None) -> None:
        status, stderr = ([], None) if told_from is None else (["--status"], subprocess.PIPE)
        self.child = Child([program, "live", code.path, *options, *status], subprocess.PIPE, code.files, stderr)
        self.process = self.child.process
        messages = self.process.stderr
        self._status = StatusLines(messages, told_from) if messages is not None and told_from is not None else None
        assert self.process.stdin is not None and self.process.stdout is not None
        self._input = self.process.stdin
        self.output = self.process.stdout

    def feed(self, lines: Iterable[bytes]) -> None:
        """Gives it lines, each without its line feed."""
        piece = bytearray()
        for line in lines:
            piece += line + b"\n"
            if len(piece) >= 32768:
                put(self._input.fileno(), bytes(piece), self.child.name)
                piece.clear()
        put(self._input.fileno(), bytes(piece), self.child.name)

    def frame(self) -> None:
        """Lets it make a frame; `Trouble` if it has ended."""
        put(self._input.fileno(), ONE_FRAME, self.child.name)

    def end(self) -> int:
        """Ends its input, and waits for it; returns its exit status."""
        self._input.close()
        status = self.child.end()
        if self._status is not None:
            self._status.end()
        return status


class Chain:
    """`dabplan live`, and behind it `dabplan merge`."""

    def __init__(self, program: str, code: Code, mode: int, options: List[str],
                 told_from: Optional[int] = None) -> None:
        self.size = size_of(mode)
        self._live = Live(program, code, options, told_from)
        reader, writer = os.pipe()
        try:
            words = [program, "merge", "-", f"/dev/fd/{reader}", "--mode", str(mode)]
            self._merge = Child(words, self._live.output.fileno(), [reader])
        except Trouble:
            os.close(writer)
            self._live.process.kill()
            raise
        finally:
            os.close(reader)
        self._live.output.close()
        self._other: Optional[int] = writer
        self._empty = EMPTY_FIB * (self.size // FIB)

    def feed(self, lines: Iterable[bytes]) -> None:
        """Gives lines to the plan; `Trouble` if a child has ended."""
        try:
            self._live.feed(lines)
        except Trouble:
            raise Trouble(self._ended()) from None

    def frame(self, fic: bytes, lines: List[bytes]) -> bytes:
        """The FIC of the plan's next frame, after these lines, with FIGs of another FIC."""
        self._put(fic)
        if lines:
            self.feed(lines)
        try:
            self._live.frame()
        except Trouble:
            raise Trouble(self._ended()) from None
        return self._taken(self.size)

    def pass_over(self, frames: int, lines: Iterable[bytes] = ()) -> Iterator[bytes]:
        """The FICs of the plan's next frames, after these lines, which are not sent: no other FIGs are in them."""
        self.feed(lines)
        while frames:
            now = min(BULK, frames)
            self._put(self._empty * now)
            self.feed([b"frames %d" % now])
            yield from self._frames(now)
            frames -= now

    def take_up(self, lines: Iterable[bytes], frames: int) -> Iterator[bytes]:
        """The FICs of the last frames that the plan makes by these lines; those before are skipped by an option of
        `dabplan live`."""
        ends_early: List[Trouble] = []
        feeder = threading.Thread(target=self._fed, args=(lines, ends_early), daemon=True)
        feeder.start()
        while frames:
            now = min(BULK, frames)
            self._put(self._empty * now)
            yield from self._frames(now)
            frames -= now
        feeder.join()
        if ends_early:
            raise ends_early[0]

    @property
    def processes(self) -> List[int]:
        """The process ids of the children."""
        return [self._live.process.pid, self._merge.process.pid]

    def _fed(self, lines: Iterable[bytes], ends_early: List[Trouble]) -> None:
        """Gives lines to the plan, in a thread of its own."""
        try:
            self.feed(lines)
        except Trouble as fault:
            ends_early.append(fault)

    def _put(self, fics: bytes) -> None:
        """Gives other FIGs to `merge`."""
        assert self._other is not None
        try:
            put(self._other, fics, self._merge.name)
        except Trouble:
            raise Trouble(self._ended()) from None

    def _frames(self, frames: int) -> Iterator[bytes]:
        for _ in range(frames):
            yield self._taken(self.size)

    def _taken(self, size: int) -> bytes:
        assert self._merge.process.stdout is not None
        found = taken(self._merge.process.stdout.fileno(), size)
        if len(found) < size:
            raise Trouble(self._ended())
        return found

    def _ended(self) -> str:
        """Which child has ended: where both have, the one that was killed, or failed, is named."""
        children = (self._live.child, self._merge)
        end = time.monotonic() + END_SECONDS / 5
        while any(child.process.poll() is None for child in children) and time.monotonic() < end:
            time.sleep(0.01)
        found = [(child.process.poll(), child.name) for child in children]
        for status, name in found:
            if status is not None and status < 0:
                return f"{name} has ended, by signal {-status}"
        return next((f"{name} has ended" for status, name in found if status), "'dabplan merge' has ended")

    def end(self) -> bool:
        """Ends both, and returns whether they ended well."""
        if self._other is not None:
            os.close(self._other)
            self._other = None
        first = self._live.end()
        rest = self._merge.process.stdout
        assert rest is not None
        while select.select([rest], [], [], END_SECONDS)[0] and os.read(rest.fileno(), 65536):
            pass
        return first == 0 and self._merge.end() == 0
