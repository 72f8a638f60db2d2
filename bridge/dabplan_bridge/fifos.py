"""The two FIFOs beside the stream: contacts come from one, a monitor reads the other."""
from __future__ import annotations

import errno
import os
import re
import stat
import time
from collections import deque
from typing import Deque, List, Optional, Tuple

from .faults import BadCommand, Trouble, say, shown, why
from .past import HIGHEST

CONTACTS = re.compile(rb"(contact \d{1,2} (closed|open)( |$))*")
"""A line of contacts, with one blank between its words and no comment."""
LONGEST = 1000
"""The most bytes of a line of contacts."""
MOST_LINES = 16
"""The most lines that are taken for a frame."""
PIECE = 4096
"""The most bytes that are read for a frame."""
LOOK_SECONDS = 0.5
"""How often it is looked whether a FIFO is still there."""
BACKLOG = 2500
"""The most frames that wait for a monitor: a minute."""


def refuse_other(option: str, path: Optional[str]) -> None:
    """Raises `BadCommand` if something is at a path that is no FIFO."""
    if path is None:
        return
    try:
        mode = os.stat(path).st_mode
    except FileNotFoundError:
        return
    except (OSError, ValueError) as fault:
        raise BadCommand(f"{option} {path}: {why(fault) if isinstance(fault, OSError) else fault}") from None
    if not stat.S_ISFIFO(mode):
        raise BadCommand(f"{option} {path}: not a FIFO")


def make(path: str) -> None:
    """Makes a FIFO where nothing is."""
    try:
        os.mkfifo(path)
    except FileExistsError:
        pass


class Fifo:
    """A FIFO at a path, which is made again when it is taken away."""

    def __init__(self, path: str, flags: int) -> None:
        self.path = path
        self.file: Optional[int] = None
        """Its descriptor, while it is open."""
        self._flags = flags | os.O_NONBLOCK | os.O_CLOEXEC
        self._looked = time.monotonic()
        self._told = False
        try:
            make(path)
        except OSError as fault:
            raise Trouble(f"cannot make {path}: {why(fault)}") from None

    def open(self) -> bool:
        """Opens it if it is not open; returns whether it is."""
        if self.file is None:
            try:
                self.file = os.open(self.path, self._flags)
                if stat.S_ISFIFO(os.fstat(self.file).st_mode):
                    self._told = False
                else:
                    self.close()
                    self._tell("not a FIFO")
            except OSError as fault:
                # Nobody reads it; or it was taken away, and `look` makes it again.
                if fault.errno not in (errno.ENXIO, errno.ENOENT):
                    self._tell(why(fault))
        return self.file is not None

    def _tell(self, reason: str) -> None:
        """Says once why it can't be opened."""
        if not self._told:
            say(f"cannot open {self.path}: {reason}")
        self._told = True

    def close(self) -> None:
        """Closes it."""
        if self.file is not None:
            os.close(self.file)
            self.file = None

    def look(self) -> None:
        """Twice a second looks whether it is still at its path, and makes it again where it is not."""
        now = time.monotonic()
        if now - self._looked < LOOK_SECONDS:
            return
        self._looked = now
        try:
            there = os.stat(self.path)
            if self.file is None or (there.st_dev, there.st_ino) == self._identity():
                return
            self.close()
        except FileNotFoundError:
            self._make_again()
        except OSError as fault:
            self._tell(why(fault))

    def _identity(self) -> Tuple[int, int]:
        assert self.file is not None
        known = os.fstat(self.file)
        return known.st_dev, known.st_ino

    def _make_again(self) -> None:
        self.close()
        try:
            make(self.path)
            say(f"{self.path} was taken away, and is made again")
        except OSError as fault:
            self._tell(why(fault))


class Contacts:
    """The lines of a FIFO, `contact 3 closed` or `contact 3 open`, without waiting for them; at most 16 for a frame,
    whatever is written to it."""

    def __init__(self, path: Optional[str]) -> None:
        # Open for writing too: so it does not end where a writer does.
        self._fifo = Fifo(path, os.O_RDWR) if path is not None else None
        self._rest = b""
        self._number = 0

    def lines(self) -> List[bytes]:
        """The lines of contacts that came since the last call, without their line feeds. Others are reported, in one
        message."""
        if self._fifo is None:
            return []
        self._fifo.look()
        if not self._fifo.open():
            return []
        if self._rest.count(b"\n") < MOST_LINES:
            self._read()
        *lines, rest = self._rest.split(b"\n", MOST_LINES)
        # Of a line that is too long to be a contact the rest is not kept.
        self._rest = rest if b"\n" in rest else rest[:LONGEST]
        others: List[str] = []
        found = [self._steps(line, others) for line in lines]
        if others:
            more = f", and {number_of_lines(len(others) - 1)} more" if len(others) > 1 else ""
            say(f"contacts: {others[0]}{more}")
        return [steps for steps in found if steps]

    def close(self) -> None:
        """Closes the FIFO."""
        if self._fifo is not None:
            self._fifo.close()

    def _read(self) -> None:
        """Reads what is there, up to some lines."""
        assert self._fifo is not None and self._fifo.file is not None
        try:
            self._rest += os.read(self._fifo.file, PIECE)
        except BlockingIOError:
            pass

    def _steps(self, line: bytes, others: List[str]) -> bytes:
        """The contacts of a line; none where it has something else, which is added to the others."""
        self._number += 1
        words = line.split(b"#")[0].split()
        steps = b" ".join(words)
        is_contact = CONTACTS.fullmatch(steps) and all(int(word) <= HIGHEST for word in words[1::3])
        if len(line) >= LONGEST or not is_contact:
            others.append(f"line {self._number} is no contact: {shown(line)}")
            return b""
        return b" ".join(b"contact %d %s" % (int(number), state) for number, state in zip(words[1::3], words[2::3]))


def number_of_lines(lines: int) -> str:
    """A number of lines, as text."""
    return f"{lines} line{'' if lines == 1 else 's'}"


class Monitor:
    """The FIBs of what goes out, in a FIFO, for whoever reads it.

    Nothing waits for the reader: frames wait for it, a minute of them; what it does not take then is left out, frame by
    whole frame, and reported.
    """

    def __init__(self, path: Optional[str]) -> None:
        self._fifo = Fifo(path, os.O_WRONLY) if path is not None else None
        self._waiting: Deque[bytes] = deque()
        self._lost = 0

    def put(self, fic: bytes) -> None:
        """Takes the FIC of a frame that went out."""
        if self._fifo is None:
            return
        self._fifo.look()
        if self._fifo.file is None:
            # The next reader begins with this frame.
            self._waiting.clear()
        if not self._fifo.open():
            return
        self._waiting.append(fic)
        self._push()
        if len(self._waiting) > BACKLOG:
            self._waiting.popleft()
            self._lost += 1
            if self._lost == 1:
                say(f"{self._fifo.path}: the monitor is {BACKLOG} frames behind: frames are left out")
        elif self._lost and not self._waiting:
            say(f"{self._fifo.path}: {self._lost} frames were left out for the monitor")
            self._lost = 0

    def close(self) -> None:
        """Gives the reader what waits, for at most a second, and closes the FIFO."""
        if self._fifo is None:
            return
        end = time.monotonic() + 1.0
        while self._waiting and self._fifo.file is not None and time.monotonic() < end:
            self._push()
            if self._waiting:
                time.sleep(0.005)
        self._fifo.close()

    def _push(self) -> None:
        """Writes what there is room for."""
        assert self._fifo is not None and self._fifo.file is not None
        try:
            while self._waiting:
                os.write(self._fifo.file, self._waiting[0])
                self._waiting.popleft()
        except BlockingIOError:
            pass
        except OSError:
            # The reader is gone.
            self._fifo.close()
