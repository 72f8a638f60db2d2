"""Writes the log of a plan: what it was given, so that it can be resumed. `past` says what is in it.

Each line is written at once, by one call. What can't be written is kept, and tried again each ten seconds: the plan
goes on. A log that has grown is written anew, with one line for frames between which no contact was given.
"""
from __future__ import annotations

import contextlib
import datetime
import os
import stat
import time
from typing import Iterable, Iterator, List, Optional, Tuple

from .chain import frame_lines
from .compact import compacted, keep_rights
from .copies import keep
from .faults import Trouble, WillNotGuess, say, why
from .fibs import COUNTS
from .lock import lock, locked
from .past import HEAD_TEXT, UTC_TEXT, Past, holds_line, past_of, steps_in, text_of
from .state import Alarm, State
from .sync import Syncer

AGAIN_SECONDS = 10.0
"""How often it is tried to write what could not be written."""
LARGE = 1_000_000
"""A log of so many bytes is written anew, with less for what is past."""


def date_line(first: datetime.date) -> str:
    """The comment that says which date the plan's first frame has."""
    return f"# date {first}"


class Unwritten:
    """The lines that are not in the file yet. Frames that follow frames are one line."""

    def __init__(self) -> None:
        self._lines: List[Tuple[int, str]] = []

    def add(self, frames: int, text: str) -> None:
        """Adds a text of whole lines; `frames` is not 0 where it is so many frames with what follows them."""
        if frames and self._lines and self._lines[-1][0]:
            frames += self._lines.pop()[0]
        self._lines.append((frames, text))

    def text(self) -> str:
        """All of them."""
        return "".join(self._frames(frames, text) if frames else text for frames, text in self._lines)

    def clear(self) -> None:
        """Forgets them: they are written."""
        self._lines.clear()

    def __bool__(self) -> bool:
        return bool(self._lines)

    @staticmethod
    def _frames(frames: int, note: str) -> str:
        """The lines of frames, with a note behind the last of them."""
        *most, last = frame_lines(frames)
        return "".join(line.decode("ascii") + "\n" for line in most) + f"{last.decode('ascii')} {note}"


class Log:
    """The log of a run, or none."""

    def __init__(self, path: Optional[str], every: int, is_anew: bool, state: State) -> None:
        self.path = path
        self.past: Optional[Past] = None
        """What it says of the run so far; None without a log, or where the plan begins."""
        self._every = every
        self._is_anew = is_anew
        self._state = state
        self._file: Optional[int] = None
        self._sync = Syncer()
        self._unwritten = Unwritten()
        self._size = 0
        """The bytes of the file that are whole lines of this log."""
        self._large = LARGE
        """It is written anew where it has more bytes."""
        self._is_torn = self._is_open = self._has_utc = False
        self._beside: Optional[str] = None
        """Where it is written that is to come to its path; None where it is there."""
        self._copy: Optional[bytes] = None
        """The code file of which a copy is to be written before it."""
        self._script: Optional[str] = None
        self._again = 0.0
        self._frames = self._pending = self._count = 0
        self._wall = 0.0
        if path is None:
            return
        try:
            self._file = locked(path, os.O_RDWR)
            if self._is_regular() and not is_anew:
                self.past = past_of(path)
                self._refuse_other(path)
        except FileNotFoundError:
            self._refuse_folder(path)
        except OSError as fault:
            raise Trouble(f"cannot write {path}: {why(fault)}") from None

    @property
    def is_written(self) -> bool:
        """Whether all is in the file; not where there is no log."""
        return self._is_open and not self._unwritten

    @property
    def has_copies(self) -> bool:
        """Whether copies of code files are kept beside it: not of one that is no regular file, or none."""
        return self._file is not None and self._is_regular()

    def keep(self, data: bytes, script: Optional[str]) -> None:
        """From the next head on it is of a plan of which a copy is kept, a code file with these bytes, which was
        compiled from the script of a digest, or from none."""
        self._script = script
        self._copy = data if self.path is not None else None

    def steps(self) -> Iterator[bytes]:
        """The steps so far."""
        return steps_in(self.path) if self.path is not None and self.past is not None else iter(())

    def refuse_other_plan(self, digest: str, code: str) -> None:
        """Raises `WillNotGuess` for the log of another plan: its lines would lead this one anywhere."""
        if self.past is not None and self.past.digest != digest:
            raise WillNotGuess(f"{self.path} is of another plan than {code}: --anew begins this one")

    def start(self, count: int, start: str, digest: str, wall: float) -> None:
        """How the plan begins, or goes on: the count and the time of its first frame, and when its first one on air
        came. Nothing is written before `open`."""
        past = self.past
        if self.path is None:
            return
        self._count, self._is_torn = count, True
        if past is not None:
            self._size, self._frames, self._count = past.size, past.frames, (count + past.frames) % COUNTS
            self._has_utc, self._script = past.has_utc, past.script
        if past is None or past.count != count:
            self._add_head(count, start, digest, wall)

    def move(self, count: int, start: str, digest: str, wall: float) -> None:
        """The plan that is on its way is taken up at other counts: its first frame has this one now. `wall` is when its
        last frame came."""
        if self.path is not None:
            self._note()
            self._count = (count + self._frames) % COUNTS
            self._add_head(count, start, digest, wall)
            self._flush()

    def begin_anew(self, count: int, start: str, digest: str, wall: float, lines: Iterable[str]) -> None:
        """The plan, or another one, begins while the bridge is on its way: the log so far, which is written, is
        renamed. The other one begins with these lines, contacts and comments."""
        if self.path is not None:
            self.past, self._is_anew, self._has_utc = None, True, False
            self._size = self._frames = self._pending = 0
            self.start(count, start, digest, wall)
            self._unwritten.add(0, "".join(f"{line}\n" for line in lines))
            self._flush()
            self.sync()

    def open(self) -> None:
        """The plan is on air: from now on all is written."""
        self._is_open = self.path is not None
        self._flush()

    def contacts(self, lines: List[bytes], remarks: Iterable[str] = ()) -> None:
        """Writes lines of contacts, and comments, behind the frames before them."""
        text = "".join(f"{line}\n" for line in (*(line.decode("ascii") for line in lines), *remarks))
        if text and self.path is not None:
            self._note()
            self._unwritten.add(0, text)
            self._flush()
            self.sync()

    def dated(self, first: Optional[datetime.date]) -> None:
        """Writes which date the plan's first frame has, where there is one and the log does not say it yet."""
        if first is not None and (self.past is None or self.past.first_date != first):
            self.contacts([], [date_line(first)])

    def held(self, frame: Optional[int]) -> None:
        """Writes that the configuration of a frame of the plan is held from here on, or none any more."""
        self._remark("# not held" if frame is None else f"# held {frame}")

    def holds(self, script: bytes) -> None:
        """Writes that the configuration of a script is held from here on, which no frame of the plan has."""
        self._remark(holds_line(script))

    def _remark(self, text: str) -> None:
        """Writes a comment, which is to be on the disk at once."""
        if self.path is not None:
            self._note()
            self._unwritten.add(0, f"{text}\n")
            self._flush()
            self.sync()

    def utc(self) -> None:
        """Writes that the multiplexer sends FIG 0/10, once."""
        if self.path is not None and not self._has_utc:
            self._has_utc = True
            self._note()
            self._unwritten.add(0, f"{UTC_TEXT}\n")
            self._flush()

    def count(self, frames: int, wall: float) -> None:
        """Counts frames, of which the last one came at this wall time."""
        if self.path is None:
            return
        self._pending += frames
        self._frames += frames
        self._count = (self._count + frames) % COUNTS
        self._wall = wall
        if self._pending >= self._every:
            self.note()

    def note(self) -> None:
        """Writes the frames since the last line, and what could not be written before."""
        if self.path is not None:
            self._note()
            self._flush()

    def tell(self, wall: float) -> None:
        """Writes at which wall time the last frame came, or comes, behind a pause or a step of the stream: else a log
        that ends here would be taken up elsewhere."""
        if self.path is None:
            return
        self._wall = wall
        if self._pending:
            self._note()
        else:
            self._unwritten.add(0, f"# count {self._count} frames {self._frames} at {text_of(wall)}\n")
        self._flush()

    def sync(self) -> None:
        """Lets what is written get to the disk."""
        if self._file is not None:
            self._sync.sync(self._file)

    def close(self) -> bool:
        """Writes what is left, and closes it; returns whether all is written."""
        self.note()
        if self._is_open and self._unwritten:
            self._try()
        if self._is_open and self._unwritten:
            say(f"{self.path} is not whole: what could not be written is lost")
        self._close()
        if self._beside is not None:
            with contextlib.suppress(OSError):
                os.unlink(self._beside)
        return not (self._is_open and self._unwritten)

    def _add_head(self, count: int, start: str, digest: str, wall: float) -> None:
        """Adds how a plan begins to what is to be written."""
        script = "" if self._script is None else f"# script {self._script}\n"
        self._unwritten.add(0, f"{HEAD_TEXT}count {count} {start} code {digest} at {text_of(wall)}\n{script}")

    def _note(self) -> None:
        """Adds the frames since the last line to what is to be written."""
        if self._pending:
            note = f"# count {self._count} frames {self._frames} at {text_of(self._wall)}\n"
            self._unwritten.add(self._pending, note)
            self._pending = 0

    def _flush(self) -> None:
        """Writes what is to be written; where that failed of late, it is not tried again yet."""
        if self._is_open and self._unwritten and time.monotonic() >= self._again:
            self._try()

    def _try(self) -> None:
        """Tries to write what is to be written."""
        assert self.path is not None
        try:
            self._make_ready()
            if self._state.is_on(Alarm.LOG):
                self._compact()
            data = self._unwritten.text().encode("ascii")
            self._write(data)
            self._put_in_place()
        except OSError as fault:
            self._is_torn = True
            self._again = time.monotonic() + AGAIN_SECONDS
            self._state.alarm(Alarm.LOG, f"cannot write {self.path}: {why(fault)}: what is to be logged is kept, and "
                                         f"tried again each {AGAIN_SECONDS:g} s")
            return
        self._size += len(data)
        self._unwritten.clear()
        self._again = 0.0
        self._state.clear(Alarm.LOG, f"{self.path} is written again")
        if self._size > self._large:
            self._compact()

    def _make_ready(self) -> None:
        """Opens the file, and takes away what is behind its whole lines."""
        assert self.path is not None
        if not self._is_torn:
            return
        if self._is_anew and self._file is not None and self._is_regular():
            self._begin_beside()
        self._is_anew = False
        if self._file is None:
            self._file = locked(self.path, os.O_RDWR | os.O_CREAT)
        if self._copy is not None:
            if self._is_regular():
                # Frames wait for this: they do not wait for the disk.
                keep(self.path, self._copy, False)
            self._copy = None
        if self._is_regular():
            os.ftruncate(self._file, self._size)
            os.lseek(self._file, 0, os.SEEK_END)
        self._is_torn = False

    def _write(self, data: bytes) -> None:
        """Writes by one call; `OSError` if not all of it can be written."""
        assert self._file is not None
        left = data
        self._is_torn = True
        while left:
            left = left[os.write(self._file, left):]
        self._is_torn = False

    def _compact(self) -> None:
        """Writes the file anew, with less for what is past; where that fails it stays as it is."""
        if self._file is None or self.path is None or self._beside is not None or not self._is_regular():
            return
        try:
            file, self._size = compacted(self.path, self._file, self._size)
        except (OSError, Trouble):
            # It is as long as it was, and whatever is wrong with the disk is told where a line can't be written.
            self._large = 2 * max(LARGE, self._size)
            return
        self._close()
        self._file, self._large = file, max(LARGE, 2 * self._size)
        os.lseek(file, 0, os.SEEK_END)

    def _is_regular(self) -> bool:
        assert self._file is not None
        return stat.S_ISREG(os.fstat(self._file).st_mode)

    def _refuse_other(self, path: str) -> None:
        """Raises `Trouble` for a file without a whole line that does not begin as a log: it would be written over."""
        assert self._file is not None
        head, text = HEAD_TEXT.encode("ascii"), os.pread(self._file, len(HEAD_TEXT), 0)
        if self.past is None and text != head[:len(text)]:
            raise Trouble(f"{path}: line 1: no log of this program")

    @staticmethod
    def _refuse_folder(path: str) -> None:
        """Raises `Trouble` where a log can't be made, for its folder is not there."""
        if not os.path.isdir(os.path.dirname(os.path.realpath(path))):
            raise Trouble(f"cannot write {path}: No such file or directory")

    def _begin_beside(self) -> None:
        """Begins another log beside the one so far, which stays at its place until there is something in the other."""
        assert self.path is not None and self._file is not None
        if self._beside is not None:
            # The last one did not come to its place.
            return
        beside = f"{os.path.realpath(self.path)}.{os.getpid()}"
        file = os.open(beside, os.O_RDWR | os.O_CREAT | os.O_TRUNC | os.O_CLOEXEC, 0o600)
        try:
            keep_rights(file, os.fstat(self._file))
            lock(beside, file)
        except (OSError, Trouble):
            os.close(file)
            raise
        self._close()
        self._file, self._beside = file, beside

    def _put_in_place(self) -> None:
        """Puts a log that was begun beside another one in its place: that one gets a name that no file has."""
        if self._beside is None or self.path is None:
            return
        place, number = os.path.realpath(self.path), 1
        names = place if os.path.islink(self.path) else self.path
        while os.path.lexists(f"{names}.{number}"):
            number += 1
        with contextlib.suppress(FileNotFoundError):
            try:
                os.link(place, f"{names}.{number}")
            except OSError:
                # A file system without links: for a moment there is no log.
                os.rename(place, f"{names}.{number}")
            say(f"{self.path} is now {names}.{number}")
        os.rename(self._beside, place)
        self._beside = None

    def _close(self) -> None:
        if self._file is not None:
            self._sync.finish()
            self._sync = Syncer()
            os.close(self._file)
            self._file = None
