"""Lets files get to the disk, while frames go on."""
from __future__ import annotations

import os
import threading
from typing import Optional


class Syncer:
    """Syncs a file in a thread of its own: a disk may take its time."""

    def __init__(self) -> None:
        self._condition = threading.Condition()
        self._file: Optional[int] = None
        self._thread: Optional[threading.Thread] = None
        self._is_over = False

    def sync(self, file: int) -> None:
        """Lets what is written to a file get to the disk, soon."""
        with self._condition:
            if self._file is not None:
                os.close(self._file)
            self._file = os.dup(file)
            if self._thread is None:
                self._thread = threading.Thread(target=self._run, daemon=True)
                self._thread.start()
            self._condition.notify()

    def finish(self) -> None:
        """Syncs now what waits for it; nothing is synced any more."""
        with self._condition:
            self._is_over = True
            if self._file is not None:
                self._of(self._file)
                self._file = None
            self._condition.notify()

    def _run(self) -> None:
        while True:
            with self._condition:
                while self._file is None and not self._is_over:
                    self._condition.wait()
                if self._file is None:
                    return
                file, self._file = self._file, None
            self._of(file)

    @staticmethod
    def _of(file: int) -> None:
        """Syncs a file and closes it. What can't be synced, as a FIFO, is as it is."""
        try:
            os.fsync(file)
        except OSError:
            pass
        os.close(file)
