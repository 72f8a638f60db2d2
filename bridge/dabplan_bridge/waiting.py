"""Waiting for one descriptor while others are served."""
from __future__ import annotations

import select
import time
from typing import Callable, Dict, Optional

Served = Callable[[int], None]
"""What is done with a descriptor that is ready; it gets the events of `select.poll`."""
READABLE = select.POLLIN | select.POLLHUP | select.POLLERR
WRITABLE = select.POLLOUT | select.POLLHUP | select.POLLERR


class Waiter:
    """Waits for the input, and serves the sockets of the output meanwhile."""

    def __init__(self) -> None:
        self._served: Dict[int, Served] = {}
        self._poll = select.poll()

    def serve(self, descriptor: int, events: int, served: Served) -> None:
        """From now on calls `served` when a descriptor has one of these events while something else is waited for."""
        self._served[descriptor] = served
        self._poll.register(descriptor, events)

    def forget(self, descriptor: int) -> None:
        """Serves a descriptor no longer."""
        if self._served.pop(descriptor, None) is not None:
            self._poll.unregister(descriptor)

    def readable(self, descriptor: int, seconds: Optional[float] = None) -> bool:
        """Waits until a descriptor can be read, at most so many seconds; returns whether it can."""
        self._poll.register(descriptor, READABLE)
        try:
            return self._until(descriptor, seconds)
        finally:
            self._poll.unregister(descriptor)

    def sleep(self, seconds: float) -> None:
        """Waits so many seconds."""
        self._until(-1, seconds)

    def once(self, seconds: Optional[float] = None) -> None:
        """Waits until something that is served is ready, at most so many seconds, and serves it."""
        self._once(-1, None if seconds is None else max(0.0, seconds) * 1000)

    def _until(self, descriptor: int, seconds: Optional[float]) -> bool:
        end = None if seconds is None else time.monotonic() + seconds
        while True:
            left = None if end is None else max(0.0, end - time.monotonic()) * 1000
            if self._once(descriptor, left):
                return True
            if end is not None and time.monotonic() >= end:
                return False

    def _once(self, descriptor: int, milliseconds: Optional[float]) -> bool:
        """Waits once, and serves what is ready; returns whether the descriptor is."""
        is_ready = False
        for ready, events in self._poll.poll(milliseconds):
            if ready == descriptor:
                is_ready = True
            elif ready in self._served:
                self._served[ready](events)
        return is_ready
