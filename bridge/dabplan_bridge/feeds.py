"""Where several streams come from at once: the same places as in `sources`, read without waiting.

A feed is read by `read`, which raises `BlockingIOError` where nothing is there yet. What has to be done by the clock,
as connecting again, `look` does. While nothing is there, all feeds are waited for together: `waiting.Waiter.once`.
"""
from __future__ import annotations

import errno
import os
import select
import socket
import stat
import time
from typing import Optional

from .addresses import LOOPBACK, Address
from .faults import Trouble, reason_of, say, why
from .lookup import Lookup
from .sources import CONNECT_SECONDS, FIRST_WAIT, LAST_WAIT, LEAST, PIECE, Source, UdpSource
from .waiting import READABLE, WRITABLE, Waiter

NEVER = float("inf")
"""A moment that does not come."""
LOOKUP_SECONDS = 0.05
"""How often it is looked whether the address of a name is known."""


class Feed(Source):
    """One stream of several."""

    is_connected = False
    """Whether bytes may come at this moment."""
    has_ended = False
    """Whether the stream has come to its end."""
    is_regular = False
    """Whether it is a regular file: all of it is there."""
    next_look = NEVER
    """When `look` has something to do, by `time.monotonic`."""

    def look(self, now: float) -> None:
        """Does what is to be done by the clock."""

    def give_up(self) -> None:
        """Takes a stream that can't be read any more for one that has ended."""
        self.has_ended, self.is_connected = True, False


class FileFeed(Feed):
    """A file, a FIFO or standard input. A FIFO whose writer has gone is read on where another one comes."""

    def __init__(self, address: Address, waiter: Waiter) -> None:
        super().__init__(address.name, waiter)
        self._own = address.kind == "path"
        flags = os.O_RDONLY | os.O_CLOEXEC | os.O_NONBLOCK
        try:
            self._file = os.open(address.name, flags) if self._own else 0
            mode = os.fstat(self._file).st_mode
        except (OSError, ValueError) as fault:
            raise Trouble(f"cannot read {address.name}: {reason_of(fault)}") from None
        self.is_regular = stat.S_ISREG(mode)
        self._is_fifo = self._own and stat.S_ISFIFO(mode)
        self._poll = select.poll()
        self._poll.register(self._file, READABLE)
        self.joins = 1
        self.is_connected = True
        self._serve()

    def read(self) -> bytes:
        """The next bytes; none at the end. `BlockingIOError` where nothing is there yet, `Trouble` if they can't be
        read."""
        if self.has_ended or not self._poll.poll(0):
            raise BlockingIOError
        try:
            data = os.read(self._file, PIECE)
        except BlockingIOError:
            raise
        except OSError as fault:
            raise Trouble(f"cannot read {self.name}: {why(fault)}") from None
        if not data:
            self.give_up()
            self.next_look = time.monotonic() + FIRST_WAIT if self._is_fifo else NEVER
        return data

    def give_up(self) -> None:
        """Takes a stream that can't be read any more for one that has ended."""
        super().give_up()
        self._waiter.forget(self._file)

    def look(self, now: float) -> None:
        """Looks whether a FIFO that has ended has another writer."""
        if now < self.next_look:
            return
        self.next_look = now + FIRST_WAIT
        if any(events & select.POLLIN for _, events in self._poll.poll(0)):
            self.has_ended, self.is_connected, self.next_look = False, True, NEVER
            self.joins += 1
            self._serve()

    def close(self) -> None:
        """Closes it."""
        self._waiter.forget(self._file)
        if self._own:
            os.close(self._file)

    def _serve(self) -> None:
        """Lets what waits for all feeds wait for this one too."""
        if not self.is_regular:
            self._waiter.serve(self._file, READABLE, nothing)


class TcpFeed(Feed):
    """A TCP server, which is connected again whenever it is lost."""

    def __init__(self, address: Address, waiter: Waiter) -> None:
        super().__init__(address.name, waiter)
        self._where = (address.host or LOOPBACK, address.port)
        self._socket: Optional[socket.socket] = None
        self._lookup: Optional[Lookup] = None
        self._until = 0.0
        self._wait = FIRST_WAIT
        self._is_told = False
        self.next_look = 0.0

    def look(self, now: float) -> None:
        """Connects, where it is time to."""
        if now < self.next_look or self.is_connected:
            return
        if self._socket is None:
            self._begin(now)
        if self._socket is not None:
            self._finish(now)

    def read(self) -> bytes:
        """The next bytes. `BlockingIOError` where nothing is there yet, or nothing is connected."""
        if self._socket is None or not self.is_connected:
            raise BlockingIOError
        try:
            data = self._socket.recv(PIECE)
        except BlockingIOError:
            raise
        except OSError as fault:
            self._lose(why(fault))
            raise BlockingIOError from None
        if not data:
            self._lose("the connection was closed")
            raise BlockingIOError
        self._wait = FIRST_WAIT
        return data

    def close(self) -> None:
        """Closes the connection, or gives up the attempt."""
        if self._socket is not None:
            self._waiter.forget(self._socket.fileno())
            self._socket.close()
            self._socket = None
        self.is_connected = False

    def _begin(self, now: float) -> None:
        """Begins to connect, once the address is known."""
        self._lookup = self._lookup or Lookup(*self._where)
        if not self._lookup.is_done:
            self.next_look = now + LOOKUP_SECONDS
            return
        lookup, self._lookup = self._lookup, None
        try:
            family, kind, protocol, where = lookup.found()
            self._socket = socket.socket(family, kind, protocol)
            self._socket.setblocking(False)
            found = self._socket.connect_ex(where)
            if found not in (0, errno.EINPROGRESS):
                raise OSError(found, os.strerror(found))
            self._until = self.next_look = now + CONNECT_SECONDS
            self._waiter.serve(self._socket.fileno(), WRITABLE, self._made)
        except OSError as fault:
            self._lose(why(fault))

    def _made(self, _: int) -> None:
        """The attempt has come to something: `look` finds out to what."""
        self.next_look = 0.0
        if self._socket is not None:
            self._waiter.forget(self._socket.fileno())

    def _finish(self, now: float) -> None:
        """Takes a connection that was made, or gives up one that was not."""
        assert self._socket is not None
        fault = self._socket.getsockopt(socket.SOL_SOCKET, socket.SO_ERROR)
        if fault:
            self._lose(os.strerror(fault))
        elif self.next_look == 0.0:
            self._join()
        elif now >= self._until:
            self._lose(os.strerror(errno.ETIMEDOUT))

    def _join(self) -> None:
        assert self._socket is not None
        self._socket.setsockopt(socket.SOL_SOCKET, socket.SO_KEEPALIVE, 1)
        self._waiter.serve(self._socket.fileno(), READABLE, nothing)
        self.is_connected, self.next_look = True, NEVER
        self.joins += 1
        if self._is_told:
            say(f"{self.name}: connected again")
        self._is_told = False

    def _lose(self, reason: str) -> None:
        """Says once that there is no connection; the next attempt is after a while."""
        if not self._is_told:
            say(f"{self.name}: {reason}: tried again, at first after {FIRST_WAIT} s, at last every {LAST_WAIT:g} s")
        self._is_told = True
        self.close()
        self.next_look = time.monotonic() + self._wait
        self._wait = min(LAST_WAIT, self._wait * 2)


class UdpFeed(UdpSource, Feed):
    """Datagrams, each with whole packets; of one sender alone where one is named."""

    def __init__(self, address: Address, waiter: Waiter) -> None:
        super().__init__(address, waiter)
        self.is_connected, self.joins = True, 1
        self._is_told = False
        waiter.serve(self._socket.fileno(), READABLE, nothing)

    def read(self) -> bytes:
        """The next datagram. `BlockingIOError` where none is there yet."""
        while True:
            try:
                data, sender = self._socket.recvfrom(PIECE)
            except BlockingIOError:
                raise
            except OSError as fault:
                if not self._is_told:
                    say(f"cannot read {self.name}: {why(fault)}")
                self._is_told = True
                raise BlockingIOError from None
            if len(data) >= LEAST and (not self._sender or sender[0] == self._sender):
                return data

    def close(self) -> None:
        """Closes it."""
        self._waiter.forget(self._socket.fileno())
        super().close()


def nothing(_: int) -> None:
    """What is done with a feed that is ready while all are waited for: it is read afterwards."""


def feed_of(address: Address, waiter: Waiter) -> Feed:
    """The feed at an address; `Trouble` if it can't be opened."""
    if address.kind == "tcp":
        return TcpFeed(address, waiter)
    return UdpFeed(address, waiter) if address.kind == "udp" else FileFeed(address, waiter)
