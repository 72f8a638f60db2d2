"""Where a stream comes from: a file, a FIFO, standard input, a TCP server, or UDP datagrams."""
from __future__ import annotations

import os
import socket
import stat
from typing import Optional

from .addresses import LOOPBACK, Address
from .faults import Trouble, reason_of, say, why
from .waiting import Waiter

PIECE = 65536
"""The most bytes of a read."""
LEAST = 12
"""No packet has fewer bytes."""
BUFFER = 1 << 22
"""The bytes of datagrams that may wait, as far as the system allows it."""
FIRST_WAIT, LAST_WAIT = 0.25, 10.0
"""The seconds before a connection is tried again: the first time, doubled up to the last."""
CONNECT_SECONDS = 5.0
"""The seconds after which a server that does not answer counts as absent."""


class Source:
    """The bytes of a stream."""

    def __init__(self, name: str, waiter: Waiter) -> None:
        self.name = name
        """As it was given."""
        self.joins = 0
        """Grows where the bytes that follow are not those behind the ones before."""
        self.is_of_datagrams = False
        """Whether each piece that is read has whole packets, and nothing of another one."""
        self._waiter = waiter

    def read(self) -> bytes:
        """The next bytes; none at the end. `Trouble` if they can't be read."""
        raise NotImplementedError

    def close(self) -> None:
        """Closes it."""


class FileSource(Source):
    """A file, a FIFO or standard input."""

    def __init__(self, address: Address, waiter: Waiter) -> None:
        super().__init__(address.name, waiter)
        self._own = address.kind == "path"
        try:
            self._file = os.open(address.name, os.O_RDONLY | os.O_CLOEXEC) if self._own else 0
        except (OSError, ValueError) as fault:
            raise Trouble(f"cannot read {address.name}: {reason_of(fault)}") from None

    def read(self) -> bytes:
        while True:
            try:
                self._waiter.readable(self._file)
                return os.read(self._file, PIECE)
            except BlockingIOError:
                # It has O_NONBLOCK, and another reader was first.
                self._waiter.sleep(0.001)
            except OSError as fault:
                raise Trouble(f"cannot read {self.name}: {why(fault)}") from None

    def close(self) -> None:
        if self._own:
            os.close(self._file)


class TcpSource(Source):
    """A TCP server, which is connected again whenever it is lost."""

    def __init__(self, address: Address, waiter: Waiter) -> None:
        super().__init__(address.name, waiter)
        self._where = (address.host or LOOPBACK, address.port)
        self._socket: Optional[socket.socket] = None
        self._wait = FIRST_WAIT
        self._told = False

    def read(self) -> bytes:
        while True:
            try:
                if self._socket is None:
                    self._connect()
                data = self._received()
            except OSError as fault:
                self._lost(why(fault))
                continue
            if data:
                self._wait = FIRST_WAIT
                return data
            self._lost("the connection was closed")

    def _connect(self) -> None:
        self._socket = socket.create_connection(self._where, CONNECT_SECONDS)
        self._socket.settimeout(None)
        self._socket.setsockopt(socket.SOL_SOCKET, socket.SO_KEEPALIVE, 1)
        self.joins += 1
        if self._told:
            say(f"{self.name}: connected again")
        self._told = False

    def _received(self) -> bytes:
        assert self._socket is not None
        self._waiter.readable(self._socket.fileno())
        return self._socket.recv(PIECE)

    def _lost(self, reason: str) -> None:
        """Says once that there is no connection, and waits before the next attempt."""
        if not self._told:
            say(f"{self.name}: {reason}: tried again, at first after {FIRST_WAIT} s, at last every {LAST_WAIT:g} s")
        self._told = True
        self.close()
        self._waiter.sleep(self._wait)
        self._wait = min(LAST_WAIT, self._wait * 2)

    def close(self) -> None:
        if self._socket is not None:
            self._socket.close()
            self._socket = None


class UdpSource(Source):
    """Datagrams, each with whole packets; of one sender alone where one is named."""

    def __init__(self, address: Address, waiter: Waiter) -> None:
        super().__init__(address.name, waiter)
        self.is_of_datagrams = True
        self._sender = ""
        try:
            host = address.host or LOOPBACK
            family, kind, protocol, _, where = socket.getaddrinfo(host, address.port, type=socket.SOCK_DGRAM)[0]
            self._socket = socket.socket(family, kind, protocol)
            self._socket.setsockopt(socket.SOL_SOCKET, socket.SO_RCVBUF, BUFFER)
            self._socket.bind(where)
            self._socket.setblocking(False)
            if address.sender:
                self._sender = str(socket.getaddrinfo(address.sender, 0, family, socket.SOCK_DGRAM)[0][4][0])
        except OSError as fault:
            raise Trouble(f"cannot read {address.name}: {why(fault)}") from None

    def read(self) -> bytes:
        while True:
            try:
                data, sender = self._socket.recvfrom(PIECE)
            except BlockingIOError:
                self._waiter.readable(self._socket.fileno())
                continue
            except OSError as fault:
                # An answer to nothing that was sent, or a network that is down: others are still to come.
                self._tell(why(fault))
                continue
            if len(data) >= LEAST and (not self._sender or sender[0] == self._sender):
                return data

    def _tell(self, reason: str) -> None:
        """Says why a datagram could not be read, and waits a little."""
        say(f"cannot read {self.name}: {reason}")
        self._waiter.sleep(1.0)

    def close(self) -> None:
        self._socket.close()


def is_regular(address: Address) -> bool:
    """Whether an input is a regular file, of which the clock says nothing."""
    if address.kind not in ("path", "standard"):
        return False
    try:
        return stat.S_ISREG(os.stat(address.name if address.kind == "path" else 0).st_mode)
    except (OSError, ValueError):
        return False


def source_of(address: Address, waiter: Waiter) -> Source:
    """The source at an address; `Trouble` if it can't be opened."""
    kinds = {"tcp": TcpSource, "udp": UdpSource}
    return kinds.get(address.kind, FileSource)(address, waiter)
