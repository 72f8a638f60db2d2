"""Where a stream goes: a file, a FIFO, standard output, the clients of a TCP server, or UDP datagrams."""
from __future__ import annotations

import contextlib
import os
import select
import socket
import stat
import time
from collections import deque
from typing import Deque, Dict, List, Sequence, Tuple

from .addresses import LOOPBACK, Address
from .faults import Trouble, reason_of, say, why
from .fragmenter import Fragmenter
from .state import Alarm, State
from .waiting import WRITABLE, Waiter

ACCEPT_SECONDS = 1.0
"""The seconds after which a client that could not be taken is tried again."""
BEHIND = 4.0
"""The seconds after which a client that has not taken a frame is dropped."""
MOST_LEFT = 8_000_000
"""The most bytes that wait for a client: it is dropped where more would, as from a file, faster than real time."""


class Sink:
    """The way out."""

    def __init__(self, name: str) -> None:
        self.name = name
        """As it was given."""

    @property
    def clients(self) -> int:
        """How many clients it has."""
        return 0

    def put(self, frame: bytes) -> None:
        """Writes a frame; `Trouble` if it can't be written."""
        raise NotImplementedError

    def close(self) -> None:
        """Closes it, when what can be written is written."""


def write_all(descriptor: int, data: bytes) -> None:
    """Writes all bytes to a descriptor, and waits where it takes none; `OSError` if it fails."""
    left = memoryview(data)
    while left:
        try:
            left = left[os.write(descriptor, left):]
        except BlockingIOError:
            select.select([], [descriptor], [])


class FileSink(Sink):
    """A file, a FIFO or standard output. A regular file is emptied when the first frame comes."""

    def __init__(self, address: Address) -> None:
        super().__init__(address.name)
        self._own = address.kind == "path"
        try:
            self._file = os.open(address.name, os.O_WRONLY | os.O_CREAT | os.O_CLOEXEC, 0o644) if self._own else 1
            self._empties = self._own and stat.S_ISREG(os.fstat(self._file).st_mode)
        except (OSError, ValueError) as fault:
            raise Trouble(f"cannot write {address.name}: {reason_of(fault)}") from None

    def put(self, frame: bytes) -> None:
        try:
            if self._empties:
                os.ftruncate(self._file, 0)
                self._empties = False
            write_all(self._file, frame)
        except BrokenPipeError:
            raise Trouble(f"{self.name} was closed") from None
        except OSError as fault:
            raise Trouble(f"cannot write {self.name}: {why(fault)}") from None

    def close(self) -> None:
        if not self._own:
            return
        try:
            os.close(self._file)
        except OSError as fault:
            raise Trouble(f"cannot write {self.name}: {why(fault)}") from None


class Client:
    """A client of the TCP server, with the frames that it has not taken yet."""

    def __init__(self, connection: socket.socket, name: str) -> None:
        self.connection = connection
        self.name = name
        self.left: Deque[Tuple[float, memoryview]] = deque()
        """Each frame with the moment at which it came."""
        self.size = 0
        """The bytes of these frames."""

    def push(self) -> bool:
        """Sends what it takes; returns whether it is still there."""
        try:
            while self.left:
                moment, data = self.left[0]
                rest = data[self.connection.send(data):]
                self.size -= len(data) - len(rest)
                if rest:
                    self.left[0] = (moment, rest)
                else:
                    self.left.popleft()
        except BlockingIOError:
            pass
        except OSError:
            return False
        return True

    def is_behind(self, now: float) -> bool:
        """Whether a frame waits for longer than it may."""
        return bool(self.left) and (now - self.left[0][0] > BEHIND or self.size > MOST_LEFT)


class TcpSink(Sink):
    """The clients of a TCP server. Nothing waits for them: one that is behind is dropped."""

    def __init__(self, address: Address, waiter: Waiter) -> None:
        super().__init__(address.name)
        self._waiter = waiter
        self._clients: Dict[int, Client] = {}
        self._again = 0.0
        self._is_told = False
        family = socket.AF_INET6 if ":" in address.host else socket.AF_INET
        self._server = socket.socket(family, socket.SOCK_STREAM)
        try:
            self._server.setsockopt(socket.SOL_SOCKET, socket.SO_REUSEADDR, 1)
            self._server.bind((address.host or LOOPBACK, address.port))
            self._server.listen(16)
        except OSError as fault:
            raise Trouble(f"cannot write {address.name}: {why(fault)}") from None
        self._server.setblocking(False)
        waiter.serve(self._server.fileno(), select.POLLIN, self._join)

    @property
    def clients(self) -> int:
        """How many clients it has."""
        return len(self._clients)

    def put(self, frame: bytes) -> None:
        now = time.monotonic()
        if now >= self._again:
            self._join(0)
        for descriptor, client in list(self._clients.items()):
            client.left.append((now, memoryview(frame)))
            client.size += len(frame)
            self._push(descriptor, now)

    def close(self) -> None:
        self._waiter.forget(self._server.fileno())
        self._server.close()
        end = time.monotonic() + BEHIND
        while time.monotonic() < end and any(client.left for client in self._clients.values()):
            self._waiter.sleep(0.02)
        for descriptor in list(self._clients):
            self._drop(descriptor)

    def _join(self, _: int) -> None:
        """Takes the clients that wait to be taken."""
        while True:
            try:
                connection, where = self._server.accept()
            except BlockingIOError:
                break
            except OSError as fault:
                self._wait(why(fault))
                return
            connection.setblocking(False)
            connection.setsockopt(socket.IPPROTO_TCP, socket.TCP_NODELAY, 1)
            client = Client(connection, f"{where[0]}:{where[1]}")
            self._clients[connection.fileno()] = client
            say(f"{self.name}: client {client.name}")
            self._is_told = False
        if self._again:
            self._again = 0.0
            self._waiter.serve(self._server.fileno(), select.POLLIN, self._join)

    def _wait(self, reason: str) -> None:
        """A client can't be taken, as where too many files are open: it is tried again after a second, and told
        once."""
        if not self._is_told:
            say(f"{self.name}: a client can't be taken: {reason}: tried again each {ACCEPT_SECONDS:g} s")
        self._is_told = True
        self._again = time.monotonic() + ACCEPT_SECONDS
        self._waiter.forget(self._server.fileno())

    def _push(self, descriptor: int, now: float) -> None:
        """Sends what a client takes, and serves it while something is left."""
        client = self._clients[descriptor]
        if not client.push():
            self._drop(descriptor, "is gone")
        elif client.is_behind(now):
            behind = f"{client.size} bytes" if client.size > MOST_LEFT else f"{BEHIND:g} s"
            self._drop(descriptor, f"is {behind} behind: dropped")
        elif client.left:
            self._waiter.serve(descriptor, WRITABLE, lambda _: self._push(descriptor, time.monotonic()))
        else:
            self._waiter.forget(descriptor)

    def _drop(self, descriptor: int, reason: str = "") -> None:
        client = self._clients.pop(descriptor)
        self._waiter.forget(descriptor)
        client.connection.close()
        if reason:
            say(f"{self.name}: client {client.name} {reason}")


class UdpSink(Sink):
    """Datagrams: one for each frame, or its fragments. One that can't be sent is lost: networks come and go."""

    def __init__(self, address: Address) -> None:
        super().__init__(address.name)
        self._fragmenter = Fragmenter(address.pft, address.fec) if address.pft else None
        self._is_told = False
        try:
            family, kind, protocol, _, self._where = socket.getaddrinfo(
                address.host or LOOPBACK, address.port, type=socket.SOCK_DGRAM)[0]
            self._socket = socket.socket(family, kind, protocol)
        except OSError as fault:
            raise Trouble(f"cannot write {address.name}: {why(fault)}") from None

    def put(self, frame: bytes) -> None:
        datagrams = [frame] if self._fragmenter is None else self._fragmenter.fragments(frame)
        try:
            for each in datagrams:
                self._socket.sendto(each, self._where)
            self._is_told = False
        except OSError as fault:
            if not self._is_told:
                say(f"cannot write {self.name}: {why(fault)}: frames are lost there")
            self._is_told = True

    def close(self) -> None:
        self._socket.close()


def sink_of(address: Address, waiter: Waiter) -> Sink:
    """The sink at an address; `Trouble` if it can't be opened."""
    if address.kind == "tcp":
        return TcpSink(address, waiter)
    return UdpSink(address) if address.kind == "udp" else FileSink(address)


class Sinks:
    """All outputs. One that fails is left out, with an alarm, while another one is there; where the last one fails the
    bridge ends."""

    def __init__(self, addresses: Sequence[Address], waiter: Waiter, state: State) -> None:
        self._state = state
        self._sinks: List[Sink] = []
        try:
            for address in addresses:
                self._sinks.append(sink_of(address, waiter))
        except Trouble:
            self.close()
            raise

    def put(self, frame: bytes) -> None:
        """Writes a frame to each output; `Trouble` if no output is left."""
        failed: List[Tuple[Sink, Trouble]] = []
        clients = 0
        for sink in self._sinks:
            try:
                sink.put(frame)
                clients += sink.clients
            except Trouble as fault:
                failed.append((sink, fault))
        self._state.clients = clients
        for sink, reason in failed:
            self._leave_out(sink, reason)

    def outputs(self) -> List[Tuple[str, int]]:
        """The names of those that are left, each with how many clients it has."""
        return [(sink.name, sink.clients) for sink in list(self._sinks)]

    def close(self) -> None:
        """Closes them, when what can be written is written; `Trouble` if that fails."""
        faults = []
        for sink in self._sinks:
            try:
                sink.close()
            except Trouble as fault:
                faults.append(fault)
        self._sinks = []
        if faults:
            raise faults[0]

    def _leave_out(self, sink: Sink, fault: Trouble) -> None:
        if len(self._sinks) == 1:
            raise fault
        self._sinks.remove(sink)
        self._state.alarm(Alarm.OUTPUT, f"{fault}: it is left out; the other outputs go on")
        with contextlib.suppress(Trouble):
            sink.close()
