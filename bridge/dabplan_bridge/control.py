"""The control port: HTTP, on the loopback address unless there is a token.

| Request | What it gets |
|---|---|
| `GET /` | a page for people, that follows the events |
| `GET /status.json`, `/metrics` | what the bridge does, as an object of JSON, and for Prometheus |
| `GET /events` | that object twice a second, as server-sent events |
| `PUT /contacts/N`, body `closed` or `open` | the frame of the plan from which it acts |
| `POST /resume?count=N`, `/anew` | a plan that is held goes on, or begins anew |
| `POST /reload` | the file of the plan is read anew, and takes its place without a gap |

Each connection has a thread, and no frame waits for any: a connection has 5 s for its request, of 8 KB at most, and 5 s
for what it takes; there are 64 at most.
"""
from __future__ import annotations

import contextlib
import pathlib
import socket
import socketserver
import sys
import threading
import time
from typing import Iterator, Optional, Tuple

from .access import Access
from .air import Air
from .board import Board
from .faults import Trouble, say, why
from .given import Given
from .handler import Handler
from .orders import Orders
from .outlook import Outlook
from .plan import Plan
from .receiving import GaveUp
from .state import Phase, State
from .status import Status
from .watch import Watch

MOST = 64
"""The most connections at a time."""
MOST_EVENTS = 60
"""The most of them that follow events: some are left for those who give a contact."""
BUFFER = 65_536
"""The bytes that may wait for a client to take them."""
ACCEPT_SECONDS = 1.0
"""The seconds after which a connection that can't be taken is tried again."""
PAGE = pathlib.Path(__file__).with_name("page.html")
FULL = b"HTTP/1.1 503 Service Unavailable\r\nContent-Length: 0\r\nConnection: close\r\n\r\n"


def page() -> bytes:
    """The page: a file beside this one; `Trouble` if it can't be read."""
    try:
        return PAGE.read_bytes()
    except OSError as fault:
        raise Trouble(f"cannot read {PAGE}: {why(fault)}") from None


class Server(socketserver.ThreadingMixIn, socketserver.TCPServer):
    """The server of a control port; `Trouble` if it can't listen."""

    allow_reuse_address = True
    daemon_threads = True
    block_on_close = False
    request_queue_size = MOST

    def __init__(self, access: Access, orders: Orders, watch: Watch) -> None:
        self.access = access
        """Who may ask what."""
        self.orders = orders
        """Where orders go."""
        self.watch = watch
        """What is shown."""
        self.page = page()
        """The page for people."""
        self._room = threading.BoundedSemaphore(MOST)
        self._event_room = threading.BoundedSemaphore(MOST_EVENTS)
        self._is_told = False
        self.address_family = socket.AF_INET6 if ":" in access.host else socket.AF_INET
        try:
            super().__init__((access.host, access.port), Handler)
        except OSError as fault:
            raise Trouble(f"cannot listen at {access.host}:{access.port}: {why(fault)}") from None

    @contextlib.contextmanager
    def listening(self) -> Iterator[bool]:
        """Whether there is room for one more who follows events; it is kept meanwhile."""
        is_room = self._event_room.acquire(blocking=False)
        try:
            yield is_room
        finally:
            if is_room:
                self._event_room.release()

    def get_request(self) -> Tuple[socket.socket, Tuple[str, int]]:
        """Takes a connection. Where that fails, as where too many files are open, it is told once."""
        try:
            found: Tuple[socket.socket, Tuple[str, int]] = super().get_request()
        except OSError as fault:
            if not self._is_told:
                say(f"control: a connection can't be taken: {why(fault)}: tried again each {ACCEPT_SECONDS:g} s")
            self._is_told = True
            time.sleep(ACCEPT_SECONDS)
            raise
        self._is_told = False
        # A client that takes nothing keeps little of the system's memory.
        found[0].setsockopt(socket.SOL_SOCKET, socket.SO_SNDBUF, BUFFER)
        return found

    def process_request(self, request: object, client_address: object) -> None:
        """Serves a connection in a thread of its own, where there is room."""
        assert isinstance(request, socket.socket)
        if not self._room.acquire(blocking=False):
            with contextlib.suppress(OSError):
                request.setblocking(False)
                request.send(FULL)
            self.shutdown_request(request)
            return
        try:
            super().process_request(request, client_address)
        except RuntimeError:
            self._room.release()
            raise

    def process_request_thread(self, request: object, client_address: object) -> None:
        """Serves a connection, and gives back its room."""
        try:
            super().process_request_thread(request, client_address)  # type: ignore[arg-type]
        finally:
            self._room.release()

    def handle_error(self, request: object, client_address: object) -> None:
        """A client that goes, or takes nothing, says nothing; anything else is one line."""
        fault = sys.exc_info()[1]
        if not isinstance(fault, (OSError, GaveUp)):
            say(f"control: {type(fault).__name__}: {fault}".replace("\n", " "))


class Control:
    """A control port that listens, or none. `source` is the name of the input."""

    def __init__(self, access: Optional[Access], program: str, plan: Plan, source: str, given: Given, orders: Orders,
                 state: State) -> None:
        self.board = Board(plan)
        """What goes out."""
        self._orders = orders
        self._server: Optional[Server] = None
        self._outlook: Optional[Outlook] = None
        if access is not None:
            self._outlook = Outlook(program, self.board, given, state)
            status = Status(program, source, self.board, given, state, self._outlook, access.token is not None)
            watch = Watch(status, self.board, given, state)
            self._server = Server(access, orders, watch)
            threading.Thread(target=self._server.serve_forever, args=(0.1,), name="control", daemon=True).start()

    def frame(self, fic: bytes, count: int, state: State, air: Air) -> None:
        """Takes note of a frame that went out."""
        if self._server is not None:
            self.board.frame(fic, count, state.swaps, state.phase is Phase.HOLDING, air)

    def close(self) -> None:
        """Ends it; orders that wait are refused."""
        self._orders.close()
        if self._server is not None:
            self._server.watch.end()
            self._server.shutdown()
            self._server.server_close()
        if self._outlook is not None:
            self._outlook.end()
