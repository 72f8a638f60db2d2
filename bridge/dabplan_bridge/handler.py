"""What a request of the control port gets. See `control` for the port."""
from __future__ import annotations

import http.server
import io
import json
import re
import socket
from typing import TYPE_CHECKING, Callable, Dict, Optional, Tuple
from urllib.parse import parse_qs

from .fibs import COUNTS
from .orders import Kind, Order
from .receiving import MOST_SECONDS, TooLong, received

if TYPE_CHECKING:
    from .control import Server

CONTACT = re.compile(r"/contacts/(1[0-5]|[0-9])")
BODIES = {b"closed": True, b"open": False}
"""The bodies that give a contact; one line feed may follow."""
JSON = "application/json"
POLICY = ("default-src 'none'; script-src 'unsafe-inline'; style-src 'unsafe-inline'; connect-src 'self'; "
          "img-src data:; base-uri 'none'; form-action 'none'; frame-ancestors 'none'")
"""What the page may do: talk to this port, and nothing else."""


class Handler(http.server.BaseHTTPRequestHandler):
    """A connection with one request."""

    server: "Server"
    protocol_version = "HTTP/1.1"
    default_request_version = "HTTP/1.0"
    server_version = "dabplan-bridge"
    sys_version = ""
    request: socket.socket

    def setup(self) -> None:
        """Takes the request, whole, before anything of it is looked at."""
        super().setup()
        self.close_connection = True
        self._is_too_long = False
        try:
            self.rfile = io.BufferedReader(io.BytesIO(received(self.request)))  # type: ignore[arg-type]
        except TooLong:
            self._is_too_long = True
        self.request.settimeout(MOST_SECONDS)

    def handle(self) -> None:
        """Answers the request."""
        if self._is_too_long:
            self.requestline, self.request_version, self.command = "", "HTTP/1.1", ""
            self.send_error(413, "a request has 8192 bytes at most")
        else:
            self.handle_one_request()

    def do_GET(self) -> None:
        """What can be read."""
        if not self._is_from_here():
            return
        found = self._readable().get(self._path())
        if found is None:
            self.send_error(404, "there is nothing here")
        else:
            found()

    def do_PUT(self) -> None:
        """A contact."""
        if not self._may_change():
            return
        contact = CONTACT.fullmatch(self._path())
        body = self._body()
        is_closed = BODIES.get(body[:-1] if body.endswith(b"\n") else body)
        if contact is None:
            self.send_error(404, "expected /contacts/N, N of 0 to 15")
        elif is_closed is None:
            self.send_error(400, "expected 'closed' or 'open'")
        else:
            self._order(Order(Kind.CONTACT, int(contact[1]), is_closed))

    def do_POST(self) -> None:
        """What becomes of the plan."""
        if not self._may_change():
            return
        path = self._path()
        if path == "/anew":
            self._order(Order(Kind.ANEW))
        elif path == "/reload":
            self._order(Order(Kind.RELOAD))
        elif path == "/resume":
            self._resume()
        else:
            self.send_error(404, "there is nothing here")

    def send_error(self, code: int, message: Optional[str] = None, explain: Optional[str] = None) -> None:
        """Refuses a request, in one line."""
        self._json(code, {"error": message or self.responses.get(code, ("",))[0]})

    def log_message(self, format: str, *args: object) -> None:  # pylint: disable=redefined-builtin
        """Requests are not logged."""

    def _readable(self) -> Dict[str, Callable[[], None]]:
        return {"/": lambda: self._send(200, "text/html", self.server.page),
                "/status.json": lambda: self._send(200, JSON, self.server.watch.status()),
                "/metrics": lambda: self._send(200, "text/plain; version=0.0.4", self.server.watch.metrics()),
                "/events": self._events}

    def _path(self) -> str:
        return self.path.partition("?")[0]

    def _body(self) -> bytes:
        """The body, which is there as a whole."""
        return self.rfile.read()

    def _is_from_here(self) -> bool:
        """Whether the request names this port, and comes from no page of somebody else; else it is refused."""
        access, host = self.server.access, self.headers.get("Host")
        if access.names_it(host) and access.is_own(self.headers.get("Origin"), host):
            return True
        self.send_error(403, "the request is for another host, or comes from another page")
        return False

    def _may_change(self) -> bool:
        """Whether the request may change something; else it is refused."""
        if not self._is_from_here():
            return False
        if self.server.access.may_change(self.headers.get("Authorization")):
            return True
        self.send_error(401, "a token is needed: Authorization: Bearer TOKEN")
        return False

    def _resume(self) -> None:
        """The order to go on, at a count."""
        query = self.path.partition("?")[2]
        found = parse_qs(query, keep_blank_values=True)
        values = found.get("count", [""])
        is_count = len(values) == 1 and re.fullmatch(r"[0-9]{1,4}", values[0]) and int(values[0]) < COUNTS
        if (query and not is_count) or set(found) - {"count"}:
            self.send_error(400, "expected count=N, a CIF count of 0 to 4999")
        else:
            self._order(Order(Kind.RESUME, count=int(values[0]) if query else None))

    def _order(self, order: Order) -> None:
        """Gives an order, and answers what came of it."""
        self.server.orders.put(order)
        self._json(*order.wait())

    def _json(self, status: int, fields: Dict[str, object]) -> None:
        self._send(status, JSON, json.dumps(fields).encode("ascii") + b"\n")

    def _send(self, status: int, kind: str, data: bytes) -> None:
        """Writes an answer."""
        self._head(status, kind, (("Content-Length", str(len(data))),))
        if self.command != "HEAD":
            self.wfile.write(data)

    def _head(self, status: int, kind: str, others: Tuple[Tuple[str, str], ...] = ()) -> None:
        """Writes the head of an answer."""
        self.send_response(status)
        own = [("Content-Type", f"{kind}; charset=utf-8" if kind.startswith("text") else kind),
               ("Cache-Control", "no-store"), ("X-Content-Type-Options", "nosniff"), ("X-Frame-Options", "DENY"),
               ("Content-Security-Policy", POLICY), ("Connection", "close")]
        own += [("WWW-Authenticate", "Bearer")] if status == 401 else []
        for name, value in [*own, *others]:
            self.send_header(name, value)
        self.end_headers()

    def _events(self) -> None:
        """What `/status.json` says, again and again, until the client goes."""
        watch = self.server.watch
        with self.server.listening() as is_room:
            if not is_room:
                self.send_error(503, "too many follow the events")
                return
            self._head(200, "text/event-stream")
            seen = -1
            while not watch.is_over:
                number, data = watch.after(seen)
                # Where there is nothing new a comment shows whether the client is still there.
                self.wfile.write(b"data: " + data + b"\n\n" if number != seen else b":\n\n")
                seen = number
