"""A request of HTTP as bytes, received within limits: so a slow or hostile client takes little, and not for long."""
from __future__ import annotations

import re
import socket
import time

MOST_BYTES = 8192
"""The most bytes of a request, head and body."""
MOST_SECONDS = 5.0
"""The seconds within which a request has to be there, and within which an answer has to be taken."""
HEAD_END = re.compile(rb"\r?\n\r?\n")
LENGTH = re.compile(rb"(?im)^content-length:[ \t]*(\d{1,9})[ \t]*\r?$")


class TooLong(Exception):
    """A request has more bytes than it may."""


class GaveUp(Exception):
    """A client has not sent a whole request in time, or is gone."""


def missing(data: bytes) -> int:
    """How many bytes a request lacks at least; `TooLong` where it has, or would have, too many."""
    head = HEAD_END.search(data)
    if head is None:
        if len(data) >= MOST_BYTES:
            raise TooLong
        return 1
    length = LENGTH.search(data[:head.end()])
    whole = head.end() + (int(length[1]) if length else 0)
    if whole > MOST_BYTES:
        raise TooLong
    return max(0, whole - len(data))


def received(connection: socket.socket) -> bytes:
    """A whole request; `GaveUp` where it does not come, `TooLong` where it is too long."""
    end, data = time.monotonic() + MOST_SECONDS, b""
    while missing(data):
        left = end - time.monotonic()
        if left <= 0:
            raise GaveUp
        connection.settimeout(left)
        try:
            more = connection.recv(MOST_BYTES + 1 - len(data))
        except OSError:
            raise GaveUp from None
        if not more:
            raise GaveUp
        data += more
    return data
