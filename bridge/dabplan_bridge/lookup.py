"""The address of a host, looked up in a thread of its own: a name server may take its time, and frames do not wait for
it."""
from __future__ import annotations

import ipaddress
import socket
import threading
from typing import Optional, Tuple

Found = Tuple[int, int, int, Tuple[object, ...]]
"""Family, kind and protocol of a socket, and the address for it."""


def is_address(host: str) -> bool:
    """Whether a host is named by its address: then nobody is asked."""
    try:
        ipaddress.ip_address(host.partition("%")[0])
    except ValueError:
        return False
    return True


class Lookup:
    """The address of a host and a port, for connections."""

    def __init__(self, host: str, port: int) -> None:
        self._where = host, port
        self._found: Optional[Found] = None
        self._fault: Optional[OSError] = None
        self._thread = threading.Thread(target=self._run, name="lookup", daemon=True)
        self._is_asked = not is_address(host)
        if self._is_asked:
            self._thread.start()
        else:
            self._run()

    @property
    def is_done(self) -> bool:
        """Whether it is known, or known that it can't be."""
        return not self._is_asked or not self._thread.is_alive()

    def found(self) -> Found:
        """What was found; `OSError` where nothing was."""
        if self._fault is not None:
            raise self._fault
        assert self._found is not None
        return self._found

    def _run(self) -> None:
        try:
            family, kind, protocol, _, where = socket.getaddrinfo(*self._where, type=socket.SOCK_STREAM)[0]
            self._found = family, kind, protocol, where
        except OSError as fault:
            self._fault = fault
        except UnicodeError:
            self._fault = OSError(socket.EAI_NONAME, "no name of a host")
