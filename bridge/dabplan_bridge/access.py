"""Who may ask what of the control port: its address, its names, and its token.

A page of somebody else, in the browser of one who may, must neither read what is on air nor give a contact. So a
request has to name the port as it is known here (`Host`), and where a page sends it, that page has to come from here
(`Origin`).
"""
from __future__ import annotations

import hmac
import ipaddress
import re
from dataclasses import dataclass
from typing import Optional

from .addresses import LOOPBACK
from .faults import BadCommand, reason_of

WHERE = re.compile(r"(?:(\[[0-9A-Fa-f:.%]+\]|[^\[\]:/?]+):)?(\d{1,5})")
TOKEN = re.compile(r"[!-~]{1,4096}")
"""A token: printable ASCII without blanks."""
BEARER = "Bearer "


@dataclass(frozen=True)
class Access:
    """The address of a control port, and its token."""

    host: str
    port: int
    token: Optional[str] = None
    """What every change needs; None where there is none, on the loopback address alone."""

    @property
    def is_local(self) -> bool:
        """Whether it is on the loopback address."""
        return is_loopback(self.host)

    def names_it(self, host: Optional[str]) -> bool:
        """Whether the `Host` of a request is a name of this port. With a token on another address any is."""
        if not self.is_local:
            return host is not None
        names = {"127.0.0.1", "[::1]", "localhost", f"[{self.host}]" if ":" in self.host else self.host}
        return host is not None and host.lower() in {f"{name}:{self.port}" for name in names}

    @staticmethod
    def is_own(origin: Optional[str], host: Optional[str]) -> bool:
        """Whether the `Origin` of a request, where it has one, is this port by the name of its `Host`."""
        return origin is None or (host is not None and origin.lower() in (f"http://{host}".lower(),
                                                                          f"https://{host}".lower()))

    def may_change(self, authorization: Optional[str]) -> bool:
        """Whether a request with this `Authorization` may change something."""
        if self.token is None:
            return True
        given = authorization or ""
        return given.startswith(BEARER) and hmac.compare_digest(given[len(BEARER):].encode("utf-8", "replace"),
                                                                self.token.encode("ascii"))


def is_loopback(host: str) -> bool:
    """Whether a host is the loopback address, or a name of it."""
    try:
        return ipaddress.ip_address(host).is_loopback
    except ValueError:
        return host.lower() == "localhost"


def where_of(text: str) -> Access:
    """The address that `[HOST:]PORT` spells, without a token; `ValueError` if it spells none."""
    found = WHERE.fullmatch(text)
    if found is None or not 0 < int(found[2]) < 65536:
        raise ValueError(f"expected a port, or HOST:PORT: {text}")
    return Access((found[1] or LOOPBACK).strip("[]"), int(found[2]))


def token_of(path: str) -> str:
    """The token in a file; `BadCommand` if there is none in it."""
    try:
        with open(path, encoding="ascii") as file:
            text = file.read(8192).strip()
    except (OSError, ValueError) as fault:
        raise BadCommand(f"--token-file {path}: {reason_of(fault)}") from None
    if not TOKEN.fullmatch(text):
        raise BadCommand(f"--token-file {path}: expected a token in one line, of printable ASCII without blanks")
    return text


def access_of(where: Optional[Access], path: Optional[str]) -> Optional[Access]:
    """What `--control` and `--token-file` ask for; None without a control port. `BadCommand` where one needs the
    other."""
    if where is None:
        if path is not None:
            raise BadCommand("--token-file is an option of --control")
        return None
    if path is None:
        if not where.is_local:
            raise BadCommand(f"--control {where.host}:{where.port} is not on the loopback address: "
                             "it needs --token-file")
        return where
    return Access(where.host, where.port, token_of(path))
