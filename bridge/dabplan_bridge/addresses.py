"""Where streams come from and go to: `tcp://HOST:PORT`, `udp://HOST:PORT`, the path of a file or a FIFO, or `-`."""
from __future__ import annotations

import os
import re
import stat
from dataclasses import dataclass, replace
from typing import Dict, Iterable, Optional, Tuple

from .faults import BadCommand

URL = re.compile(r"(tcp|udp)://(\[[0-9A-Fa-f:.%]+\]|[^\[\]:/?]*):(\d{1,5})(?:\?(.*))?")
LOOPBACK = "127.0.0.1"
LEAST_PFT, MOST_PFT = 64, 1472
"""The payload of a fragment, in bytes: a datagram that no network divides has room for the most."""
MOST_FEC = 6
"""The most fragments of a packet that Reed-Solomon makes up for."""
Place = Tuple[object, ...]
"""What two names of one file have in common."""


@dataclass(frozen=True)
class Address:
    """A place for a stream; `kind` is `tcp`, `udp`, `path` or `standard`."""

    kind: str
    name: str
    """As it was given."""
    host: str = ""
    port: int = 0
    sender: str = ""
    """For UDP as input: who alone is listened to; anybody where it is empty."""
    pft: int = 0
    """For UDP as output: the bytes of a fragment's payload, at most; 0 for whole packets."""
    fec: int = 0
    """How many lost fragments of a packet a receiver can make up for; 0 without Reed-Solomon."""


def address_of(text: str) -> Address:
    """The address that a text spells; `ValueError` if it spells none."""
    if text == "-":
        return Address("standard", text)
    if "://" not in text:
        if not text:
            raise ValueError("expected a path, '-', tcp://HOST:PORT or udp://HOST:PORT")
        return Address("path", text)
    found = URL.fullmatch(text)
    if found is None or not 0 < int(found[3]) < 65536:
        raise ValueError(f"expected tcp://HOST:PORT or udp://HOST:PORT: {text}")
    plain = Address(found[1], text, found[2].strip("[]"), int(found[3]))
    return plain if found[4] is None else with_options(plain, found[4])


def with_options(plain: Address, text: str) -> Address:
    """An address with what follows its question mark; `ValueError` if that is none of its options."""
    options: Dict[str, str] = {}
    for each in text.split("&"):
        name, _, value = each.partition("=")
        if plain.kind != "udp" or name not in ("from", "pft", "fec") or not value or name in options:
            raise ValueError(f"expected ?from=ADDRESS, or ?pft=BYTES and &fec=FRAGMENTS, of udp://: {plain.name}")
        options[name] = value
    pft, fec = within(options, "pft", LEAST_PFT, MOST_PFT), within(options, "fec", 1, MOST_FEC)
    if fec and not pft:
        raise ValueError(f"fec is an option of fragments, with pft: {plain.name}")
    return replace(plain, sender=options.get("from", ""), pft=pft, fec=fec)


def within(options: Dict[str, str], name: str, low: int, high: int) -> int:
    """The value of an option in a range; 0 where it is not given; `ValueError` where it is another one."""
    text = options.get(name)
    if text is None:
        return 0
    if not re.fullmatch(r"[0-9]{1,4}", text) or not low <= int(text) <= high:
        raise ValueError(f"expected {name}, {low} to {high}: {text}")
    return int(text)


def of_source(text: str) -> Address:
    """The address of an input; `ValueError` if it is none."""
    found = address_of(text)
    if found.pft:
        raise ValueError(f"pft is an option of outputs; an input finds out by itself: {text}")
    return found


def of_sink(text: str) -> Address:
    """The address of an output; `ValueError` if it is none."""
    found = address_of(text)
    if found.sender:
        raise ValueError(f"from is an option of inputs: {text}")
    return found


def identity(path_or_descriptor: "str | int") -> Optional[Place]:
    """What is the same for all names of a file: device and inode of a regular file or a FIFO, and for a path at which
    nothing is yet its folder and its name. None for anything else."""
    try:
        known = os.stat(path_or_descriptor)
    except (OSError, ValueError):
        return None if isinstance(path_or_descriptor, int) else place_to_be(path_or_descriptor)
    is_file = stat.S_ISREG(known.st_mode) or (stat.S_ISFIFO(known.st_mode) and isinstance(path_or_descriptor, str))
    return (known.st_dev, known.st_ino) if is_file else None


def place_to_be(path: str) -> Optional[Place]:
    """Folder and name of a file that is not there yet; None where it can't be."""
    try:
        folder, name = os.path.split(os.path.realpath(path))
        known = os.stat(folder)
    except (OSError, ValueError):
        return None
    return known.st_dev, known.st_ino, name


def refuse_same(files: Iterable[Tuple[str, "str | int"]]) -> None:
    """Raises `BadCommand` if two of these names, each with its path or its descriptor, are one file or one FIFO."""
    seen: Dict[Place, str] = {}
    for name, place in files:
        key = identity(place)
        if key is None:
            continue
        if key in seen:
            raise BadCommand(f"{seen[key]} and {name} are the same file")
        seen[key] = name


def place_of(address: Address, descriptor: int) -> "str | int":
    """What `refuse_same` compares of an address: its path, or the standard input or output that it means."""
    return descriptor if address.kind == "standard" else address.name if address.kind == "path" else -1
