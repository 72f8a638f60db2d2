"""Labels of the ensemble and of services: FIG 1 (EN 300 401, 5.2.2.2, 8.1.13 and 8.1.14), in the character sets of TS
101 756, table 1."""
from __future__ import annotations

from typing import Dict, Iterator, NamedTuple

from .fibs import FIB, crc

LABEL = 16
"""The bytes of a label."""
SID_BYTES = {0: 2, 1: 2, 5: 4}
"""The bytes of the identifier, by the extension: ensemble, programme service, data service."""
LATIN_LOW = "\0ĘĮŲĂĖĎȘȚĊ\0\0ĠĹŻŃąęįųăėďșțċŇĚġĺż\0"
"""The characters 00 to 1F of the complete EBU Latin based repertoire."""
LATIN_HIGH = ("«ů»ĽĦáàéèíìóòúùÑÇŞß¡Ÿâäêëîïôöûüñçşğıÿ"
              "ĶŅ©ĢĞěňőŐ€£$ĀĒĪŪķņĻģļİńűŰ¿ľ°āēīū"
              "ÁÀÉÈÍÌÓÒÚÙŘČŠŽÐĿÂÄÊËÎÏÔÖÛÜřčšžđŀ"
              "ÃÅÆŒŷÝÕØÞŊŔĆŚŹŤðãåæœŵýõøþŋŕćśźťħ")
"""The characters 7B to FF."""
LATIN_OTHERS = {0x24: "ł", 0x5C: "Ů", 0x5E: "Ł", 0x60: "Ą"}
"""The characters between that ASCII has otherwise."""


class Label(NamedTuple):
    """What a FIG 1 says."""

    extension: int
    """0 ensemble, 1 programme service, 5 data service."""
    identifier: int
    """The EId or the SId."""
    text: str


def latin(byte: int) -> str:
    """A character of the complete EBU Latin based repertoire."""
    if byte < 0x20:
        return LATIN_LOW[byte]
    if byte >= 0x7B:
        return LATIN_HIGH[byte - 0x7B]
    return LATIN_OTHERS.get(byte, chr(byte))


def text_of(data: bytes, charset: int) -> str:
    """A label as text, without what a terminal or a page would obey, and without blanks at its end. Of a character set
    that nobody knows it has the ASCII characters."""
    if charset == 0:
        text = "".join(map(latin, data))
    elif charset == 15:
        text = data.decode("utf-8", "replace")
    elif charset == 6:
        text = data.decode("utf-16-be", "replace")
    else:
        text = data.decode("ascii", "replace")
    return "".join(each for each in text if each.isprintable()).rstrip()


def labels_of(fib: bytes) -> Iterator[Label]:
    """The labels in a FIB; a damaged one has none."""
    if len(fib) != FIB or crc(fib[:30]) != int.from_bytes(fib[30:], "big"):
        return
    at = 0
    while at < 30 and fib[at] != 0xFF:
        length = fib[at] & 0x1F
        body = fib[at + 1:at + 1 + length]
        if fib[at] >> 5 == 1 and body and not body[0] & 0x08:
            yield from _label_in(body)
        at += 1 + length


def _label_in(body: bytes) -> Iterator[Label]:
    """The label of a FIG 1, from the byte of character set and extension on."""
    extension = body[0] & 0x07
    size = SID_BYTES.get(extension)
    if size is None or len(body) < 1 + size + LABEL:
        return
    text = text_of(body[1 + size:1 + size + LABEL], body[0] >> 4)
    yield Label(extension, int.from_bytes(body[1:1 + size], "big"), text)


class Labels:
    """The labels that went out."""

    def __init__(self) -> None:
        self.ensemble = ""
        """The label of the ensemble; nothing where none came."""
        self.services: Dict[str, str] = {}
        """Those of services, by the digits of their SId."""

    def take(self, fic: bytes) -> None:
        """Takes the labels of a FIC."""
        for at in range(0, len(fic), FIB):
            for label in labels_of(fic[at:at + FIB]):
                if label.extension == 0:
                    self.ensemble = label.text
                else:
                    digits = 4 if label.extension == 1 else 8
                    self.services[f"{label.identifier:0{digits}X}"] = label.text
