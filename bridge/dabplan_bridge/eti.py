"""Raw ETI(NI): frames of 6,144 bytes (ETS 300 799, clause 5).

ERR 1 byte, FSYNC 3; FCT 1, FICF 1 bit and NST 7 bits, FP 3, MID 2 and FL 11 bits; STC 4 bytes for each of NST; MNSC 2;
a CRC over these from FCT on; the FIC, the streams, and a CRC over both; RFU 2, TIST 4; padding of 55 hexadecimal.
"""
from __future__ import annotations

from functools import lru_cache
from typing import List, Mapping, Optional, Sequence

from .fibs import crc, size_of
from .frames import MODES, Frame, Head, Item, NoFrame, Part, Place, wrong_by
from .layout import ENTRY, stc_entries

FRAME = 6144
"""The bytes of a frame."""
FSYNCS = (b"\x07\x3a\xb6", b"\xf8\xc5\x49")
"""The words of synchronisation, in turn (ETS 300 799, 5.2)."""
MOST_STREAMS = 64
"""The most sub-channels of a frame."""
PADDING = b"\x55" * FRAME
"""What fills a frame up."""
NO_SYNC = "no synchronisation"
"""Why bytes without FSYNC are no frame."""


def header_end(data: bytes, at: int = 0) -> Optional[int]:
    """The offset of the CRC of the header of a frame that begins at `at`, if that CRC is right; else None."""
    streams = data[at + 5] & 0x7F
    end = at + 8 + ENTRY * streams + 2
    if streams > MOST_STREAMS or end + 2 > len(data) or wrong_by(data, at + 4, end):
        return None
    return end


def frame_of(data: bytes) -> Item:
    """The frame of 6,144 bytes."""
    if data[1:4] not in FSYNCS:
        return NoFrame(NO_SYNC, len(data))
    header = header_end(data)
    if header is None:
        return NoFrame("damaged header", len(data))
    if not data[5] & 0x80:
        return NoFrame("no FIC", len(data))
    stc = data[8:header - 2]
    mode = MODES[data[6] >> 3 & 3]
    start, size = header + 2, size_of(mode)
    end = start + size + 8 * sum((stc[at + 2] & 3) << 8 | stc[at + 3] for at in range(0, len(stc), ENTRY))
    if end + 8 > FRAME or data[4] >= 250:
        return NoFrame("damaged header", len(data))
    return Frame(data, start, size, mode, data[4], None, stc, start, end, wrong_by(data, start, end))


class EtiCutter:
    """Cuts the bytes of a stream into frames of ETI, and finds the next frame where bytes are lost or too many."""

    def __init__(self) -> None:
        self._bytes = bytearray()
        self._lost = 0

    def begin(self) -> None:
        """The bytes that follow are not those behind the ones before."""
        self._bytes.clear()

    def feed(self, data: bytes) -> List[Item]:
        """The frames that are whole with these bytes. Bytes that are none are told when a frame follows, or a frame's
        worth is lost."""
        self._bytes += data
        found: List[Item] = []
        at = 0
        while at + FRAME <= len(self._bytes):
            piece = bytes(self._bytes[at:at + FRAME])
            item = frame_of(piece)
            inner = next_start(piece, 1) if isinstance(item, NoFrame) or item.wrong or not is_padded(item) else None
            if inner is not None:
                # A frame begins within these bytes: what is before it was cut short, or is too much.
                at += self._lose(inner, found)
            elif isinstance(item, NoFrame) and item.reason == NO_SYNC:
                at += self._lose(unsettled(piece), found)
            else:
                self._settle(found)
                found.append(item)
                at += FRAME
        del self._bytes[:at]
        return found

    def datagram(self, data: bytes) -> List[Item]:
        """The frames that are whole with the bytes of a datagram: one may have less than a frame."""
        return self.feed(data)

    def end(self) -> int:
        """How many bytes are left at the end of the stream."""
        return len(self._bytes)

    def _lose(self, count: int, found: List[Item]) -> int:
        """Counts bytes that are no frame, and adds a frame that is none for each frame's worth of them."""
        self._lost += count
        while self._lost >= FRAME:
            found.append(NoFrame(NO_SYNC, FRAME))
            self._lost -= FRAME
        return count

    def _settle(self, found: List[Item]) -> None:
        """Adds the bytes that were lost before a frame."""
        if self._lost:
            found.append(NoFrame(NO_SYNC, self._lost))
            self._lost = 0


def next_start(data: bytes, first: int) -> Optional[int]:
    """The first offset from `first` on at which a frame with an undamaged header begins; None if there is none in these
    bytes."""
    starts = []
    for sync in FSYNCS:
        at = data.find(sync, first + 1)
        while at >= 0:
            if at - 1 + 12 <= len(data) and header_end(data, at - 1) is not None:
                starts.append(at - 1)
                break
            at = data.find(sync, at + 1)
    return min(starts, default=None)


def is_padded(frame: Frame) -> bool:
    """Whether nothing but padding is behind the frame's last field, TIST."""
    end = frame.crc_at + 8
    return frame.data[end:] == PADDING[end:]


def unsettled(data: bytes) -> int:
    """How many bytes of a piece without synchronisation can be passed over: not those at its end in which a frame may
    begin whose header is not whole yet."""
    last = len(data) - (8 + ENTRY * MOST_STREAMS + 4)
    starts = [at - 1 for at in (data.find(sync, last) for sync in FSYNCS) if at > 0]
    cut = min(starts, default=len(data) - 3)
    return max(1, cut)


def looks_like(data: bytes) -> bool:
    """Whether these bytes begin with a frame, as far as they go."""
    return len(data) >= 4 and data[1:4] in FSYNCS


@lru_cache(maxsize=256)
def places_in(stc: bytes, first: int) -> Mapping[int, Place]:
    """Where the sub-channels of an STC are in a frame, by SubChId; `first` is the offset of the first one."""
    found, at = {}, first
    for entry in stc_entries(stc):
        found[entry.sub] = Place(entry.level, entry.words, at)
        at += 8 * entry.words
    return found


def places_of(frame: Frame) -> Mapping[int, Place]:
    """Where the sub-channels of a frame are, by SubChId."""
    return places_in(frame.stc, frame.start + frame.size)


def head_of(frame: Frame) -> Head:
    """What a frame has beside its FIC and its sub-channels."""
    data, end = frame.data, frame.crc_at
    return Head(data[0], data[6] >> 5, frame.mode, data[frame.start - 4:frame.start - 2], data[end + 2:end + 4],
                data[end + 4:end + 8])


def sync_of(frame: Frame) -> bytes:
    """The word of synchronisation of a frame."""
    return frame.data[1:4]


def built(head: Head, low: int, sync: bytes, fic: bytes, parts: Sequence[Part], wrong: int = 0) -> bytes:
    """A frame of this count modulo 250, this word of synchronisation, this FIC and these sub-channels. `wrong` is what
    its last CRC is exclusive or the right one. `ValueError` where the sub-channels are too many for a frame."""
    main = b"".join((fic, *(part.data for part in parts)))
    length = len(parts) + 1 + len(main) // 4
    rest = b"".join((bytes((low, 0x80 | len(parts))),
                     (head.phase << 13 | head.mode % 4 << 11 | length & 0x7FF).to_bytes(2, "big"),
                     *(part.entry.stc() for part in parts), head.mnsc))
    frame = b"".join((bytes((head.error,)), sync, rest, crc(rest).to_bytes(2, "big"), main,
                      (crc(main) ^ wrong).to_bytes(2, "big"), head.rfu, head.tist))
    if len(frame) > FRAME or len(parts) > MOST_STREAMS:
        raise ValueError(f"{len(parts)} sub-channels of {len(main) - len(fic)} bytes are too many for a frame of ETI")
    return frame + PADDING[len(frame):]
