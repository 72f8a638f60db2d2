#!/usr/bin/env python3
"""Makes streams of FIBs for bench/listen_speed.sh: the pages of one configuration in transmission mode I, one after
another, with FIG 0/0 in each fourth frame (EN 300 401 clauses 5.2, 6.2.1, 6.3.1, 6.3.2 and 6.4). In `swaps` two
configurations alternate: every 300 frames there is a swap, and in the 48 frames before it the pages of the current
and of the next configuration are sent alternately, with change flags (clause 6.5).
    fib_streams.py full|sixteen|scattered|swaps FIBS FILE
"""
import binascii
import sys


def word(number):
    return number.to_bytes(2, "big")


def sub_channel(id, size=6):
    """An entry of a sub-channel: 3-A, 8 kbit/s, six capacity units; or more."""
    return word(id << 10 | id * size) + word(0x8800 | size)


def audio_service(sid, sub):
    return word(sid) + bytes([1, 0x3F, sub << 2 | 2])


def packet_service(sid, scid):
    return word(sid) + bytes([1]) + word(0xC000 | scid << 2 | 2)


def packet_component(scid):
    return word(scid << 4) + bytes([60]) + word(scid % 64 << 10 | scid + 1)


def configuration(kind):
    """Entries, each with its extension."""
    if kind == "full":
        subs = [sub_channel(id) for id in range(64)]
        services = [audio_service(0xC000 + n, n) for n in range(32)]
        services += [packet_service(0xE000 + n * 7, n) for n in range(32)]
        packets = [packet_component(scid) for scid in range(64)]
    elif kind in ("sixteen", "wide"):
        subs = [sub_channel(id, 6 if kind == "sixteen" else 12) for id in range(30)]
        services = [audio_service(0xC001 + n * 16, n) for n in range(30)]
        packets = []
    elif kind == "scattered":
        subs = [sub_channel(id) for id in range(60)]
        sids = sorted((n + 1) * 40503 % 65536 for n in range(60))
        services = [audio_service(sid, n) for n, sid in enumerate(sids)]
        packets = []
    else:
        sys.exit(__doc__)
    return [(1, e) for e in subs] + [(2, e) for e in services] + [(3, e) for e in packets]


def pages_of(entries):
    """The data bytes of three FIBs per page; the first leaves room for FIG 0/0."""
    pages = []
    rest = list(entries)
    while rest:
        page = []
        for room in (23, 30, 30):
            data = b""
            while rest and len(data) + 2 + len(rest[0][1]) <= room:
                ext, body = rest[0][0], b""
                while rest and rest[0][0] == ext and len(data) + 2 + len(body) + len(rest[0][1]) <= room:
                    body += rest.pop(0)[1]
                data += bytes([1 + len(body), ext]) + body
            page.append(data)
        pages.append(page)
    return pages


def fib(data):
    if len(data) < 30:
        data += b"\xff" + bytes(29 - len(data))
    return data + word(binascii.crc_hqx(data, 0xFFFF) ^ 0xFFFF)


def frame_of(page, count, ensemble):
    """A frame of three FIBs, with FIG 0/0 first if the count is a multiple of four."""
    first = ensemble + page[0] if count % 4 == 0 else page[0]
    return b"".join(fib(data) for data in (first, *page[1:]))


def announced_next(page):
    """The same FIGs with C/N 1."""
    marked = []
    for data in page:
        data, at = bytearray(data), 0
        while at < len(data):
            data[at + 1] |= 0x80
            at += 1 + data[at] % 32
        marked.append(bytes(data))
    return marked


def plain_frames(kind, frames):
    """The pages of one configuration."""
    pages = pages_of(configuration(kind))
    for frame in range(frames):
        count = frame % 5000
        yield frame_of(pages[frame % len(pages)], count, bytes([5, 0, 0xE1, 0xC5, count // 250, count % 250]))


def swapping_frames(frames):
    """Two alternating configurations, with a swap every 300 frames."""
    both = [pages_of(configuration(kind)) for kind in ("sixteen", "wide")]
    for frame in range(frames):
        count, turn, place = frame % 5000, frame // 300, frame % 300
        current, following = both[turn % 2], [announced_next(page) for page in both[(turn + 1) % 2]]
        low = (frame - place + 300) % 5000 % 250
        announced = place >= 252
        head = bytes([6, 0, 0xE1, 0xC5, 0xC0 | count // 250, count % 250, low]) if announced else \
            bytes([5, 0, 0xE1, 0xC5, count // 250, count % 250])
        pages = following if announced and frame % 2 else current
        yield frame_of(pages[frame // (2 if announced else 1) % len(pages)], count, head)


def main():
    kind, fibs, file = sys.argv[1], int(sys.argv[2]), sys.argv[3]
    frames = (fibs + 2) // 3
    made = swapping_frames(frames) if kind == "swaps" else plain_frames(kind, frames)
    with open(file, "wb") as out:
        out.write(b"".join(made)[: fibs * 32])


main()
