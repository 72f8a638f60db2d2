#!/usr/bin/env python3
"""Makes the picture of the page in docs/guide/ON_AIR.md: a bridge over a made stream, eight seconds before a change, in
a headless Chromium. An argument is the path of the picture, docs/guide/page.png by default. The changes of the next day
are on it if this `dabplan` has the command `timeline`."""
import pathlib
import subprocess
import sys
import tempfile
import threading
import time

TOP = pathlib.Path(__file__).resolve().parent.parent
sys.path.insert(0, str(TOP / "tests/lib"))

import bridges  # noqa: E402
import browsers  # noqa: E402
from bridges import common  # noqa: E402

HEAD = "ensemble E1C5\nperiod 4 notice 240 budget 20 reserve 1\n"
SUBS = "sub 1 at 0 eep 3-A 64\nsub 2 at 48 eep 3-A 96\n"
SERVICES = "service C221\naudio 63 sub 1 in C221\nservice C222\naudio 63 sub 2 in C222\n"
# From ten to six the first service is on another sub-channel, of a higher rate; while contact 3 is closed there is one
# more service.
PLAN = (
    HEAD
    + SUBS
    + SERVICES
    + """\
schedule
overlay evening while time 22:00:00 to 06:00:00 {
  drop component sub 1 in C221
  drop sub 1
  sub 3 at 120 eep 3-A 96
  audio 63 sub 3 in C221
}
overlay match while contact 3 closed {
  sub 4 at 192 eep 3-A 96
  service C223
  audio 63 sub 4 in C223
}
"""
)
STC = ((1, 0, 0x22, 24), (2, 48, 0x22, 36), (3, 120, 0x22, 36), (4, 192, 0x22, 36))
LABELS = [
    bridges.fib(head + text.ljust(16).encode().hex() + "E000")
    for head, text in (
        ("3500E1C5", "Valley"),
        ("3501C221", "Radio One"),
        ("3501C222", "Radio Two"),
        ("3501C223", "Match"),
    )
]
KNOWN = (
    "document.querySelectorAll('#next tbody th').length > 0"
    " && document.getElementById('ensemble').textContent.startsWith('Valley')"
)


def frames(program, folder, number):
    """So many frames of the multiplexer, with labels."""
    (folder / "own.plan").write_text(HEAD + SUBS + SERVICES + "begin\n")
    (folder / "own.events").write_text(f"frames {number}\n")
    for words in (["compile", "own.plan", "own.code"], ["play", "own.code", "own.events", "own.fib"]):
        subprocess.run([program, *words], cwd=folder, check=True, capture_output=True)
    fics = bridges.fics((folder / "own.fib").read_bytes())
    return [
        bridges.edi_packet(count, fic[:64] + LABELS[count % len(LABELS)], stc=STC) for count, fic in enumerate(fics)
    ]


def feed(job, stream, is_over):
    """Gives frames in real time, as a multiplexer does."""
    due = time.monotonic()
    for frame in stream:
        due += 0.024
        time.sleep(max(0.0, due - time.monotonic()))
        if is_over.is_set():
            return
        job.stdin.write(frame)


def picture(program, folder):
    """The page, as PNG."""
    (folder / "evening.plan").write_text(PLAN)
    port = bridges.free_port()
    words = [
        sys.executable,
        str(bridges.BRIDGE),
        "run",
        "evening.plan",
        "--in",
        "-",
        "--out",
        "/dev/null",
        "--control",
        str(port),
        "--check",
        "--time",
        "21:59:50",
        "--dabplan",
        program,
    ]
    with subprocess.Popen(words, cwd=folder, stdin=subprocess.PIPE, bufsize=0) as job:
        bridges.connected(port).close()
        is_over = threading.Event()
        feeder = threading.Thread(target=feed, args=(job, frames(program, folder, 2000), is_over), daemon=True)
        with browsers.Browser(1100, 1120) as browser:
            browser.open(f"http://127.0.0.1:{port}/")
            feeder.start()
            assert browser.until(KNOWN, 60), browser.value("document.body.innerText")
            found = browser.picture()
        is_over.set()
        feeder.join()
        job.stdin.close()
    return found


def main():
    """Makes it."""
    with tempfile.TemporaryDirectory() as folder:
        found = picture(str(common.dabplan()), pathlib.Path(folder))
    pathlib.Path(sys.argv[1] if len(sys.argv) > 1 else TOP / "docs/guide/page.png").write_bytes(found)


if __name__ == "__main__":
    main()
