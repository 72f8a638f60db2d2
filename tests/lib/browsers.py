"""A headless Chromium, led by its debugging protocol over two pipes: messages of JSON, each with a byte 0 behind it."""
import base64
import json
import os
import select
import shutil
import subprocess
import tempfile
import time

SECONDS = 90.0


def program():
    """The path of the browser; None where it is not installed."""
    return shutil.which("chromium") or shutil.which("chromium-browser")


class Browser:
    """A browser with one page; used by `with`."""

    def __init__(self, width=1200, height=900, is_dark=False):
        self._folder = tempfile.TemporaryDirectory()
        self._read, theirs_out = os.pipe()
        theirs_in, self._write = os.pipe()
        self._rest = b""
        self._number = 0
        self._session = None
        words = [program(), "--headless=new", "--no-sandbox", "--disable-gpu", "--disable-dev-shm-usage",
                 "--no-first-run",
                 "--disable-extensions", "--disable-background-networking", "--remote-debugging-pipe",
                 "--hide-scrollbars",
                 f"--user-data-dir={self._folder.name}", f"--window-size={width},{height}"]
        # The browser reads from descriptor 3, and writes to 4.
        line = f"exec 3<&{theirs_in} 4>&{theirs_out}; exec \"$@\""
        self._job = subprocess.Popen(["bash", "-c", line, "bash", *words], pass_fds=(theirs_in, theirs_out),
                                     stdout=subprocess.DEVNULL,
                                     stderr=subprocess.DEVNULL, start_new_session=True)
        for each in (theirs_in, theirs_out):
            os.close(each)
        target = self.call("Target.createTarget", url="about:blank")["targetId"]
        self._session = self.call("Target.attachToTarget", targetId=target, flatten=True)["sessionId"]
        self.size(width, height)
        self.call("Emulation.setEmulatedMedia",
                  features=[{"name": "prefers-color-scheme", "value": "dark" if is_dark else "light"}])

    def __enter__(self):
        return self

    def __exit__(self, *_):
        for each in (self._write, self._read):
            os.close(each)
        self._job.terminate()
        try:
            self._job.wait(10)
        except subprocess.TimeoutExpired:
            self._job.kill()
            self._job.wait()
        for _ in range(50):
            try:
                self._folder.cleanup()
                return
            except OSError:
                # Its other processes still write there.
                time.sleep(0.1)

    def call(self, method, **parameters):
        """What a method of the protocol returns."""
        self._number += 1
        message = {"id": self._number, "method": method, "params": parameters}
        if self._session is not None:
            message["sessionId"] = self._session
        os.write(self._write, json.dumps(message).encode() + b"\0")
        end = time.monotonic() + SECONDS
        while True:
            found = self._message(end)
            if found.get("id") == self._number:
                if "error" in found:
                    raise RuntimeError(f"{method}: {found['error']}")
                return found["result"]

    def open(self, url):
        """Opens a page."""
        self.call("Page.navigate", url=url)

    def size(self, width, height):
        """Gives the page a size."""
        self.call("Emulation.setDeviceMetricsOverride", width=width, height=height, deviceScaleFactor=1, mobile=False)

    def value(self, script):
        """The value of an expression in the page."""
        found = self.call("Runtime.evaluate", expression=script, returnByValue=True, awaitPromise=True)
        if "exceptionDetails" in found:
            raise RuntimeError(f"{script}: {found['exceptionDetails']}")
        return found["result"].get("value")

    def until(self, script, seconds=30.0):
        """Waits until an expression in the page is true; returns whether it is."""
        end = time.monotonic() + seconds
        while not self.value(script) and time.monotonic() < end:
            time.sleep(0.05)
        return bool(self.value(script))

    def key(self, name, code=0, text=""):
        """Presses a key."""
        for kind in ("keyDown", "keyUp"):
            self.call("Input.dispatchKeyEvent", type=kind, key=name, code=name, windowsVirtualKeyCode=code,
                      **({"text": text} if text and kind == "keyDown" else {}))

    def picture(self):
        """The page as it is shown, whole, as PNG."""
        return base64.b64decode(self.call("Page.captureScreenshot", format="png", captureBeyondViewport=True)["data"])

    def _message(self, end):
        """The next message."""
        while b"\0" not in self._rest:
            if not select.select([self._read], [], [], max(0.0, end - time.monotonic()))[0]:
                raise TimeoutError("the browser says nothing")
            piece = os.read(self._read, 1 << 20)
            if not piece:
                raise RuntimeError("the browser has ended")
            self._rest += piece
        message, self._rest = self._rest.split(b"\0", 1)
        return json.loads(message)
