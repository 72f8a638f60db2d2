"""A bridge with a control port, for the scripts of tests/cli/bridge/."""
import json
import socket
import threading
import time
import urllib.error
import urllib.request

import bridges


def asked(port, method, path, body=None, **headers):
    """The status, the head and the body of an answer."""
    request = urllib.request.Request(f"http://127.0.0.1:{port}{path}", data=body, method=method,
                                     headers={name.replace("_", "-"): value for name, value in headers.items()})
    try:
        with urllib.request.urlopen(request, timeout=60) as found:
            return found.status, found.headers, found.read()
    except urllib.error.HTTPError as found:
        with found:
            return found.code, found.headers, found.read()


def raw(port, data, seconds=20):
    """What comes for these bytes, up to the end of the connection."""
    with socket.create_connection(("127.0.0.1", port), seconds) as found:
        found.sendall(data)
        answer = b""
        while True:
            try:
                more = found.recv(65536)
            except ConnectionResetError:
                return answer
            if not more:
                return answer
            answer += more


class Controlled(bridges.Case):
    """A bridge with a control port, over made streams."""

    def setUp(self):
        super().setUp()
        self.port = bridges.free_port()

    def begun(self, code="contacts", options=""):
        """A bridge that listens."""
        feed = self.started(f"run {code}.code --in - --out - --control {self.port} {options}")
        self.addCleanup(feed.job.kill)
        with bridges.connected(self.port):
            pass
        return feed

    def status(self):
        """The object of the port."""
        status, head, body = asked(self.port, "GET", "/status.json")
        self.assertEqual((status, head["Content-Type"]), (200, "application/json"))
        return json.loads(body)

    def until_shown(self, **wanted):
        """The object, as soon as it has these values."""
        found = {}

        def holds():
            found.update(self.status())
            return all(found[name] == value for name, value in wanted.items())
        self.assertTrue(bridges.until(holds, 30), f"{wanted}: {found}")
        return found

    def given(self, feed, frames, contact, state, **headers):
        """The answer of a contact that is given while these frames come; and the frames that come out."""
        answers = []
        asking = threading.Thread(target=lambda: answers.append(
            asked(self.port, "PUT", f"/contacts/{contact}", state, **headers)))
        asking.start()
        found = []
        for left, frame in zip(range(len(frames), 0, -1), frames):
            if left <= 3:
                # On a busy machine it takes its time to ask: the last frames wait for it.
                asking.join(3)
            found += feed.through([frame])
            time.sleep(0.005)
        asking.join(30)
        return answers[0][0], json.loads(answers[0][2]), found
