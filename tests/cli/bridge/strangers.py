#!/usr/bin/env python3
"""The control port of `dabplan-bridge run`: who may ask, and what does no harm. The last line is 'N passed, M
failed'."""
import random
import socket
import statistics
import sys
import threading
import time
import unittest

import bridges
import units
from ports import Controlled, asked, raw

sys.dont_write_bytecode = True
sys.path.insert(0, str(bridges.FOLDER))

from dabplan_bridge import access, control, orders  # noqa: E402


class Steady:
    """A watch that always has something new, and much of it."""

    is_over = False

    def after(self, number):
        """The next one."""
        return number + 1, b"x" * 100_000


class Dropped(unittest.TestCase):
    """Clients that take nothing."""

    def test_a_client_that_takes_nothing_is_dropped(self):
        """After five seconds, and its room is free again."""
        port = bridges.free_port()
        server = control.Server(access.Access("127.0.0.1", port), orders.Orders(), Steady())
        threading.Thread(target=server.serve_forever, args=(0.1,), daemon=True).start()
        before = threading.active_count()
        with socket.create_connection(("127.0.0.1", port), 30) as client:
            client.sendall(f"GET /events HTTP/1.1\r\nHost: localhost:{port}\r\n\r\n".encode())
            self.assertTrue(bridges.until(lambda: threading.active_count() > before, 10))
            start = time.monotonic()
            self.assertTrue(bridges.until(lambda: threading.active_count() == before, 60))
            self.assertGreater(time.monotonic() - start, 4)
            found, more = 0, b"x"
            while more:
                try:
                    more = client.recv(1 << 20)
                except ConnectionResetError:
                    more = b""
                found += len(more)
            self.assertLess(found, 20_000_000)
        server.shutdown()
        server.server_close()


class Refused(Controlled):
    """Who may not, and what does no harm."""

    def test_names_of_others_are_refused(self):
        self.begun()
        own = f"127.0.0.1:{self.port}"
        for host, origin, status in (
                (own, None, 200), (f"localhost:{self.port}", None, 200), (f"[::1]:{self.port}", None, 200),
                (own, f"http://{own}", 200),
                (f"localhost:{self.port}", f"http://localhost:{self.port}", 200), ("evil.example", None, 403),
                (f"evil.example:{self.port}", None, 403), ("127.0.0.1", None, 403),
                (f"127.0.0.1:{self.port + 1}", None, 403),
                (own, "http://evil.example", 403), (own, "null", 403), (own, f"http://localhost:{self.port}", 403),
                ("", None, 403)):
            for request in (f"GET /status.json HTTP/1.1\r\nHost: {host}\r\n",
                            f"GET /metrics HTTP/1.1\r\nHost: {host}\r\n"):
                answer = raw(self.port, (request + (f"Origin: {origin}\r\n" if origin else "") + "\r\n").encode())
                self.assertEqual(int(answer.split()[1]), status, f"{host} {origin}")
        self.assertEqual(int(raw(self.port, b"GET /status.json HTTP/1.1\r\n\r\n").split()[1]), 403, "without a Host")
        for path, method, body in (("/contacts/3", "PUT", b"open"), ("/anew", "POST", b""), ("/resume", "POST", b"")):
            self.assertEqual(asked(self.port, method, path, body, Origin="http://evil.example")[0], 403)
            self.assertEqual(asked(self.port, method, path, body, Host="evil.example")[0], 403)

    def test_a_token(self):
        self.write("token", "s3cret\n")
        feed = self.begun(options="--token-file token")
        frames = self.stream("edi", 300)
        feed.through(frames[:4])
        for given in (None, "Bearer", "Bearer ", "Bearer s3cre", "Bearer s3cret2", "Basic s3cret", "s3cret",
                      "Bearer s3crét"):
            words = {} if given is None else {"Authorization": given}
            status, head, _ = asked(self.port, "PUT", "/contacts/3", b"closed", **words)
            self.assertEqual((status, head["WWW-Authenticate"]), (401, "Bearer"), given)
            self.assertEqual(asked(self.port, "POST", "/anew", b"", **words)[0], 401)
        self.assertEqual(asked(self.port, "GET", "/status.json")[0], 200, "reading needs none")
        self.assertEqual(self.given(feed, frames[4:60], 3, b"closed", Authorization="Bearer s3cret")[0], 200)
        self.assertNotIn("s3cret", feed.end()[2])

    def test_another_address_needs_a_token(self):
        self.write("empty", "\n")
        self.write("two", "a b\n")
        for options, said in (
                (f"--control 0.0.0.0:{self.port}",
                 f"--control 0.0.0.0:{self.port} is not on the loopback address: it needs --token-file"),
                (f"--control {self.port} --token-file none", "--token-file none: No such file or directory"),
                (f"--control {self.port} --token-file empty", "--token-file empty: expected a token in one line"),
                (f"--control {self.port} --token-file two", "--token-file two: expected a token in one line"),
                ("--token-file empty", "--token-file is an option of --control"),
                ("--control 0", "expected a port, or HOST:PORT: 0"),
                ("--control 65536", "expected a port, or HOST:PORT: 65536"),
                ("--control x", "expected a port, or HOST:PORT: x")):
            status, _, messages = self.bridge(f"run moves.code --in - --out - {options}")
            self.assertEqual(status, 2, messages)
            self.assertIn(said, messages)
        self.write("token", "s3cret")
        feed = self.started(f"run moves.code --in - --out - --control 0.0.0.0:{self.port} --token-file token")
        self.addCleanup(feed.job.kill)
        with bridges.connected(self.port):
            pass
        self.assertEqual(asked(self.port, "GET", "/status.json", Host="mast.example")[0], 200)
        self.assertEqual(asked(self.port, "GET", "/status.json", Host="mast.example", Origin="http://evil.example")[0],
                         403)
        self.assertEqual(asked(self.port, "PUT", "/contacts/3", b"open", Host="mast.example")[0], 401)
        feed.end()

    def test_a_port_that_is_taken(self):
        with socket.create_server(("127.0.0.1", 0)) as other:
            port = other.getsockname()[1]
            self.assertEqual(self.bridge(f"run moves.code --in - --out - --control {port}"), (
                1, b"", f"dabplan-bridge: cannot listen at 127.0.0.1:{port}: Address already in use\n"))

    def test_requests_that_are_none(self):
        feed = self.begun()
        for data, status in (
                (b"\r\n\r\n", None), (b"GET\r\n\r\n", b"400"), (b"GET / HTTP/9\r\n\r\n", b"400"),
                (b"\x16\x03\x01\x02\r\n\r\n", b"400"),
                (b"GET /" + b"x" * 9000, b"413"), (b"GET / HTTP/1.1\r\nA: " + b"x" * 9000 + b"\r\n\r\n", b"413"),
                (b"PUT /contacts/3 HTTP/1.1\r\nContent-Length: 9000\r\n\r\n", b"413"),
                (b"GET / HTTP/1.1\r\n" + b"A: b\r\n" * 200 + b"\r\n", b"431")):
            answer = raw(self.port, data)
            self.assertEqual(answer.split()[1:2], [] if status is None else [status], data[:40])
        status, _, messages = feed.end()
        self.assertEqual(messages, "dabplan-bridge: -: no frames\n")

    def test_hostile_bytes(self):
        """Requests with bytes changed, cut and doubled: none changes a frame, and nothing is said."""
        feed = self.begun("moves")
        maker = random.Random(96)
        good = [f"{line} HTTP/1.1\r\nHost: localhost:{self.port}\r\nContent-Length: 6\r\n\r\nclosed".encode()
                for line in ("GET /", "GET /status.json", "GET /metrics", "PUT /contacts/3", "POST /resume?count=7",
                             "POST /anew")]
        frames, found = self.stream("edi", 240), []
        for number in range(240):
            data = bytearray(maker.choice(good))
            for _ in range(maker.randrange(1, 9)):
                at = maker.randrange(len(data))
                data[at:at + maker.randrange(3)] = maker.randbytes(maker.randrange(5))
            with socket.create_connection(("127.0.0.1", self.port), 30) as each:
                each.sendall(bytes(data))
            found += feed.through([frames[number]])
        status, _, messages = feed.end()
        self.assertEqual(status, 0, messages)
        self.filled("edi", b"".join(found), self.plan(240))
        self.assertNotIn("control", messages)
        self.assertNotIn("Traceback", messages)

    def test_a_slow_request_is_dropped(self):
        feed = self.begun()
        with socket.create_connection(("127.0.0.1", self.port), 30) as slow:
            start, end = time.monotonic(), None
            while end is None and time.monotonic() - start < 20:
                try:
                    slow.sendall(b"G")
                    slow.settimeout(0.5)
                    end = time.monotonic() if not slow.recv(100) else None
                except socket.timeout:
                    continue
                except OSError:
                    end = time.monotonic()
        self.assertIsNotNone(end)
        self.assertTrue(4 < end - start < 10, end - start)
        self.assertEqual(feed.end()[2], "dabplan-bridge: -: no frames\n")

    def test_more_connections_than_64(self):
        feed = self.begun()
        many = [socket.create_connection(("127.0.0.1", self.port), 30) for _ in range(64)]
        time.sleep(0.3)
        self.assertEqual(raw(self.port, b"")[:12], b"HTTP/1.1 503")
        for each in many:
            each.close()
        good = f"GET /metrics HTTP/1.1\r\nHost: localhost:{self.port}\r\n\r\n".encode()
        self.assertTrue(bridges.until(lambda: raw(self.port, good)[:12] == b"HTTP/1.1 200", 20))
        self.assertNotIn("Traceback", feed.end()[2])

    def test_frames_do_not_wait_for_clients(self):
        """The median time of a frame is as without clients, with 50 that follow events and read nothing."""
        feed = self.begun("moves")
        frames = self.stream("edi", 800)

        def median(part):
            times = []
            for frame in part:
                start = time.monotonic()
                feed.through([frame])
                times.append(time.monotonic() - start)
                time.sleep(0.004)
            return statistics.median(times)
        median(frames[:100])
        alone = median(frames[100:400])
        many = [socket.create_connection(("127.0.0.1", self.port), 30) for _ in range(50)]
        for each in many:
            each.setsockopt(socket.SOL_SOCKET, socket.SO_RCVBUF, 4096)
            each.sendall(f"GET /events HTTP/1.1\r\nHost: localhost:{self.port}\r\n\r\n".encode())
        time.sleep(1)
        together = median(frames[400:700])
        for each in many:
            each.close()
        print(f"a frame takes {alone * 1000:.2f} ms, with 50 clients {together * 1000:.2f} ms")
        self.assertLess(together, alone * 1.5 + 0.001)
        self.assertEqual(feed.end()[0], 0)


if __name__ == "__main__":
    units.main()
