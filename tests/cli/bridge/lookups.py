#!/usr/bin/env python3
"""Names of hosts in the addresses of several inputs: nothing waits for a name server. The last line is 'N passed, M
failed'."""
import contextlib
import io
import socket
import sys
import threading
import time
import unittest

import bridges
import units

sys.dont_write_bytecode = True
sys.path.insert(0, str(bridges.FOLDER))

from dabplan_bridge import addresses, feeds, lookup, waiting  # noqa: E402


class Names(unittest.TestCase):
    """An input whose server has a name, and a name server that is asked in its place."""

    def setUp(self):
        self.asked, self.answers, real = [], threading.Event(), socket.getaddrinfo

        def answered(host, port, *others, **more):
            if host[0].isdigit():
                return real(host, port, *others, **more)
            self.asked.append(host)
            self.answers.wait(bridges.PATIENCE)
            if host == "nobody.example":
                raise socket.gaierror(socket.EAI_NONAME, "Name or service not known")
            return real("127.0.0.1", port, *others, **more)

        socket.getaddrinfo = answered
        self.addCleanup(setattr, socket, "getaddrinfo", real)
        self.waiter = waiting.Waiter()
        self.server = socket.create_server(("127.0.0.1", 0))
        self.addCleanup(self.server.close)
        self.addCleanup(self.answers.set)

    def feed(self, host):
        """The input at a name."""
        found = feeds.TcpFeed(addresses.of_source(f"tcp://{host}:{self.server.getsockname()[1]}"), self.waiter)
        self.addCleanup(found.close)
        return found

    def looked(self, feed):
        """Looks until the input is connected."""

        def holds():
            feed.look(time.monotonic())
            self.waiter.once(0.02)
            return feed.is_connected

        return bridges.until(holds, 30)

    def test_nothing_waits_for_the_answer(self):
        feed = self.feed("mux.example")
        feed.look(time.monotonic())
        self.assertFalse(feed.is_connected)
        self.assertTrue(bridges.until(lambda: self.asked == ["mux.example"]), "it is asked")
        for _ in range(3):
            # It is not answered yet: this would wait for ever.
            feed.look(feed.next_look)
            self.assertLess(feed.next_look - time.monotonic(), 1.0, "it looks again soon")
            with self.assertRaises(BlockingIOError):
                feed.read()
        self.answers.set()
        self.assertTrue(self.looked(feed))
        self.assertEqual(self.asked, ["mux.example"], "it is asked once")
        with self.server.accept()[0] as connection:
            connection.sendall(b"frames")
            self.assertTrue(bridges.until(lambda: feed.joins == 1))
            self.assertEqual(self.read(feed), b"frames")

    @staticmethod
    def read(feed):
        """The next bytes of an input."""
        end = time.monotonic() + 30
        while time.monotonic() < end:
            with contextlib.suppress(BlockingIOError):
                return feed.read()
            time.sleep(0.01)
        return None

    def test_a_name_that_nobody_has_is_asked_for_again(self):
        said, feed = io.StringIO(), self.feed("nobody.example")
        self.answers.set()
        with contextlib.redirect_stderr(said):
            self.assertTrue(bridges.until(lambda: feed.look(time.monotonic()) or len(self.asked) >= 3, 30))
        self.assertFalse(feed.is_connected)
        self.assertRegex(
            said.getvalue(),
            r"^dabplan-bridge: tcp://nobody.example:\d+: Name or service not known: tried "
            r"again, at first after 0.25 s, at last every 10 s\n$",
        )

    def test_an_address_is_asked_of_nobody(self):
        feed = self.feed("127.0.0.1")
        self.assertTrue(self.looked(feed))
        self.assertEqual(self.asked, [])
        for host, is_one in (
            ("127.0.0.1", True),
            ("::1", True),
            ("fe80::1%eth0", True),
            ("localhost", False),
            ("mux.example", False),
            ("1.2.3", False),
        ):
            self.assertEqual(lookup.is_address(host), is_one, host)


if __name__ == "__main__":
    units.main()
