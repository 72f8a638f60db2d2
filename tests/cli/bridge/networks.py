#!/usr/bin/env python3
"""`dabplan-bridge` over TCP and UDP on the loopback address, and over fragments of PFT. The last line is 'N passed, M
failed'."""
import re
import signal
import socket
import subprocess
import sys
import threading
import time

import bridges
import units
from bridges import connected, free_port, made, until
from fragments import pft


class Server:
    """A multiplexer at a port: it sends what it is given to whoever is connected."""

    def __init__(self, port):
        self.socket = socket.socket()
        self.socket.setsockopt(socket.SOL_SOCKET, socket.SO_REUSEADDR, 1)
        self.socket.bind(("127.0.0.1", port))
        self.socket.listen(4)
        self.socket.settimeout(15)
        self.client = None

    def join(self):
        """Waits for a client."""
        self.client = self.socket.accept()[0]
        return self

    def close(self):
        """Ends the connection and the server."""
        if self.client is not None:
            self.client.close()
        self.socket.close()


class Networks(bridges.Case):
    """The way in and the way out."""

    def received(self, connection, size, seconds=bridges.PATIENCE):
        """So many bytes of a connection."""
        return bridges.read_within(connection.fileno(), size, seconds)

    def test_edi_over_tcp(self):
        """A multiplexer that is refused, comes, is lost and comes again; two receivers, of which one goes and another
        comes."""
        entry, exit_ = free_port(), free_port()
        feed = self.started(f"run moves.code --in tcp://127.0.0.1:{entry} --out tcp://:{exit_} --log l")
        first = connected(exit_)
        time.sleep(0.5)
        frames, plan = self.stream("edi", 400), b"".join(made("edi", self.plan(400)))
        size = len(frames[0])
        server = Server(entry).join()
        server.client.sendall(b"".join(frames[:40]))
        self.same(plan[:40 * size], self.received(first, 40 * size))
        second = connected(exit_)
        self.assertTrue(until(lambda: second.fileno() >= 0))
        time.sleep(0.1)
        server.client.sendall(b"".join(frames[40:60]) + frames[60][:100])
        self.same(plan[40 * size:60 * size], self.received(first, 20 * size))
        self.same(plan[40 * size:60 * size], self.received(second, 20 * size))
        server.close()
        first.close()
        time.sleep(0.4)
        server = Server(entry).join()
        # It has gone on meanwhile: frames 60 to 63 are missing.
        server.client.sendall(b"".join(frames[64:100]))
        self.same(plan[64 * size:100 * size], self.received(second, 36 * size))
        third = connected(exit_)
        time.sleep(0.1)
        server.client.sendall(b"".join(frames[100:104]))
        self.same(plan[100 * size:104 * size], self.received(third, 4 * size))
        status, _, messages = feed.end(signal.SIGTERM)
        self.assertEqual(status, 0, messages)
        for text in (rf"tcp://127.0.0.1:{entry}: Connection refused: tried again, at first after 0.25 s, at last every 10 s\n",
                     r": connected again\n", r": the connection was closed: tried again", r": client 127\.0\.0\.1:\d+\n",
                     r": client 127\.0\.0\.1:\d+ is gone\n", r": the count is 64, 60 was due: 4 frames missed: the plan makes 4 frames unsent\n"):
            self.assertRegex(messages, text)
        self.assertEqual(messages.count("Connection refused"), 1, "told once")
        self.assertNotIn("could not be filled", messages)
        for each in (second, third):
            each.close()
        server.close()

    def test_waits_are_doubled(self):
        sys.path.insert(0, str(bridges.FOLDER))
        from dabplan_bridge import addresses, sources, waiting     # pylint: disable=import-outside-toplevel
        waits = []

        class Waiter(waiting.Waiter):
            """One that does not wait."""

            def sleep(self, seconds):
                waits.append(seconds)
                if len(waits) == 9:
                    raise InterruptedError

        source = sources.TcpSource(addresses.address_of(f"tcp://127.0.0.1:{free_port()}"), Waiter())
        with self.assertRaises(InterruptedError):
            source.read()
        self.assertEqual(waits, [0.25, 0.5, 1.0, 2.0, 4.0, 8.0, 10.0, 10.0, 10.0])

    def test_a_slow_client_is_dropped_and_nobody_waits_for_it(self):
        exit_ = free_port()
        feed = self.started(f"run moves.code --in - --out tcp://127.0.0.1:{exit_}")
        slow, quick = socket.socket(), None
        slow.setsockopt(socket.SOL_SOCKET, socket.SO_RCVBUF, 4096)
        until(lambda: slow.connect_ex(("127.0.0.1", exit_)) in (0, 106))
        quick = connected(exit_)
        time.sleep(0.2)
        found = bytearray()

        def read():
            while piece := quick.recv(65536):
                found.extend(piece)

        reader = threading.Thread(target=read)
        reader.start()
        # ETI is large: the buffers of the slow client are full at once, and 5 s later it is dropped.
        frames = self.stream("eti", 1400)
        feed.give(frames[:1000])
        until(lambda: len(found) >= 1000 * 6144)
        time.sleep(4.3)
        feed.give(frames[1000:])
        status, _, messages = feed.end()
        reader.join(10)
        self.assertEqual(status, 0, messages)
        self.filled("eti", bytes(found), self.plan(1400))
        self.assertRegex(messages, r"tcp://127\.0\.0\.1:\d+: client 127\.0\.0\.1:\d+ is 4 s behind: dropped\n")
        self.assertEqual(messages.count("dropped\n"), 1)
        slow.close()
        quick.close()

    def test_eti_over_tcp(self):
        entry, exit_ = free_port(), free_port()
        feed = self.started(f"run moves.code --in tcp://:{entry} --out tcp://:{exit_}")
        client, server = connected(exit_), Server(entry).join()
        # A client of a running stream gets bytes from anywhere in a frame.
        frames = self.stream("eti", 50)
        server.client.sendall(frames[4][2000:] + b"".join(frames[5:]))
        wanted = b"".join(made("eti", self.plan(42, 8), 8))
        self.same(wanted, self.received(client, len(wanted)))
        self.assertEqual(feed.end(signal.SIGTERM)[0], 0)
        client.close()
        server.close()

    def test_an_address_that_is_taken(self):
        with socket.socket() as other:
            other.bind(("127.0.0.1", 0))
            other.listen()
            port = other.getsockname()[1]
            self.assertEqual(self.bridge(f"run moves.code --in - --out tcp://:{port}"),
                             (1, b"", f"dabplan-bridge: cannot write tcp://:{port}: Address already in use\n"))
        with socket.socket(socket.AF_INET, socket.SOCK_DGRAM) as other:
            other.bind(("127.0.0.1", 0))
            port = other.getsockname()[1]
            self.assertEqual(self.bridge(f"fic udp://127.0.0.1:{port}"),
                             (1, b"", f"dabplan-bridge: cannot read udp://127.0.0.1:{port}: Address already in use\n"))

    def test_the_server_is_on_the_loopback_address_alone(self):
        exit_ = free_port()
        feed = self.started(f"run moves.code --in - --out tcp://:{exit_}")
        connected(exit_).close()
        table = subprocess.run(["cat", "/proc/net/tcp", "/proc/net/tcp6"], capture_output=True, text=True, check=False).stdout
        listening = re.findall(rf"([0-9A-F]+):{exit_:04X} 0+:0000 0A", table)
        self.assertEqual(listening, ["0100007F"])
        feed.end(signal.SIGTERM)

    def over_udp(self, datagrams, frames, plan):
        """What comes out of datagrams, given in groups."""
        with socket.socket(socket.AF_INET, socket.SOCK_DGRAM) as sender, socket.socket(socket.AF_INET, socket.SOCK_DGRAM) as receiver:
            receiver.setsockopt(socket.SOL_SOCKET, socket.SO_RCVBUF, 1 << 20)
            receiver.bind(("127.0.0.1", 0))
            receiver.settimeout(30)
            # The port is free for UDP, and not the one just taken: else what is sent would be received at once.
            entry, exit_ = free_port(socket.SOCK_DGRAM), receiver.getsockname()[1]
            feed = self.started(f"run moves.code --in udp://:{entry} --out udp://127.0.0.1:{exit_}")
            inode = f":{entry:04X} "
            self.assertTrue(until(lambda: inode in open("/proc/net/udp", encoding="ascii").read()))
            # The first packets wait until three of them agree.
            found, datagrams = [], [*((group, 0) for group, _ in datagrams[:2]), (datagrams[2][0], 3), *datagrams[3:]]
            for group, count in datagrams:
                for datagram in group:
                    sender.sendto(datagram, ("127.0.0.1", entry))
                found += [receiver.recv(65536) for _ in range(count)]
            status, _, messages = feed.end(signal.SIGTERM)
        self.assertEqual(status, 0, messages)
        self.assertEqual(len(found), frames)
        self.same(b"".join(plan), b"".join(found))
        return messages

    def test_edi_over_udp(self):
        frames, plan = self.stream("edi", 60), made("edi", self.plan(60))
        self.over_udp([([frame], 1) for frame in frames], 60, plan)

    def test_pft_over_udp(self):
        """Fragments in any order, one lost, one twice; the output is AF. With Reed-Solomon two of twelve may be
        lost."""
        frames, plan = self.stream("edi", 60), made("edi", self.plan(60))
        for options in ({}, {"rs_k": 207, "fragments": 12}, {"rs_k": 90, "fragments": 8, "addressed": True}):
            groups = []
            for number, frame in enumerate(frames):
                parts = pft(frame, number, **options)
                groups.append(([parts[-1], parts[0], *parts[:-1]], 1))
            self.over_udp(groups, 60, plan)
            if options:
                groups[20] = (groups[20][0][3:], 0)
                groups[21], groups[22] = (groups[21][0], 0), (groups[22][0], 3)
                messages = self.over_udp(groups, 60, plan)
                self.assertNotIn("lost", messages)
                continue
            # A fragment of frame 20 is lost: the packet goes when the one after the next begins, and the plan goes on.
            groups[20] = (groups[20][0][2:], 0)
            groups[21], groups[22] = (groups[21][0], 0), (groups[22][0], 2)
            messages = self.over_udp(groups, 59, plan[:20] + plan[21:])
            self.assertRegex(messages, r"frame 20: a lost fragment of PFT, \d+ bytes: nothing goes out for it\n")
            self.assertIn("frame 21: the count is 21, 20 was due: 1 frame missed: the plan makes 1 frame unsent\n", messages)

    def test_datagrams_that_change_places_or_come_twice(self):
        """Two ways of one network: each frame goes out with the FIC of its count."""
        frames, plan = self.stream("edi", 60), made("edi", self.plan(60))
        order = [*range(20), 21, 20, *range(22, 40), 39, 40, *range(41, 60)]
        self.over_udp([([frames[number]], 1) for number in order], 61, [plan[number] for number in order])

    def test_pft_in_a_file(self):
        parts = [part for number, frame in enumerate(self.stream("edi", 50)) for part in pft(frame, number)]
        self.write("a", b"".join(parts))
        self.assertEqual(self.bridge("fic a"), (0, self.own(50), ""))
        status, _, messages = self.bridge("run moves.code --in a --out b")
        self.assertEqual(status, 0, messages)
        self.filled("edi", self.read("b"), self.plan(50))


if __name__ == "__main__":
    units.main()
