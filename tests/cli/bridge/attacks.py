#!/usr/bin/env python3
"""What others do to `dabplan-bridge run`: more clients than it may have files, a FIFO that is flooded, strangers'
datagrams, outputs that fail beside others, and names that are one file. The last line is 'N passed, M failed'."""
import os
import re
import resource
import signal
import socket
import time

import bridges
import units
from bridges import connected, free_port, made, until
from fragments import fragment


def listens(port, kind="udp"):
    """Whether somebody has a port."""
    with open(f"/proc/net/{kind}", encoding="ascii") as table:
        return f":{port:04X} " in table.read()


def used(pid):
    """The processor time of a process, in seconds."""
    with open(f"/proc/{pid}/stat", encoding="ascii") as file:
        fields = file.read().rsplit(")", 1)[1].split()
    return (int(fields[11]) + int(fields[12])) / os.sysconf("SC_CLK_TCK")


class Clients(bridges.Case):
    """More clients than files."""

    def test_a_client_that_cannot_be_taken_is_tried_again_each_second(self):
        exit_ = free_port()

        def limited():
            resource.setrlimit(resource.RLIMIT_NOFILE, (24, 24))
        feed = self.started(f"run moves.code --in - --out tcp://:{exit_}", preexec_fn=limited)
        frames, plan = self.stream("edi", 300), made("edi", self.plan(300))
        first = connected(exit_)
        feed.give(frames[:20])
        self.same(b"".join(plan[:20]), bridges.read_within(first.fileno(), sum(map(len, plan[:20]))), "the first client")
        others = [socket.socket() for _ in range(34)]
        for each in others:
            # Some are in the server's queue, and some wait for a place there.
            each.setblocking(False)
            each.connect_ex(("127.0.0.1", exit_))
        time.sleep(0.5)
        feed.give(frames[20:40])
        self.same(b"".join(plan[20:40]), bridges.read_within(first.fileno(), sum(map(len, plan[20:40]))), "the first client")
        # While nothing comes in, it does not spin.
        before = used(feed.job.pid)
        time.sleep(3.0)
        self.assertLess(used(feed.job.pid) - before, 1.0)
        for each in others[:25]:
            each.close()
        # As some go, others are taken.
        last, number, end = socket.socket(), 40, time.monotonic() + 60
        last.setblocking(False)
        last.connect_ex(("127.0.0.1", exit_))
        found = b""
        while not found and time.monotonic() < end and number < len(frames):
            feed.give(frames[number:number + 1])
            number += 1
            time.sleep(0.2)
            try:
                found = last.recv(1 << 20)
            except (BlockingIOError, OSError):
                pass
        self.assertTrue(found, "a client that comes later is taken")
        last.close()
        status, _, messages = feed.end()
        self.assertEqual(status, 0, messages)
        self.assertLessEqual(len(re.findall("a client can't be taken: Too many open files: tried again each 1 s\n", messages)), 3)
        for each in [first, *others]:
            each.close()


class Floods(bridges.Case):
    """A FIFO that is flooded."""

    def test_contacts_without_end_delay_no_frame(self):
        """At most 16 lines are taken for a frame, and one message is written."""
        feed = self.started("run contacts.code --in - --out - --contacts c")
        frames = self.stream("edi", 400)
        feed.through(frames[:4])
        flood = os.open(self.folder / "c", os.O_WRONLY | os.O_NONBLOCK)
        found = []
        for frame in frames[4:300]:
            try:
                while True:
                    os.write(flood, b"y\n" * 2000)
            except BlockingIOError:
                pass
            found += feed.through([frame])
        os.close(flood)
        # Behind all that waits a contact still comes.
        waits = 65536 // 2 // 16
        self.assertEqual(b"".join(found), b"".join(made("edi", self.plan(300, 0, bridges.CONTACTS)[96 * 4:], 4)))
        feed.job.send_signal(signal.SIGTERM)
        messages = feed.job.stderr.read().decode()
        self.assertEqual(feed.job.wait(20), 0)
        for pipe in (feed.job.stdin, feed.job.stdout, feed.job.stderr):
            pipe.close()
        said = re.findall(r"contacts: line (\d+) is no contact: y, and 15 lines more\n", messages)
        self.assertEqual([int(line) for line in said], list(range(1, 16 * len(said), 16)))
        self.assertEqual(len(said), 296)
        self.assertGreater(waits, 296)

    def test_sixteen_lines_are_taken_for_a_frame(self):
        feed = self.started("run contacts.code --in - --out - --contacts c --log l")
        frames = self.stream("edi", 12)
        feed.through(frames[:4])
        self.write("c", "".join(f"contact {number % 16} closed\n" for number in range(40)))
        feed.through(frames[4:])
        self.assertEqual(feed.end()[0], 0)
        lines = [line.split(b" #")[0].split() for line in self.read("l").splitlines()[1:]]
        # The frame before which each contact comes. On a machine that stops for a second the log has more lines of
        # frames.
        at, found = 0, {}
        for words in lines:
            at += int(words[1]) if words[0] == b"frames" else 0
            found[at] = found.get(at, 0) + (words[0] == b"contact")
        self.assertEqual({frame: contacts for frame, contacts in found.items() if contacts}, {4: 16, 5: 16, 6: 8})
        self.assertEqual(at, 12)


class Strangers(bridges.Case):
    """Datagrams of others."""

    def over(self, query=""):
        """A bridge over UDP, and who sends and receives."""
        sender, receiver = (socket.socket(socket.AF_INET, socket.SOCK_DGRAM) for _ in range(2))
        receiver.setsockopt(socket.SOL_SOCKET, socket.SO_RCVBUF, 1 << 20)
        receiver.bind(("127.0.0.1", 0))
        receiver.settimeout(30)
        entry = free_port(socket.SOCK_DGRAM)
        feed = self.started(f"run moves.code --in udp://:{entry}{query} --out udp://127.0.0.1:{receiver.getsockname()[1]}")
        self.assertTrue(until(lambda: listens(entry), 30))
        self.addCleanup(sender.close)
        self.addCleanup(receiver.close)
        return feed, sender, receiver, entry

    def test_no_datagram_costs_another_frame(self):
        """Lengths that lie, single bytes, whole packets of another count: each frame comes out, and no other one."""
        feed, sender, receiver, entry = self.over()
        frames, plan = self.stream("edi", 200), made("edi", self.plan(200))
        other = self.stream("edi", 200, 3000)
        for number in range(3):
            sender.sendto(frames[number], ("127.0.0.1", entry))
        found = [receiver.recv(65536) for _ in range(3)]
        for number, frame in enumerate(frames[3:], 3):
            lies = [fragment(number, 0, 1, b"", length=0x3FFF), fragment(number, 0, 3, b"", (207, 3), True, 0x3FFF),
                    b"AF" + (12_000).to_bytes(4, "big") + b"\0\0\x90T", b"x", b"", frame[:200], other[number]]
            for each in [*lies, *([b"x"] * 100 if number % 20 == 0 else []), frame]:
                sender.sendto(each, ("127.0.0.1", entry))
            found.append(receiver.recv(65536))
        status, _, messages = feed.end(signal.SIGTERM)
        self.assertEqual(status, 0, messages)
        self.same(b"".join(plan), b"".join(found))

    def test_one_sender_alone(self):
        """`?from=` names it: what another address sends is nothing."""
        feed, sender, receiver, entry = self.over("?from=127.0.0.1")
        frames, plan = self.stream("edi", 20), made("edi", self.plan(20))
        with socket.socket(socket.AF_INET, socket.SOCK_DGRAM) as stranger:
            stranger.bind(("127.0.0.2", 0))
            for number, frame in enumerate(frames):
                stranger.sendto(self.stream("edi", 60, 40)[number], ("127.0.0.1", entry))
                sender.sendto(frame, ("127.0.0.1", entry))
            self.assertEqual([receiver.recv(65536) for _ in frames], plan)
        status, _, messages = feed.end(signal.SIGTERM)
        self.assertEqual(status, 0, messages)

    def test_the_port_is_on_the_loopback_address_unless_another_is_named(self):
        for host, wanted in (("", "0100007F"), ("0.0.0.0", "00000000")):
            entry = free_port(socket.SOCK_DGRAM)
            feed = self.started(f"run moves.code --in udp://{host}:{entry} --out b")
            self.assertTrue(until(lambda port=entry: listens(port), 30))
            with open("/proc/net/udp", encoding="ascii") as table:
                self.assertEqual(re.findall(rf"([0-9A-F]{{8}}):{entry:04X} 0", table.read()), [wanted])
            self.assertEqual(feed.end(signal.SIGTERM)[0], 0)

    def test_a_step_is_believed_after_three_packets(self):
        feed, sender, receiver, entry = self.over()
        frames, plan = self.stream("edi", 200), made("edi", self.plan(200))
        for number in [*range(20), 60]:
            sender.sendto(frames[number], ("127.0.0.1", entry))
        self.assertEqual([receiver.recv(65536) for _ in range(20)], plan[:20])
        receiver.settimeout(1.0)
        with self.assertRaises(socket.timeout):
            receiver.recv(65536)
        receiver.settimeout(30)
        for number in (61, 62):
            sender.sendto(frames[number], ("127.0.0.1", entry))
        self.assertEqual([receiver.recv(65536) for _ in range(3)], plan[60:63])
        status, _, messages = feed.end(signal.SIGTERM)
        self.assertEqual(status, 0, messages)


class Outputs(bridges.Case):
    """Several outputs."""

    def test_all_get_the_same(self):
        exit_ = free_port()
        with socket.socket(socket.AF_INET, socket.SOCK_DGRAM) as receiver:
            receiver.setsockopt(socket.SOL_SOCKET, socket.SO_RCVBUF, 1 << 20)
            receiver.bind(("127.0.0.1", 0))
            receiver.settimeout(30)
            port = receiver.getsockname()[1]
            feed = self.started(f"run moves.code --in - --out - --out b --out tcp://:{exit_} --out udp://127.0.0.1:{port}?pft=200&fec=2")
            client = connected(exit_)
            time.sleep(0.2)
            wanted = b"".join(made("edi", self.plan(40)))
            self.same(wanted, b"".join(feed.through(self.stream("edi", 40))), "standard output")
            self.same(wanted, bridges.read_within(client.fileno(), len(wanted)), "a client")
            whole, fragments = b"", []
            while len(whole) < len(wanted):
                fragments.append(receiver.recv(65536))
                if len(fragments) % 5 == 0:
                    self.write("p", b"".join(fragments))
                    whole = self.bridge("insert p own")[1] if (self.folder / "own").exists() else self.rest(fragments)
            self.same(wanted, whole, "fragments")
            status, _, messages = feed.end()
            client.close()
        self.assertEqual(status, 0, messages)
        self.same(wanted, self.read("b"), "a file")

    def rest(self, fragments):
        """The packets of fragments, of which one in five is lost."""
        import sys     # pylint: disable=import-outside-toplevel
        sys.path.insert(0, str(bridges.FOLDER))
        from dabplan_bridge import edi     # pylint: disable=import-outside-toplevel
        cutter = edi.EdiCutter()
        items = [item for index, each in enumerate(fragments) if index % 9 != 3 for item in cutter.datagram(each)] + cutter.finish()
        return b"".join(getattr(item, "data", b"") for item in items)

    def test_one_that_fails_is_left_out(self):
        os.symlink("/dev/full", self.folder / "full")
        self.write("a", b"".join(self.stream("edi", 40)))
        status, _, messages = self.bridge("run moves.code --in a --out full --out b --state s")
        self.assertEqual(status, 0, messages)
        self.filled("edi", self.read("b"), self.plan(40))
        self.assertEqual(messages.count("cannot write full: No space left on device: it is left out; the other outputs go on\n"), 1)
        self.assertIn(b'\ndab_alarm{alarm="output"} 1\n', self.read("s"))

    def test_the_last_one_that_fails_ends_it(self):
        os.symlink("/dev/full", self.folder / "full")
        os.symlink("/dev/full", self.folder / "full2")
        self.write("a", b"".join(self.stream("edi", 40)))
        status, _, messages = self.bridge("run moves.code --in a --out full --out full2")
        self.assertEqual(status, 1)
        self.assertIn("cannot write full2: No space left on device\n", messages)

    def test_a_network_that_is_not_there_ends_nothing(self):
        """Nobody listens at the port: the answer to that is an error of the next datagram."""
        self.write("a", b"".join(self.stream("edi", 40)))
        port = free_port(socket.SOCK_DGRAM)
        status, _, messages = self.bridge(f"run moves.code --in a --out udp://127.0.0.1:{port} --out b")
        self.assertEqual(status, 0, messages)
        status, _, messages = self.bridge("run moves.code --in a --out udp://240.0.0.1:9")
        self.assertEqual(status, 0, messages)
        self.filled("edi", self.read("b"), self.plan(40))


class Names(bridges.Case):
    """Names that are one file, with nothing there yet."""

    def test_they_are_refused(self):
        self.write("a", b"".join(self.stream("edi", 8)))
        os.mkfifo(self.folder / "f")
        (self.folder / "x").mkdir()
        os.symlink("later", self.folder / "soft")
        before = sorted(path.name for path in self.folder.iterdir())
        for line, one, other in (("--out n --log n", "n", "n"), ("--out n --log x/../n", "n", "x/../n"), ("--out b --contacts k --monitor k", "k", "k"),
                                 ("--out b --contacts f --monitor ./f", "f", "./f"), ("--out b --out b", "b", "b"),
                                 ("--out b --log l --state l", "l", "l"), ("--out soft --log later", "soft", "later")):
            self.assertEqual(self.bridge(f"run moves.code --in a {line}"), (2, b"", f"dabplan-bridge: {one} and {other} are the same file\n"))
        self.assertEqual(sorted(path.name for path in self.folder.iterdir()), before)

    def test_addresses_that_are_none(self):
        for line in ("--in udp://:9?pft=3 --out b", "--in a --out udp://:9?from=1.2.3.4", "--in a --out udp://:9?pft=63",
                     "--in a --out udp://:9?pft=1473", "--in a --out udp://:9?fec=2", "--in a --out udp://:9?pft=200&fec=7",
                     "--in a --out tcp://:9?pft=200", "--in a --out udp://:9?", "--in a --out udp://:9?pft=200&pft=300", "--in udp://:9?from= --out b"):
            self.assertEqual(self.bridge(f"run moves.code {line}")[0], 2, line)


if __name__ == "__main__":
    units.main()
