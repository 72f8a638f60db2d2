#!/usr/bin/env python3
"""`dabplan-bridge run --compose` where inputs are files, FIFOs and datagrams. The last line is 'N passed, M failed'."""
import os
import select
import signal
import socket
import time

import bridges
import composed
import units
from composed import DAY, DAY_SIDE, NIGHT, NIGHT_SIDE, TURNS, count_of, next_packet


class OtherPlaces(composed.Turns):
    """Inputs that are files, FIFOs and datagrams."""

    def test_a_regular_file_and_a_fifo_wait_for_each_other(self):
        """A file is there at once, however slow the other one is: nothing is late."""
        self.give("day", DAY, 120)
        nights = self.give("night", NIGHT, 120)
        (self.folder / "night").unlink()
        os.mkfifo(self.folder / "night")
        feed = self.started("run turns.code --compose --in day=day --in night=night --out - --delay 5")
        with open(self.folder / "night", "wb", buffering=0) as writer:
            wanted = self.wanted(120)
            for at in range(0, 120, 20):
                writer.write(b"".join(nights[at:at + 20]))
                self.same(b"".join(wanted[at:at + 20]), feed.get(sum(map(len, wanted[at:at + 20]))), f"from frame {at}")
                time.sleep(0.1)
        self.assertEqual(feed.end()[:2], (0, b""))

    def test_another_writer_of_a_fifo_goes_on(self):
        days, nights = self.give("day", DAY, 120), self.give("night", NIGHT, 120)
        for name in ("day", "night"):
            (self.folder / name).unlink()
            os.mkfifo(self.folder / name)
        feed = self.started("run turns.code --compose --in day=day --in night=night --out -")
        wanted = self.wanted(120)
        with open(self.folder / "day", "wb", buffering=0) as day:
            for first, last in ((0, 30), (30, 60)):
                with open(self.folder / "night", "wb", buffering=0) as night:
                    night.write(b"".join(nights[first:last]))
                    for at in range(first, last):
                        day.write(days[at])
                        self.same(wanted[at], feed.get(len(wanted[at])), f"frame {at}")
                # The bridge sees its end before the next writer comes.
                time.sleep(0.5)
        self.assertEqual(feed.end()[:2], (0, b""))

    def test_datagrams(self):
        ports = {name: bridges.free_port(socket.SOCK_DGRAM) for name in ("day", "night")}
        feed = self.started(f"run turns.code --compose --in day=udp://:{ports['day']} --in night=udp://:{ports['night']} --out -")
        frames = {"day": self.give("day", DAY, 100), "night": self.give("night", NIGHT, 100)}
        with socket.socket(socket.AF_INET, socket.SOCK_DGRAM) as sender:
            def send(at):
                for name, port in ports.items():
                    sender.sendto(frames[name][at], ("127.0.0.1", port))
            # Where nobody listens yet a datagram is lost; the first packet is believed with the third one.
            first = next(at for at in range(0, 40) if send(at) or select.select([feed.job.stdout], [], [], 0.5)[0])
            for at in range(first + 1, 100):
                send(at)
            found = [next_packet(feed)]
            while count_of(found[-1]) != 99:
                found.append(next_packet(feed))
        begins = count_of(found[0])
        self.assertLessEqual(begins, first)
        fic = self.plan(100 - begins, begins, TURNS)
        self.same(b"".join(self.made(fic, self.turns(fic, DAY_SIDE, NIGHT_SIDE, first=begins), begins)), b"".join(found), "datagrams")
        self.assertEqual(feed.end(signal.SIGTERM)[0], 0)


if __name__ == "__main__":
    units.main()
