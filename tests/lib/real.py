"""Shared by the scripts of tests/cli/bridge/ that run real multiplexers and receivers: audio whose frames have numbers, and
dablin, which plays it."""
import socket
import subprocess
import threading
import time

import bridges

# The numbers of audio frames are below this.
LENGTH = 5000
# The third byte of the header of a frame of MPEG-1 Layer II at 48 kHz, by kbit/s.
RATES = {64: 0x44, 96: 0x64, 128: 0x84}


def audio_crc(bits):
    """The CRC of an MPEG audio frame: x^16 + x^15 + x^2 + 1, started with ones."""
    register = 0xFFFF
    for bit in bits:
        register = register << 1 & 0xFFFF ^ (0x8005 if register >> 15 ^ bit else 0)
    return register.to_bytes(2, "big")


def silence(kbits, number):
    """A frame of MPEG-1 Layer II, 48 kHz, mono, 24 ms, that is silent: no sub-band has any bits. Its number is where no
    decoder looks."""
    head = bytes([0xFF, 0xFC, RATES[kbits], 0xC0])
    bits = [head[at] >> bit & 1 for at in (2, 3) for bit in range(7, -1, -1)] + [0] * 88
    frame = head + audio_crc(bits)
    frame += bytes(100 - len(frame)) + number.to_bytes(4, "big")
    return frame + bytes(3 * kbits - len(frame))


def frames_heard(audio):
    """The frames of an audio stream: their kbit/s and their numbers."""
    rates, found, at = {third: kbits for kbits, third in RATES.items()}, [], 0
    while at + 104 <= len(audio):
        kbits = rates[audio[at + 2]]
        found.append((kbits, int.from_bytes(audio[at + 100:at + 104], "big")))
        at += 3 * kbits
    return found


def gaps_of(heard):
    """How many times a number does not follow the one before."""
    return sum(later != (earlier + 1) % LENGTH for (_, earlier), (_, later) in zip(heard, heard[1:]))


def moves_of(heard):
    """How many times the sub-channel changes."""
    return sum(one != other for (one, _), (other, _) in zip(heard, heard[1:]))


class Receiver:
    """dablin on a service, from a TCP connection to the bridge; it may be connected again."""

    def __init__(self, folder, port, sid, form="edi"):
        self.job = subprocess.Popen(["dablin", "-u", "-s", f"0x{sid}", "-f", form], cwd=folder, stdin=subprocess.PIPE,
                                    stdout=subprocess.PIPE, stderr=subprocess.DEVNULL)
        self.port, self.audio, self.stopped, self.bytes = port, bytearray(), False, 0
        self.threads = [threading.Thread(target=self.feed), threading.Thread(target=self.read)]
        for thread in self.threads:
            thread.start()

    def feed(self):
        """Gives dablin what the bridge sends."""
        while not self.stopped:
            try:
                with bridges.connected(self.port, 1.0) as connection:
                    connection.settimeout(0.5)
                    self.copy(connection)
            except OSError:
                time.sleep(0.05)
        self.job.stdin.close()

    def copy(self, connection):
        """Copies one connection, as far as it goes."""
        while not self.stopped:
            try:
                data = connection.recv(65536)
            except socket.timeout:
                continue
            if not data:
                return
            self.bytes += len(data)
            self.job.stdin.write(data)
            self.job.stdin.flush()

    def read(self):
        """Keeps the audio."""
        while piece := self.job.stdout.read1(65536):
            self.audio += piece

    def end(self):
        """Ends it, and returns the frames that it played."""
        self.stopped = True
        self.threads[0].join(10)
        self.job.terminate()
        self.threads[1].join(10)
        self.job.wait(10)
        return frames_heard(bytes(self.audio))
