"""A bridge whose plan is replaced while it runs, for the scripts of tests/cli/bridge/."""
import itertools
import json
import pathlib
import re
import subprocess
import tempfile
import threading
import time

import bridges
from ports import Controlled, asked

# By contact 3 the service moves to sub-channel 2, and back: nothing happens by itself.
FIRST = bridges.CONTACTS
# The same by contact 4.
SECOND = (
    FIRST.replace("contact 3", "contact 4").replace("notice 24", "notice 40").replace("commit in 24", "commit in 40")
)
# A schedule whose items are others: service C222 is there but with contact 4, and at noon C221 is in sub-channel 2.
SCHEDULE = """\
ensemble E1C5
period 4 notice 40 budget 20
sub 1 at 0 eep 3-A 32
service C221
audio 63 sub 1 in C221
sub 63 at 850 eep 4-A 8
service C222
audio 63 sub 63 in C222
schedule
overlay alone while contact 4 closed {
drop service C222
drop sub 63
}
overlay noon while time 12:00:00 to 13:00:00 {
drop component sub 1 in C221
drop sub 1
sub 2 at 24 eep 3-A 32
audio 63 sub 2 in C221
}
"""
STEPS = b"refused: Steps"


def items_of(script):
    """The header and the items of a script."""
    return re.split(r"(?m)^(?:begin|define|schedule)\b", script)[0] + "begin\n"


class Reloaded(Controlled):
    """A bridge whose plan is a file `p.plan`, and what its plan is to be."""

    takes_steps = None

    @classmethod
    def compiled_from(cls, folder, script, now):
        """Writes p.plan, n.plan and p.code, which begins with the items of another script; returns what the compiler
        says where it refuses that."""
        pathlib.Path(folder, "p.plan").write_text(script)
        pathlib.Path(folder, "n.plan").write_text(items_of(now))
        done = subprocess.run(
            [cls.program, "compile", "p.plan", "p.code", "--from", "n.plan"],
            cwd=folder,
            capture_output=True,
            check=False,
        )
        assert done.returncode in (0, 1), done
        return b"" if done.returncode == 0 else done.stdout.splitlines()[0]

    @classmethod
    def played_from(cls, script, now, steps, options=""):
        """The FIBs of a plan that begins with the items of another script."""
        with tempfile.TemporaryDirectory() as folder:
            refusal = cls.compiled_from(folder, script, now)
            assert not refusal, refusal
            pathlib.Path(folder, "p.events").write_text(steps)
            words = [cls.program, "play", "p.code", "p.events", "p.fib", *options.split()]
            subprocess.run(words, cwd=folder, check=True, capture_output=True)
            return pathlib.Path(folder, "p.fib").read_bytes()

    def has_steps(self):
        """Whether the program takes scripts of steps that begin with what is on air; else it says so."""
        if Reloaded.takes_steps is None:
            with tempfile.TemporaryDirectory() as folder:
                refusal = self.compiled_from(folder, SECOND, FIRST)
            assert refusal in (b"", STEPS), refusal
            Reloaded.takes_steps = not refusal
        return Reloaded.takes_steps

    def begun_plan(self, script, options="--log l", name="p.plan", inputs="--in - --out -"):
        """A bridge that listens, with a script."""
        if script is not None:
            self.write(name, script)
        feed = self.started(f"run {name} {inputs} --control {self.port} {options}")
        self.addCleanup(feed.job.kill)
        with bridges.connected(self.port):
            pass
        return feed

    def while_asked(self, feed, frames, ask, most=3000):
        """What comes for the frames that are given, as `frames` makes them one after the other, up to those behind the
        end of `ask`; and what that gives."""
        answers = []
        asking = threading.Thread(target=lambda: answers.append(ask()))
        asking.start()
        found = []
        for frame in frames:
            found += feed.through([frame])
            if not asking.is_alive():
                break
            self.assertLess(len(found), most, "no answer")
            time.sleep(0.004)
        asking.join(60)
        return found, answers[0]

    @staticmethod
    def at_once(feed, frames, number):
        """What comes for so many frames that are given at once: the first ones wait for a FIG 0/0."""
        found = []
        given = list(itertools.islice(frames, number))
        feed.give(given)
        for frame in given:
            found.append(feed.get(len(frame)))
        return found

    def reloaded(self, feed, frames, **headers):
        """The same, of an order to replace the plan: status and answer."""
        found, (status, _, body) = self.while_asked(
            feed, frames, lambda: asked(self.port, "POST", "/reload", b"", **headers)
        )
        return found, status, json.loads(body)

    def streamed(self, form, count, frames=6000):
        """The frames of the multiplexer from a count on, made as they are asked for."""
        for first in range(0, frames, 250):
            yield from self.stream(form, 250, (count + first) % 5000)

    def checked_faults(self, stream):
        """What `check` says at the end of what went out."""
        status, fic, messages = self.bridge("fic -", stream)
        self.assertEqual(status, 0, messages)
        return self.checked(fic)
