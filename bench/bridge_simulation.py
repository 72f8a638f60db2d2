#!/usr/bin/env python3
"""Simulates the bridge over many frames, of which each that goes out is compared.

    bench/bridge_simulation.py [FRAMES [SEED ..]]

The classes of the bridge run with a clock that is set, real children `dabplan live` and `dabplan merge`, and a
multiplexer, a network and a disk that fail: the bridge is killed and started again with its log; the multiplexer stops,
is started again with a count near that of the clock, or with any count; it pauses and goes on with the next count,
after 118 to 122 s too; the bridge stands still, and a backlog comes at once; frames are lost, damaged, come twice or in
another order; bytes of others come between them; contacts are given; the disk of the log is full for a while. Each FIB
that goes out is compared with that of `dabplan live` alone; while a configuration is held, each is decoded, and has to
be of that configuration. A receiver takes all of them, and has to find no swap that was not announced. A line for each
seed says what was found; the exit status is 0 if nothing was wrong. Of seeds that 3 divides the stream is ETI, of the
next ones EDI, of those behind EDI in datagrams.
"""
import contextlib
import gc
import os
import pathlib
import subprocess
import sys
import tempfile
import threading
import traceback

import simulated_parts as parts
from simulated_story import Killed, World

TOP = pathlib.Path(__file__).resolve().parents[1]
sys.path.insert(0, str(TOP / "bridge"))

from dabplan_bridge import (air, beginning, bridge, checking, control, faults, fifos, given, holding, log, orders,  # noqa: E402
                            plan, reader, sinks, sources, state, statefile, sync)


VERBOSE = bool(os.environ.get("VERBOSE"))
"""Whether the messages of the bridge are printed."""


class Input(sources.Source):
    """What comes in: the pieces of the world's story."""

    def __init__(self, world):
        super().__init__("world", None)
        self.is_of_datagrams = world.is_of_datagrams
        self._world = world

    def read(self):
        """The next bytes; the clock is set to when they come."""
        return self._world.next_piece()


class Output:
    """What goes out."""

    def __init__(self, world):
        self._world = world

    def put(self, data):
        """Takes a frame."""
        self._world.came_out(data)


class Life:
    """A bridge from its start to its end, in a world."""

    def __init__(self, world):
        self._world = world
        self._files = open_files() - (world.oracle.files if world.oracle is not None else set())
        self._bridge = None
        self._log = None

    @property
    def made(self):
        """The number of the plan's next frame."""
        return self._bridge._air.player.made     # pylint: disable=protected-access

    @property
    def first(self):
        """The count of the plan's first frame."""
        return self._bridge._air.player.start.first     # pylint: disable=protected-access

    @property
    def is_holding(self):
        """Whether a configuration is held."""
        return self._bridge.state.phase is state.Phase.HOLDING

    def run(self):
        """Until it is killed."""
        world, status = self._world, state.State()
        if world.log.exists():
            # Another file by this name: nothing that is left of the last life here has a hold on it.
            world.log.with_suffix(".new").write_bytes(world.log.read_bytes())
            world.log.with_suffix(".new").replace(world.log)
        self._log = log.Log(str(world.log), 250, False, status)
        wish = beginning.Wish(program=world.program)
        played, asked = plan.plan_of(str(world.code), world.program), orders.Orders()
        contacts = given.Given(world, asked)
        contacts.take_up(self._log.past, self._log.steps())
        port = control.Control(None, world.program, played, "world", contacts, asked, status)
        self._bridge = bridge.Bridge(wish, played, self._log, contacts, fifos.Monitor(None), status,
                                     statefile.StateFile(None, status), port,
                                     checking.Check(world.program, played.mode, False, status))
        world.begins(self)
        self._bridge.run("world", reader.Reader(Input(world), world.form), Output(world), world.is_of_datagrams)

    def end(self):
        """Ends all its processes at once, and closes its files; returns whether the log had all that was given to it,
        and whether a configuration was held."""
        is_whole = self._log is not None and not self._log._unwritten     # pylint: disable=protected-access
        is_holding = self._bridge is not None and self.is_holding
        for job in children(self._world.oracle):
            os.kill(job, 9)
        for thread in threading.enumerate():
            # What syncs the log, in a thread of its own, lets go of it first.
            owner = getattr(getattr(thread, "_target", None), "__self__", None)
            if isinstance(owner, sync.Syncer):
                owner.finish()
                thread.join()
        self._bridge = self._log = None
        gc.collect()
        kept = self._files | (self._world.oracle.files if self._world.oracle is not None else set())
        for file in open_files() - kept:
            os.close(file)
        for job in children(self._world.oracle):
            os.waitpid(job, 0)
        return is_whole, is_holding


def open_files():
    """The descriptors that are open."""
    found = set()
    for name in os.listdir("/proc/self/fd"):
        try:
            os.fstat(int(name))
            found.add(int(name))
        except OSError:
            # That of the listing itself.
            pass
    return found


def children(oracle):
    """The processes that this one has started, but for the oracle's."""
    with open(f"/proc/self/task/{os.getpid()}/children", encoding="ascii") as file:
        return [int(pid) for pid in file.read().split() if oracle is None or int(pid) != oracle.pid]


def simulate(seed, frames, folder, program):
    """Runs a seed, prints what was found, and returns whether nothing is wrong."""
    world = World(seed, frames, folder, program)
    for module in (bridge, log, fifos, statefile):
        module.time = world.clock
    log.os = world.disk
    while world.frames_in < frames:
        life = Life(world)
        with contextlib.suppress(Killed):
            life.run()
        world.ended(*life.end())
    print(f"seed {seed}, {world.form}{' in datagrams' if world.is_of_datagrams else ''}: {world.told()}", flush=True)
    for text in world.wrong[:5]:
        print("  wrong:", text, flush=True)
    return not world.wrong


def main():
    frames = int(sys.argv[1]) if len(sys.argv) > 1 else 250_000
    seeds = [int(word) for word in sys.argv[2:]] or list(range(20))
    program = subprocess.run([TOP / "release/make", "--program"], check=True, capture_output=True, text=True).stdout.strip()
    if not VERBOSE:
        # The children report what they carried.
        os.dup2(os.open(os.devnull, os.O_WRONLY), 2)
        sys.excepthook = lambda kind, fault, trace: traceback.print_exception(kind, fault, trace, file=sys.stdout)
    for module in (air, beginning, bridge, faults, fifos, holding, log, sinks, sources, state):
        if hasattr(module, "say"):
            module.say = lambda text: VERBOSE and print(f"  {text}", flush=True)
    well = True
    for seed in seeds:
        with tempfile.TemporaryDirectory() as name:
            folder = pathlib.Path(name)
            parts.compiled(program, folder)
            well = simulate(seed, frames, folder, program) and well
    sys.exit(0 if well else 1)


if __name__ == "__main__":
    main()
