"""What the bridge does at this moment, as one object: for its messages, for a textfile, and for whoever asks it."""
from __future__ import annotations

from dataclasses import dataclass, field
from enum import Enum
from typing import Dict, List, Optional

from .faults import say


class Phase(Enum):
    """What the frames of the stream get."""

    WAITING = "waiting"
    """Nothing: the plan has not begun."""
    FOLLOWING = "following"
    """The plan's frames."""
    HOLDING = "holding"
    """Frames of the configuration that receivers hold: a count was not explained."""


class Alarm(Enum):
    """What somebody should look at. The bridge goes on all the same."""

    HELD = "held"
    """A count was not explained: what is on air is held."""
    UNFIT = "unfit"
    """The plan does not fit the sub-channels of the multiplexer."""
    ENSEMBLE = "ensemble"
    """The stream is of another ensemble than the plan."""
    CLOCK = "clock"
    """FIG 0/10 and the host's clock do not agree."""
    LOG = "log"
    """The log can't be written."""
    OUTPUT = "output"
    """An output can't be written, while another one can."""
    INPUT = "input"
    """One of several inputs is not there, or is late."""


@dataclass
class InputState:
    """One of several inputs; counts of frames are of this run."""

    name: str
    is_connected: bool = False
    """Whether bytes may come at this moment."""
    depth: int = 0
    """The frames that wait for those of other inputs."""
    late: int = 0
    """Frames that came when theirs had gone out."""
    missing: int = 0
    """Frames that went out without one of this input."""
    damaged: int = 0
    """Pieces of bytes that were no frame."""
    stc: bytes = b""
    """What its last frame says of its sub-channels, in the form of ETI; nothing before the first one."""


@dataclass
class StreamState:
    """The stream of a sub-channel of the plan; counts of frames are of this run."""

    source: str = ""
    """The name of the input from which it comes; empty where none carries it."""
    silent: int = 0
    """Frames in which no input had it."""
    fallbacks: int = 0
    """How many times it came from another input from there on, while the plan did not change it."""


@dataclass
class Checked:
    """What `dabplan check` says of what went out, since the bridge was started."""

    frames: int = 0
    damaged: int = 0
    """FIBs that are damaged."""
    swaps: int = 0
    faults: int = 0
    is_up: bool = False
    """Whether it runs."""
    last: str = ""
    """The last fault, as it says it; nothing where there was none."""

    def totals(self) -> Dict[str, int]:
        """Its totals, by their names."""
        return {"frames": self.frames, "damaged": self.damaged, "swaps": self.swaps, "faults": self.faults}

    def take(self, totals: Dict[str, int]) -> None:
        """Takes other totals."""
        self.frames, self.damaged = totals["frames"], totals["damaged"]
        self.swaps, self.faults = totals["swaps"], totals["faults"]


@dataclass
class State:
    """The state of a bridge; counts of frames are of this run."""

    phase: Phase = Phase.WAITING
    frame: Optional[int] = None
    """The number of the plan's frame that went out last, its first one 0; None before it began, and while it is
    held."""
    count: Optional[int] = None
    """The CIF count of the frame that went out last."""
    frames_in: int = 0
    """Frames that came, those without a FIC among them."""
    frames_out: int = 0
    """Frames that went out."""
    frames_held: int = 0
    """Those of them that were held."""
    unfilled: int = 0
    """Frames for which nothing went out although the plan had begun."""
    steps: int = 0
    """Steps of the count."""
    swaps: int = 0
    """Swaps that went out."""
    swap_in: Optional[int] = None
    """The frames until the swap that is announced; None without one."""
    fits: Optional[bool] = None
    """Whether the plan fits the multiplexer; None before they were compared."""
    clients: int = 0
    """The clients of all servers."""
    last: Optional[float] = None
    """When the last frame came, by `time.monotonic`."""
    inputs: List[InputState] = field(default_factory=list)
    """The inputs of `--compose`, in their order."""
    streams: Dict[int, StreamState] = field(default_factory=dict)
    """The streams of `--compose`, by SubChId: of each sub-channel that was on air in this run."""
    checked: Optional[Checked] = None
    """What a check of what goes out found; None where there is none."""
    alarms: Dict[Alarm, str] = field(default_factory=dict)
    """The alarms that are on, each with its message."""

    def alarm(self, alarm: Alarm, text: str) -> None:
        """Sets an alarm; its message is written where it was not on, or said something else."""
        if self.alarms.get(alarm) != text:
            say(text)
        self.alarms[alarm] = text

    def is_on(self, alarm: Alarm) -> bool:
        """Whether an alarm is on."""
        return alarm in self.alarms

    def clear(self, alarm: Alarm, text: str) -> None:
        """Takes an alarm back, and says so; nothing where it was not on."""
        if self.alarms.pop(alarm, None) is not None:
            say(text)
