"""The command `run`: a plan on its way into a stream."""
from __future__ import annotations

import signal
from dataclasses import dataclass, field
from typing import List, Optional, Tuple

from .access import Access
from .addresses import Address, place_of, refuse_same
from .beginning import Wish
from .bridge import Bridge
from .checking import Check
from .compose import Compose
from .conditions import Condition
from .control import Control
from .copies import plan_with_log
from .faults import hold_signals
from .fifos import Contacts, Monitor, refuse_other
from .given import Given
from .log import Log
from .orders import Kind, Order, Orders
from .plan import Plan
from .reader import Reader
from .sinks import Sinks
from .sources import Source, source_of
from .state import State
from .statefile import StateFile
from .waiting import Waiter
from .weekdays import Calendar


@dataclass
class Options:
    """What the command line of `run` asks for."""

    code: str
    source: Address
    sinks: List[Address]
    wish: Wish
    format: Optional[str] = None
    contacts: Optional[str] = None
    log: Optional[str] = None
    every: int = 250
    """The frames of a line of the log."""
    anew: bool = False
    monitor: Optional[str] = None
    state: Optional[str] = None
    control: Optional[Access] = None
    is_checked: bool = False
    """Whether `dabplan check` runs over what goes out."""
    conditions: Tuple[Condition, ...] = ()
    calendar: Calendar = field(default_factory=Calendar)
    compose: Optional[Compose] = None
    """What makes the transmission follow the plan; None where its FIC alone does."""


def refuse(options: Options) -> None:
    """Raises `BadCommand` where two files of a command line are one, or where a FIFO is none."""
    named = (options.code, options.log, options.contacts, options.monitor, options.state)
    sources = [options.source] if options.compose is None else [source for _, source in options.compose.inputs]
    streams = [*((source.name, place_of(source, 0)) for source in sources),
               *((sink.name, place_of(sink, 1)) for sink in options.sinks)]
    refuse_same([*((path, path) for path in named[:1] if path is not None), *streams,
                 *((path, path) for path in named[1:] if path is not None)])
    refuse_other("--contacts", options.contacts)
    refuse_other("--monitor", options.monitor)


def reload_at_hangup(orders: Orders) -> None:
    """From here on SIGHUP is an order to replace the plan, unless it was to be ignored."""
    if signal.getsignal(signal.SIGHUP) is not signal.SIG_IGN:
        signal.signal(signal.SIGHUP, lambda *_: orders.put(Order(Kind.RELOAD)))


def begun(options: Options) -> Tuple[Plan, Bridge]:
    """A plan, and a bridge whose past was played, where it has one."""
    state = State()
    orders = Orders()
    reload_at_hangup(orders)
    log = Log(options.log, options.every, options.anew, state)
    plan = plan_with_log(options.code, options.wish.program, options.log, log.past)
    contacts, monitor = Contacts(options.contacts), Monitor(options.monitor)
    given = Given(contacts, orders, options.conditions, options.calendar, options.wish.is_local)
    given.take_up(log.past, log.steps())
    control = Control(options.control, options.wish.program, plan, options.source.name, given, orders, state)
    composer = None if options.compose is None else options.compose.composer(state, options.format)
    check = Check(options.wish.program, plan.mode, options.is_checked, state)
    file = StateFile(options.state, state)
    return plan, Bridge(options.wish, plan, log, given, monitor, state, file, control, check, composer)


def composed(options: Options, compose: Compose, plan: Plan, bridge: Bridge, waiter: Waiter) -> int:
    """Plays a plan into the streams of several inputs to the end of all; returns the exit status."""
    pairing = compose.pairing(plan, waiter, bridge.state, options.wish, bridge.is_resumed)
    try:
        sinks = Sinks(options.sinks, waiter, bridge.state)
        try:
            return bridge.run(options.source.name, pairing, sinks, False)
        finally:
            hold_signals()
            sinks.close()
    finally:
        pairing.close()


def played(options: Options, bridge: Bridge, waiter: Waiter) -> int:
    """Plays a plan into a stream to its end; returns the exit status."""
    source: Source = source_of(options.source, waiter)
    try:
        sinks = Sinks(options.sinks, waiter, bridge.state)
        form = options.format if options.compose is None else None
        try:
            return bridge.run(source.name, Reader(source, form), sinks, source.is_of_datagrams)
        finally:
            hold_signals()
            sinks.close()
    finally:
        source.close()


def run(options: Options) -> int:
    """The command `run`; returns the exit status."""
    refuse(options)
    plan, bridge = begun(options)
    is_well = False
    try:
        if options.compose is None or len(options.compose.inputs) == 1:
            status = played(options, bridge, Waiter())
        else:
            status = composed(options, options.compose, plan, bridge, Waiter())
    finally:
        hold_signals()
        is_well = bridge.end()
    return status if is_well else 1
