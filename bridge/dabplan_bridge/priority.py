"""The real-time priority of a service: what is played again does without it, so that the rest of the machine goes
on."""
from __future__ import annotations

import contextlib
import os
import resource
from typing import Callable, Iterator, List

REAL_TIME = (os.SCHED_FIFO, os.SCHED_RR)


def can_regain(priority: int) -> bool:
    """Whether this process may take a real-time priority that it gave up."""
    return os.geteuid() == 0 or resource.getrlimit(resource.RLIMIT_RTPRIO)[0] >= priority


def set_policy(process: int, policy: int, priority: int) -> None:
    """Sets the policy of a process, 0 being this one; where that is refused it stays as it is."""
    with contextlib.suppress(OSError):
        os.sched_setscheduler(process, policy, os.sched_param(priority))


@contextlib.contextmanager
def ordinary() -> Iterator[Callable[[int], None]]:
    """Without a real-time priority, and with it again at the end. What it gives takes children by their process ids:
    they go without it from then on, and get it at the end too."""
    policy, given = os.sched_getscheduler(0), os.sched_getparam(0).sched_priority
    processes: List[int] = []
    if policy not in REAL_TIME or not can_regain(given):
        yield processes.append
        return

    def also(process: int) -> None:
        """Takes a process, 0 for this one."""
        processes.append(process)
        set_policy(process, os.SCHED_OTHER, 0)

    also(0)
    try:
        yield also
    finally:
        for each in processes:
            set_policy(each, policy, given)
