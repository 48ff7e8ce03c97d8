"""The first process in a run's rooms, on which all other processes there depend, and the process that waits for the first
process."""

from __future__ import annotations

import os
import signal
import sys
from typing import Callable, NoReturn, Optional

from hinge.border.programs import can_be_read, forked
from hinge.border.scratch import remove_all_left
from hinge.command import say
from hinge.run.processes import SIGNALLED
from hinge.run.system import die_with_parent, is_simulated

INTERRUPTED = 130
BLOCKED = {signal.SIGCHLD, signal.SIGTERM, signal.SIGHUP, signal.SIGINT, signal.SIGIO}


def first_process(run: Callable[[], int]) -> int:
    """Forks this process; returns the child, which calls `run` and exits with its status, or ends when this process ends. Before
    the fork, removes the remains of killed runs, except in a simulated machine, whose course must not depend on them."""
    if not is_simulated():
        remove_all_left()
    parent = os.pidfd_open(os.getpid())  # since the child sees no number of a process outside its namespace

    def live() -> int:
        die_with_parent()
        return INTERRUPTED if can_be_read(parent, 0) else run()

    first = forked(live)
    os.close(parent)
    return first


def status_of(first: int, leash: Optional[int] = None) -> int:
    """Waits for the end of the first process; returns its status, or the negative number of the signal that ended it. Passes
    signals on as SIGTERM, except a ^C from a terminal, which the command receives too. The leash is a pipe, about which SIGIO
    reports: if the other end is closed, the first process gets SIGTERM; if a byte arrives, a later close means nothing."""
    is_interrupted = False
    while True:
        information = signal.sigwaitinfo(BLOCKED)
        number = information.si_signo
        if number == signal.SIGCHLD:
            process, wait_status = os.waitpid(first, os.WNOHANG)
            if process:
                code = os.waitstatus_to_exitcode(wait_status)
                is_terminated = code in (SIGNALLED + signal.SIGTERM, -signal.SIGTERM)
                return INTERRUPTED if is_interrupted and is_terminated else code
        elif number == signal.SIGIO:
            if leash is not None and can_be_read(leash, 0):
                if not os.read(leash, 1):
                    os.kill(first, signal.SIGTERM)
                leash = None
        elif number != signal.SIGINT or information.si_code == 0:  # a terminal's ^C has another code
            is_interrupted = number == signal.SIGINT
            os.kill(first, signal.SIGTERM)


def exit_as(first: int, leash: Optional[int] = None) -> NoReturn:
    """Waits for the end of the first process, and exits with its status. Prints the name of a signal that ended the first process,
    which couldn't report its own end."""
    status = status_of(first, leash)
    if status < 0:
        say(f"{signal.Signals(-status).name} ended the run's first process, and with it all programs, before a summary")
    sys.exit(status if status >= 0 else SIGNALLED - status)
