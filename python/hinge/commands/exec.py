"""The command `hinge exec`, which runs a command on a host of a run."""

from __future__ import annotations

import argparse
import os
import signal
import sys
import time
from typing import NoReturn

from hinge.border.asking import asked_at, is_answered
from hinge.border.messages import Order
from hinge.border.scratch import held
from hinge.command import NAME, new_parser, say
from hinge.run.doors import DOORS, started_behind
from hinge.run.first import BLOCKED, status_of
from hinge.run.names import socket_of
from hinge.run.processes import SIGNALLED
from hinge.run.words import Wrong

WHAT = """\
Runs COMMAND on HOST of a hinge net or hinge run that goes on: in its network, with its name, in the present folder. SOCKET is what --control
names there, or a name of hinge up. Without COMMAND it is a shell. A run has the hosts client and server.

The command is no part of what the run waits for, and ends with it, by SIGKILL."""
EXAMPLE = """\
hinge exec net.socket n1 -- etcdctl endpoint status
  hinge exec net.socket n2"""
STATUSES = """\
the command's own; 128 and the signal if one ended it; 126, 127 if it can't be executed; 2 a wrong word, or no such run or host; 6 the system
refuses something"""
SHELL = "sh"
MOMENT = 1  # s that a run needs at most to close its socket after its commands were killed
VARIABLES = ("HINGE_HOST", "HINGE_NET")  # the variables that a run may set; none decides which program or library is loaded


def command_line() -> argparse.Namespace:
    parser = new_parser(WHAT, EXAMPLE, STATUSES, f"{NAME[0]} SOCKET HOST [-- COMMAND [ARGUMENT ..]]")
    parser.add_argument("socket", metavar="SOCKET")
    parser.add_argument("host", metavar="HOST")
    parser.add_argument("command", nargs=argparse.REMAINDER, metavar="COMMAND", help=argparse.SUPPRESS)
    arguments = parser.parse_args()
    if arguments.command[:1] == ["--"]:
        del arguments.command[0]
    arguments.command = arguments.command or [os.environ.get("SHELL", SHELL)]
    return arguments


def ends(socket: str) -> bool:
    """Returns whether a run ends within a moment. A run's commands are killed before its socket closes, so the socket may still
    answer at first."""
    until = time.monotonic() + MOMENT
    while is_answered(socket):
        if time.monotonic() > until:
            return False
        time.sleep(0.01)
    return True


def main() -> NoReturn:
    arguments = command_line()
    answer, doors = asked_at(arguments.socket, Order(enter=arguments.host))
    if len(doors) < DOORS:
        raise Wrong(f"{arguments.socket}: it opens no hosts")
    variables = answer.entered or {}
    os.environ.update({name: variables[name] for name in VARIABLES if name in variables})
    socket = os.path.abspath(socket_of(arguments.socket))
    mask = signal.pthread_sigmask(signal.SIG_BLOCK, BLOCKED)
    sys.stdout.flush()
    root = held("/")
    status = status_of(started_behind(doors, arguments.host, arguments.command, mask))
    if status == -signal.SIGKILL:
        os.fchdir(root)
        os.chroot(".")
        if ends(socket):
            say("the run has ended, and the command with it")
    sys.exit(status if status >= 0 else SIGNALLED - status)
