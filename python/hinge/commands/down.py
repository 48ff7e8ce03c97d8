"""The command `hinge down`, which ends a run with SIGTERM."""

from __future__ import annotations


from hinge.border.asking import ask, process_at
from hinge.border.programs import can_be_read
from hinge.command import Fault, new_parser
from hinge.run.names import socket_of

WHAT = """\
Ends a hinge net, hinge run or hinge udp that has a socket: commands get SIGTERM, and the history and the summary are whole when this returns.
SOCKET is what --control names there, or a name of hinge up."""
LONGEST = 120.0  # s that a run may take to end
STILL_THERE = 1  # the exit status


def main() -> None:
    parser = new_parser(
        WHAT,
        "hinge up cluster.net\n  hinge down cluster",
        "0 ended, 1 it is there still, 2 no such run, 6 the system refuses something",
    )
    parser.add_argument("socket", metavar="SOCKET")
    arguments = parser.parse_args()
    path = socket_of(arguments.socket)
    process = process_at(path)
    ask(path, end=True)
    if not can_be_read(process, LONGEST):
        raise Fault(f"{arguments.socket}: it is there still after {LONGEST:g} s", STILL_THERE)
