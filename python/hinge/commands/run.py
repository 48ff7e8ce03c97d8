"""The command `hinge run`, which runs any Linux program behind an emulated link, without root if users may create namespaces."""

from __future__ import annotations

import argparse
import os
import signal
import sys
from typing import NoReturn, Optional, Sequence

from hinge.arguments import bounded
from hinge.border.programs import CANNOT_EXECUTE
from hinge.command import NOT_FOUND, Fault, new_parser, say
from hinge.command_line import add, Parser
from hinge.run.options import add_link, add_run, mtu
from hinge.run.settings import RunOptions
from hinge.simulated.failures import failure_command
from hinge.simulated.time_options import add_simulated

OF_OWN_HOSTS = ("server", "to", "outside", "outside_loopback", "net", "simulated")  # options that can't be used with --netns
USAGE = "hinge run [OPTION ..] [--] COMMAND [ARGUMENT ..]"
WHAT = """\
Runs COMMAND behind an emulated link: what it sends goes through pipe 1 to the host `server` (10.8.0.2, fd08::2), what comes back through pipe 2."""
EXAMPLE = """\
hinge run --down '10Mbit/s 20ms' --up '2Mbit/s 20ms' -- ping -c 3 server
  hinge run --config link.config --server 'iperf3 -s -1' --late 2ms \\
      --transcript session.history -- iperf3 -c server
  hinge run --link 20ms --down-trace Verizon-LTE.down -- bash
  hinge run --link 20ms --to 8000 -- curl http://localhost:8000/
  hinge run --simulated --seed 7 --link 20ms --server ./server -- ./client"""
STATUSES = """\
the command's own; 128 and the signal if one ended it; 126, 127 if it can't be executed; 2 a wrong word of the command line; 3 a configuration
line that can't be obeyed; 6 the system lacks or refuses something; 75 the run is void by --late, or the link broke off; 76 two runs by --twice
differ; 77 a deadlock, and 78 it was ended by --limit, in simulated time; 124 it was ended by --real-limit"""


def options() -> Parser:
    """Returns a parser for the command line."""
    parser = new_parser(WHAT, EXAMPLE, STATUSES, USAGE)
    add_link(parser)
    more = parser.add_argument_group("the run")
    more.add_argument("--mtu", metavar="BYTES", type=mtu, default=1500, help="of both interfaces (1500)")
    add(more, "--net NETWORK", "of both hosts, for a run inside another one or beside a network of your own (10.8.0.0/24)")
    there = "puts the link on the way out of a container or network that is there, in IPv4, as root; without COMMAND until ^C"
    more.add_argument("--netns", metavar="PID", help=there)
    more.add_argument("--container", metavar="NAME", help="the same for a container of docker or podman, by its name, id or image")
    more.add_argument("--server", metavar="COMMAND", help="what runs at the other end, by sh; COMMAND waits until it listens")
    more.add_argument("--server-wait", metavar="TIME", default="5s", help="how long (5s)")
    more.add_argument("--server-end", metavar="TIME", default="2s", help="how long the server has to end after SIGTERM (2s)")
    more.add_argument("--outside", action="store_true", help="the rest of the network behind the link, by slirp4netns or pasta")
    add(more, "--outside-loopback", "the same, with this system's own loopback at 10.9.0.2 and fd00::2", action="store_true")
    port = "this system's port behind the link: the command finds it at localhost, and at server"
    add(more, "--to PORT", port, type=bounded(1, 65535), action="append", default=[])
    add_run(more)
    parser.needs("--server-wait --server-end", "--server")
    parser.yields("--outside", "--outside-loopback")
    parser.yields("--netns", "--container")
    add_simulated(parser)
    parser.add_argument("command", nargs=argparse.REMAINDER, metavar="COMMAND", help=argparse.SUPPRESS)
    return parser


def options_and_command(parser: Parser, words: Sequence[str]) -> argparse.Namespace:
    """Returns the options, whose field `command` is the command without its `--`; refuses a line without a command."""
    arguments = parser.parse_args(words)
    from hinge.run.hints import link_as_command  # not at the top, here and below, because a help must not wait for these modules

    if arguments.command[:1] == ["--"]:
        del arguments.command[0]
    if not arguments.command and arguments.netns is None and arguments.container is None:
        parser.error("no command: it is at the end, behind --, as in hinge run --preset lte -- ping -c 3 server")
    link = link_as_command(arguments.command)
    if link is not None:
        parser.error(link)
    return arguments


def command_line(words: Optional[Sequence[str]] = None) -> RunOptions:
    """Returns the options, in which --container is replaced by its process. Fault: the command can't be executed."""
    arguments = options_and_command(options(), failure_command(sys.argv[1:] if words is None else [*words], "run"))
    from hinge.run.hints import lacking

    fault = lacking(arguments.command) if arguments.root is None else None
    if fault is not None:
        is_file = os.path.isfile(arguments.command[0])
        raise Fault(fault, CANNOT_EXECUTE if is_file else NOT_FOUND)
    if arguments.container is not None:
        from hinge.run.joined import process_of

        arguments.netns = process_of(arguments.container)
    return RunOptions(**vars(arguments), more_files=())


def refuse_beside_netns(run: RunOptions) -> None:
    """Refuses options that configure hosts if --netns joins existing hosts. Wrong: there is such an option."""
    names = [f"--{name.replace('_', '-')}" for name in OF_OWN_HOSTS if getattr(run, name)]
    from hinge.run.words import Wrong

    if run.netns is not None and names:
        raise Wrong(f"{names[0]}: there is no such thing beside --netns, whose hosts are there already")


def main() -> None:
    run = command_line()
    refuse_beside_netns(run)
    if not run.simulated:
        begin(run)
    from hinge.run.plan_of_options import plan_of
    from hinge.run.two_hosts import two_ends
    from hinge.simulated import start

    # These two calls refuse a wrong word before a machine is built.
    two_ends(run.net)
    plan_of(run, run.mtu)
    tell_hints(run)
    sys.exit(start.run_simulated(run))


def tell_hints(run: RunOptions) -> None:
    """Prints hints on options or commands that the user probably means differently."""
    from hinge.run.hints import hints

    for hint in hints(run):
        say(hint)


def begin(run: RunOptions) -> NoReturn:
    """Runs the command here, on this system's clock."""
    from hinge.run.first import BLOCKED, exit_as, first_process
    from hinge.run.host import program
    from hinge.run.inside import Inside
    from hinge.run.joined import network_of
    from hinge.run.order import run_order
    from hinge.run.outside import Outside
    from hinge.run.ports import Ports
    from hinge.run.rooms import leave_the_system
    from hinge.run.system import is_simulated
    from hinge.run.two_hosts import two_ends

    mask = signal.pthread_sigmask(signal.SIG_BLOCK, ())
    program()
    ends = two_ends(run.net)
    network = network_of(run.netns) if run.netns is not None else None
    order = run_order(run, run.mtu, mask, run.server_wait, run.server_end)
    signal.pthread_sigmask(signal.SIG_BLOCK, BLOCKED)  # only now, since reading a file may wait for a FIFO's writer
    if not is_simulated():
        tell_hints(run)
    sys.stdout.flush()
    # The outside and the ports begin in the network that this process leaves below.
    outside = Outside(run.outside_loopback, ends.network) if run.outside or run.outside_loopback else None
    ports = Ports(run.to) if run.to else None
    silent = ports.silent() if ports is not None else ()
    for port in silent:
        say(f"--to {port}: nothing listens at this system's port {port} now")
    own_users = leave_the_system()
    first = first_process(lambda: Inside(run, order, own_users, outside, network, ports).run())
    if outside:
        outside.tell(first, own_users)
    exit_as(first)
