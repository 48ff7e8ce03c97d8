"""The command `hinge net`, which runs any programs on the hosts of a net that a file describes, in real or simulated time."""

from __future__ import annotations

import argparse
import os
import sys
from typing import Sequence

from hinge.command import new_parser
from hinge.command_line import add, Parser
from hinge.events.forms import help_lines
from hinge.foreign_options import LINK_OPTIONS
from hinge.run.options import add_foreign, mtu, seed
from hinge.run.settings import NetOptions
from hinge.simulated.failures import repeated_net
from hinge.simulated.time_options import add_simulated

USAGE = "hinge net FILE [OPTION ..] [-- COMMAND [ARGUMENT ..]]"
WHAT = "Runs the programs of FILE, each on a host with a network of its own, over the emulated links between them."
WORDS = f"""\
words of FILE, one line each (hinge docs NET):
  host NAME [COMMAND]                 a host, and what runs there, by sh
  main NAME [COMMAND]                 the command whose end is the end
  router NAME [COMMAND]               a host that hands packets on
  link A B LINK [/ LINK]              as '10Mbit/s 20ms queue 100 loss 1%';
                                      after / the way back; or preset NAME
  switch NAME A B .. LINK [/ LINK]    an Ethernet switch, and a link to each
  mtu A B BYTES                       of the interfaces of a link
  routes none                         none but to direct neighbours
  wait NAME port N [TIME] [optional]  before the main command; else it ends
  disk HOST PATH [64M]                that `crash` empties, in simulated time
  loss A B MODEL    line A B LINE    map A B RULE    trace A B FILE
  faults FILE                         as `A > B packet 3 lost` (see TESTING)
  at TIME A B outage LENGTH [lossy]   at TIME A B LINK
{help_lines()}  nemesis KIND every TIME for TIME [from TIME] [until TIME] [of HOST ..]
                                      faults that the seed draws

"""
OF_RUN = {
    "--to": "--outside-loopback HOST, where HOST finds this system's port at 10.9.0.2:{}",
    "--link": "a line `link A B {}` in FILE",
    **dict.fromkeys(("--up", "--down"), "a line `link A B LINK / LINK` in FILE, where {} is one of them"),
    **dict.fromkeys(("-o", "--output", "--graph", "--plot"), "--transcripts FOLDER, and hinge look FOLDER -o FILE.png"),
    "--preset": "a line `link A B preset {}` in FILE",
    "--loss": "{} in a line `link`, or a line `loss A B gilbert:0.01,0.3` in FILE",
    "--timeline": "lines as `at 5s A B 1Mbit/s` in FILE",
    "--topo": "lines `host h1`, `host h2` and `link h1 h2 10Mbit/s 20ms` in FILE",
    "--seeds": "hinge search FILE --seeds {}",
    **dict.fromkeys(LINK_OPTIONS, "a line `link A B 10Mbit/s 20ms loss 1%` in FILE"),
}
EXAMPLE = """\
hinge net examples/net/etcd.net --transcripts session --control net.socket
  hinge exec net.socket n1 -- etcdctl endpoint status
  hinge net examples/net/etcd.net --simulated --twice --seed 1"""
STATUSES = """\
the main command's own; 128 and the signal if one ended it; without a main command that of the first that isn't 0; 2 a wrong word of the
command line or of FILE; 3 a configuration line that can't be obeyed; 6 the system lacks or refuses something; 75 the run is void by --late, or
the links broke off; 76 two runs by --twice differ; 77 a deadlock, and 78 it was ended by
--limit, in simulated time; 124 it was ended by --real-limit"""


def options() -> Parser:
    """Returns a parser for the command line."""
    parser = new_parser(WHAT, EXAMPLE, STATUSES, USAGE, WORDS)
    parser.add_argument("file", metavar="FILE", help="the net")
    parser.add_argument("--transcript", metavar="FILE", help="the history of all links, for `dummynet audit` and `hinge look`")
    parser.add_argument("--transcripts", metavar="FOLDER", help="a folder for the history, net.history, and the summary, net.json")
    parser.add_argument("--json", metavar="FILE", help="the summary for a program")
    parser.add_argument("--logs", metavar="FOLDER", help="what each host prints, in NAME.log")
    late = "status 75 where more than 1 of 100 packets of a way was late or unread by more, or the system dropped any"
    parser.add_argument("--late", metavar="TIME", help=late)
    parser.add_argument("--seed", metavar="N", type=seed, help="of what is drawn, for each way by itself (drawn, and told)")
    parser.add_argument("--mtu", metavar="BYTES", type=mtu, default=1500, help="of all interfaces (1500)")
    parser.add_argument("--end-wait", metavar="TIME", default="2s", help="how long commands have to end after SIGTERM (2s)")
    add_staying(parser)
    parser.add_argument("--quiet", action="store_true", help="no summary of the links")
    realtime = "the links before all other programs, where the system allows"
    add(parser, "--realtime", realtime, action=argparse.BooleanOptionalAction, default=True)
    parser.add_argument("--dry-run", action="store_true", help="prints hosts, addresses and links, and starts nothing")
    parser.yields("--outside", "--outside-loopback")
    parser.yields("--stay", "--while-open")
    add_simulated(parser)
    add_foreign(parser, OF_RUN)
    return parser


def add_staying(parser: argparse.ArgumentParser) -> None:
    """Adds the options for access to a net from outside, for its way out, and for its duration."""
    parser.add_argument("--control", metavar="SOCKET", help="where `hinge change`, `status` and `exec` find it")
    add(parser, "--outside HOST", "a host leads to the rest of the network, by slirp4netns or pasta: a router for all hosts")
    add(parser, "--outside-loopback HOST", "the same, with this system's own loopback at 10.9.0.2 and fd00::2")
    parser.add_argument("--shell", metavar="HOST", help="a shell on a host is the main command")
    parser.add_argument("--stay", action="store_true", help="until ^C or SIGTERM, also after all commands")
    until = "the same, and until the other end of descriptor N, a pipe, is closed without a byte"
    add(parser, "--while-open N", until, type=descriptor)


def descriptor(text: str) -> int:
    """Returns an open file's descriptor, which the net's programs don't inherit. ArgumentTypeError: there is no such open file."""
    try:
        number = int(text)
        os.set_inheritable(number, False)
        return number
    except (ValueError, OSError, OverflowError):
        raise argparse.ArgumentTypeError(f"{text!r} isn't an open descriptor") from None


def command_line(words: Sequence[str]) -> NetOptions:
    """Returns the options, in which `command` is the main command from after `--`."""
    end = words.index("--") if "--" in words else len(words)
    return NetOptions(**vars(options().parse_args(words[:end])), command=list(words[end + 1 :]))


def main() -> None:
    with repeated_net(sys.argv[1:]) as words:
        arguments = command_line(words)
        from hinge.net.begun import run  # not at the top, because a help must not wait for this module

        run(arguments)
