"""The command `hinge udp`, a UDP path between two programs through emulated links: it forwards datagrams from a port to a server,
and the answers back."""

from __future__ import annotations

import argparse
import os
import shlex
import signal
import socket
import sys
from typing import NamedTuple

from hinge.arguments import is_number
from hinge.border.terminal import show
from hinge.checks.lines import refuse_wrong
from hinge.command import FILES, new_parser
from hinge.command_line import add, Parser
from hinge.replays.units import socket_address
from hinge.run.host import LinkProcess, program
from hinge.run.options import add_link, add_run
from hinge.run.order import RunOrder, note_realtime, run_order, report
from hinge.run.page import Page
from hinge.run.processes import Processes, Ticker
from hinge.run.settings import LiveOptions
from hinge.run.summary import Watch, record
from hinge.run.system import Missing
from hinge.run.words import Wrong, read_lines
from hingetulip_words.link import Place, corrected

LONGEST = 1500  # bytes of the longest packet, which an outage has to hold up
SIGNALS = {signal.SIGCHLD, signal.SIGTERM, signal.SIGHUP, signal.SIGINT}
WHAT = """\
Sends what comes to LISTEN through pipe 1 to SERVER, and what SERVER sends back through pipe 2, until ^C. Prints `ready at HOST:PORT` once it
listens. Each client has a socket of its own towards SERVER."""
EXAMPLE = """\
hinge udp 7000 localhost:7001 --up '8Mbit/s 20ms loss 1%' --down 20ms
  hinge udp '[::1]:7000' '[::1]:7001' 'pipe 1 config bw 8Mbit/s' 'pipe 2 config'"""
OF_RUN = {"--to": "localhost:{} in the place of SERVER"}
STATUSES = """\
0 a signal ended it, 2 a wrong word of the command line, 3 a configuration line that can't be obeyed, 6 the system lacks or refuses something,
75 the run is void by --late, or the link broke off"""


class SocketAddress(NamedTuple):
    """Describes a host, by an address or a name that may be empty, and a port."""

    host: str
    port: int

    @classmethod
    def read(cls, text: str) -> SocketAddress:
        """Returns the address in a text: PORT, HOST:PORT or [HOST]:PORT. ArgumentTypeError: the text has another form."""
        host, _, port = text.rpartition(":")
        if not (is_number(port) and int(port) < 65536):
            raise argparse.ArgumentTypeError(f"{text!r} is neither PORT nor HOST:PORT")
        if host.startswith("[") and host.endswith("]"):
            host = host[1:-1]
        return cls(host, int(port))


def address_in(address: SocketAddress, family: int) -> tuple[int, tuple[str, int]]:
    """Returns the family, numeric host and port of an address; `family` 0 allows any family. Wrong: there is no such address."""
    loopback = "::1" if family == socket.AF_INET6 else "127.0.0.1"
    try:
        infos = socket.getaddrinfo(address.host or loopback, address.port, family, socket.SOCK_DGRAM)
    except socket.gaierror as fault:
        condition = " of the family of LISTEN" if family else ""
        raise Wrong(f"{address.host}: no address{condition}: {fault.strerror}") from None
    info = min(infos, key=lambda info: info[0] != socket.AF_INET)  # IPv4 first, so that localhost is 127.0.0.1
    host, port = info[4][:2]
    return info[0], (str(host), int(port))


def lines_of_links(words: list[str]) -> list[str]:
    """Returns the configuration lines of the arguments LINK. An argument with a space is a line, otherwise a file with lines.
    Wrong: an argument consists of link words."""
    lines = list[str]()
    for word in words:
        link = None if os.path.exists(word) else corrected(word, Place.RUN)
        if link:
            raise Wrong(f"LINK: {word!r} isn't a line or a file of lines; write --link {shlex.quote(link)}")
        if " " in word:
            lines_of_word = word.splitlines()
            refuse_wrong(lines_of_word, [0] * len(lines_of_word), "", "LINK")
        else:
            lines_of_word = [*read_lines(word)]
            refuse_wrong(lines_of_word, range(1, len(lines_of_word) + 1), word)
        lines += lines_of_word
    return lines


def options() -> Parser:
    """Returns a parser for the command line."""
    parser = new_parser(WHAT, EXAMPLE, STATUSES, "hinge udp [OPTION ..] LISTEN SERVER [LINK ..]")
    add(parser, "listen LISTEN", "PORT or HOST:PORT to which the client sends; port 0 takes a free one", type=SocketAddress.read)
    add(parser, "server SERVER", "PORT or HOST:PORT of the server, of the same family", type=SocketAddress.read)
    add(parser, "links LINK", "a configuration line, or a file of such lines, as --line and --config", nargs="*", default=[])
    add_link(parser, OF_RUN)
    add_run(parser.add_argument_group("the run"))
    return parser


def bound_socket(address: SocketAddress) -> socket.socket:
    """Returns a datagram socket at an address. Missing: the system refuses the address."""
    family, place = address_in(address, socket.AF_INET if not address.host else 0)
    sock = socket.socket(family, socket.SOCK_DGRAM)
    try:
        sock.bind(place)
    except OSError as error:
        raise Missing(f"{place[0]}:{place[1]}: {os.strerror(error.errno or 0)}") from None
    return sock


def forward_datagrams(order: RunOrder, front: socket.socket, server: tuple[str, int]) -> int:
    """Forwards datagrams between a socket and the server until a signal arrives; returns the exit status."""
    page = Page()
    processes = Processes(SIGNALS)

    def dropped() -> list[int]:
        return [way["dropped"] for way in page.read().ways]

    control = order.control(page, lambda: record(page.read(), dropped(), None, order.seed, []))
    words = ["udp", str(front.fileno()), server[0], str(server[1])]
    link = LinkProcess(processes, page, words, [front.fileno()], order.plan, order.mask, control)
    fault = link.failed()
    if fault is not None:
        return fault
    note_realtime(page)
    if control:
        control.serve()
    host, port = front.getsockname()[:2]
    show(f"ready at {socket_address(host, port)}")
    sys.stdout.flush()
    watch = Watch(page) if order.options.watch else None
    end_signal = processes.wait(link.process, ticker=Ticker(watch.tick) if watch else None)
    link.end()
    return report(order, page, dropped(), FILES if end_signal is None else 0)


def main() -> None:
    arguments = vars(options().parse_args())
    listen = arguments.pop("listen")
    server = arguments.pop("server")
    links = arguments.pop("links")
    mask = signal.pthread_sigmask(signal.SIG_BLOCK, ())
    program()
    lines = [*arguments.pop("line"), *lines_of_links(links)]
    files = [word for word in links if " " not in word]
    order = run_order(LiveOptions(**arguments, line=lines, more_files=files), LONGEST, mask)
    if any(extra.corrupt for extra, _ in order.link_plan.extras.values()):
        raise Wrong("corrupt: each datagram is sent with a checksum of its own, which no flipped bit breaks; write loss 1%")
    signal.pthread_sigmask(signal.SIG_BLOCK, SIGNALS)  # only now, since reading a file may wait for a FIFO's writer
    with bound_socket(listen) as front:
        if not server.port:
            raise Wrong("SERVER: no server listens at port 0; write the server's port")
        _, place = address_in(server, front.family)
        if place == front.getsockname()[:2]:
            raise Wrong(f"SERVER: {socket_address(*place)} is LISTEN itself, and each datagram would come again for ever")
        status = forward_datagrams(order, front, place)
    sys.exit(status)
