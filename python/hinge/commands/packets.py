"""The command `hinge packets`, which converts a capture into a packet file of dummynet."""

from __future__ import annotations

import argparse
import contextlib
import re
from dataclasses import dataclass
from itertools import islice
from typing import Optional

from hinge.arguments import bounded
from hinge.border.files import Input, read_again
from hinge.captures.addresses import addresses_file, write_addresses
from hinge.captures.frames import RowPlan
from hinge.captures.packet_rows import Product, write_rows
from hinge.captures.rule_words import HELP, TARGET, BadRule
from hinge.captures.targets import MapRule, Targets, directions, read_rule
from hinge.command import USAGE, Fault, new_parser, say
from hinge.command_line import Parser, add
from hinge.loss import Maker, read_model
from hinge.outputs import refuse_inputs, writing
from hingetulip_words.values import value_fault, value_number

LONGEST = 1500  # bytes of a packet on most links
MOST_ADDRESSES = 20  # the most stand-ins that are printed
MOST_BYTES = 67_108_864  # the longest packet file that dummynet reads
WHAT = """\
Writes the IP packets of a capture (pcap or pcapng) as a packet file, in order of time. Moments are ns from the first
IP packet. What isn't IP is left out and counted; IPv6 addresses get addresses of 240.0.0.0/4, told on standard error
and in FILE.addresses, by which the other commands name the flows."""
EXAMPLE = """\
hinge packets capture.pcap -o packets.csv --from 10.0.0.0/8 --mtu 1500 --l2 22
  hinge packets capture.pcap -o packets.csv --index index.csv \\
      --map 'src 10.0.0.0/8 udp => queue 2' --map '=> queue 1'"""
FROM = (
    "send one direction to pipe 1 and the other to pipe 2. WHO sends the first: an address or a network, or `first` for the one of "
    "two hosts that sends first"
)
MAP = (
    "'WORDS => pipe N' or 'WORDS => queue N'; the first rule that matches counts. A frame that none matches goes by --from, and is "
    f"left out without it. WORDS are those of `hinge run`, which must all hold: {HELP}; up and down are by --from. No words match "
    "every frame. Default: => pipe 1"
)
MTU = "split larger segments, which the card was still to cut, into packets of at most N bytes"
RATE = "with --mtu, the rate at which the card sends the packets of a segment, as 1Gbit/s (default: all at once)"
LOSS = (
    "which packets are lost where the pipe or queue has `plr 0.5`, of each by itself: gilbert:TO_BAD,TO_GOOD[,IN_BAD[,IN_GOOD]], a "
    "link with a good and a bad state, the rates at which they change, and those of losses in the bad one (1) and the good one (0); "
    "or list:3,17-20, by the packets' numbers. 'pipe 1=MODEL' is for one pipe or queue. Default: random words, which its own plr "
    "judges"
)


def map_rule(text: str) -> MapRule:
    """Returns the rule in a value of --map. ArgumentTypeError: the text is no rule."""
    try:
        return read_rule(text)
    except BadRule as error:
        raise argparse.ArgumentTypeError(f"{text}: {error}") from None


def two_directions(text: str) -> list[MapRule]:
    """Returns the two rules for a value of --from. ArgumentTypeError: the text is no address, network or `first`."""
    try:
        return directions(text)
    except BadRule as error:
        # People also write a display filter of Wireshark, such as ip.src == 10.0.0.1.
        address = re.search(r"== *([\da-fA-F.:/]+)$", text)
        advice = f"write {address[1]}" if address else str(error)
        raise argparse.ArgumentTypeError(f"{text!r} isn't an address, a network or `first` ({advice})") from None


def bit_rate(text: str) -> int:
    """Returns the bit/s of a bandwidth. ArgumentTypeError: the text is no bandwidth, or the bandwidth is 0."""
    wrong = value_fault("bw", text)
    if wrong:
        raise argparse.ArgumentTypeError(f"{text!r} isn't a rate ({wrong.wrong}): {wrong.right}")
    rate = value_number("bw", text)
    if not rate:
        raise argparse.ArgumentTypeError(f"{text!r} isn't a rate, as nothing leaves at 0 bit/s (example: 1Gbit/s)")
    return int(rate)


def loss_model(text: str) -> tuple[str, Maker]:
    """Returns a loss model's target, such as `pipe,1`, and a function that creates the model; an empty target means all pipes and
    queues. ArgumentTypeError: the text has another form."""
    target, equals, model = text.rpartition("=")
    match = TARGET.match(target.strip())
    try:
        if equals and match is None:
            raise ValueError(f"{target!r} isn't of the form pipe N or queue N")
        name = f"{match[1]},{match[2]}" if match else ""
        return name, read_model(model)
    except ValueError as error:
        raise argparse.ArgumentTypeError(str(error)) from None


@dataclass(frozen=True)
class PacketsOptions:
    """The command line, with a field for each option."""

    capture: str
    o: Optional[str]
    sender: list[MapRule]  # the rules of --from
    map: list[MapRule]
    mtu: int
    rate: int  # bit/s
    l2: int
    seed: int
    loss: list[tuple[str, Maker]]
    index: Optional[str]

    @property
    def packet_file(self) -> Optional[str]:
        """Returns the name of the packet file; None for standard output."""
        return None if self.o == "-" else self.o


def options_parser() -> Parser:
    """Returns a parser for the command line."""
    parser = new_parser(WHAT, EXAMPLE)
    parser.add_argument("capture", help="the capture; `-` is standard input")
    parser.add_argument("-o", metavar="FILE", help="the packet file (default: standard output)")
    add(parser, "--from WHO", FROM, type=two_directions, dest="sender", default=[])
    add(parser, "--map RULE", MAP, type=map_rule, action="append", default=[])
    add(parser, "--mtu N", MTU, type=bounded(256, 65535), default=0)
    add(parser, "--rate RATE", RATE, type=bit_rate, default=0)
    add(parser, "--l2 N", "bytes that the link adds to each packet; PPPoE over Ethernet has 22", type=bounded(0, 1000), default=0)
    parser.add_argument("--seed", metavar="S", type=bounded(0, 2**64 - 1), default=1, help="of the random words (default: 1)")
    add(parser, "--loss MODEL", LOSS, type=loss_model, action="append", default=[])
    parser.add_argument("--index", metavar="FILE", help="write the frame number of each row, for `hinge look --capture`")
    parser.needs("--rate", "--mtu")
    return parser


def command_line() -> PacketsOptions:
    parser = options_parser()
    arguments = parser.parse_args()
    if (arguments.o or "").endswith((".pcap", ".pcapng", ".png", ".html")):
        parser.error(f"-o {arguments.o}: a packet file is a table; write -o {arguments.o.rpartition('.')[0]}.csv")
    targets = [target for target, _ in arguments.loss]
    if len(targets) > len({*targets}):
        parser.error("--loss: a second model of one pipe or queue; write one of them")
    return PacketsOptions(**vars(arguments))


def main() -> None:
    options = command_line()
    file = options.packet_file
    refuse_inputs((file, options.index, addresses_file(file) if file else None), (options.capture,))
    with read_again(options.capture, None) as capture:
        product = write_packets(options, capture)
    tell(product, options)


def write_packets(options: PacketsOptions, capture: Input) -> Product:
    """Writes a capture's packet file, index and addresses; returns the counts. Fault: a rule of --map needs --from."""
    try:
        targets = Targets(options.map, options.sender)
    except BadRule as bad:
        raise Fault(f"--map: {bad}", USAGE) from None
    with writing(options.o) as out, writing(options.index) if options.index else contextlib.nullcontext() as index:
        plan = RowPlan(options.mtu, options.rate, options.l2, options.seed)
        product = write_rows(capture, targets, plan, dict(options.loss), out, index)
        if options.packet_file is not None:
            write_addresses(options.packet_file, product.addresses)
    return product


def tell(product: Product, options: PacketsOptions) -> None:
    """Prints on standard error how many packets were written and left out, and the replacements for IPv6 addresses."""
    names = product.addresses.stand_ins
    for address, stand_in in islice(names.items(), MOST_ADDRESSES):
        say(f"{stand_in} stands for {address}")
    if len(names) > MOST_ADDRESSES:
        say(f"{len(names) - MOST_ADDRESSES:,} others stand for addresses too, which are in FILE.addresses of -o FILE")
    for text in product.meetings:
        say(text)
    counts = product.counts
    say(
        f"{product.frames} frames, {counts.rows} rows, seed {options.seed}; {product.frames - product.packets} not IP, "
        f"{counts.strays} without a target, {counts.split} split at the MTU, {counts.cut} longer than 65535 bytes"
    )
    if product.long and not options.mtu:
        say(
            f"{product.long} packets are longer than {LONGEST} bytes, since the card was still to cut them, or had joined "
            f"them: --mtu {LONGEST} cuts them as a link sees them"
        )
    if counts.bytes > MOST_BYTES:
        say(f"{counts.bytes:,} bytes are more than the {MOST_BYTES:,} that dummynet reads: split the capture (editcap -i, -c)")
