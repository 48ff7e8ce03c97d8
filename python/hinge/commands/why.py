"""The command `hinge why`, which explains the course of a packet in a replay."""

from __future__ import annotations

import argparse
import os
from itertools import takewhile
from typing import NamedTuple, Optional

from hinge.arguments import SOURCE, add_source, bounded
from hinge.border.terminal import show
from hinge.command import new_parser

WHAT = """\
Tells what happened to a row of a packet file, or to a packet of a run, in a paragraph: for whom it waited and how
long, its transmission and the link's delay, which add up exactly to what it took; or how full its queue was, and of
which packets; or what lost it. The bandwidth, the delay and the losses are those of that moment, so outages, cuts,
changes and traces are named. In a net's folder a packet is followed over all links and hosts. Packets of a history are
numbered as rows: the first that was submitted is 1."""
ROWS = "numbers from 1 (a packet file's header isn't counted)"
EXAMPLE = """\
hinge why 17 packets.csv report.csv --config dsl.config
  hinge why 17 dsl.config packets.csv report.csv    # the same
  hinge why 17 18 session.history
  hinge why 17 session                              # a net's folder"""


class WhyOptions(NamedTuple):
    """Describes the rows to explain and their source: a history, a net's folder, or a packet file and a report."""

    rows: list[int]
    files: list[str]
    config: Optional[str]  # the configuration file of a packet file's replay


def command_line() -> WhyOptions:
    parser = new_parser(WHAT, EXAMPLE)
    add_source(parser, "ROW .. (HISTORY | FOLDER | [CONFIG] PACKETS REPORT)", "ROW .. SOURCE", f"{ROWS}, and behind them {SOURCE}")
    arguments = parser.parse_intermixed_args()
    numbers = list(takewhile(str.isdecimal, arguments.source))
    files = arguments.source[len(numbers) :]
    if not numbers:
        refusal = f"{files[0]!r} isn't the number of a row"
        if not any(map(os.path.exists, files)):
            refusal += "; write hinge why ROW SOURCE, with a number from 1 on for ROW"
        parser.error(refusal)
    if not files:
        parser.error(f"behind the rows comes {SOURCE}; write hinge why {numbers[0]} HISTORY")
    try:
        rows = list(map(bounded(1, 2**62), numbers))
    except argparse.ArgumentTypeError as wrong:
        parser.error(str(wrong))
    if len(files) == 3 and arguments.config is None:
        return WhyOptions(rows, files[1:], files[0])  # the configuration is the first of three files
    return WhyOptions(rows, files, arguments.config)


def main() -> None:
    options = command_line()
    if os.path.isdir(options.files[0]):
        from hinge.paths.hops import Hops  # not at the top, here and below, because a help must not wait for these modules

        hops = Hops(options.files[0])
        show("\n\n".join(map(hops.paragraph, options.rows)))
        return
    from hinge.replays.explain import Explainer
    from hinge.replays.history import read_sources

    [source] = read_sources(options.files, options.config)
    explainer = Explainer(source.explained())
    show("\n\n".join(map(explainer.paragraph, options.rows)))
