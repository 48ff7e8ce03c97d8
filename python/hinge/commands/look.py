"""The command `hinge look`, which reports on a live session, a replay or a net: the flows, pictures, and the capture after a link."""

from __future__ import annotations

import os
import shlex
import sys

from hinge.arguments import MODEL_NAMES, PICTURE_FLOWS, SOURCE, TABLE_FLOWS, LookOptions, add_flows, add_source, bounded, file_of
from hinge.border.terminal import lines
from hinge.command import MISSING, STATUSES, Fault, new_parser, numpy
from hinge.command_line import add, Parser
from hinge.outputs import CAPTURES, PICTURES, Format

WHAT = """\
Reads a history, the transcript of a live session, or a packet file with up to
four reports, and prints a line for each flow, the largest first, and one for
all: packets and bytes; Mbit/s offered (from its first to its last packet sent)
and carried; packets that left (out), were lost by the loss rate, refused by a
full queue, went to no pipe (none), or were still held; and of those that left
the delay, its jitter by RFC 3550, and the means of its parts. The parts need
the configuration, which a history has. Then a second table has the greatest
wait and delay of each pipe that no queue names, and the proved bounds on them.

-o FILE also writes what the ending of FILE says, and may be repeated: a picture
of throughput, delays, queues and drops as .png, .svg or .pdf; .html, a page in
which one zooms and reads over a packet why it took so long; and with --capture
the frames that come through the link, at their moments, as .pcap, or all
frames, each with what happened to it, as .pcapng.

Of the folder of a net it tells of each way and each path, hop by hop, and
whether each packet that a link delivered came to the next one, once and in
order; the exit status is 1 if one isn't accounted for. With --model it judges
operations of clients as `hinge check` does, and draws the fewest that have no
order, behind the faults of a net or a failure that is named second. --diff
tells the first call at which two histories part; the exit status is 1 if they
differ."""
EXAMPLE = """\
hinge look session.history -o session.png
  hinge look packets.csv report.csv --config dsl.config -o dsl.html --csv
  hinge look packets.csv report.csv --capture all.pcap --index i.csv -o far.pcap
  hinge look session -o net.png                          (the folder of a net)"""
MOST_REPORTS = 4


def command_line() -> LookOptions:
    parser = new_parser(
        WHAT, EXAMPLE, f"0 done, 1 histories differ or a net isn't lawful between its links, {STATUSES.partition(', ')[2]}"
    )
    add_source(
        parser,
        "(HISTORY | PACKETS REPORT .. | FOLDER | OPS ..)",
        told=f"{SOURCE}; the folder of hinge net --transcripts, or its history with its summary; or operations, and the file of their faults",
    )
    add(parser, "-o FILE", "the file to write, by its ending", type=file_of(*Format), action="append", default=[])
    parser.add_argument("--csv", action="store_true", help="print the table as CSV, with times in whole ns")
    parser.add_argument("--json", metavar="FILE", help="the table or the difference for a program, with all figures in whole ns")
    parser.add_argument(
        "--diff", action="store_true", help="tell the first call at which two histories part, in place of the table"
    )
    add_flows(parser, 10**6, None, f"{TABLE_FLOWS}, and {PICTURE_FLOWS} in a picture")
    add(parser, "--step MS", "ms of a step of throughput and drops (default: by the length)", type=bounded(1, 10**9))
    parser.add_argument("--title", type=lines, default="", help="what stands above a picture")
    parser.add_argument("--capture", metavar="FILE", help="the capture of the packet file, for .pcap and .pcapng")
    parser.add_argument("--index", metavar="FILE", help="the frame of each row, which hinge packets --index wrote")
    parser.add_argument("--model", choices=MODEL_NAMES, help="the source lists operations on such a thing, as of hinge check")
    add(
        parser,
        "--end MS",
        "of a net: what a host got so shortly before the end may still be there (100)",
        type=bounded(0, 10**6),
        default=100,
    )
    parser.needs("--title --step --model", "-o")
    parser.yields("--by --top", "--diff")
    parser.yields("--config --csv --json --diff --by --top --step --capture --index --end", "--model")
    options = LookOptions(**vars(parser.parse_intermixed_args()))
    refuse_mixed(parser, options)
    return options


def refuse_mixed(parser: Parser, options: LookOptions) -> None:
    """Refuses options that don't go together, and ends the process."""
    if options.model and len(options.files(*PICTURES)) < len(options.o):
        parser.error("--model draws -o FILE.png, FILE.svg or FILE.pdf")
    if options.model and len(options.source) > 2:
        parser.error("--model takes a file of operations, and a net or a failure with the faults")
    if "--end" in parser.given and not is_net(options):
        parser.error("--end does nothing without a net")
    last = options.source[-1]
    if options.csv and options.source[1:] and last.endswith(".csv") and not os.path.exists(last):
        parser.error(f"--csv prints the table; write --csv > {shlex.quote(last)}")
    if options.diff and len(options.source) != 2:
        parser.error("--diff takes two histories")
    if options.diff and (options.o or options.config or options.csv):
        parser.error("--diff goes with --json alone")
    needs_of_capture = (bool(options.files(*CAPTURES)), options.capture is not None, options.index is not None)
    if any(needs_of_capture) and not all(needs_of_capture):
        parser.error("--capture, --index and -o FILE.pcap or FILE.pcapng go together")
    several = len(options.source) > 2 and not options.diff
    if len(options.source) > 1 + MOST_REPORTS:
        parser.error("a packet file has up to four reports")
    if several and (options.csv or options.json or options.files(Format.PAGE, *CAPTURES)):
        parser.error("of several reports there are pictures and tables to read: -o FILE.png, FILE.svg or FILE.pdf")


def is_net(options: LookOptions) -> bool:
    """Returns whether the source is a net: a folder, or a history with a summary."""
    from hinge.replays.record_lines import is_history_file  # not at the top, because a help must not wait for this module

    first, *others = options.source
    if os.path.isdir(first):
        return True
    has_summary = len(others) == 1 and others[0].endswith(".json")
    return has_summary and not options.diff and is_history_file(first)


def look_at_ways(options: LookOptions, fault: Fault) -> None:
    """Prints a net's table, a row for each way (one direction of a link), without numpy. Fault: always, since the hosts and paths
    need numpy."""
    from hinge.paths.folder import session_of
    from hinge.replays.looked import look

    history = session_of(*options.source).files[:1]
    look(LookOptions(**vars(options) | {"source": history, "by": "target"}), MOST_REPORTS)
    raise Fault(f"the hosts, the paths and the check between links: {fault}", MISSING)


def main() -> None:
    options = command_line()
    # The modules below aren't loaded at the top, because a help must not wait for them.
    if options.diff:
        from hinge.replays.looked import tell_difference

        one, other = options.source
        tell_difference(one, other, options.json)
    elif options.model:
        from hinge.pictures.operations import look_at_operations

        sys.exit(look_at_operations(options, *options.source))
    elif is_net(options):
        try:
            numpy()
        except Fault as fault:
            look_at_ways(options, fault)
        from hinge.paths.looked import look_at_net

        look_at_net(options, *options.source)
    else:
        from hinge.replays.looked import look

        look(options, MOST_REPORTS)
