"""The command `hinge search`, which tries seeds of a run in simulated time, and shrinks the first failure."""

from __future__ import annotations

import os
import sys
from pathlib import Path
from typing import TYPE_CHECKING, NamedTuple, Optional

from hinge.arguments import bounded, seeds
from hinge.command import FILES, Fault, new_parser, say
from hinge.command_line import Parser, add
from hinge.outputs import refuse_inputs
from hinge.simulated.time_options import pauses_word

if TYPE_CHECKING:
    from hinge.searches.runs import SearchSettings

FAILURE = "failure.hinge"
WHAT = """\
Runs a net, or a command as `hinge run` does, in simulated time by many seeds,
each of which draws losses, the faults of a nemesis, and pauses. A run fails
where its program ends with another status than 0, by a signal, or not at all.
Then the first that fails is made small: faults, pauses and losses are left out
as long as it fails in the same way. What is
left goes into one file, by which `hinge run --like` or `hinge net --like`
repeats it, here or on another machine. ^C ends a
search with a table of the runs that were made. The status is 1 where a run
failed, and 76 where its failure doesn't come again."""
EXAMPLE = """\
hinge search store.net --seeds 1-200 --pauses drawn -o lost.hinge
  hinge search run --seeds 1-200 --link '10Mbit/s loss 1%' -- ./client"""


class SearchOptions(NamedTuple):
    """Describes a search: the net or command, and its runs. A dataclass would load too slowly for a help."""

    net: Optional[Path]  # None: a command
    words: list[str]  # `net FILE`, or `run` with its options
    command: list[str]  # the words behind --
    seeds: list[int]
    pauses: Optional[str]
    limit: Optional[str]
    real_limit: Optional[str]
    folder: Optional[Path]  # keeps the runs
    failure: Optional[Path]
    at_a_time: int

    @property
    def settings(self) -> SearchSettings:
        """Returns the settings that all runs share."""
        from hinge.searches.runs import SearchSettings

        return SearchSettings(self.words, self.pauses, self.real_limit, self.limit, self.command)


def options_parser() -> Parser:
    """Returns a parser for the command line before `--`."""
    parser = new_parser(
        WHAT, EXAMPLE, "0 no run failed, 1 one did, 2 a wrong word, 6 files or the system, 76 its failure doesn't come again"
    )
    parser.add_argument("file", metavar="FILE", type=Path, help="the net; or `run`, with options of `hinge run`")
    parser.add_argument("--seeds", type=seeds, default=list(range(1, 21)), help="as 1-5 or 1,7 (1-20)")
    parser.add_argument("--pauses", metavar="PAUSES", type=pauses_word, help="as of `hinge run --simulated`: `drawn`")
    parser.add_argument("--limit", metavar="TIME", help="a run that goes on after so much simulated time has failed (a day)")
    parser.add_argument("--real-limit", metavar="TIME", help="the same by real time, which depends on how busy the system is")
    parser.add_argument("--runs", metavar="FOLDER", type=Path, help="keeps the runs; one that is there isn't made again")
    parser.add_argument(
        "-o", metavar="FILE", type=Path, help="the least case that fails, for --like (failure.hinge, beside the net)"
    )
    add(parser, "-P N", "runs at a time (default: processors)", type=bounded(1, 1024), default=len(os.sched_getaffinity(0)))
    return parser


def command_line() -> SearchOptions:
    parser = options_parser()
    words = sys.argv[1:]
    end = words.index("--") if "--" in words else len(words)
    arguments, others = parser.parse_known_args(words[:end])
    net: Optional[Path] = None if str(arguments.file) == "run" else arguments.file
    if others and net is not None:
        parser.error(f"unrecognized arguments: {' '.join(others)}")
    folder = arguments.runs
    if folder and str(folder).isdecimal():
        parser.error(f"--runs names a folder; write --seeds 1-{folder} for as many runs, or ./{folder} for a folder")
    options = SearchOptions(
        net=net,
        words=["run", *others] if net is None else ["net", str(net.absolute())],
        command=words[end + 1 :],
        seeds=arguments.seeds,
        pauses=arguments.pauses,
        limit=arguments.limit,
        real_limit=arguments.real_limit,
        folder=folder,
        failure=arguments.o,
        at_a_time=arguments.P,
    )
    if net is None:
        refuse_run_options(options)
    return options


def refuse_run_options(options: SearchOptions) -> None:
    """Ends the process if `hinge run` refuses the options of a search's runs, so that no machine starts before."""
    from hinge.commands.run import options as parser_of_run
    from hinge.searches.runs import command_words

    words = command_words(options.settings, options.words, 1, options.pauses)
    parser_of_run().parse_args(["--json", "FILE", *words[1:]])  # refuses another --json, which each run would write anew


def failure_file(options: SearchOptions) -> Path:
    """Returns the path for the failure's file. Fault: the file isn't in the net's folder, which the net's commands use."""
    net = options.net
    if net is None:
        return options.failure or Path(FAILURE)
    file = options.failure or net.with_name(FAILURE)
    refuse_inputs([file], [net])
    if file.absolute().parent.resolve() != net.absolute().parent.resolve():
        raise Fault(f"{file}: a net's commands know its folder; name a file beside {net}", FILES)
    return file


def main() -> None:
    options = command_line()
    from hinge.border.scratch import scratch  # not at the top, because a help must not wait for these modules
    from hinge.searches.search import search
    from hinge.simulated.kernel import usable_kernel

    most = options.seeds[0]
    if len(options.seeds) == 1 and most > 1:
        say(f"--seeds {most} tries only this seed; write --seeds 1-{most} for {most:,} seeds")
    file = failure_file(options)
    with scratch() as place:
        usable_kernel()  # refuses a missing kernel before anything starts
        sys.exit(search(options.settings, options.seeds, options.at_a_time, file, options.folder or place))
