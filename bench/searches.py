"""What a fault costs by a search, and by runs of the program itself:

    python3 bench/searches.py SEEDS RUNS COMMAND..

For each command, which fails by another status than 0 or after 5 s: the seeds by `drawn` that fail and a seed's seconds of a processor, and the same of
native runs; then the seconds to a failure by both, for the table of docs/inside/PERFORMANCE.md.
"""

import re
import resource
import shlex
import subprocess
import sys
from pathlib import Path
from typing import NamedTuple

sys.path.insert(0, str(Path(__file__).resolve().parents[1] / "python"))
from hinge.searches.runs import Runner, SearchSettings  # noqa: E402

QUIET = {"stdin": subprocess.DEVNULL, "stdout": subprocess.DEVNULL, "stderr": subprocess.DEVNULL}


class Price(NamedTuple):
    failed: int
    of: int
    seconds: float  # of a processor, of all

    def told(self) -> str:
        to_one = f"{self.seconds / self.failed:.2f} s" if self.failed else f"over {self.seconds:.2f} s"
        return f"{self.failed} of {self.of:,} | {self.seconds / self.of * 1e3:.1f} ms | {to_one}"


def used() -> float:
    usages = [resource.getrusage(who) for who in (resource.RUSAGE_SELF, resource.RUSAGE_CHILDREN)]
    return sum(usage.ru_utime + usage.ru_stime for usage in usages)


def searched(words: "list[str]", seeds: int) -> Price:
    """As `hinge search run` makes its runs, without the shrinking."""
    runner = Runner(SearchSettings(["run"], "drawn", None, "1h", words))
    before = used()
    return Price(sum(runner.run(["run"], seed, "drawn").failed for seed in range(1, seeds + 1)), seeds, used() - before)


def fails(words: "list[str]") -> bool:
    try:
        return subprocess.run(words, timeout=5, **QUIET).returncode != 0
    except subprocess.TimeoutExpired:
        return True


def run(words: "list[str]", runs: int) -> Price:
    before = used()
    return Price(sum(fails(words) for _ in range(runs)), runs, used() - before)


def main() -> None:
    seeds, runs = map(int, sys.argv[1:3])
    for command in sys.argv[3:]:
        words = shlex.split(command)
        print(f"| `{re.sub('.*/', '', words[-1])}` | {searched(words, seeds).told()} | {run(words, runs).told()} |", flush=True)


main()
