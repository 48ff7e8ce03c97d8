"""Libraries over simulated links, unchanged: whether each runs, and whether one seed gives one history.

    python3 tools/libraries [--seeds 200] [LIBRARY..]

Each library's test runs by each seed in two processes, which have other hash seeds. Their histories have to be equal, byte for byte.
The calls of a table then run alike (`calls.py`): each is exact, refused or told as real, and none hangs. A line names the libraries
that the machine lacks. The last line is `N passed, M failed`.
"""

import argparse
import os
import re
import resource
import subprocess
import sys
from functools import lru_cache
from pathlib import Path
from tempfile import TemporaryDirectory
from typing import NamedTuple

HERE = Path(__file__).resolve().parent
sys.path.insert(0, str(HERE.parent / "gate"))

from c_library import library  # noqa: E402
from calls import ROWS, fault_of  # noqa: E402
from pytests import interpreter as python  # noqa: E402
from tally import TOP, Tally, judge  # noqa: E402

SEEDS = 200
HASH_SEEDS = ("1", "77")
LAST = re.compile(r"(\d+) passed")
TEST = re.compile(r"^(?:async )?def test_", re.M)
MOMENT = re.compile(r"^c,0,\w+,(?:.*,)?(\d+)$", re.M)
NS = 10**9


class Ran(NamedTuple):
    """The result of a process: its output, status, number of passed tests, processor seconds, and histories."""

    text: str
    status: int
    passed: int
    took: float
    histories: dict[str, bytes]

    @property
    def simulated(self) -> float:
        """Returns the simulated seconds of all its tests."""
        return sum(int((MOMENT.findall(text.decode()) or ["0"])[-1]) for text in self.histories.values()) / NS


@lru_cache(maxsize=None)
def environment() -> dict[str, str]:
    """Returns the environment that names the present sources' module and library, unless others are named."""
    more = {
        "PYTHONPATH": os.pathsep.join([str(TOP / "python"), *filter(None, [os.environ.get("PYTHONPATH")])]),
        "PYTHONDONTWRITEBYTECODE": "1",
        "PYTEST_DISABLE_PLUGIN_AUTOLOAD": "1",
    }
    if "HINGETULIP_LIBRARY" not in os.environ:
        more["HINGETULIP_LIBRARY"] = f"{library().parent}/libhingetulip.so.1"
    return {**os.environ, **more}


def ran(interpreter: str, file: Path, seeds: int, hash_seed: str) -> Ran:
    with TemporaryDirectory() as folder:
        plugins = ["-p", "hinge.pytest_plugin", "-p", "no:cacheprovider"]
        options = ["-q", "-rs", *plugins, f"--basetemp={folder}/run", f"--seeds={seeds}"]
        env = {**environment(), "PYTHONHASHSEED": hash_seed}
        begun = resource.getrusage(resource.RUSAGE_CHILDREN).ru_utime
        done = subprocess.run([interpreter, "-m", "pytest", *options, str(file)], cwd=HERE, env=env, capture_output=True, text=True)
        took = resource.getrusage(resource.RUSAGE_CHILDREN).ru_utime - begun
        found = LAST.search(done.stdout)
        histories = {str(it.relative_to(folder)): it.read_bytes() for it in Path(folder).rglob("*.history")}
        return Ran(done.stdout + done.stderr, done.returncode, int(found[1]) if found else 0, took, histories)


def tried(tally: Tally, interpreter: str, file: Path, seeds: int) -> None:
    """Runs a library's test in two processes, and prints its table line."""
    name = file.stem.removeprefix("test_")
    first, again = (ran(interpreter, file, seeds, hash_seed) for hash_seed in HASH_SEEDS)
    lacks = re.search(r"^SKIPPED .*: (.*)$", first.text, re.M)
    if lacks:
        print(f"{name}: skipped, since there is {lacks[1]}")
        return
    equal = sum(again.histories.get(name) == text for name, text in first.histories.items())
    print(
        f"{name}: {first.passed} tests of {seeds} seeds passed, {equal} histories equal, {first.simulated:,.0f} simulated s in "
        f"{first.took:.1f} s of processor time",
        flush=True,
    )
    wanted = seeds * len(TEST.findall(file.read_text(encoding="utf-8")))
    tally.note(
        f"{name}, tests that passed",
        "" if first.passed == wanted and not first.status else first.text,
        "" if again.passed == wanted and not again.status else again.text,
    )
    count = max(seeds, len(first.histories))
    tally.note(f"{name}, two processes", "" if equal == count else f"{equal} of {count} histories are equal")


def tried_calls(tally: Tally, interpreter: str, libraries: list[str]) -> None:
    """Tries the calls of the table, and prints the libraries that the machine lacks."""
    lacking = []
    for row in ROWS:
        if not libraries or row.package in libraries:
            fault = fault_of(interpreter, row, environment())
            if fault is None:
                lacking.append(f"python3-{row.package}")
            else:
                tally.note(f"{row.package}, {row.outcome}", fault)
    if lacking:
        print(f"not tried, since the machine lacks them: {', '.join(dict.fromkeys(lacking))}")


def main(tally: Tally, *words: str) -> None:
    parser = argparse.ArgumentParser(description=(__doc__ or "").partition("\n")[0])
    parser.add_argument("libraries", nargs="*", metavar="LIBRARY", help="as zeroconf; all if none is given")
    parser.add_argument("--seeds", type=int, default=SEEDS, metavar="N", help=f"seeds 1 to N (default: {SEEDS})")
    options = parser.parse_args(words)
    interpreter = python()
    if interpreter is None:
        print("libraries in simulated time: skipped, since no Python has pytest: apt-get install python3-pytest")
        return
    for file in sorted(HERE.glob("test_*.py")):
        if not options.libraries or file.stem.removeprefix("test_") in options.libraries:
            tried(tally, interpreter, file, options.seeds)
    tried_calls(tally, interpreter, options.libraries)


if __name__ == "__main__":
    judge(main)
