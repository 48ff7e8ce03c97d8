"""Which functions of a crate are dear to prove, and whether by search or by their walk.

    rm -rf out/incremental && rt check --jobs 1    (in the crate's folder: the whole crate, by one job)
    python3 tools/gate/proof_times.py CRATE|FOLDER [SECONDS]

The check leaves a file for each part of a function's proof, and what passed since the file before it is the part's
time. Functions of so many seconds or more are told, 2 without a number: all seconds, those of search, the function.
Search is `Proof`, the goals without an answer, and `Answers`, those with one. No answer makes the other parts shorter.
"""

import re
import sys
from collections.abc import Iterable
from itertools import pairwise
from pathlib import Path
from typing import NamedTuple, Optional

CRATES = Path(__file__).resolve().parent.parent.parent / "crates"
FILE = re.compile(r"Rattle-\w+-proofs\.(.+?)\.([A-Z][A-Za-z]*)(?:\.Mir)?(?:\.decls)?\.oantt")
PARTS = {
    *"Answers Code Given Goals Invariants Key Kinds Layout Lts Met Named Proof Reads Statement Symbol TheLaws TheLink Tie View".split()
}
SEARCH = {"Answers", "Proof"}


class Times(NamedTuple):
    """The seconds of a function's proof, and the share of search."""

    function: str
    seconds: float
    search: float

    def line(self) -> str:
        return f"{self.seconds:8.1f}{self.search:8.1f}  {self.function}"


def part_of(name: str) -> "Optional[tuple[str, str]]":
    """Returns the function and the part of its proof for a file's name."""
    found = FILE.fullmatch(name)
    return (found[1].replace(".", "::"), found[2]) if found and found[2] in PARTS else None


def times(files: Iterable["tuple[float, str]"]) -> list[Times]:
    """Returns the times of each function from the moments and names of all files."""
    taken: dict[str, list[float]] = {}
    for (before, _), (done, name) in pairwise(sorted(files)):
        if part := part_of(name):
            row = taken.setdefault(part[0], [0.0, 0.0])
            row[0] += done - before
            row[1] += (done - before) if part[1] in SEARCH else 0.0
    rows = [Times(function, *row) for function, row in taken.items()]
    return sorted(rows, key=lambda one: (-one.seconds, one.function))


def main(words: list[str]) -> int:
    if not 1 <= len(words) <= 2:
        print(__doc__)
        return 2
    folder = Path(words[0]) if Path(words[0]).is_dir() else CRATES / words[0] / "out" / "incremental"
    least = float(words[1]) if len(words) == 2 else 2.0
    rows = times((path.stat().st_mtime, path.name) for path in folder.rglob("*.oantt"))
    if not rows:
        print(f"no check has left its files in {folder}")
        return 1
    print(f"{'seconds':>8}{'search':>8}")
    for row in rows:
        if row.seconds >= least:
            print(row.line())
    print(Times("all functions", sum(row.seconds for row in rows), sum(row.search for row in rows)).line())
    return 0


if __name__ == "__main__":
    sys.exit(main(sys.argv[1:]))
