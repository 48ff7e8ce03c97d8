"""The example of dn_service's README under "Why not one mutex": two calls under one mutex share no fact, and under one guard they do.

    python3 tools/gate/one_mutex.py

The prover has to leave the one goal open that the page names, and to prove the same two calls under one guard. RT is the command that checks,
`rt` without it.
"""

import os
import re
import shlex
from pathlib import Path

from tally import TOP, Tally, judge, ran

PAGE = TOP / "crates" / "dn_service" / "README.md"
HEAD = """//! Two calls under one mutex.
#![tactic(auto)]
ghost use Rattle.std.specs.Prelude.{◌≡◌, ◌≤◌};

"""
PROVED = re.compile(r"^fn one_mutex::(\w+): proved", re.M)
REFUSED = re.compile(r"^fn one_mutex::(\w+): no(?:t| proof)", re.M)
OPEN = re.compile(r"must prove: record \{later : (.*)\}$", re.M)


def checked(text: str, place: Path) -> str:
    """Returns the output of a check of a crate with this text."""
    crate = place / "crates" / "one_mutex"
    (crate / "src").mkdir(parents=True)
    (crate / "src" / "lib.rt").write_text(HEAD + text)
    (place / "crates.txt").write_text("one_mutex:\n")
    (place / "HANDLES").write_text((TOP / "HANDLES").read_text())
    return ran(*shlex.split(os.environ.get("RT", "rt")), "check", cwd=crate, errors="replace").stdout


def main(tally: Tally) -> None:
    page = PAGE.read_text()
    section = page.partition("## Why not one mutex\n")[2].partition("\n## ")[0]
    block = re.search(r"^```rust\n(.*?)^```$", section, re.M | re.S)
    goal = re.search(r"stays open: `(.*)`\.", section)
    told = checked(block[1] if block else "", tally.place)
    tally.equal("two calls under one mutex", ["two_calls"], REFUSED.findall(told))
    tally.equal("two calls under one guard", True, "two_calls_at_once" in PROVED.findall(told))
    tally.equal("the goal that stays open", [goal[1] if goal else "a goal on the page"], OPEN.findall(told))
    if tally.failed:
        print(told)


if __name__ == "__main__":
    judge(main)
