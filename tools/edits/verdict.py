"""Why the prover refused an edit, read from the lines of a check.

  promise    a clause refused it, or an invariant of a type or of a loop that stands for it
  answer     a proof file no longer fits at a goal: look whether the goal is a promise or the name of a step
  safety     an overflow, an index, a measure or a callee's condition, which says nothing of the promise
  form       only because a proof file names what the edit took away
  limit      only by a limit of the prover
  unrefused  the crate is still proved
  bad        it can't be applied, or the prover can't read it
"""

from __future__ import annotations

import re
from pathlib import Path
from typing import NamedTuple, Optional

from edits.source import Function, function_at

GOAL = re.compile(r"`([\w'\-]+)`")
TELLING = re.compile(r"returns|invariant|loop-.*preserved|overflow|.*requires|measure|.*falls")
SAFETY = re.compile(r"overflow|index|measure|division|cast|.*falls|.*requires")
GONE = re.compile(r"has no field|is not in scope|has no `|was not admitted")
LIMIT = re.compile(r"ran out of |outgrew the memory limit|stopped at the step limit")
PLACE = re.compile(r"(?:note: )?(?:\./)?((?:src|specs|proofs)/\S+?):(\d+):\d+: (.*)")
DECIDED = ("promise", "answer")
FAILS = ("form", "limit", "unrefused", "bad")
ONLY = {
    "safety": " only for its safety",
    "form": " only because a proof file names what is gone",
    "limit": " only by a limit of the prover",
}
ORDER = ("promise", "answer", "safety", "limit", "form")


class Verdict(NamedTuple):
    """The result of an edit: its kind, and the refusing function and goal, or the error."""

    kind: str
    where: str
    goal: str

    def line(self, name: str) -> str:
        if self.kind == "unrefused":
            return f"edit {name}: NOT REFUSED: the crate is still proved"
        if self.kind == "bad":
            return f"edit {name}: BAD EDIT: {self.goal}"
        return f"edit {name}: refused{ONLY.get(self.kind, '')}, {self.kind}: {self.where} at {self.goal}"


def goal_of(told: str) -> str:
    """Returns the goal in a line."""
    goals = GOAL.findall(told)
    return next(filter(TELLING.match, goals), goals[0] if goals else "?")


def kind_of(told: str) -> str:
    """Returns the kind of a refusal from one of its lines."""
    goal = goal_of(told)
    if LIMIT.search(told):
        return "limit"
    if SAFETY.match(goal):
        return "safety"
    if "proofs/" not in told:
        return "promise"
    return "form" if GONE.search(told) else "answer"


class Reason(NamedTuple):
    """A line with which the prover refused something: the place and the text."""

    file: str
    line: int
    text: str

    def of(self, crate: Path) -> str:
        """Returns the name of the function at the place."""
        if self.file.startswith("proofs/"):
            return "::".join(Path(self.file).parts[1:-1])
        function = function_at(crate, self.file, self.line) if self.file.startswith("src/") else None
        return "::".join(function.path) if function else self.file


def reasons(text: str) -> list[Reason]:
    """The lines of a check that say that something is not proved."""
    found = []
    for line in text.splitlines():
        at = PLACE.match(line)
        if at and (": error" in line or line.startswith("note: ") and "not proved" in line):
            found.append(Reason(at[1], int(at[2]), line))
    return found


def best(found: list[Reason], crate: Path) -> Optional[Verdict]:
    """The verdict by these lines: a promise before an answer, and so on."""
    told = sorted(((ORDER.index(kind_of(one.text)), place, one) for place, one in enumerate(found)))
    return Verdict(ORDER[told[0][0]], told[0][2].of(crate), goal_of(told[0][2].text)) if told else None


def verdict_of(functions: "frozenset[Function]", text: str, crate: Path) -> Optional[Verdict]:
    """Returns the verdict on an edit of these functions from their lines, or from all lines if there are no functions."""
    own = [one for one in reasons(text) if not functions or any(function.owns(one.of(crate)) for function in functions)]
    return best(own, crate)
