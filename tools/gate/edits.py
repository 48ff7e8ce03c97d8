"""Tries the edits that the prover must refuse and that `rt ci` leaves to this: those of crates/NAME/edits.

    python3 tools/gate/edits.py [--built] [--anew] [CRATE ..] [CRATE/EDIT ..]

Edits of different functions are tried in one check. The verdict on each names the function and the goal that refused
it. One that isn't refused, can't be read, or is refused only since a proof file names what is gone or only by a limit
counts as failed. One that is refused only for its safety is told as such. Of a named crate the edits of must-fail/ are
tried too.

Verdicts are kept between runs on a machine; --anew tries all. The libraries below a crate are built first, where they
have changed. With --built they are taken as `rt ci` has just left them, in a clone in which nothing else was built.
"""

import resource
import time
from collections import Counter
from concurrent.futures import ThreadPoolExecutor
from pathlib import Path
from tempfile import TemporaryDirectory
from typing import NamedTuple

from machine import lanes
from tally import Tally, judge

from edits.edit import BOTH, OURS, Edit, edits_of
from edits.kept import Kept
from edits.prover import CRATES, PARTS, below, build_below, listed, rlib, sum_of
from edits.trial import NotProved, Trial
from edits.verdict import FAILS, Verdict


class Asked(NamedTuple):
    """A crate and its edits to try."""

    crate: str
    edits: list[Edit]


class Outcome(NamedTuple):
    """The results of a crate's edits, or the reason why they weren't tried."""

    asked: Asked
    verdicts: dict[str, Verdict]
    note: str


def asked_for(words: list[str]) -> list[Asked]:
    """Returns all crates with edits, or the named ones, the largest first."""
    found = []
    for crate in listed():
        edits = edits_of(CRATES / crate, BOTH if words else OURS)
        if words and crate not in words:
            edits = [edit for edit in edits if f"{crate}/{edit.name}" in words]
        if edits:
            found.append(Asked(crate, edits))
    return sorted(found, key=lambda one: -size_of(one.crate))


def size_of(crate: str) -> int:
    """Returns the bytes of a crate's sources and proofs."""
    return sum(path.stat().st_size for part in PARTS for path in (CRATES / crate / part).rglob("*.*t"))


def tried(asked: Asked, is_anew: bool) -> Outcome:
    lacking = [name for name in below(asked.crate) if not rlib(name).is_dir()]
    if lacking:
        return Outcome(asked, {}, f"{lacking[0]} below it isn't built")
    kept, begun = Kept(sum_of(asked.crate)), time.monotonic()
    old = {} if is_anew else {edit.name: verdict for edit in asked.edits if (verdict := kept.get(edit))}
    new = [edit for edit in asked.edits if edit.name not in old]
    with TemporaryDirectory(prefix="edits-") as place:
        trial = Trial(asked.crate, Path(place))
        try:
            trial.all(new)
        except NotProved as why:
            return Outcome(asked, {}, f"it isn't proved as it is:\n{why}")
    for edit in new:
        if trial.found[edit.name].kind != "bad":  # which may be for want of memory
            kept.put(edit, trial.found[edit.name])
    note = f"{len(new)} of {len(asked.edits)} tried, in {trial.checks} checks, {time.monotonic() - begun:.0f} s"
    return Outcome(asked, {**old, **trial.found}, note)


def tell(outcome: Outcome, tally: Tally, kinds: "Counter[str]") -> None:
    crate, edits = outcome.asked
    print(f"== {crate}: {outcome.note}", flush=True)
    for edit in edits:
        verdict = outcome.verdicts.get(edit.name)
        kinds[verdict.kind if verdict else "untried"] += 1
        line = verdict.line(f"{crate}/{edit.name}") if verdict else f"edit {crate}/{edit.name}: not tried"
        if verdict and verdict.kind not in FAILS:
            print(line)
            tally.passed += 1
        else:
            tally.note(line, "failed")


def main(tally: Tally, *words: str) -> None:
    names = [word for word in words if not word.startswith("--")]
    asked, kinds = asked_for(names), Counter[str]()
    found = {one.crate for one in asked} | {f"{one.crate}/{edit.name}" for one in asked for edit in one.edits}
    for name in names:
        if name not in found:
            tally.note(name, "no crate with edits and no edit has this name")
    build_below((one.crate for one in asked), "--built" in words)
    with ThreadPoolExecutor(lanes()) as pool:
        for outcome in pool.map(lambda one: tried(one, "--anew" in words), asked):
            tell(outcome, tally, kinds)
    used = resource.getrusage(resource.RUSAGE_CHILDREN)
    told = " ".join(f"{kind}={count}" for kind, count in sorted(kinds.items()))
    print(f"{used.ru_utime + used.ru_stime:.0f} s of a processor; {told}")


if __name__ == "__main__":
    judge(main)
