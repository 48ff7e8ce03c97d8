"""Tries the edits of a crate, as many in one check as there are of different functions.

A contract is all that a caller knows of a function, so what the prover says of one doesn't depend on the bodies of
others. What a check says of a function decides the edit of it, if it is a promise. Whatever isn't decided so is tried
again with fewer beside it, and in the end alone. An edit that its own function passes is tried over the whole crate.
"""

from __future__ import annotations

from collections.abc import Callable
from pathlib import Path

from edits.edit import BadEdit, Edit
from edits.prover import CRATES, Checked, Room
from edits.source import module_of
from edits.verdict import DECIDED, Verdict, verdict_of

UNKNOWN_PATH = 2  # the prover's status if a name fits no function, or several


class NotProved(Exception):
    """Raised for a crate whose unchanged sources aren't proved, so that a refusal means nothing."""


class Trial:
    """The trial of a crate's edits, with the results so far."""

    def __init__(self, crate: str, place: Path) -> None:
        self.folder, self.room = CRATES / crate, Room(crate, place)
        self.found: dict[str, Verdict] = {}
        self.checks = 0
        self.asked: Callable[[list[Edit]], list[str]] = names

    def check(self, edits: list[Edit], only: list[str]) -> Checked:
        files = {pair.file for edit in edits for pair in edit.pairs}
        texts = {file: (self.folder / file).read_text() for file in files}
        for edit in edits:
            texts = edit.applied(texts)
        self.checks += 1
        return self.room.check(texts, only)

    def all(self, edits: list[Edit]) -> None:
        good = [edit for edit in edits if self.can_be_applied(edit)]
        bodies = [edit for edit in good if edit.functions]
        if bodies:
            self.prove_as_they_are(bodies)
        for batch in batches(bodies):
            self.together(batch)
        for edit in good:
            if not edit.functions:
                self.by_module(edit)

    def can_be_applied(self, edit: Edit) -> bool:
        try:
            texts = {pair.file: (self.folder / pair.file).read_text() for pair in edit.pairs}
            if edit.applied(texts) == texts:
                raise BadEdit("it changes nothing, or names no file")
            return True
        except BadEdit as bad:
            self.found[edit.name] = Verdict("bad", "", str(bad))
            return False

    def prove_as_they_are(self, edits: list[Edit]) -> None:
        """Proves the unchanged functions first. They are selected by name, or by module or all together if the prover finds none or
        several with a name."""
        for self.asked in (names, modules, nothing):
            checked = self.check([], self.asked(edits))
            if checked.status != UNKNOWN_PATH:
                break
        if checked.status != 0:
            raise NotProved(checked.text[-2000:])

    def together(self, edits: list[Edit]) -> None:
        checked = self.check(edits, self.asked(edits))
        if len(edits) == 1:
            self.found[edits[0].name] = self.alone(edits[0], checked)
            return
        told = {edit.name: verdict_of(edit.functions, checked.text, self.folder) for edit in edits}
        decided = {name: verdict for name, verdict in told.items() if verdict and verdict.kind in DECIDED}
        self.found.update(decided if checked.has_verdict() else {})
        rest = [edit for edit in edits if edit.name not in self.found]
        half = len(rest) if len(rest) < len(edits) else (len(rest) + 1) // 2
        for part in (rest[:half], rest[half:]):
            if part:
                self.together(part)

    def alone(self, edit: Edit, checked: Checked) -> Verdict:
        """Returns the verdict on an edit that was alone in a check."""
        if not checked.has_verdict():
            return Verdict("bad", "", unread(checked))
        verdict = verdict_of(edit.functions, checked.text, self.folder)
        return verdict or self.by_the_whole(edit)

    def by_the_whole(self, edit: Edit) -> Verdict:
        """Returns the verdict of a whole check, in which another function may refuse the edit."""
        checked = self.check([edit], [])
        if checked.status == 0:
            return Verdict("unrefused", "", "")
        return verdict_of(frozenset(), checked.text, self.folder) or Verdict("bad", "", unread(checked))

    def by_module(self, edit: Edit) -> None:
        """Tries an edit of more than bodies over the modules that it changes, and if these pass, over the crate."""
        checked = self.check([edit], modules([edit]))
        verdict = verdict_of(frozenset(), checked.text, self.folder) if checked.has_verdict() else None
        self.found[edit.name] = verdict or self.by_the_whole(edit)


def unread(checked: Checked) -> str:
    """The first line by which a check without a verdict says why."""
    lines = [line for line in checked.text.splitlines() if "error" in line]
    return (lines or [f"the check ended with status {checked.status}"])[0][:200]


def names(edits: list[Edit]) -> list[str]:
    """The functions that edits change."""
    return sorted({str(function) for edit in edits for function in edit.functions})


def modules(edits: list[Edit]) -> list[str]:
    """Returns the modules that edits change; none if the crate's root is among them."""
    found = {"::".join(module_of(pair.file)) for edit in edits for pair in edit.pairs}
    return [] if "" in found else sorted(found)


def nothing(edits: list[Edit]) -> list[str]:
    """Returns no name, which selects the whole crate."""
    return []


def batches(edits: list[Edit]) -> list[list[Edit]]:
    """The edits in as few groups as hold no two that meet."""
    groups: list[list[Edit]] = []
    for edit in edits:
        group = next((group for group in groups if not any(meet(edit, other) for other in group)), None)
        if group is None:
            groups.append([edit])
        else:
            group.append(edit)
    return groups


def meet(one: Edit, other: Edit) -> bool:
    """Returns whether two edits change the same function, or one changes text that the other needs."""
    pairs = [(mine, its) for mine in one.pairs for its in other.pairs if mine.file == its.file]
    sought = any(
        mine.old in theirs or its.old in ours for mine, its in pairs for theirs, ours in ((its.old, mine.old), (its.new, mine.new))
    )
    return sought or bool(one.functions & other.functions)
