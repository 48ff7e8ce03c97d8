"""The content of dn_types' definitions: replies, lawful histories, and the ranges of calls."""

from collections.abc import Sequence
from pathlib import Path
from typing import NamedTuple, Optional

from evaluator import Definitions
from records import Entry, call_of, caller_of, reply_records
from source import declared, read
from values import NIL, Data, Value, apply, data, record, to_list

CALLERS = range(16)
CRATE = Path(__file__).resolve().parents[2] / "crates" / "dn_types"


class Difference(NamedTuple):
    """The first entry in which the definitions say other things than the program: its place, and what."""

    place: int
    what: str


def texts() -> dict[str, str]:
    """Returns the texts of the specs by file name."""
    return {path.stem: path.read_text() for path in sorted((CRATE / "specs").glob("*.antt"))}


class Emulator:
    """The emulator defined by these texts."""

    def __init__(self, of: dict[str, str]) -> None:
        types = declared(CRATE / "src")
        self.definitions = Definitions({name: read(text, types) for name, text in of.items()})

    def difference(self, rule: str, entries: Sequence[Entry]) -> Optional[Difference]:
        """Makes the calls of a history; returns the first wrong reply or out-of-range call.

        The definitions of whole histories must agree: a history with only right replies is lawful.
        """
        self.definitions.forget()
        reply = self.definitions.value("Replies", "reply")
        under = data(f"Rule.{rule}")
        calls = NIL
        history: list[Value] = []
        for place, entry in enumerate(entries):
            call = call_of(entry.call)
            answer = apply(reply, under, calls, call)
            told = reply_records(answer)
            if told != entry.reply:
                return Difference(place, f"{entry.call}: want {told}, got {entry.reply}")
            if not self.is_in_range(entry.call):
                return Difference(place, f"{entry.call}: out of range, and answered")
            calls = data("∷", call, calls)
            history.append(record({"caller": caller_of(entry.call), "call": call, "reply": answer}))
        return self.of_the_whole(under, calls, history)

    def of_the_whole(self, rule: Value, calls: Value, history: list[Value]) -> Optional[Difference]:
        """Returns a difference if the definitions of histories disagree with a history whose replies are right."""
        entries, value = to_list(history), self.definitions.value
        if not apply(value("History", "IsLawful"), rule, entries):
            return Difference(len(history) - 1, "each reply is right, and the history isn't lawful")
        if apply(value("History", "calls_of"), entries) is not calls:
            return Difference(len(history) - 1, "the calls of the history aren't those that were made, newest first")
        for caller in CALLERS:
            own = to_list([entry for entry in history if isinstance(entry, Data) and entry["caller"] == caller])
            if apply(value("History", "own_entries"), caller, entries) is not own:
                return Difference(len(history) - 1, f"the entries of the caller {caller} aren't those that it made")
        return None

    def is_in_range(self, line: str) -> bool:
        """Returns whether a record's call is in the ranges on which the bounds rest."""
        return bool(apply(self.definitions.value("Bounds", "IsInRange"), call_of(line)))
