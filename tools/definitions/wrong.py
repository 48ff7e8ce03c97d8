"""Wrong definitions from tools/laws/wrong_definitions.py: their replies differ from the program's."""

import sys
from pathlib import Path
from typing import NamedTuple

from compare import Given, answered, first_difference, sessions
from emulator import Emulator, texts
from tokens import NotUnderstood

TOOLS = Path(__file__).resolve().parent.parent
sys.path[:0] = [str(TOOLS / "laws"), str(TOOLS / "gate")]

import wrong_definitions  # noqa: E402
from tally import Tally  # noqa: E402

# The sessions are the same in each run, so that a row that was seen is seen again.
SEED, CALLS = 14, 5000
SHARES = 4  # of the rows, of which a run of the gate tries one
# The rows that change no reply of these sessions, each with the reason.
UNSEEN = {
    "a busy period does not reset virtual time": "all tags of a period move by the same number",
    "the limit of calls is 2^61": "no session has so many calls",
}


class Row(NamedTuple):
    """A row: its mistake, and the changed specs."""

    wrong: str
    specs: dict[str, str]


class Seen(NamedTuple):
    """The calls that were made up to the first difference, or all of them, and that difference."""

    calls: int
    what: str


def row(number: int) -> Row:
    """Returns a row of wrong_definitions.py by its number, from 1."""
    wrong, files, right_texts, wrong_texts, _, _ = wrong_definitions.ROWS[number - 1]
    specs = texts()
    changes = zip(files, right_texts, wrong_texts) if isinstance(files, tuple) else [(files, right_texts, wrong_texts)]
    for file, right_text, wrong_text in changes:
        try:
            specs[file] = wrong_definitions.changed(specs[file], right_text, wrong_text)
        except SystemExit as why:  # which would end this thread without a word
            raise NotUnderstood(f"row {number}: {why}") from why
    return Row(wrong, specs)


def all_numbers() -> list[int]:
    """Returns the numbers of the rows that change only specs of dn_types."""
    specs, numbers = set(texts()), []
    for number, (_, files, *_) in enumerate(wrong_definitions.ROWS, 1):
        if specs.issuperset(files if isinstance(files, tuple) else (files,)):
            numbers.append(number)
    return numbers


def seen(tried: Row, given: Given) -> Seen:
    calls, difference = first_difference(Emulator(tried.specs), given)
    return Seen(calls, difference.what if difference else "")


def what_is_given(program: str) -> Given:
    return Given(list(sessions(program, SEED, CALLS)), answered(program))


def try_share(tally: Tally, given: Given, seed: int) -> None:
    """Checks that each row of a seed's share is seen, except the listed ones."""
    for number in all_numbers()[seed % SHARES :: SHARES]:
        tried = row(number)
        if tried.wrong not in UNSEEN:
            what = seen(tried, given).what
            tally.note(f"wrong definition {number}, {tried.wrong}", "" if what else "no reply differs")


def print_table(tally: Tally, program: str, numbers: list[int]) -> None:
    """All rows or some, each with the calls up to the first difference."""
    given = what_is_given(program)
    print("| Wrong definition | Seen at call |\n|---|---|")
    for number in numbers or all_numbers():
        tried = row(number)
        calls, what = seen(tried, given)
        why = UNSEEN.get(tried.wrong, "")
        unseen = f"changes no reply seen in {calls} calls{why and ': ' + why}"
        print(f"| {tried.wrong} | {calls if what else unseen} |", flush=True)
        is_as_listed = bool(what) != bool(why)
        tally.note(tried.wrong, "" if is_as_listed else "seen, and listed as unseen" if what else "no reply differs")
