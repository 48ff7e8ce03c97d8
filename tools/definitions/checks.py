"""Tries the checker itself: small texts with known meanings, faulty ones, and a history with one reply changed."""

import sys
from collections.abc import Callable
from pathlib import Path
from random import Random

from commands import NotCanonical, command, loss
from draw import session
from emulator import Emulator, texts
from evaluator import Definitions
from parser import Parser
from records import BadRecord, Entry, call_of, read_history
from source import read
from tokens import NotUnderstood, tokens
from values import Data, apply, data, to_list

sys.path.insert(0, str(Path(__file__).resolve().parent.parent / "gate"))

from tally import Tally  # noqa: E402

# A word without its import, and a function without a case.
SMALL = """use Rattle.std.specs.Prelude.{ℕ, zero, List}

abbrev pub misnamed : ℕ → ℕ
misnamed n = filter n

abbrev pub least : List ℕ → ℕ
least [] = 0
"""
PIPE = "c,0,configure,pipe 1 config bw 8000000bit/s"
SUBMIT = "c,0,submit,pipe,1,10.0.0.1,10.0.0.2,17,1,2,1000,5,0"
RIGHT = [
    Entry(PIPE, ["r,configured"]),
    Entry(SUBMIT, ["r,queued,0,0,0"]),
    Entry("c,0,collect,999999", ["r,delivered,999999,0"]),
    Entry("c,1,collect,1000000", ["r,delivered,1000000,1", "d,0,0,0,1000000"]),
    Entry("c,0,advance,5", ["r,advanced,1000000"]),
]
FAULTY = ["f = (a", "f = a)", "f (a = b", "f = record { a = 1 b = 2 }", "f = elim a [ ]", "f = let a in b", "f = λ . a", "f = "]
NO_HISTORIES = [
    "",
    "dummynet-history,9\nend,0\n",
    f"dummynet-live,1\n{PIPE}\nr,configured\nend,2\n",
    "dummynet-live,1\nr,configured\nend,0\n",
]


def refused(kind: type[Exception], run: Callable[[], object]) -> bool:
    try:
        run()
    except kind:
        return True
    return False


def reading(tally: Tally) -> None:
    """Checks that an unknown text is refused. Whether known texts give the program's replies is checked by `gate`."""
    tally.equal("a sign that isn't in the language", True, refused(NotUnderstood, lambda: tokens("a ? b")))
    for text in FAULTY:
        tally.equal(f"'{text}' is refused", True, refused(NotUnderstood, lambda: Parser(text).equation()))
    tally.equal("a line that is nothing is refused", True, refused(NotUnderstood, lambda: read("hello there\n", {})))
    small = Definitions({"Small": read(SMALL, {})})
    for name, given in (("misnamed", 1), ("least", data("None"))):
        tally.equal(f"'{name}' is refused", True, refused(NotUnderstood, lambda: apply(small.value("Small", name), given)))
    tally.equal(
        "equal lists are one, and others aren't",
        (True, False),
        (to_list([1, 2]) is to_list([1, 2]), to_list([1, 2]) is to_list([2, 1])),
    )


def histories(tally: Tally) -> None:
    tally.equal("loss rates", [0, 2**30, 2**31, 214748364], [loss(text) for text in ("0", "0.5", "1", "0.1")])
    queue = command("queue 1 config pipe 2")
    tally.equal("a default limit", data("Limit.Slots", 50), queue.parts[3] if isinstance(queue, Data) else queue)
    for text in ("pipe 1 config bw 8Mbit/s", "pipe 1", "pipe 1 config queue 5 bw 1bit/s", "queue delete"):
        tally.equal(f"'{text}' isn't canonical", True, refused(NotCanonical, lambda: command(text)))
    for line in ("c,0,collect", "c,0,show,1", "c,0,collect,x", SUBMIT + ",1", SUBMIT.replace("10.0.0.1", "10.0.0.256")):
        tally.equal(f"'{line}' is no call", True, refused(BadRecord, lambda: call_of(line)))
    for text in NO_HISTORIES:
        tally.equal(f"{text!r} is no history", True, refused(BadRecord, lambda: read_history(text)))
    emulator = Emulator(texts())
    tally.equal("a right history", None, emulator.difference("Ordered", RIGHT))
    for place, entry in enumerate(RIGHT):
        for number, told in enumerate(entry.reply):
            other = [*entry.reply[:number], told[:-1] + "7", *entry.reply[number + 1 :]]
            difference = emulator.difference("Ordered", [*RIGHT[:place], Entry(entry.call, other), *RIGHT[place + 1 :]])
            tally.equal(f"'{told}' changed", place, difference.place if difference else None)
    first, again, other = (session(Random(seed), 40) for seed in (1, 1, 2))
    tally.equal("a session by its seed", (True, False), (first == again, first == other))
    ends = [emulator.is_in_range(f"c,0,advance,{moment}") for moment in (2**62, 2**62 + 1)]
    tally.equal("calls in range", [True, False], ends)


def all_of(tally: Tally) -> None:
    reading(tally)
    histories(tally)


def main() -> int:
    tally = Tally()
    all_of(tally)
    return tally.end()
