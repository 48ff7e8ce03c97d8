"""Changes of the definitions, made mechanically from their text: an operator, a bound, a case, a field, a choice, each alone.

A change is of one place in an equation on which replies, lawful histories, a caller's entries or the ranges of calls rest. The second evaluator runs the changed
text over the sessions of wrong.py, and has to say something else than the program does. UNSEEN lists the changes of which it doesn't, each with the reason. A change that
makes no definition, as one of a field that a record hasn't, is none.
"""

import re
from collections import Counter
from collections.abc import Callable, Iterable, Iterator
from itertools import product
from typing import NamedTuple, Optional

from compare import Given, first_difference, told
from emulator import Emulator, texts
from records import read_history
from source import Spec
from tally import Tally
from tokens import NotUnderstood

SHARES = 32  # of the changes, of which a run of the gate tries one
ROOTS = ("Replies.reply", "History.IsLawful", "History.calls_of", "History.own_entries", "Bounds.IsInRange")
# What stands in the place of a sign, a word or a field: each has the type of what it replaces.
SIGNS = {"+": "-", "-": "+", "*": "+", "/": "*", "%": "/", "&&": "||", "||": "&&", "≤": "<", "<": "≤"}
NAMES = {"nat_lt": "nat_le", "nat_le": "nat_lt", "nat_eq": "nat_le", "max": "min", "min": "max", "take": "drop", "drop": "take"}
OTHER = {**{f" {sign} ": f" {other} " for sign, other in SIGNS.items()}, **NAMES, "true": "false", "false": "true", "⊤": "⊥"}
FIELDS = (
    ("src", "dst"), ("sport", "dport"), ("start_tag", "finish_tag"), ("moment", "transmission", "delay"), ("flow", "len", "weight"),
    ("flow", "packet"), ("start", "due"),
)  # fmt: skip
WORDS = "|".join(word for word in OTHER if word[0] != " ")
TOKEN = re.compile(
    rf'"[^"]+"| (?:\+|-|\*|/|%|&&|\|\||≤|<) |(?<![\w.\'])(?:{WORDS})(?![\w\'])|(?<![\w.\'^])\d+(?!\w)|\.[a-z_]+(?!\w)'
)
NAME = re.compile(r"[^\W\d]\w*")
# Calls that no drawn session has: a packet that is due at 0, a queue with exactly its limit in bytes, masks of each field between two others,
# transmissions at 1 bit/s and of a third of a nanosecond behind a whole one, and a busy period that begins as its link becomes free.
BYTES = ("configure,pipe 1 config bw 8000bit/s queue 1Kbytes",) + tuple(
    f"submit,pipe,1,10.0.0.1,10.0.0.2,17,1,2,{length},0,0" for length in (1000, 1024, 1, 1)
)
MASKS = ("src-ip 0x0000000", "dst-ip 0x0000000", "proto 0x0", "src-port 0x000", "dst-port 0x000")
EDGES = [
    *("configure,pipe 20 config", "submit,pipe,20,10.0.0.0,10.0.0.0,4,4,8,40,0,0", "collect,0"),
    *BYTES,
    *(
        call
        for number, (field, bits) in enumerate(product(MASKS, ((1, 3, 1), (3, 1, 3))), 2)
        for bit in bits
        for call in (f"configure,pipe {number} config mask {field}{bit}", f"submit,pipe,{number},10.0.0.0,10.0.0.0,4,4,8,40,0,0")
    ),
    *(
        call
        for number, length in ((1, 1), (3, 2))
        for call in (f"configure,pipe 4 config bw {number}bit/s", f"submit,pipe,4,10.0.0.0,10.0.0.0,4,4,{number},{length},0,0")
    ),
    "show",
    *(
        "configure,pipe 30 config bw 8000000bit/s",
        "configure,queue 1 config pipe 30",
        "configure,queue 2 config pipe 30 weight 100",
    ),
    *(
        f"submit,queue,{queue},10.0.0.0,10.0.0.0,4,4,8,{40 if queue == 2 else 1500},0,{moment}"
        for moment, queues in ((0, (2, 1, 2, 2)), (1_620_000, (2, 1, 2, 2, 2)))
        for queue in queues
    ),
    "collect,20000000000",
]
# The changes that no session shows, by definition and number, each with the reason.
FIRST_OPENS, ALL_MOVE = "a link's first packet begins a busy period", "all tags of a busy period move by the same number"
NO_TIE, CONFIGURED, ANY_ORDER = (
    "no two packets have one number",
    "a link's pipe is configured",
    "starts on other links change no reply",
)
TOO_LONG = ("Trace.flow_bound 3",)  # which looks through as many flows as a packet has bytes
UNSEEN = {
    "Calls.accept 1": "a length is at most 0 exactly if it is 0",
    "Calls.reaches 4": "nothing else is asked of a command that deletes nothing",
    **dict.fromkeys(
        ("Clock.call_limit 1", "Clock.call_limit 2", "Replies.reply 1"),
        "no session has so many calls; laws_of_replies has the limit",
    ),
    **dict.fromkeys((f"Deliveries.delivery_cmp {number}" for number in (6, 8, 9, 10)), NO_TIE),
    **dict.fromkeys(("SharedLinks.virtual_time 1", "SharedLinks.last_finish_tag 1"), FIRST_OPENS),
    **dict.fromkeys(("SharedLinks.virtual_time 2", "SharedLinks.last_finish_tag 2"), f"{ALL_MOVE}; laws_of_resets has them"),
    "SharedLinks.last_finish_tag 9": "virtual time is 1 at least once a packet has started; laws_of_resets has the tag",
    **dict.fromkeys(("Starts.bandwidth_of 2", "Starts.delay_of 4"), CONFIGURED),
    **dict.fromkeys((f"Starts.sooner {number}" for number in range(1, 5)), ANY_ORDER),
    "Trace.link_eq 1": "a flow has one pipe",
    "Flows.treatment 1": "a flow alone on its link comes next whatever it weighs; laws_hold has the weight",
    "Links.transmission_time 1": "a bandwidth is at most 0 exactly if it is 0",
    "SharedLinks.opening 1": "a count is at most 0 exactly if it is 0",
    "SharedLinks.virtual_time 4": ALL_MOVE,
    **dict.fromkeys(("Trace.flow_bound 1", "Trace.flow_bound 6"), "a flow above the bound has no packet"),
    "Wf2q.scaled 2": "another unit of tags changes an order only by its rounding; laws_of_shares has the unit",
    **dict.fromkeys(
        (f"Wf2q.goes_before {number}" for number in (6, 7, 9, 10)),
        "heads come in the order of their flows; laws_of_shares has the tie",
    ),
    "Wf2q.goes_before 5": "a lesser finish tag goes first already",
    "Starts.waiting_all 1": "a settling may have a turn too many",
    **dict.fromkeys(("Trace.links 2", "Trace.links 3"), "a link to which no packet was accepted starts none"),
}


NO_DEFINITION = (NotUnderstood, TypeError, ValueError, AssertionError, AttributeError)


class Change(NamedTuple):
    """A change of a specs file: the place, the old text and the new. Changes are numbered within a definition."""

    file: str
    definition: str
    number: int
    line: int
    column: int
    right: str
    wrong: str

    @property
    def name(self) -> str:
        return f"{self.file}.{self.definition} {self.number}"

    def specs(self, of: dict[str, str]) -> dict[str, str]:
        lines = of[self.file].split("\n")
        line = lines[self.line]
        lines[self.line] = line[: self.column] + self.wrong + line[self.column + len(self.right) :]
        word = f"{self.wrong}, " if self.wrong in OTHER else ""  # which the file may not import
        return {**of, self.file: "\n".join(lines).replace("Prelude.{", "Prelude.{" + word, 1)}


def reached(specs: dict[str, Spec], roots: Iterable[str]) -> set[tuple[str, str]]:
    """The definitions that the roots rest on, by file and name."""
    left = [(file, name) for file, name in (root.split(".") for root in roots)]
    found: set[tuple[str, str]] = set()
    while left:
        file, name = left.pop()
        spec = specs[file]
        if name in spec.texts and (file, name) not in found:
            found.add((file, name))
            left += [(file, word) for text in spec.texts[name] for word in NAME.findall(text)]
        elif name in spec.imports:
            left.append((spec.imports[name], name))
    return found


def others(token: str) -> Iterator[str]:
    """Yields the replacements of a token."""
    if token.isdigit():
        yield str(int(token) + 1)
    elif token[0] == '"':
        yield f'{token[:-1]}x"'
    elif token[0] == ".":
        yield from (f".{group[(group.index(token[1:]) + 1) % len(group)]}" for group in FIELDS if token[1:] in group)
    else:
        yield OTHER[token]


def atom_end(line: str, start: int) -> int:
    """Returns the end of the argument that begins here."""
    depth, place = 0, start
    while place < len(line) and (depth or line[place] not in " )"):
        depth += (line[place] == "(") - (line[place] == ")")
        place += 1
    return place


def branches(line: str) -> Iterator[tuple[int, str, str]]:
    """Yields each choice of a line with exchanged branches: their start, the old text and the new."""
    for choice in re.finditer(r"\bcond ", line):
        ends, place = [], choice.end()
        for _ in range(3):
            ends.append((place, atom_end(line, place)))
            place = ends[-1][1] + 1
        (begin, middle), (other, end) = ends[1:]
        if begin < middle < other < end:
            yield begin, line[begin:end], f"{line[other:end]} {line[begin:middle]}"


def bodies(text: str) -> Iterator[tuple[int, int, str]]:
    """The lines of equations, each with the column where its body begins, and the name that is defined."""
    name = ""
    for number, line in enumerate(text.split("\n")):
        if line[:1].isalpha():
            word = line.split(" ", 1)[0]
            name = "" if word in ("use", "abbrev", "unfoldable", "pub", "infixl", "infixr", "infix") else word
            if name and " =" in line:
                yield number, line.index(" =") + 2, name
        elif name and line.strip() and not line.lstrip().startswith("--"):
            yield number, 0, name


def of_line(line: str, column: int, is_case: bool) -> Iterator[tuple[int, str, str]]:
    """Yields the changes of a line whose body begins at the column: place, old text and new text."""
    for token in TOKEN.finditer(line, column):
        for wrong in others(token.group()):
            yield token.start(), token.group(), wrong
    yield from branches(line)
    if is_case:
        yield 0, line, ""


def all_changes(of: dict[str, str], used: set[tuple[str, str]]) -> list[Change]:
    """Returns the changes of these definitions in texts, in order. A case is left out if it is a single line, and another case of the definition
    covers it."""
    found = list[Change]()
    for file, text in sorted(of.items()):
        lines = [*text.split("\n"), ""]
        rest = {name for number, _, name in bodies(text) if re.match(r"\w+ .*\b_ .*=|\w+ _ .*=", lines[number])}
        for number, column, name in bodies(text):
            is_case = (
                column > 0
                and name in rest
                and not re.search(r"[ (]_[ )]|\[\]", lines[number][:column])
                and lines[number + 1][:1] != " "
            )
            for change in of_line(lines[number], column, is_case) if (file, name) in used else ():
                earlier = sum((one.file, one.definition) == (file, name) for one in found)
                found.append(Change(file, name, earlier + 1, number, *change))
    return [change for change in found if change.name not in TOO_LONG]


def with_edges(program: str, given: Given) -> Given:
    """The sessions, and one with the calls at the edges."""
    done = told(program, [f"c,0,{call}" for call in EDGES])
    return Given([read_history(done.stdout).entries, *given.sessions], given.answered)


def what_differs(change: Change, given: Given) -> Optional[str]:
    """Returns the first difference that a change makes, or an empty text; None if the result is no definition."""
    try:
        _, difference = first_difference(Emulator(change.specs(texts())), given)
    except NO_DEFINITION:
        return None
    return difference.what if difference else ""


def try_changes(
    tally: Tally, changes: list[Change], differs: Callable[[Change], Optional[str]], unseen: dict[str, str]
) -> tuple[int, int]:
    """Checks that each change is seen, or listed as unseen; returns how many are."""
    counts = Counter[str]()
    for change in changes:
        found = differs(change)
        kind = "no definition" if found is None else "seen" if found else "unseen"
        counts[kind] += 1
        what = f"{change.name}: `{change.right.strip()}` is `{change.wrong.strip()}`"
        if kind != "no definition":
            is_listed = change.name in unseen
            tally.note(
                what, "" if is_listed == (kind == "unseen") else "seen, and listed as unseen" if is_listed else "no reply differs"
            )
        if kind == "unseen":
            print(f"{what}: {unseen.get(change.name, 'no reason')}", flush=True)
    print(
        f"{counts['seen'] + counts['unseen']} changes, {counts['unseen']} of them unseen; {counts['no definition']} texts that define nothing"
    )
    return counts["seen"], counts["unseen"]


def of_replies() -> list[Change]:
    return all_changes(texts(), reached(Emulator(texts()).definitions.specs, ROOTS))


def share(of: list[Change], seed: int, shares: int, unseen: dict[str, str]) -> list[Change]:
    """Returns the changes of a share, without those listed as unseen, which would need all calls or lines."""
    return [change for change in of[seed % shares :: shares] if change.name not in unseen]
