"""Compares the contracts of all public functions of the crates at two revisions.

    python3 tools/laws/public_clauses.py BASE [NEW]

NEW is the working tree if it isn't given. A clause is `requires`, `ensures` or `succeeds` with its name and its text, spaces
folded. The output lists removed and new functions, and each function's removed and new clauses. A function that went from a crate
and came in one other, in an impl of the same head, has moved, and its clauses are compared too. "Inside" is said of a function that
its crate's lib.rt doesn't export. The last lines count them. The status is 1 if an exported function that was there before has a
new condition (`requires`), or has lost a clause and got none.
"""

import re
import subprocess
import sys
from pathlib import Path
from typing import NamedTuple

ROOT = Path(__file__).resolve().parents[2]
EXPORT = re.compile(r"^pub use ([^;]*);", re.M)
KEYWORDS = re.compile(r"\b(requires|ensures|succeeds)\b")
HEAD = re.compile(r"^\s*pub (?:const )?fn (\w+)", re.M)
IMPL = re.compile(r"^(?:impl|trait|pub trait)\b([^{]*)\{", re.M)


class Function(NamedTuple):
    """A public function: its crate, its impl's head, its name, and whether the crate exports the function."""

    crate: str
    owner: str
    name: str
    exported: bool

    def __str__(self) -> str:
        inside = "" if self.exported else " (inside)"
        return f"{self.crate}: {self.owner + '::' if self.owner else ''}{self.name}{inside}"


def sources(revision: str | None) -> dict[str, str]:
    """Returns the text of each source file of the crates."""
    if revision is None:
        files = sorted((ROOT / "crates").glob("*/src/**/*.rt"))
        return {str(one.relative_to(ROOT)): one.read_text() for one in files}
    words = ["git", "-C", str(ROOT), "ls-tree", "-r", "--name-only", revision, "crates"]
    names = subprocess.run(words, stdout=subprocess.PIPE, text=True, check=True).stdout.splitlines()
    wanted = [one for one in names if re.fullmatch(r"crates/[^/]+/src/.*\.rt", one)]
    asked = "".join(f"{revision}:{one}\n" for one in wanted)
    words = ["git", "-C", str(ROOT), "cat-file", "--batch"]
    told = subprocess.run(words, input=asked.encode(), stdout=subprocess.PIPE, check=True).stdout
    found: dict[str, str] = {}
    at = 0
    for one in wanted:
        end = told.index(b"\n", at)
        length = int(told[at:end].split()[2])
        found[one] = told[end + 1 : end + 1 + length].decode()
        at = end + length + 2
    return found


def closing(text: str, at: int) -> int:
    """The place after the brace that closes the one at `at`."""
    depth = 0
    for place in range(at, len(text)):
        depth += {"{": 1, "}": -1}.get(text[place], 0)
        if depth == 0:
            return place + 1
    raise ValueError("a brace isn't closed")


def owners(text: str) -> list[tuple[int, int, str]]:
    """Returns the start and end of each impl, with its head."""
    return [(one.start(), closing(text, one.end() - 1), fold(one[1])) for one in IMPL.finditer(text)]


def fold(text: str) -> str:
    """Returns a text with single spaces and without line comments."""
    return " ".join(re.sub(r"^\s*//.*$", "", text, flags=re.M).split())


def clauses(text: str, at: int) -> set[str]:
    """The clauses between a function's head and its body."""
    found: set[str] = set()
    place = at
    while True:
        brace = text.index("{", place)
        end_of_head = text.find(";", place, brace)
        if end_of_head != -1:
            return found
        between = fold(text[place:brace])
        keyword = list(KEYWORDS.finditer(between))
        if not keyword:
            return found
        end = closing(text, brace)
        found.add(f"{between[keyword[-1].start():]} {fold(text[brace:end])}")
        place = end


def exports(files: dict[str, str]) -> set[tuple[str, str]]:
    """The names that each crate's lib.rt exports, with the crate."""
    libs = {path.split("/")[1]: text for path, text in files.items() if path.endswith("/src/lib.rt")}
    lists = {crate: " ".join(EXPORT.findall(text)) for crate, text in libs.items()}
    return {(crate, name) for crate, names in lists.items() for name in re.findall(r"\w+", names)}


def contracts(files: dict[str, str]) -> dict[Function, set[str]]:
    """Returns the clauses of each public function."""
    found: dict[Function, set[str]] = {}
    exported = exports(files)
    for path, text in files.items():
        impls = owners(text)
        for head in HEAD.finditer(text):
            owner = next((name for start, end, name in impls if start < head.start() < end), "")
            crate = path.split("/")[1]
            type_name = re.sub(r"<.*?>", "", owner).strip()
            one = Function(crate, owner, head[1], (crate, type_name or head[1]) in exported)
            found.setdefault(one, set()).update(clauses(text, signature_end(text, head.end())))
    return found


def signature_end(text: str, at: int) -> int:
    """The place after the list of a function's parameters."""
    depth = 0
    for place in range(text.index("(", at), len(text)):
        depth += {"(": 1, ")": -1}.get(text[place], 0)
        if depth == 0:
            return place + 1
    raise ValueError("a parenthesis isn't closed")


def told(one: Function, went: set[str], came: set[str]) -> bool:
    """Prints the changes of a contract; returns whether it may demand more or promise less."""
    print(f"changed: {one}")
    for sign, of in (("-", went), ("+", came)):
        for clause in sorted(of):
            print(f"  {sign} {clause}")
    asks_more = any(clause.startswith("requires") for clause in came)
    return one.exported and (asks_more or bool(went and not came))


def moved(before: dict[Function, set[str]], after: dict[Function, set[str]]) -> dict[Function, set[str]]:
    """Returns the earlier clauses, with those of moved functions under their new crate."""
    came = {one: [new for new in after.keys() - before.keys() if new[1:3] == one[1:3]] for one in before.keys() - after.keys()}
    for one, places in sorted(came.items()):
        if len(places) == 1:
            print(f"moved: {one} to {places[0].crate}")
    return {came[one][0] if len(came.get(one, [])) == 1 else one: told for one, told in before.items()}


def main(words: list[str]) -> int:
    after = contracts(sources(words[1] if len(words) > 1 else None))
    before = moved(contracts(sources(words[0])), after)
    went, came = sorted(before.keys() - after.keys()), sorted(after.keys() - before.keys())
    for one in went:
        print(f"went: {one}")
    for one in came:
        print(f"came: {one}, {len(after[one])} clauses")
    both = before.keys() & after.keys()
    changed = sorted(one for one in both if before[one] != after[one])
    weaker = sum(told(one, before[one] - after[one], after[one] - before[one]) for one in changed)
    same = len(both) - len(changed)
    print(f"{same} the same, {len(changed)} changed, {len(went)} went, {len(came)} came")
    print(f"{weaker} may ask for more or say less")
    return 1 if weaker else 0


if __name__ == "__main__":
    sys.exit(main(sys.argv[1:]))
