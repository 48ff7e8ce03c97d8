#!/usr/bin/env python3
"""Tells which definitions of dn_types the laws use, and asks that the table of dn_laws' page names a law for each that pins it.

    python3 tools/laws/pinned_words.py           prints what fails; the last line is 'N passed, M failed'
    python3 tools/laws/pinned_words.py --list    prints each word with the laws that use it

A law says no more than its words. So each definition of dn_types that a law's statement uses is pinned by a law in words of calls,
replies and events. crates/dn_laws/README.md has a table of them: words, and the functions and clauses that pin them. A row without
a law has words that need none, since what they are made of is plain: types, and words of such rows. A word passes where the table
has it once and its row holds. A row of laws holds if each law exists and uses a word in the row, and if a law uses each word. A
word that no law uses, and a row that doesn't hold, fails. So does a clause that docs/TRUST.md doesn't state in its table of laws.
"""

import re
import sys
from pathlib import Path
from typing import Dict, List, NamedTuple, Set, Tuple

from lines_to_believe import WORD, Definitions, Key, imports_of, read_specs

HEADING, STATED = "### Words of the laws", "## The laws (dn_laws)"
CONTRACT = re.compile(r"^pub fn (\w+)\([^)]*\)\n(.*?)^\{\}", re.M | re.S)
CLAUSE = re.compile(r"ensures (\w*) ?\{ (.*) \}")
TYPE = re.compile(r"^(pub (record|data) |abbrev pub \w+ : Type 0$)")
Clause = Tuple[str, str]  # a function of the laws and its clause, '' where it has one without a name


class Row(NamedTuple):
    """A row of the table: words, and the clauses that pin them."""

    words: List[str]
    clauses: List[Clause]


def used_by(definitions: Definitions, start: Set[Key]) -> Set[Key]:
    """Returns dn_types' words that a statement uses, through dn_laws' definitions but not beyond."""
    found, seen, left = set(), set(), list(start)
    while left:
        key = left.pop()
        if key in seen or key not in definitions:
            continue
        seen.add(key)
        if key[0] == "dn_types":
            found.add(key)
        elif key[0] == "dn_laws":
            left += words_in(definitions, key)
    return {key for key in found if not TYPE.match(definitions[key].lines[0])}


def words_in(definitions: Definitions, key: Key) -> Set[Key]:
    """Returns the definitions that a definition uses."""
    own = definitions[key]
    return {own.imports.get(word, (*key[:2], word)) for line in own.lines for word in WORD.findall(line)} - {key}


def read_laws(top: Path, definitions: Definitions) -> Dict[Clause, Set[str]]:
    """Returns the words of dn_types that each clause uses."""
    text = "".join(path.read_text() for path in sorted((top / "crates" / "dn_laws" / "src").glob("*.rt")))
    imports = imports_of(text)
    return {
        (function, name): {key[2] for key in used_by(definitions, {imports[w] for w in WORD.findall(law) if w in imports})}
        for function, contract in CONTRACT.findall(text)
        for name, law in CLAUSE.findall(contract)
    }


def read_table(text: str) -> List[Row]:
    """Returns the rows of the table."""
    rows, part = [], text.partition(HEADING)[2].partition("\n#")[0]
    for line in part.splitlines():
        cells = line.split("|")
        if len(cells) != 4 or "`" not in cells[1]:
            continue
        clauses: List[Clause] = []
        function = ""
        for name in re.findall(r"`(\w+)`", cells[2]):
            if name.startswith(("laws_of_", "each_call_")):
                function = name
                clauses = clauses + ([(name, "")] if name.startswith("each_call_") else [])
            else:
                clauses.append((function, name))
        rows.append(Row(re.findall(r"`(\w+)`", cells[1]), clauses))
    return rows


def is_plain(definitions: Definitions, word: str, plain: Set[str]) -> bool:
    """Returns whether a word of dn_types consists only of types and plain words."""
    keys = [key for key in definitions if key[0] == "dn_types" and key[2] == word]
    inner = {part for key in keys for part in words_in(definitions, key) if part in definitions}
    return all(TYPE.match(definitions[part].lines[0]) or part[2] in plain for part in inner)


def faults_of(row: Row, laws: Dict[Clause, Set[str]], definitions: Definitions, plain: Set[str]) -> List[str]:
    """Returns the faults of a row."""
    if not row.clauses:
        return [f"`{word}` has no law and isn't plain" for word in row.words if not is_plain(definitions, word, plain)]
    missing = [f"no clause `{clause}` of `{function}`" for function, clause in row.clauses if (function, clause) not in laws]
    idle = [
        f"`{clause}` of `{function}` uses no word of its row"
        for function, clause in row.clauses
        if (function, clause) in laws and not laws[function, clause] & set(row.words)
    ]
    used = set().union(*(laws.get(clause, set()) for clause in row.clauses))
    return missing + idle + [f"no law of its row uses `{word}`" for word in row.words if word not in used]


def faults_of_page(text: str, laws: Set[Clause]) -> List[str]:
    """Returns the clauses that the page's table of laws lacks, and those that it has for a function without them."""
    stated: Set[Clause] = set()
    for line in text.partition(STATED)[2].splitlines():
        cells = line.split("|")
        if len(cells) == 6:
            functions = re.findall(r"`(\w+)`", cells[3])
            clauses = cells[4].split(";") if len(functions) > 1 else cells[4:5]
            stated |= {(function, name) for function, names in zip(functions, clauses) for name in re.findall(r"`(\w+)`", names)}
    named = {clause for clause in laws if clause[1]}
    return [
        *(f"docs/TRUST.md doesn't state `{name}` of `{function}`" for function, name in sorted(named - stated)),
        *(f"docs/TRUST.md states `{name}` of `{function}`, which has no such clause" for function, name in sorted(stated - named)),
    ]


def main(arguments: List[str]) -> int:
    """Prints the failures and the number of passing words; returns the status."""
    top = Path(__file__).resolve().parents[2]
    definitions = read_specs(top)
    laws = read_laws(top, definitions)
    reached = set().union(*laws.values())
    if "--list" in arguments:
        for word in sorted(reached):
            print(word, *(f"{function}.{clause}" for (function, clause), words in laws.items() if word in words))
        return 0
    rows = read_table((top / "crates" / "dn_laws" / "README.md").read_text())
    plain = {word for row in rows if not row.clauses for word in row.words}
    told = [word for row in rows for word in row.words]
    faults = [fault for row in rows for fault in faults_of(row, laws, definitions, plain)]
    faults += [f"the table lacks `{word}`" for word in sorted(reached - set(told))]
    faults += [
        f"no law uses `{word}`, or it is there twice" for word in sorted(set(told)) if word not in reached or told.count(word) > 1
    ]
    faults += faults_of_page((top / "docs" / "TRUST.md").read_text(), set(laws))
    print(*faults, sep="\n", end="\n" if faults else "")
    print(f"{len(reached & set(told))} passed, {len(faults)} failed")
    return 1 if faults else 0


if __name__ == "__main__":
    sys.exit(main(sys.argv[1:]))
