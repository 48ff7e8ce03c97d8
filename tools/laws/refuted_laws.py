#!/usr/bin/env python3
"""Asks the prover to refute a law under each wrong definition: to prove that the law is false of it.

    tools/laws/refuted_laws.py [--built]              tries every row of wrong_definitions.py
    tools/laws/refuted_laws.py [--built] 3 17         tries these rows alone

That a law's proof doesn't go through under a wrong definition shows nothing of the law: a proof may only mirror the definition, and
be repaired. So the law is refuted. A file of tools/laws/refuted has lemmas `NAME : LAW → ⊥`, each at an example, and a comment with
the name of its row. They end in .proof, since `rt ci` wants each .antt file in a crate. Each is proved over the specs with the
row's wrong definition and no proof of the crates (law_crates.py): so nothing in it mirrors a definition. Of the right definitions
the same file must not be proved. A row passes if both hold and one of its lemmas concerns the row's law. What files share is in
tools/laws/refuted/CRATE.words, or else in the crate's ExampleWords. They import nothing: each gets those lines of CRATE.names, with
those names, that it uses.

The libraries below a crate are built first, where they have changed. With --built they are taken as `rt ci` has just left them.
"""

import re
import shutil
import subprocess
import sys
from collections.abc import Sequence
from dataclasses import dataclass
from pathlib import Path
from tempfile import TemporaryDirectory

import wrong_definitions
from law_crates import TOP, Base, Copy, in_one_crate, prover
from wrong_definitions import ROWS, Row, base_of

REFUTED = TOP / "tools" / "laws" / "refuted"
LAWS = TOP / "crates" / "dn_laws" / "src"
MODULE, WORDS = "refutations", "ExampleWords"
ANSWER = """use Rattle.%s.proofs.Refuted%d.{%s}
use Rattle.%s.proofs.%s.%s.Goals as goal

pub returns : goal.returns
returns c = %s
"""


@dataclass(frozen=True)
class Refutation:
    """A file of tools/laws/refuted: its text, and its lemmas with the laws that they refute."""

    text: str
    lemmas: list[tuple[str, str]]


@dataclass(frozen=True)
class Laws:
    """The laws in a module of dn_laws: each law's specs, and the law for each function and clause."""

    specs: dict[str, str]
    clauses: dict[tuple[str, str], str]


def laws_of(base: Base) -> Laws:
    text = (LAWS / f"{base.laws}.rt").read_text()
    named = re.findall(r"ghost use Rattle\.dn_laws\.specs\.(\w+)\.\{([^}]*)\};", text)
    functions = re.findall(r"^pub fn (\w+)\(\)\n(.*?)^\{\}", text, re.M | re.S)
    return Laws(
        {law.strip(): specs for specs, laws in named for law in laws.split(",")},
        {
            (function, clause): law
            for function, contract in functions
            for clause, law in re.findall(r"ensures (\w+) \{ (\w+) \}", contract)
        },
    )


def read_refutations() -> dict[str, Refutation]:
    """Returns the files of tools/laws/refuted by their rows' names."""
    by_row = {}
    for path in sorted(REFUTED.glob("*.proof")):
        text = path.read_text()
        row = re.match(r"-- Wrong: (.*)\n", text)
        lemmas = re.findall(r"^pub ([\w-]+) : (\w+) → ⊥$", text, re.M)
        if row is None or not lemmas:
            sys.exit(f"{path.name}: has no row or no lemma")
        by_row[row.group(1)] = Refutation(text, lemmas)
    return by_row


def is_named(name: str, text: str) -> bool:
    """Returns whether a text uses an imported name, and doesn't declare it."""
    here = name.rpartition(" ")[2]
    word = rf"(?<!\S){re.escape(here[1:-1])}(?!\S)" if here.startswith("◌") else rf"(?<![\w.'-]){re.escape(here)}(?![\w'-])"
    return re.search(word, text) is not None and not re.search(rf"(?m)^\s*(?:abbrev )?(?:pub )?{re.escape(here)} :", text)


def with_imports(text: str, base: Base) -> str:
    """Returns a refutation with the imports of what it uses."""
    comment, _, body = text.partition("\n\n")
    lines, said = [comment], re.sub(r"(?m)^\s*--.*$", "", body)
    for module, names in re.findall(r"(?m)^use ([\w.]+)\.\{(.*)\}$", (REFUTED / f"{base.crate}.names").read_text()):
        used = [name for name in names.split(", ") if is_named(name, said)]
        lines += [f"use {module}.{{{', '.join(used)}}}"] if used else []
    return "\n".join([*lines, "", body])


def words_of(base: Base) -> dict[str, str]:
    """Returns the words that the files share, by module: those of the crate pass on words of libraries and specs alone."""
    shared, proofs = REFUTED / f"{base.crate}.words", prover.CRATES / base.crate / "proofs"
    if shared.exists():
        return {WORDS: shared.read_text()}
    return {name: (proofs / f"{name}.antt").read_text() for name in (WORDS, "Words") if (proofs / f"{name}.antt").exists()}


def copied(base: Base, folder: Path, refutations: Sequence[Refutation], laws: Laws) -> Copy:
    """Returns a copy of the crate with all specs that the refutations name."""
    copy, words = Copy(base, folder), words_of(base)
    if base.is_whole:
        copy.add_all()
    laws_named = [f"Rattle.dn_laws.specs.{laws.specs[law]}" for one in refutations for _, law in one.lemmas]
    for text in [*laws_named, *words.values(), *(with_imports(one.text, base) for one in refutations)]:
        copy.add_named(text)
    copy.write_all((MODULE,))
    for name, text in words.items():
        copy.write(f"proofs/{name}.antt", in_one_crate(text, base))
    return copy


def set_refutations(copy: Copy, refutations: Sequence[Refutation], laws: Laws) -> None:
    """Gives the copy a function for each lemma, which ensures that the lemma's law is false."""
    name, proofs = copy.base.crate, copy.folder / "proofs"
    shutil.rmtree(proofs / MODULE, ignore_errors=True)
    for left in proofs.glob("Refuted*.antt"):
        left.unlink()
    lemmas = [(number, lemma, law) for number, one in enumerate(refutations) for lemma, law in one.lemmas]
    source = ["//! The laws are false.\n"]
    source += sorted({f"ghost use Rattle.{name}.specs.{laws.specs[law]}.{{{law}}};" for _, _, law in lemmas})
    for place, (number, lemma, law) in enumerate(lemmas):
        function = f"refuted{number}_{place}"
        source.append(f"\npub fn {function}()\n    ensures {{ {law} → ⊥ }}\n{{}}")
        copy.write(f"proofs/{MODULE}/{function}/Answers.antt", ANSWER % (name, number, lemma, name, MODULE, function, lemma))
    for number, one in enumerate(refutations):
        copy.write(f"proofs/Refuted{number}.antt", in_one_crate(with_imports(one.text, copy.base), copy.base))
    copy.write(f"src/{MODULE}.rt", "\n".join(source) + "\n")
    modules = sorted(path.stem for path in proofs.glob("*.antt") if path.stem != "Lib")
    copy.write("proofs/Lib.antt", "".join(f"pub mod {module}\n" for module in modules))


def proved_lemmas(copy: Copy, tell: bool = False) -> dict[int, list[bool]]:
    """Returns for each refutation whether its lemmas are proved. If `tell`, prints the prover's errors."""
    words = [*copy.command(), "--only", MODULE]
    done = subprocess.run(words, cwd=copy.folder, stdout=subprocess.PIPE, stderr=subprocess.STDOUT, check=False)
    told = done.stdout.decode(errors="replace")
    verdicts = re.findall(r"^fn \w+::\w+::refuted(\d+)_\d+: (.*)$", told, flags=re.M)
    if not verdicts or re.search(r"specs/[\w/]+\.antt:\d+:\d+: error", told):
        sys.exit(f"{told}\nthe copy is not accepted")
    if tell:
        print(*re.findall(r"^.*: error: .*$", told, flags=re.M), sep="\n", file=sys.stderr)
    by_number: dict[int, list[bool]] = {}
    for number, verdict in verdicts:
        by_number.setdefault(int(number), []).append(verdict == "proved")
    return by_number


def unfit(copy: Copy, rows: Sequence[Row], refutations: dict[str, Refutation], laws: Laws) -> dict[str, str]:
    """Returns the rows whose file isn't about their law, or is proved of the right definitions."""
    told = {}
    for row in rows:
        if laws.clauses.get((row[4], row[5])) not in [law for _, law in refutations[row[0]].lemmas]:
            told[row[0]] = "its file is not about its law"
    fit = [row for row in rows if row[0] not in told]
    if fit:
        set_refutations(copy, [refutations[row[0]] for row in fit], laws)
        for number, proved in proved_lemmas(copy).items():
            if any(proved):
                told[fit[number][0]] = "refuted of the right definitions too"
    return told


def try_row(copy: Copy, row: Row, refutation: Refutation, laws: Laws) -> str:
    """Returns whether the law is refuted under the row's wrong definition."""
    set_refutations(copy, [refutation], laws)
    with wrong_definitions.wrongly_defined(copy.folder, row):
        return "refuted" if all(proved_lemmas(copy, tell=True)[0]) else "not refuted"


def try_rows(base: Base, rows: Sequence[Row], refutations: dict[str, Refutation]) -> dict[str, str]:
    """Returns the results of one crate's rows."""
    laws = laws_of(base)
    told = {row[0]: "has no file" for row in rows if row[0] not in refutations}
    known = [row for row in rows if row[0] not in told]
    with TemporaryDirectory() as folder:
        copy = copied(base, Path(folder), [refutations[row[0]] for row in known], laws)
        told |= unfit(copy, known, refutations, laws)
        for row in rows:
            if row[0] not in told:
                told[row[0]] = try_row(copy, row, refutations[row[0]], laws)
            print(f"{row[0]}: {told[row[0]]}", flush=True)
    return told


def main(words: list[str]) -> int:
    """Tries the rows, prints a line for each, and how many passed."""
    refutations = read_refutations()
    rows = [ROWS[int(word) - 1] for word in words if word.isdigit()] or ROWS
    told = {name: "no row has this name" for name in set(refutations) - {row[0] for row in ROWS}}
    bases = list(dict.fromkeys(map(base_of, rows)))
    prover.build_below((base.crate for base in bases), "--built" in words)
    for base in bases:
        told |= try_rows(base, [row for row in rows if base_of(row) == base], refutations)
    passed = sum(came == "refuted" for came in told.values())
    print(f"{passed} refuted, {len(told) - passed} not refuted")
    return 0 if passed == len(told) else 1


if __name__ == "__main__":
    sys.exit(main(sys.argv[1:]))
