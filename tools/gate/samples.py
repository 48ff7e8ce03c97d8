"""The samples of the READMEs, each of which is code of a test or of the program that rt has proved and run, the counts of definitions
that README, docs/TRUST.md and the page of dn_laws have, links that lead nowhere, and marks that a merge left in a page.

    python3 tools/gate/samples.py

Such code is between the lines `// In the README of CRATE, N:` and `// Up to here.`, where N counts the page's samples from 1. Lines may be of
two pages (`.., N, and of CRATE, N:`). The parts of a sample are joined, in order of files and lines. The page has the same text, without
regard to comments and spaces, and may have `use` lines before it: of names that the files use too. It reads the sources alone.
"""

import re
import sys
from pathlib import Path
from typing import NamedTuple

from parts import CALLS_BY_DEFINITIONS
from tally import TOP, Tally, judge, ran, stated

import refuted_laws
import wrong_definitions

REGION = re.compile(r"^ *// In the README (of .*?):\n(.*?)^ *// Up to here\.$", re.M | re.S)
PLACE = re.compile(r"of (\w+), (\d+)")
SAMPLE = re.compile(r"^```rust\n(.*?)^```$", re.M | re.S)
USE = re.compile(r"^use (\w+)::(?:\{(.*?)\}|(\w+));\n", re.M | re.S)
PAGES = ("*.md", "docs/**/*.md", "crates/*/*.md", "python/**/*.md", "rust/**/*.md", "tools/**/*.md", "hosts/**/*.md")
MARK = re.compile(r"^(?:<{7}|>{7}) ", re.M)
LINK = re.compile(r"\]\((?!http)([^)\s#]*)#?([^)\s]*)\)")
# Libraries have a sample each, and so has a crate of tests.
WITH_SAMPLES = ("dn_", "test_shaper")
# Samples that are on the page alone. That of dn_laws is the contract of a law.
WITHOUT_TEST = {("dn_shaper", 1), ("dn_files", 3), ("dn_laws", 1), *(("dn_service", number) for number in range(1, 5))}


class Code(NamedTuple):
    """The text of a sample in the sources, and the names that its file uses, by crate."""

    text: str
    used: set[tuple[str, str]]


def bare(text: str) -> str:
    """A text without comments, spaces, and commas before a closing bracket."""
    return re.sub(r",([)\]}])", r"\1", re.sub(r"\s", "", re.sub(r"//.*", "", text)))


def names(text: str) -> set[tuple[str, str]]:
    """Returns the names in `use` lines with their crates."""
    return {(crate, name) for crate, many, one in USE.findall(text) for name in re.findall(r"\w+", many or one)}


def in_sources() -> dict[tuple[str, int], Code]:
    found: dict[tuple[str, int], Code] = {}
    for source in sorted(TOP.glob("crates/*/src/**/*.rt")):
        text = source.read_text()
        for places, lines in REGION.findall(text):
            for crate, number in PLACE.findall(places):
                before = found.get((crate, int(number)), Code("", set()))
                found[crate, int(number)] = Code(before.text + lines, before.used | names(text))
    return found


def counted(tally: Tally) -> None:
    """The lines to believe, as tools/laws/lines_to_believe.py counts them."""
    rows = ran(sys.executable, TOP / "tools" / "laws" / "lines_to_believe.py", TOP, check=True).stdout.splitlines()
    page = (TOP / "docs" / "TRUST.md").read_text().partition("| Promise |")[2].partition("\n\n")[0]
    for row in page.splitlines()[2:]:
        tally.note(f"docs/TRUST.md: {row.split('|')[1].strip()}", "" if row in rows else "isn't what lines_to_believe.py counts")
    lines, emulation, service = [cell.strip() for cell in rows[2].split("|")][3:6]
    laws = next(row for row in rows if row.startswith("| the same by")).split("|")[4].strip()
    in_c = [
        next(row for row in rows if row.startswith(f"| `{name}`")).split("|")[3].strip()
        for name in ("dn_submit", "dn_caller_submit")
    ]
    calls = next(row for row in rows if row.startswith("| `Service::open`")).split("|")[3].strip()
    either = [row.split("|")[3].strip() for row in rows if row.startswith("| what `")]
    refuted, tried = len(refuted_laws.read_refutations()), len(wrong_definitions.ROWS)
    told = {
        "README.md": [f"believe {lines} lines of definitions"],
        "docs/TRUST.md": [
            f"believe {lines} lines of definitions: {emulation} of the emulation",
            f"and {service} of the service",
            f"plus {int(calls) - int(lines)} on a caller's calls",
            f"{laws} lines of [laws",
            f"replace the {emulation}.",
            f"({in_c[0]} lines to believe, or {in_c[1]} by a caller",
            f"tested: {CALLS_BY_DEFINITIONS:,} calls in new sessions",
        ],
        "crates/dn_laws/README.md": [
            f"the laws ({either[0]} lines) or what defines `reply` ({either[1]})",
            f"lists {tried} wrong definitions",
            f"For {refuted if refuted < tried else 'each'} the prover refutes the law",
        ],
    }
    for name, wanted in told.items():
        stated(tally, name, *wanted)


def anchors(page: Path) -> set[str]:
    """Returns the link targets of a page: its headings."""
    headings = re.findall(r"^#+ (.*)$", page.read_text(encoding="utf-8"), re.M)
    plain = (re.sub(r"\[([^]]*)\]\([^)]*\)", r"\1", heading).replace("`", "").strip().lower() for heading in headings)
    return {re.sub(r"[^\w\- ]", "", heading).replace(" ", "-") for heading in plain}


def linked(tally: Tally) -> None:
    """Checks that each link in a page leads to a file, and to a heading if the link names one."""
    for page in sorted(path for pattern in PAGES for path in TOP.glob(pattern)):
        text = re.sub(r"```.*?```", "", page.read_text(encoding="utf-8"), flags=re.S)
        for name, place in LINK.findall(text):
            target = page.parent / name if name else page
            is_stale = not target.exists() or place and target.suffix == ".md" and place not in anchors(target)
            if is_stale:
                tally.note(f"{page.relative_to(TOP)}: {name}#{place}", "leads nowhere")
        tally.note(f"links of {page.relative_to(TOP)}", "")


def merged(tally: Tally) -> None:
    """Checks that no page contains the marks of an unfinished merge."""
    for page in sorted(path for pattern in PAGES for path in TOP.glob(pattern)):
        tally.note(str(page.relative_to(TOP)), "has the marks of a merge" if MARK.search(page.read_text()) else "")


def main(tally: Tally) -> None:
    counted(tally)
    linked(tally)
    merged(tally)
    sources = in_sources()
    for crate in sorted(path.parent.name for path in TOP.glob("crates/*/README.md")):
        samples = SAMPLE.findall((TOP / "crates" / crate / "README.md").read_text())
        if crate.startswith(WITH_SAMPLES):
            tally.note(f"{crate}/README.md", "" if samples else "has no sample")
        for number, sample in enumerate(samples, 1):
            if (crate, number) in WITHOUT_TEST and (crate, number) not in sources:
                continue
            code = sources.pop((crate, number), Code("", set()))
            tally.note(
                f"{crate}/README.md, sample {number}",
                "" if bare(code.text) == bare(USE.sub("", sample)) else "isn't what a test has",
                *(f"the test doesn't use {owner}::{name}" for owner, name in sorted(names(sample) - code.used)),
            )
    for crate, number in sorted(sources):
        tally.note(f"{crate}/README.md, sample {number}", "isn't there, and the sources have it")


if __name__ == "__main__":
    judge(main)
