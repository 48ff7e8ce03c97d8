"""The doc comments of the crates: each begins with one line that is a sentence, and then has an empty line or ends.

    python3 tools/gate/doc_comments.py

Each public item of a crate that users call has one. It reads the sources alone.
"""

import re
from pathlib import Path
from typing import Iterator, NamedTuple

from tally import TOP, Tally, judge

LONGEST = 130
COMMENT = re.compile(r"\s*(///|//!)(?: (.*))?$")
ITEM = re.compile(r'\s*pub (?:extern "C" )?(?:fn|struct|enum|trait|const|static|type)\b')
ATTRIBUTE = re.compile(r"\s*#")
SENTENCE = re.compile(r"[A-Z0-9`\[].*\.$")
# Crates that users don't call.
OWN = ("bench_", "test_")


class Comment(NamedTuple):
    """A doc comment: its first line from 1, the line after it, and its lines' texts."""

    first: int
    after: int
    texts: list[str]


def comments(lines: list[str]) -> Iterator[Comment]:
    at = 0
    while at < len(lines):
        found, first = COMMENT.match(lines[at]), at
        if found is None:
            at += 1
            continue
        texts, mark = [], found[1]
        while at < len(lines) and (found := COMMENT.match(lines[at])) and found[1] == mark:
            texts.append(found[2] or "")
            at += 1
        yield Comment(first + 1, at + 1, texts)


def fault_of(comment: Comment, lines: list[str]) -> str:
    """Returns the fault of a comment, or an empty text."""
    summary, rest = comment.texts[0], comment.texts[1:]
    if rest and rest[0]:
        return "the summary is longer than one line"
    if not SENTENCE.match(summary):
        return "the summary isn't a sentence"
    if len(lines[comment.first - 1]) > LONGEST:
        return f"the summary's line has more than {LONGEST} characters"
    return "an empty line at the end" if rest and not rest[-1] else ""


def without_comment(lines: list[str], found: list[Comment]) -> Iterator[int]:
    """Yields the line numbers of public items without a doc comment."""
    ends = {comment.after for comment in found}
    for number, line in enumerate(lines, 1):
        before = number
        while before > 1 and ATTRIBUTE.match(lines[before - 2]):
            before -= 1
        if ITEM.match(line) and before not in ends:
            yield number


def faults_of(source: Path) -> Iterator[str]:
    """Yields the faults in a source file, with lines."""
    name = source.relative_to(TOP)
    lines = source.read_text().splitlines()
    found = list(comments(lines))
    for comment in found:
        fault = fault_of(comment, lines)
        if fault:
            yield f"{name}:{comment.first}: {fault}"
    if not name.parts[1].startswith(OWN):
        for number in without_comment(lines, found):
            yield f"{name}:{number}: a public item without a doc comment"


def main(tally: Tally) -> None:
    for crate in sorted(TOP.glob("crates/*/src")):
        sources = sorted(crate.glob("**/*.rt"))
        faults = [fault for source in sources for fault in faults_of(source)]
        tally.note(crate.parent.name, *faults if sources else ["it has no source"])


if __name__ == "__main__":
    judge(main)
