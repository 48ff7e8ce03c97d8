#!/usr/bin/env python3
"""How pages read: how often each of our habits comes in a thousand words, against real manual pages, and how sentences are cut.

    prose.py [FOLDER]            each page, the worst first, and then each habit over all pages
    prose.py FOLDER PAGE         the sentences of a page that have habits, the worst first
    prose.py --docstrings FOLDER the sentences of docstrings and of exceptions' messages that have habits, the worst first
    prose.py --base FOLDER       the figures of manual pages as text, FOLDER/GROUP.PAGE, to write into FIGURES
    prose.py --names FOLDER ..   the share of Python names that are participles, for each folder

A page's excess adds up, over all habits, by how much its rate is above the second greatest of five groups of manual pages (git, curl, ssh, rsync,
tc). A few words are also needed: if a page avoids them, the distance to the least rate counts too. 18 other manual pages have an excess of 1 to
17, and their median is 4.7. Code, headings and words in backquotes are skipped. The cells of tables count, since our pages say much in them. A high
figure is a reason to look at a page, and a low one proves nothing.
"""

import ast
import pathlib
import re
import statistics
import subprocess
import sys
from typing import Iterator, NamedTuple

HELPED = (
    r"(?! (?:not|never|already|also|always|just|only|to|been|had|got|gone|come|made|done|said|begun|ended|sent|seen|taken|given|left|lost|met"
    r"|found|kept|shown|told|put|set|run|read|written|been|\w+ed)\b)"
)
NOUN_GONE = r"(?= (?:of|that|which|who|whose|in|from|with|without|above|below|on|at|to|for|is|are|was|were|has|have)\b|[.,;:)]|$)"

# fmt: off
HABITS = [  # the name, the pattern, and what to write
    ("has", rf"\b(?:has|have|had)\b{HELPED}", "contains, lists, describes, prints, comes with"),
    ("of", r"\bof\b", "a compound or a verb: 'the queue's limit', 'a TCP capture'"),
    ("of .. of", r"\bof\b(?: [\w'’-]+){1,4} of\b", "cut the chain"),
    ("it, its", r"\b(?:it|its|itself)\b", "the noun, or 'you'"),
    ("bare that, those", rf"\b(?:those|these|that of){NOUN_GONE}|(?:^|[.;] )(?:That|These|Those|This) (?=(?:is|was|are|were|has|have|can|does|holds|takes|keeps|gives)\b)",
     "name the thing again"),
    ("by", r"\bby\b(?! (?:default|hand|using)\b)(?! \w+ing\b)", "with, from, according to; or make the doer the subject"),
    ("tell", r"\b(?:tells?|told|telling)\b", "report, print, say, warn"),
    ("own", r"\bown\b", "leave it out, or 'separate'"),
    ("what ..", r"(?:^|(?<=[.;,:] )|(?<= ))[Ww]hat (?!(?:does|do|did|should|if|about)\b)(?=[a-z])", "the noun: 'the drops', not 'what was dropped'"),
    ("none, nothing", r"\b(?:none|nothing|nobody|no one)\b", "no packet, no call; or say what happens"),
    ("alone", r"\balone\b", "only"),
    ("as for such as", r"(?<!such)[, (]as (?=(?:an? |the |in |by |of |with |from |one |its )|(?:CODE|[A-Z`]|[a-z]+(?:, |\))))(?!the |a result|an? (?:result|rule|whole|string|list|file|argument|parameter))",
     "such as, like, the way"),
    ("fronted", r"(?:^|(?<=[.;:] ))(?:Of|By|As|To|So|Nor|Beside|Behind|Else|Where|Elsewhere|There) ", "subject first, then the verb"),
    ("take, give, come, go", r"\b(?:takes?|took|taken|gives?|gave|given|comes?|came|goes|went)\b", "accepts, needs, prints, arrives, returns"),
    ("judge, obey, ask, meet", r"\b(?:judg(?:es?|ed)|obey(?:s|ed)?|asks?|asked|met|meets?|stands?|stood|lies|lawful|manners?)\b", "checks, applies, requests; queue-full drop"),
    ("one, two as noun", r"\b(?:the|that|this|an)? ?(?:one|ones|other|others)\b" + NOUN_GONE, "repeat the noun"),
    ("but for, beside", r"\b(?:but for|beside|behind|apart|likewise|else|besides)\b", "except, next to, separately, otherwise"),
]
# fmt: on

NEEDED = ("has", "of", "it, its")  # a page that avoids such a word reads as oddly: what is missing to the least rate counts too

# Of Debian 12: git 2.39 with 17 pages, curl 7.88, ssh 9.2 with 7 pages, rsync 3.5 with 2, tc 6.1 with 15.
GROUPS, FIGURES = (
    "curl git rsync ssh tc",
    """
has|7.79 2.62 3.32 1.53 3.1
of|7.68 20.18 18.05 15.91 22.65
of .. of|0.11 0.99 0.58 0.69 0.76
it, its|11.92 7.02 10.7 5.04 6.8
bare that, those|0.87 2.67 1.6 1.23 1.85
by|2.99 3.8 3.37 6.82 6.46
tell|1.09 0.4 1.62 0.05 0.0
own|0.16 0.26 0.63 0.15 0.42
what ..|0.44 1.38 1.33 0.15 0.25
none, nothing|0.38 0.57 0.37 0.79 0.0
alone|0.0 0.03 0.18 0.05 0.0
as for such as|1.09 1.46 1.52 1.09 2.52
fronted|1.52 1.81 1.54 1.53 2.6
take, give, come, go|2.94 4.03 1.88 1.53 2.1
judge, obey, ask, meet|0.49 0.26 0.5 0.74 0.25
one, two as noun|0.98 1.62 1.41 1.53 1.26
but for, beside|0.22 0.31 0.24 0.05 0.08
you|9.47 9.82 13.97 0.3 2.27
words a sentence|13.85 17.51 21.7 16.76 15.26
in paragraphs|13.85 17.51 21.7 16.76 15.26
spread|0.57 0.58 0.52 0.53 0.55
words|18365 61800 38236 20244 11918
""",
)
ROWS = {name: list(map(float, figures.split())) for name, _, figures in (row.partition("|") for row in FIGURES.split("\n")) if name}
BASE = {group: {name: row[at] for name, row in ROWS.items()} for at, group in enumerate(GROUPS.split())}


class Sentence(NamedTuple):
    line: int
    text: str
    words: int
    is_cell: bool = False


def cut(line: int, text: str, is_cell: bool = False) -> Iterator[Sentence]:
    text = re.sub(r"`[^`]*`", "CODE", re.sub(r"!?\[([^]]*)\]\([^)]*\)", r"\1", text)).replace("**", "").replace("*", "")
    for it in re.split(r"(?<=[.!?:])\s+(?=[A-Z(])", text):
        count = len(re.findall(r"[\w'’-]+", it))
        if count > 3:
            yield Sentence(line, it, count, is_cell)


def of_page(text: str) -> Iterator[Sentence]:
    """Yields the sentences in paragraphs, list items and table cells."""
    is_code, begin = False, 1
    block: list[str] = []
    for number, line in enumerate([*text.splitlines(), ""], 1):
        if line.lstrip().startswith("```"):
            is_code, line = not is_code, ""
        is_item = re.match(r"\s*([-*]|\d+\.) ", line)
        if is_code or not line.strip() or line.startswith(("#", "|", "    ")) or is_item:
            if block:
                yield from cut(begin, " ".join(block))
            block = []
        if is_code or not line.strip() or line.startswith(("#", "    ")):
            continue
        if line.startswith("|"):
            for cell in line.replace(r"\|", "/").strip("|").split("|"):
                yield from cut(number, cell.strip(), True)
            continue
        begin = begin if block else number
        block.append(re.sub(r"^\s*([-*>]|\d+\.) ", "", line).strip())


def of_manual(text: str) -> Iterator[Sentence]:
    """The lines of a manual page, each a paragraph, that are plain prose."""
    for number, line in enumerate(text.splitlines(), 1):
        line = line.strip()
        if len(line.split()) > 7 and line[0].isupper() and line.endswith((".", ":")) and len(re.findall(r"[][<>{}|=]", line)) < 4:
            yield from cut(number, line)


def rates(sentences: list[Sentence]) -> dict[str, float]:
    """How often each habit comes in a thousand words; and how sentences are cut."""
    words = sum(it.words for it in sentences) or 1
    found = {name: 1000 * sum(len(re.findall(pattern, it.text, re.M)) for it in sentences) / words for name, pattern, _ in HABITS}
    lengths = [it.words for it in sentences] or [0]
    return found | {
        "you": 1000 * sum(len(re.findall(r"\b[Yy]ou(?:rs?)?\b", it.text)) for it in sentences) / words,
        "words a sentence": statistics.mean(lengths),
        "in paragraphs": statistics.mean([it.words for it in sentences if not it.is_cell] or [0]),
        "spread": statistics.pstdev(lengths) / statistics.mean(lengths) if statistics.mean(lengths) else 0,
        "words": words,
    }


def most(name: str) -> float:
    """The second greatest rate: one group may repeat a phrase, as curl's page repeats 'has no effect'."""
    return float(sorted(group[name] for group in BASE.values())[-2])


def least(name: str) -> float:
    return min(group[name] for group in BASE.values())


def excess(these: dict[str, float]) -> float:
    above = sum(max(0, these[name] - most(name)) for name, _, _ in HABITS)
    return above + sum(max(0, least(name) - these[name]) for name in NEEDED)


def base(folder: pathlib.Path) -> None:
    groups: dict[str, list[Sentence]] = {}
    for file in sorted(folder.iterdir()):
        groups.setdefault(file.name.split(".")[0], []).extend(of_manual(file.read_text(errors="replace")))
    figures = [rates(these) for these in groups.values()]
    print(*groups)
    print("\n".join(f"{name}|{' '.join(str(round(of[name], 2)) for of in figures)}" for name in figures[0]))


def row(name: str, these: dict[str, float]) -> str:
    return (
        f"{name:34} {these['words']:6.0f} words, excess {excess(these):6.1f}; {these['in paragraphs']:4.1f} words a sentence of a paragraph, "
        f"spread {these['spread']:.2f}, you {these['you']:4.1f}"
    )


def sentences_of(top: pathlib.Path, names: list[str]) -> dict[str, list[Sentence]]:
    """Returns the sentences of each page with more than 100 words."""
    every = {name: list(of_page((top / name).read_text(encoding="utf-8"))) for name in names if (top / name).is_file()}
    return {name: these for name, these in every.items() if sum(it.words for it in these) > 100}


def pages(top: pathlib.Path) -> None:
    listed = subprocess.run(["git", "-C", str(top), "ls-files", "*.md"], capture_output=True, text=True, check=True).stdout.split()
    figures = {name: (these, rates(these)) for name, these in sentences_of(top, listed).items()}
    rows = [(excess(of_one), row(name, of_one)) for name, (_, of_one) in figures.items()]
    print("\n".join(line for _, line in sorted(rows, reverse=True)))
    every = rates([it for these, _ in figures.values() for it in these])
    table(every)
    print(row("prose: all pages", every))


def table(these: dict[str, float]) -> None:
    print(f"\n{'a thousand words':24} {'here':>6} {' '.join(f'{group:>6}' for group in BASE)}")
    for name in [*(name for name, _, _ in HABITS), "you", "words a sentence", "in paragraphs", "spread"]:
        print(f"{name:24} {these[name]:6.1f} {' '.join(f'{group[name]:6.1f}' for group in BASE.values())}{mark(name, these[name])}")


def mark(name: str, rate: float) -> str:
    is_habit = any(name == habit for habit, _, _ in HABITS)
    return "  above" if is_habit and rate > most(name) else "  below" if name in NEEDED and rate < least(name) else ""


def worst(pages: dict[str, list[Sentence]]) -> None:
    """Prints the 60 sentences with the most habits per word, each with the advice for its habits, and then a table of the rates
    over all sentences.
    """
    rows = []
    for name, these in pages.items():
        for it in these:
            habits = [(habit, advice, len(re.findall(pattern, it.text, re.M))) for habit, pattern, advice in HABITS]
            habits = [habit for habit in habits if habit[2]]
            if habits:
                rows.append((sum(count for *_, count in habits) / it.words, name, it, habits))
    for _, name, it, habits in sorted(rows, key=lambda row: (-row[0], row[1], row[2].line))[:60]:
        print(f"{name}:{it.line}: {it.text[:240]}\n    {'; '.join(f'{habit} ({advice})' for habit, advice, _ in habits)}")
    every = rates([it for these in pages.values() for it in these])
    table(every)
    print(row("prose: all" if len(pages) > 1 else next(iter(pages)), every))


def of_python(source: str) -> Iterator[Sentence]:
    """Yields the sentences in a file's docstrings, and in its exceptions' messages."""
    for node in ast.walk(ast.parse(source)):
        if isinstance(node, (ast.Module, ast.ClassDef, ast.FunctionDef, ast.AsyncFunctionDef)):
            for paragraph in (ast.get_docstring(node) or "").split("\n\n"):
                yield from cut(node.body[0].lineno, " ".join(paragraph.split()))
        for text in ast.walk(node) if isinstance(node, ast.Raise) else ():
            if isinstance(text, ast.JoinedStr):
                yield from cut(
                    text.lineno, "".join(str(part.value) if isinstance(part, ast.Constant) else "CODE" for part in text.values)
                )


# Participles as the last word of a variable's or parameter's name, where a noun would say what it is. `fd`, `red`, `seed` and the like are nouns.
IRREGULAR = "told made found kept given taken written known sent drawn shown left held got begun said seen bound lost put bought built spent done gone thrown chosen".split()
NOUNS = "seed feed need speed red bed id shed deed breed greed reed weed led wed sped fed ed embed exceed proceed succeed bleed creed".split()


def is_participle(name: str) -> bool:
    last = name.strip("_").lower().rpartition("_")[2]
    return last in IRREGULAR or (last.endswith("ed") and last not in NOUNS and len(last) > 4)


def participles(folder: pathlib.Path) -> tuple[int, dict[str, int]]:
    """Returns how many names the functions of a folder bind (variables, parameters, loop targets), and the counts of participles
    among them.

    Names `is_..` don't count.
    """
    count = 0
    times: dict[str, int] = {}
    for file in folder.rglob("*.py"):
        try:
            tree = ast.parse(file.read_text(encoding="utf-8", errors="replace"))
        except (SyntaxError, ValueError):
            continue
        for node in ast.walk(tree):
            name = (
                node.id
                if isinstance(node, ast.Name) and isinstance(node.ctx, ast.Store)
                else node.arg
                if isinstance(node, ast.arg)
                else ""
            )
            if not name or name.isupper() or name.startswith(("is_", "has_")):
                continue
            count += 1
            if is_participle(name):
                times[name] = times.get(name, 0) + 1
    return count, times


def names(folders: list[str]) -> None:
    for folder in folders:
        count, times = participles(pathlib.Path(folder))
        top = ", ".join(f"{name} {number}" for name, number in sorted(times.items(), key=lambda one: -one[1])[:8])
        print(f"{folder}: {count} names, {100 * sum(times.values()) / max(1, count):.1f} % participles: {top}")


if __name__ == "__main__":
    words = sys.argv[1:] or ["."]
    if words[0] == "--base":
        base(pathlib.Path(words[1]))
    elif words[0] == "--names":
        names(words[1:])
    elif words[0] == "--docstrings":
        top = pathlib.Path(words[1])
        worst({str(path.relative_to(top)): list(of_python(path.read_text(encoding="utf-8"))) for path in sorted(top.rglob("*.py"))})
    elif len(words) > 1:
        worst({words[1]: list(of_page((pathlib.Path(words[0]) / words[1]).read_text(encoding="utf-8")))})
    else:
        pages(pathlib.Path(words[0]))
