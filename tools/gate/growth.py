"""What grows: lines by area, files, words, repetitions and habits, against an earlier commit.

    python3 tools/gate/growth.py [BASE | --at REVISION]

Lines may move, and so may words: if an area has more than at BASE, the others together must have as many fewer. Any other figure may not rise
above BASE's, unless it stays within FINE. A change that has to add says so in its commit message, in a line for each figure:

    Grows: kit 120: `hinge net --record`
    Grows: crates 1: dn_clock

BASE is by default the commit that tools/gate/landed names, which is the last one that landed: whoever begins a new round of changes writes its
name there, in a commit of its own. So rises of a round can't hide behind its last commit, and a file that is left as it is only holds longer.
Uncommitted changes count too. With --at only the figures of a commit are printed, for a column of the table in docs/inside/GATE.md.
"""

import re
import subprocess
import sys
from collections import Counter
from collections.abc import Iterator
from pathlib import Path
from tempfile import TemporaryDirectory
from typing import NamedTuple

from dense import dense_lines
from tally import TOP, Tally, judge

import prose

LANDED = Path(__file__).with_name("landed")
LINES = ", lines"  # how the names of the figures end that may move between areas
FINE = {
    "repeated in C": 1,
    "participles in the kit, %": 1,
    "participles in tools, %": 10,
    "habits in pages": 2,
}  # no reason to refuse a change
GROWS = re.compile(r"(?P<name>.+?) (?P<most>\d+(?:\.\d+)?): \S.*")
TESTS = "test_|bench_|many_"  # how the names of crates begin that are no part of the product
IN_A_ROW = 8  # lines that are the same in two places
PASSED_OVER = re.compile(r"\s*(?:use|from|import|//|#) ")
AREAS = {  # by the first pattern that fits
    "specs": r"crates/[^/]+/specs/.*\.antt",
    "proofs": r"crates/.*\.antt",
    "Rattle tests": rf"crates/(?:{TESTS})[^/]*/.*\.rt",
    "Rattle code": r"crates/.*\.rt",
    "edits": r"crates/.*\.edit",
    "crates' pages": r"crates/.*\.md",
    "kit": r"python/hinge/.*\.py",
    "module": r"python/hingetulip\w*/.*\.py",
    "Python tests": r"python/tests/(?:.*\.py|kit)",
    "hosts in C": r"hosts/.*\.[ch]",
    "tools": r"tools/.*(?:\.(?:py|c|h|sh|rs)|/[^./]+)",
    "bench, examples, Rust": r"(?:bench|examples|rust)/.*\.(?:py|c|h|sh|rs|net|link)",
    "docs": r"(?:docs/(?:inside/)?)?[^/]+\.(?:md|[13])",
}


class Text(NamedTuple):
    """A text file: its path and lines."""

    name: str
    lines: list[str]


def texts(top: Path, names: list[str]) -> Iterator[Text]:
    for name in names:
        path = top / name
        if path.is_file() and not path.is_symlink():
            data = path.read_bytes()
            if b"\0" not in data[:8000]:
                yield Text(name, data.decode("utf-8", "replace").splitlines())


def area_of(name: str) -> str:
    return next((area for area, pattern in AREAS.items() if re.fullmatch(pattern, name)), "")


def is_python(file: Text) -> bool:
    return file.name.endswith(".py") or bool(file.lines and re.match("#!.*python", file.lines[0]))


def repeated(files: list[Text]) -> int:
    """Returns how many runs of lines repeat, in the same or another file, without blank lines and imports."""
    places: dict[int, int] = {}
    count = 0
    for file in files:
        lines = [line.strip() for line in file.lines if line.strip() and not PASSED_OVER.match(line)]
        was_repeated = False
        for begin in range(len(lines) - IN_A_ROW + 1):
            run = hash("\n".join(lines[begin : begin + IN_A_ROW]))
            is_repeated = run in places
            count += is_repeated and not was_repeated  # the first of a longer run alone
            was_repeated = is_repeated
            places[run] = begin
    return count


def words(files: list[Text]) -> int:
    return sum(len(re.findall(r"[\w'’-]+", line)) for file in files for line in file.lines)


def share_of_participles(folder: Path) -> float:
    """Returns the percentage of Python names that are participles."""
    count, times = prose.participles(folder)
    return round(100 * sum(times.values()) / max(1, count), 1)


def habits(top: Path, names: list[str]) -> float:
    """Returns the excess of habits' rates over those of manual pages."""
    pages = prose.sentences_of(top, names).values()
    return round(prose.excess(prose.rates([sentence for page in pages for sentence in page])), 1)


def habits_in_docstrings(files: list[Text]) -> float:
    sentences = [sentence for file in files for sentence in prose.of_python("\n".join(file.lines))]
    return round(prose.excess(prose.rates(sentences)), 1)


def figures(top: Path, names: list[str]) -> dict[str, float]:
    files = list(texts(top, names))
    by_area: dict[str, list[Text]] = {area: [] for area in AREAS}
    for file in files:
        if area := area_of(file.name):
            by_area[area].append(file)
    lines = {area: sum(len(file.lines) for file in of_area) for area, of_area in by_area.items()}
    counts = Counter(area for area, of_area in by_area.items() for _ in of_area)
    proofs, rattle = by_area["proofs"], by_area["Rattle code"]
    python = [*by_area["kit"], *by_area["module"], *filter(is_python, by_area["tools"])]
    c = [*by_area["hosts in C"], *(file for file in by_area["tools"] if file.name.endswith((".c", ".h")))]
    return {
        **{f"{area}, lines": number for area, number in lines.items()},
        "all text, lines": sum(len(file.lines) for file in files),
        "crates": len({name.split("/")[1] for name in names if name.startswith("crates/")}),
        "edits, files": counts["edits"],
        "modules of the kit": counts["kit"],
        "pages, words": words([file for file in by_area["docs"] if file.name.endswith(".md")]),
        "crates' pages, words": words(by_area["crates' pages"]),
        "repeated in proofs": repeated(proofs),
        "repeated in Rattle code": repeated(rattle),
        "repeated in Python": repeated(python),
        "repeated in C": repeated(c),
        "dense statements": sum(
            sum(1 for _ in dense_lines("\n".join(file.lines))) for file in [*python, *by_area["Python tests"]] if is_python(file)
        ),
        "participles in the kit, %": share_of_participles(top / "python" / "hinge"),
        "participles in tools, %": share_of_participles(top / "tools"),
        "habits in pages": habits(top, [name for name in names if name.endswith(".md")]),
        "habits in docstrings": habits_in_docstrings([*by_area["kit"], *by_area["module"]]),
    }


def printed(figure: float) -> str:
    return f"{figure:,.0f}" if figure == int(figure) else f"{figure:.1f}"


def at(revision: str) -> dict[str, float]:
    """Returns the figures of a commit."""
    with TemporaryDirectory() as folder:
        archive = subprocess.run(["git", "archive", revision], cwd=TOP, stdout=subprocess.PIPE, check=True).stdout
        subprocess.run(["tar", "-x", "-C", folder], input=archive, check=True)
        paths = sorted(path for path in Path(folder).rglob("*") if path.is_file())
        return figures(Path(folder), [str(path.relative_to(folder)) for path in paths])


def git(*words: str) -> str:
    done = subprocess.run(["git", *words], cwd=TOP, capture_output=True, text=True)
    return done.stdout.strip() if done.returncode == 0 else ""


def base() -> str:
    """Returns the commit to compare with; an empty text if the history lacks it, as in a clone without history."""
    landed = LANDED.read_text().strip()
    is_before = subprocess.run(["git", "merge-base", "--is-ancestor", landed, "HEAD"], cwd=TOP, capture_output=True).returncode == 0
    return landed if is_before else ""


def allowed(begin: str) -> dict[str, float]:
    """Returns the permitted rise of each figure from the commits since then. An area's name may omit its unit."""
    rises: dict[str, float] = {}
    for line in git("log", "--format=%(trailers:key=Grows,valueonly)", f"{begin}..HEAD").splitlines():
        if row := GROWS.fullmatch(line.strip()):
            name = row["name"] + LINES * (row["name"] in AREAS)
            rises[name] = rises.get(name, 0) + float(row["most"])
    return rises


def compare(tally: Tally, before: dict[str, float], now: dict[str, float], may: dict[str, float]) -> None:
    pools = [[f"{area}{LINES}" for area in AREAS], [name for name in now if name.endswith(", words")], [f"all text{LINES}"]]
    alone = [[name] for name in now if not any(name in pool for pool in pools)]
    for names in [*pools, *alone]:
        spare = sum(before[name] - now[name] + may.get(name, 0) for name in names)
        spare += sum(may.get(name, 0) for name in pools[0]) if names == pools[2] else 0
        rises = ", ".join(f"{name} {printed(before[name])} > {printed(now[name])}" for name in names if now[name] > before[name])
        is_over = spare < 0 and (len(names) > 1 or now[names[0]] > FINE.get(names[0], 0))
        advice = f"take away as much as you add, or write `Grows: {names[0]} N: REASON` in a commit"
        tally.note(rises if is_over else names[0], f"{printed(-spare)} too many: {advice}" if is_over else "")
    unknown = sorted(set(may) - set(now))
    tally.note("the names behind Grows", f"no figure has the name {', '.join(unknown)}" if unknown else "")


def main(tally: Tally, *arguments: str) -> None:
    if arguments[:1] == ("--at",):
        print("\n".join(f"{name:28} {printed(figure):>9}" for name, figure in at(arguments[1]).items()))
        sys.exit()
    begin = arguments[0] if arguments else base()
    now = figures(TOP, git("ls-files").splitlines())
    columns = re.search(r"^\| Figure \|(.*) \|$", (TOP / "docs" / "inside" / "GATE.md").read_text(encoding="utf-8"), re.M)
    last = columns[1].rpartition("|")[2].strip() if columns else "no table"
    tally.equal("the last column of docs/inside/GATE.md", (TOP / "VERSION").read_text().strip(), last)
    if not begin and not git("cat-file", "-t", LANDED.read_text().strip()):
        print("nothing is compared: this clone hasn't the commit that landed; git fetch --unshallow brings it to a shallow one")
        return
    tally.note("a commit to compare with", "" if begin else f"there is none here: {LANDED.name} names no commit before this one")
    if begin:
        before = at(begin)
        print(f"{'what':28} {git('rev-parse', '--short', begin):>9} {'now':>9}")
        for name, figure in now.items():
            print(f"{name:28} {printed(before[name]):>9} {printed(figure):>9}")
        compare(tally, before, now, allowed(begin))


if __name__ == "__main__":
    judge(main)
