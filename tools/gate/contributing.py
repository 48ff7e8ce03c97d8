"""The tables and paragraphs of CONTRIBUTING.md about changes: each file that they name is there, and each name of a table is in a source file.

    python3 tools/gate/contributing.py
"""

import re

from tally import TOP, Tally, judge, ran

PAGE = TOP / "CONTRIBUTING.md"
QUOTED = re.compile(r"`([^`]+)`")
ROW = re.compile(r"\| (?P<part>[^|]+?) \| (?P<cell>.+?) \|$")
FILE = re.compile(r"[\w./-]+\.(?:rt|antt|py|rs|h|c|bash|md)|[\w.-]+(?:/[\w.-]+)+")
SOURCE = re.compile(r"[\w./-]+\.(?:rt|antt|py|rs|h|c|bash)")
PLACEHOLDER = re.compile(r"[A-Z]{4,}")  # as FUNCTION in a path


def rows(text: str) -> list[tuple[str, str]]:
    """Returns the part and the cell of each row in the tables of files."""
    found, is_files = [], False
    for line in text.splitlines():
        is_files = line == "| Part | Files |" or is_files and line.startswith("|")
        if is_files and (row := ROW.match(line)) and row["part"] not in ("Part", "---"):
            found.append((row["part"], row["cell"]))
    return found


def paragraphs(text: str) -> list[str]:
    """The lines between the tables that say what a change touches."""
    section = text.partition("## What a change touches\n")[2].partition("\n## ")[0]
    return [line for line in section.splitlines() if not line.startswith("|")]


def is_there(name: str, tracked: list[str]) -> bool:
    """Returns whether a path, or the end of one, is tracked, as a file or folder."""
    return any(f"/{path}".endswith(f"/{name}") or f"/{name}/" in f"/{path}" for path in tracked)


def is_known(name: str) -> bool:
    """Whether a name is in a source file."""
    folders = ("crates", "hosts", "python", "rust", "tools", "bench")
    return ran("git", "grep", "-q", "-w", "-F", "-e", name, "--", *folders, cwd=TOP).returncode == 0


def main(tally: Tally) -> None:
    tracked = ran("git", "ls-files", cwd=TOP, check=True).stdout.split()
    text = PAGE.read_text(encoding="utf-8")
    for name in QUOTED.findall("\n".join(paragraphs(text))):
        if SOURCE.fullmatch(name):
            tally.note(f"a paragraph: {name}", "" if is_there(name, tracked) else "no such file")
    for part, cell in rows(text):
        for name in QUOTED.findall(cell):
            if FILE.fullmatch(name) and not PLACEHOLDER.search(name):
                tally.note(f"{part}: {name}", "" if is_there(name, tracked) else "no such file")
            elif re.fullmatch(r"\w+", name):
                fault = "" if is_there(name, tracked) or is_known(name) else "no such name"
                tally.note(f"{part}: {name}", fault)


if __name__ == "__main__":
    judge(main)
