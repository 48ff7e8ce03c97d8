"""Names of Python that are imported or bound and not used: pyflakes over every tracked file of Python.

    python3 tools/gate/linter.py [--format | --c]

With --format, black checks instead that each file has the form of python/pyproject.toml. With --c, clang-format and clang-tidy check the hosts
and the first process of simulated machines by .clang-format and .clang-tidy, which refuses variables of files, among others.
"""

from pathlib import Path

from tally import TOP, Tally, judge, ran

TOOLS: dict[str, list[tuple[list[str], str | tuple[str, ...]]]] = {  # by option: the tools, each with the endings of its files
    "": [(["pyflakes3"], ".py")],
    "--format": [(["black", "--config", "python/pyproject.toml", "--check", "--quiet"], ".py")],
    "--c": [(["clang-format", "--dry-run", "--Werror"], (".c", ".h")), (["clang-tidy", "--quiet"], ".c")],
}
FOLDERS_OF_C = ("hosts/", "python/hinge/simulated/")


def is_python(path: Path) -> bool:
    """Returns whether a file is Python, by its extension or its first line."""
    if path.suffix or not path.is_file():
        return path.suffix == ".py" and path.is_file()
    with open(path, "rb") as file:
        head = file.read(160)
    return head.startswith(b"#!") and b"ython" in head


def files(endings: str | tuple[str, ...]) -> list[str]:
    listed = ran("git", "ls-files", cwd=TOP, check=True).stdout.splitlines()
    if endings == ".py":
        return [name for name in listed if is_python(TOP / name)]
    return [name for name in listed if name.startswith(FOLDERS_OF_C) and name.endswith(endings) and (TOP / name).is_file()]


def faults(words: list[str], name: str) -> str:
    """Returns a tool's output for a file that it refuses, or an empty text."""
    done = ran(*words, name, cwd=TOP)
    return (done.stdout or f"refused by {words[0]}") if done.returncode else ""


def main(tally: Tally, *words: str) -> None:
    for tool, endings in TOOLS["".join(words)]:
        names = files(endings)
        tally.note(f"files of {tool[0]}", "" if len(names) > (400 if endings == ".py" else 25) else f"only {len(names)}")
        at_once = ran(*tool, *names, cwd=TOP)  # file by file only if one is refused
        for name in names:
            tally.note(name, faults(tool, name) if at_once.returncode else "")


if __name__ == "__main__":
    judge(main)
