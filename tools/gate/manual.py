"""The commands' manual pages: mandoc accepts them, and they name the commands' options and messages.

    python3 tools/gate/manual.py PROGRAM

dummynet(1) names each option and each fault line, and hinge(1) each command of `hinge help` and each option in its help. Each
command's help has an example that calls it.
"""

import re
import sys

from tally import TOP, Tally, judge, ran, said

from config_lines import NAME_OF
from hinge.events.forms import WORDS


def page(tally: Tally, name: str) -> str:
    """Returns the words of a page as shown, after mandoc's checks."""
    file = TOP / "docs" / name
    lint = ran("mandoc", "-Tlint", "-Wstyle", file, is_apart=True)
    tally.equal(f"mandoc -Tlint {name}", [], lint.stdout.splitlines())
    return re.sub(r"\s+", " ", re.sub(".\b", "", said("mandoc", "-Tutf8", file)))


def options(text: str) -> list[str]:
    return sorted(set(re.findall(r"(?<![\w`-])--[a-z][a-z0-9-]*", text)))


def named(tally: Tally, text: str, whose: str, words: list[str]) -> None:
    for word in words:
        tally.note(
            f"{whose} {word}",
            "" if re.search(rf"(?<![\w-]){re.escape(word)}(?![\w-])", text) else "the page doesn't name it",
        )


def of_dummynet(tally: Tally, program: str) -> None:
    text = page(tally, "dummynet.1")
    for line in re.findall(
        r"^\| `([^`]+)` \|", (TOP / "docs" / "FILES.md").read_text().partition("\n## Faults\n")[2].partition("\n## ")[0], re.M
    ):
        tally.note(f"fault line {line}", "" if line in text else "the manual page doesn't name it")
    named(tally, text, "dummynet", options(said(program, "replay", "--help")))
    named(tally, text, "a line's fault", [*NAME_OF])


def of_hinge(tally: Tally) -> None:
    hinge = (sys.executable, TOP / "hinge")
    text = page(tally, "hinge.1")
    commands = re.findall(r"^  ([a-z-]+) ", said(*hinge, "help"), re.M)
    tally.note("the commands of hinge", "" if len(commands) >= 10 else f"got {commands}")
    named(tally, text, "hinge", commands)
    named(tally, text, "at TIME", [*WORDS])
    named(tally, (TOP / "docs" / "NET.md").read_text(), "docs/NET.md: at TIME", [*WORDS])
    for command in commands:
        told = said(*hinge, command, "--help")
        example = re.split(r"\nexamples?:\n", told)[-1]
        tally.note(
            f"the example of hinge {command}", "" if re.search(rf"^  hinge {command}( |$)", example, re.M) else f"got {example!r}"
        )
        tally.equal(f"hinge help {command}", told, said(*hinge, "help", command))
        steps = re.findall(r"^    ([a-z]+) ", told.partition("positional arguments:")[2].partition("options:")[0], re.M)
        for words in [[command], *([command, step] for step in steps)]:
            named(tally, text, f"hinge {' '.join(words)}", options(re.split(r"\nexamples?:\n", said(*hinge, *words, "--help"))[0]))


def main(tally: Tally, program: str) -> None:
    of_dummynet(tally, program)
    of_hinge(tally)


if __name__ == "__main__":
    judge(main)
