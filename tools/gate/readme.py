"""README from the top, as somebody types it who has just got a clone: every sample and every row of its table of other tools, then what
`hinge` does in a clone that can't be written, with Python in /usr/local/bin alone, and in a virtual environment.

    python3 tools/gate/readme.py PROGRAM

A sample prints what the page says; `[..]` stands for any lines, and in real time a number for another one. Each look is tried itself: with one
digit changed in what the page shows, or one word where numbers don't count, the sample has to be refused. The page's test fails twice alike. A
sample is skipped, and told, where the machine lacks what the page says that it needs.
"""

import os
import re
import shlex
import shutil
import subprocess
import sys
from pathlib import Path
from typing import Iterator, NamedTuple

from installs import copied
from pytests import interpreter
from tally import TOP, Ran, Tally, judge, ran

from hinge.foreign import replacement_of

PAGE = (TOP / "README.md").read_text()
BLOCK = re.compile(r"^```(\w*)\n(.*?)^```$", re.M | re.S)
CELLS = re.compile(r"^\| (.*) \| (.*) \|$", re.M)
CODE = re.compile(r"`([^`]+)`")
NEEDS = {"ping": "ping", "redis.net": "redis-server", "--outside": "slirp4netns", "--container": "docker"}
NEEDS |= {"pip install": "pip", "apt install": "apt-get"}
FIRST = "git clone URL hingetulip && cd hingetulip"  # which the copy stands for
ROWS = re.compile(r" *row |10\.0")  # of what the page's test prints
FILES = {name: "1\n2\n" for name in ("up.trace", "down.trace")}
PLACES = {"FILE": "changes", "COMMAND": "true"}
# Commands of a shell in namespaces of its own, before which the words of a case stand.
READ_ONLY = 'mount --bind "$PWD" "$PWD" && mount -o remount,bind,ro "$PWD" && cd "$PWD"'
OTHER_PYTHON = (
    'real=$(readlink -f /usr/bin/python3) && mount -t tmpfs none /usr/local/bin && ln -s "$real" /usr/local/bin/python3 && '
    "touch /usr/local/bin/empty && mount --bind /usr/local/bin/empty /usr/bin/python3"
)


class Sample(NamedTuple):
    command: str
    output: list[str]


def samples() -> Iterator[Sample]:
    """Yields the page's commands after `$ `, with the lines that they print."""
    for language, text in BLOCK.findall(PAGE):
        for part in re.split(r"^\$ ", text, flags=re.M)[1:] if not language else []:
            command, *output = part.rstrip().splitlines()
            yield Sample(command, output)


def is_of_real_time(sample: Sample) -> bool:
    return sample.command.startswith(("hinge run", "hinge net")) and "--simulated" not in sample.command


def changed(sample: Sample) -> Sample:
    """The sample with the last digit of its output changed, or the last word where numbers don't count."""
    text = "\n".join(sample.output)
    kind = r"[a-z]{3}(?![^\n]*\[\.\.\])" if is_of_real_time(sample) else r"\d(?![^\n]*\[\.\.\])"
    place = max((found.start() for found in re.finditer(kind, text)), default=-1)
    if place < 0:
        return sample
    other = "#" if is_of_real_time(sample) else str((int(text[place]) + 1) % 10)
    return sample._replace(output=(text[:place] + other + text[place + 1 :]).split("\n"))


def pattern(sample: Sample) -> str:
    """Returns the pattern that a sample's output must contain, in order."""
    is_real = is_of_real_time(sample)
    parts = re.split(r"\[\.\.\]\s*", " ".join(" ".join(sample.output).split()))
    texts = [
        re.sub(r"\d+(\\\.\d+)?", r"[\\d.,]+", re.escape(part)) if is_real else re.escape(part) for part in map(str.strip, parts)
    ]
    return ".*".join(text.replace(r"\ ", r"\s+") for text in texts)


def lacking(command: str) -> str:
    """A program that the machine lacks for a command."""
    for word, program in NEEDS.items():
        if word in command and (
            shutil.which(program) is None or program == "docker" and subprocess.run([program, "ps"], capture_output=True).returncode
        ):
            return program
    return ""


class Typed:
    """A shell in the clone, with a scratch home."""

    def __init__(self, tally: Tally, clone: Path) -> None:
        self.tally, self.clone = tally, clone
        python = Path(interpreter() or sys.executable).parent
        path = f"{clone}:{clone / 'own'}:{python}:{os.environ['PATH']}"
        (clone / "own").mkdir()
        for name, text in {"sudo": 'exec "$@"', "pytest": f'exec {python}/python3 -m pytest -p no:cacheprovider "$@"'}.items():
            (clone / "own" / name).write_text(f"#!/bin/sh\n{text}\n")
            (clone / "own" / name).chmod(0o755)
        home = clone.parent / "home"
        home.mkdir()
        self.env = {"PATH": path, "HOME": str(home), "LANG": "C.UTF-8", "TMPDIR": str(home)}

    def type(self, text: str) -> Ran:
        return ran("sh", "-c", text, cwd=self.clone, env=self.env, timeout=600)

    def sample(self, sample: Sample) -> None:
        if missing := lacking(sample.command):
            print(f"{sample.command}: skipped, since there is no {missing}")
            return
        done = self.type(sample.command)
        is_as_told = re.search(pattern(sample), done.stdout, re.S) is not None and (done.returncode == 0) != (
            "pytest" in sample.command
        )
        self.tally.note(sample.command, "" if is_as_told else f"status {done.returncode}, prints {done.stdout[-1500:]}")
        other = changed(sample)
        if other != sample:
            is_refused = re.search(pattern(other), done.stdout, re.S) is None
            self.tally.note(f"{sample.command}: with another text on the page", "" if is_refused else "isn't refused")
        if "pytest" in sample.command:
            told = [
                [line for line in text.splitlines() if ROWS.match(line)] for text in (done.stdout, self.type(sample.command).stdout)
            ]
            self.tally.equal(f"{sample.command}: the second run", told[0], told[1])

    def works(self, name: str, text: str, wanted: str = "") -> None:
        done = self.type(text)
        is_so = done.returncode == 0 and wanted in done.stdout
        self.tally.note(name, "" if is_so else f"status {done.returncode}: {done.stdout[-1500:]}")


def rows() -> list[tuple[str, str]]:
    table = PAGE.partition("## If you know another tool")[2].partition("\n## ")[0]
    return [row for row in CELLS.findall(table) if not row[0].startswith(("You know", "--"))]


def table(typed: Typed) -> None:
    """Each row: its commands are done, its lines make a net, and `hinge` with the other tool's words answers with the same."""
    net = list[str]()
    for left, right in rows():
        words = CODE.findall(left)[0]
        answer = replacement_of(shlex.split(words)) if "(" not in words else None
        commands = [code for code in CODE.findall(right) if code.startswith(("hinge run", "sudo"))]
        typed.tally.note(
            f"hinge {words}", "" if answer is None or answer.write in commands + ["", *config(words)] else answer.text()
        )
        net += [code for code in CODE.findall(right) if code.startswith(("host", "link", "at "))]
        for command in commands:
            if missing := lacking(command):
                print(f"{command}: skipped, since there is no {missing}")
            else:
                typed.works(command, re.sub("COMMAND", "true", command))
        for option in re.findall(r"`(--[a-z]+) FILE`.*`(.*)`", right):
            (typed.clone / "changes").write_text(f"{option[1]}\n")
            typed.works(" ".join(option), f"hinge run --quiet --link 1ms {option[0]} changes -- true")
    lines = [*net[:2], "host n1", *net[2:], "link n1 h1 1ms", "link n1 h2 1ms"]
    (typed.clone / "a.net").write_text("".join(f"{line}\n" for line in sorted(lines, key=lambda line: line.startswith("at "))))
    typed.works("the lines of a net", "hinge net a.net --dry-run", "h1 10.9")


def config(words: str) -> list[str]:
    """A line of ipfw is the same in --line."""
    return [f"hinge run --line {shlex.quote(words.removeprefix('ipfw '))} -- COMMAND"]


def others(typed: Typed) -> None:
    """A clone that can't be written, another place of Python, and a virtual environment."""
    unshare = "unshare -m" if os.geteuid() == 0 else "unshare -rm"
    tries = "hinge try && hinge run --simulated --link 1ms -- true && dummynet --version && hinge docs"
    for name, before in (("a clone that can't be written", READ_ONLY), ("Python in /usr/local/bin", OTHER_PYTHON)):
        typed.works(name, f"{unshare} sh -c {shlex.quote(f'{before} && {tries}')}", "3 MB come down over the preset lte")
    typed.type(f"{interpreter() or sys.executable} -m venv --without-pip ../venv")
    advice = typed.type('VIRTUAL_ENV="$PWD/../venv" hinge doctor').stdout
    typed.tally.note(
        "hinge doctor in a virtual environment", "" if "pip install numpy" in advice and " python3-" not in advice else advice
    )


def main(tally: Tally, program: str) -> None:
    clone = copied(tally.place, program).rename(tally.place / "hingetulip")
    typed = Typed(tally, clone)
    for name, text in FILES.items():
        (clone / name).write_text(text)
    [test] = [text for language, text in BLOCK.findall(PAGE) if language == "python"]
    (clone / "test_readings.py").write_text(test)
    each = list(samples())
    tally.note("the first line", "" if each[0].command.startswith(FIRST) else "isn't the clone")
    for sample in each[1:]:
        typed.sample(sample)
    table(typed)
    others(typed)
    tally.note("README has at most 130 lines", "" if len(PAGE.splitlines()) <= 130 else f"{len(PAGE.splitlines())}")


if __name__ == "__main__":
    judge(main)
