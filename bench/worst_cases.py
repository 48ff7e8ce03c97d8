"""Runs the program on the worst inputs that are known, and prints what each took, as a table.

    python3 bench/worst_cases.py PROGRAM

tools/hostile writes the inputs, each at the size that its row says. Time is user and system time, and memory the most that stood in it.
"""

import os
import subprocess
import sys
from collections.abc import Callable
from pathlib import Path
from tempfile import TemporaryDirectory
from typing import NamedTuple

HOSTILE = Path(__file__).resolve().parent.parent / "tools" / "hostile"
PACKETS = 67_108_864
HISTORY = 268_435_456
MIB = 1024


class Run(NamedTuple):
    """A command of the program, and the file that it reads from standard input."""

    words: list[str]
    stdin: str = os.devnull


class Case(NamedTuple):
    """A worst case: what it is, the words of its generator, and the command over what that wrote into a folder."""

    name: str
    generator: list[str]
    run: Callable[[str], Run]


def replay(*more: str) -> Callable[[str], Run]:
    return lambda folder: Run(["replay", f"{folder}/config", f"{folder}/packets", *(word.format(folder) for word in more)])


def session(folder: str) -> Run:
    return Run(["live"], f"{folder}/calls")


def case(name: str, generator: str, run: Callable[[str], Run] = session) -> Case:
    return Case(name, generator.split(), run)


CASES = [
    case("160,000 flows whose keys collide where the hash has no secret", "inputs.py chosen 160000 {}", replay()),
    case("the same flows with other addresses", "inputs.py spread 160000 {}", replay()),
    case("a queue of 80,000 flows on one link, two packets each, and its delete", "sessions.py queue-delete 80000 {}/calls"),
    case("100,000 flows, and 100,000 deletes that reach none", "sessions.py idle-deletes 100000 {}/calls"),
    case("100,000 rounds of a queue, a new flow of it, and its delete", "sessions.py reset-queue 100000 {}/calls"),
    case("64,000 flows on one link, and as many turns of a delete and an arrival there", "sessions.py delete-turns 64000 {}/calls"),
    case("65,535 pipes with a queue each, 1,310,700 packets", "sessions.py many-links 65535 {}/calls"),
    case("the shortest rows, 64 MiB", f"inputs.py rows {PACKETS} {{}}", replay()),
    case("the same with a history", f"inputs.py rows {PACKETS} {{}}", replay("--history", "{}/history")),
    case("the shortest rows of a flow each, 64 MiB", f"inputs.py flows {PACKETS} {{}}", replay()),
    case("900,000 rows that end in CR LF", "inputs.py returns 900000 {}", replay()),
    case("900,000 rows in quotes", "inputs.py quoted 900000 {}", replay()),
    case("900,000 plain rows, to compare", "inputs.py plain 900000 {}", replay()),
    case(
        "an audit of the shortest entries, 256 MiB", f"inputs.py entries {HISTORY} {{}}", lambda f: Run(["audit", f"{f}/history"])
    ),
]


def measured(program: str, run: Run) -> tuple[float, int]:
    """Seconds of user and system time, and KiB."""
    with open(run.stdin, "rb") as stdin, subprocess.Popen([program, *run.words], stdin=stdin, stdout=subprocess.DEVNULL) as child:
        _, status, used = os.wait4(child.pid, 0)
        child.returncode = os.waitstatus_to_exitcode(status)
    if child.returncode != 0:
        sys.exit(f"{' '.join(run.words)}: status {child.returncode}")
    return used.ru_utime + used.ru_stime, used.ru_maxrss


def main(program: str) -> None:
    print("| Input | User and system time | Memory | Written by |\n|---|---|---|---|")
    for case in CASES:
        with TemporaryDirectory() as folder:
            words = [word.format(folder) for word in case.generator]
            subprocess.run([sys.executable, HOSTILE / words[0], *words[1:]], check=True)
            seconds, memory = measured(program, case.run(folder))
        script = " ".join(case.generator).replace("{}/calls", "FILE").replace("{}", "FOLDER")
        print(f"| {case.name} | {seconds:.2f} s | {memory / MIB:.0f} MiB | `tools/hostile/{script}` |", flush=True)


if __name__ == "__main__":
    main(sys.argv[1])
