"""Tests of Python by pytest, as a part of the gate: files and folders below python/.

    python3 tools/gate/pytests.py FILE..

pytest-xdist tries as many files at once as there are processors, if it is there. A failing test runs once more, separately: if it
passes then, a line names the test; the gate's last lines list all such lines, and more than two are red.
"""

import os
import re
import shutil
import subprocess
import sys
from collections.abc import Mapping
from pathlib import Path
from tempfile import TemporaryFile
from typing import Any, Optional

from tally import AGAIN, Tally, judge

PYTHON = Path(__file__).resolve().parents[2] / "python"
# Of the tests of hosts, those that need no clock.
PLANS = [f"tests/run/test_{name}.py" for name in ("net_file", "net_plans", "plan", "plan_files")]
MOST_AGAIN = 5  # tests that are made once more
COUNT = re.compile(r"(\d+) (passed|failed|errors?)\b")
FAILED = re.compile(r"^(?:FAILED|ERROR) (\S+::.+?)(?: - .*)?$", re.M)
SKIPPED = re.compile(r"^SKIPPED (\[\d+\]) (?:\S+: )?(.*)$", re.M)


def has(interpreter: str, *modules: str) -> bool:
    words = [interpreter, "-c", f"import {', '.join(modules)}"]
    return subprocess.run(words, cwd="/", capture_output=True).returncode == 0


def interpreter() -> Optional[str]:
    """Returns a Python with pytest: the system's, with Debian's packages, or this one."""
    words = [word for word in ("/usr/bin/python3", sys.executable) if shutil.which(word)]
    return next((word for word in words if has(word, "pytest")), None)


def output(words: list[str], env: Mapping[str, str]) -> tuple[int, str]:
    """Returns the status and the output of a run, through a file, since a failed test's children would hold a pipe."""
    with TemporaryFile("w+", errors="replace") as text:
        how: Any = {"stdin": subprocess.DEVNULL, "stdout": text, "stderr": text}
        status = subprocess.run(words, cwd=PYTHON, env=env, **how).returncode
        text.seek(0)
        return status, text.read()


def counts_in(text: str) -> dict[str, int]:
    """Returns the numbers of passed, failed and broken tests from pytest's last line."""
    lines = text.strip().splitlines()
    return {word.rstrip("s"): int(number) for number, word in COUNT.findall(lines[-1] if lines else "")}


def passed_alone(words: list[str], text: str, env: Mapping[str, str]) -> list[str]:
    """Returns the failed tests that pass when repeated alone. Many failures at once have another cause than the clock."""
    names = FAILED.findall(text)
    again = names if len(names) <= MOST_AGAIN else []
    return [name for name in again if output([*words, name], env)[0] == 0]


def count(tally: Tally, files: list[str], env: Mapping[str, str], *options: str, is_alone: bool = False) -> None:
    """Runs tests below python/, one by one if `is_alone`, and adds them to the tally.

    Skipped tests are printed with the reasons.
    """
    python = interpreter()
    if python is None:
        print(f"{' '.join(files)}: skipped, since no Python has pytest: apt-get install python3-pytest")
        return
    processors = str(len(os.sched_getaffinity(0)))
    at_once = ["-n", processors, "--dist", "loadfile"] if not is_alone and has(python, "xdist") else []
    pytest = [python, "-m", "pytest", "-q", "-rsfE", "--tb=short", "-p", "no:cacheprovider"]
    env = {**env, "PYTHONDONTWRITEBYTECODE": "1"}
    status, text = output([*pytest, *at_once, *options, *files], env)
    counts = counts_in(text)
    for number, reason in SKIPPED.findall(text):
        print(f"skipped {number}: {reason}")
    failed = counts.get("failed", 0) + counts.get("error", 0)
    again = passed_alone(pytest, text, env)
    for name in again:
        print(f"{AGAIN}{name}")
    is_good = counts and (status == 0 or status == 1 and failed == len(again))
    tally.note(" ".join(files), "" if is_good else text)
    passed = counts.get("passed", 0) + len(again)
    tally.passed = tally.passed + passed
    tally.failed = tally.failed + max(0, failed - len(again) - 1)


def main(tally: Tally, *files: str) -> None:
    count(tally, files, os.environ)


if __name__ == "__main__":
    judge(main)
