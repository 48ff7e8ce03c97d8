"""A part's form: its count of passed and failed checks, printed as its last line, and the folders from which parts import."""

import os
import shutil
import subprocess
import sys
from collections.abc import Callable
from contextlib import suppress
from pathlib import Path
from tempfile import TemporaryDirectory
from typing import Any

TOP = Path(__file__).resolve().parents[2]
TOOLS = TOP / "tools"
sys.path[:0] = [str(TOP / "python"), str(TOOLS), *(str(TOOLS / name) for name in ("oracle", "hostile", "laws", "release"))]
FAULT = "failed: "  # how the lines begin that name what failed once more, before the last line
AGAIN = "at the second try: "  # and those that name what failed first, and passed alone
LAST_LINES = 8  # of what is wrong, in such a line
AT_ONCE = "ENDS_AT_A_FAULT"  # a variable: where it is set, a part ends at its first fault


Ran = subprocess.CompletedProcess[str]


class Enough(BaseException):
    """Raised behind the first fault, where that is enough."""


class Tally:
    place: Path  # a folder that is removed with the part's end

    def __init__(self, is_short: bool = False) -> None:
        """`is_short`: the first fault ends the part."""
        self.passed, self.failed, self.is_short = 0, 0, is_short
        self.faults: list[str] = []

    def note(self, name: str, *faults: str) -> None:
        """Notes a check, with its faults, if any."""
        found = [fault for fault in faults if fault]
        self.passed, self.failed = self.passed + (not found), self.failed + bool(found)
        for fault in found:
            print(f"{name}: {fault}", flush=True)
            self.faults.append(f"{FAULT}{name}: {' / '.join(fault.strip().splitlines()[-LAST_LINES:])}")
        if found and self.is_short:
            raise Enough

    def equal(self, name: str, wanted: object, got: object) -> None:
        self.note(name, "" if wanted == got else f"want {wanted!r}, got {got!r}")

    def ends(self, name: str, done: subprocess.CompletedProcess[Any], *wanted: object) -> None:
        """Compares a command's status, and its output and errors if they are given too."""
        self.equal(name, wanted, (done.returncode, done.stdout, done.stderr)[: len(wanted)])

    def end(self) -> int:
        """Prints the failures again in short, and the last line; returns the status. A part without checks fails."""
        if not self.passed and not self.failed:
            self.note("nothing was tried", "so nothing is shown")
        print("\n".join([*self.faults, f"{self.passed} passed, {self.failed} failed"]))
        return 1 if self.failed else 0


def ran(*words: object, is_apart: bool = False, **how: Any) -> Ran:
    """Runs a command without input, unless `how` has one, to its end. Its output includes errors, unless they are kept separate."""
    stdin = {} if "input" in how or "stdin" in how else {"stdin": subprocess.DEVNULL}
    streams = {"stdout": subprocess.PIPE, "stderr": subprocess.PIPE if is_apart else subprocess.STDOUT, **stdin}
    return subprocess.run(list(map(str, words)), **{**streams, "text": True, **how})


def said(*words: object) -> str:
    """Returns the output of a command that has to succeed, without its errors."""
    return ran(*words, is_apart=True, check=True).stdout


def lacks(name: str, *programs: str) -> bool:
    """Returns whether this machine lacks one of the programs that a check needs, and says that the check is skipped then."""
    missing = [program for program in programs if shutil.which(program) is None]
    if missing:
        print(f"{name}: skipped, since there is no {missing[0]} on the path", flush=True)
    return bool(missing)


def stated(tally: Tally, page: str, *words: str) -> None:
    """Checks that a page says what a part counts, however its lines break."""
    text = " ".join((TOP / page).read_text(encoding="utf-8").split())
    tally.note(f"{page}: what is counted", *(f"doesn't say: {one}" for one in words if one not in text))


def judge(main: Callable[..., None]) -> None:
    """Runs a part with the words of its command line and a folder, and ends with the status of its tally."""
    tally = Tally(AT_ONCE in os.environ)
    with suppress(Enough), TemporaryDirectory() as place:
        tally.place = Path(place)
        main(tally, *sys.argv[1:])
    sys.exit(tally.end())
