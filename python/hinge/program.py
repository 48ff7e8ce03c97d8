"""The locations of the programs that the kit runs."""

from __future__ import annotations

import os
import shutil
import sys
from pathlib import Path
from typing import Iterator, Optional, Sequence

from hinge.border.files import opened_log
from hinge.border.programs import NOTHING, Answer, Process, asked, begun
from hinge.command import MISSING, Fault

PACKAGE = Path(__file__).resolve().parent
REPOSITORY = PACKAGE.parents[1]
VERDICTS = (0, 1, 3, 4)  # the statuses with which dummynet judges what it reads
HINGE = (sys.executable, str(PACKAGE / "__main__.py"))


def places(name: str, *in_repository: str) -> Iterator[Optional[str]]:
    """Yields a program's possible locations in order: this package's clone, the package, `bin` in each enclosing folder, and the
    path. The version that was installed with the package thus precedes other versions on the path."""
    for place in in_repository:
        yield str(REPOSITORY / place)
    yield str(PACKAGE / name)
    for folder in PACKAGE.parents:
        yield str(folder / "bin" / name)
    yield shutil.which(name)


def program_named(variable: str, name: str, *in_repository: str) -> str:
    """Returns the path to a program: the environment variable's value, or the first program in `places`. Fault: there is no
    program."""
    path = os.environ.get(variable)
    if path:
        if is_program(path):
            return path
        raise Fault(f"{variable} names {path}, which isn't a program", MISSING)
    for place in places(name, *in_repository):
        if place is not None and is_program(place):
            return place
    raise Fault(f"there is no program {name}: the variable {variable} can name it", MISSING)


def is_program(path: str) -> bool:
    """Returns whether a path names a file that this user can execute."""
    return os.path.isfile(path) and os.access(path, os.X_OK)


def dummynet() -> str:
    """Returns the path of dummynet."""
    return program_named("DUMMYNET", "dummynet", "dummynet")


def asked_of_dummynet(*words: str, data: Optional[bytes] = None) -> Answer:
    """Runs dummynet with these words, and with data as standard input; returns the answer, whose status tells an error in a
    configuration, packet file or history. Fault: dummynet failed for another reason."""
    return asked([dummynet(), *words], data, VERDICTS)


def audit_of(history: str) -> str:
    """Returns dummynet's verdict on a history: `lawful N`, or its first unlawful entry."""
    answer = asked_of_dummynet("audit", history)
    return answer.text.strip() or answer.told


def clock() -> str:
    """Returns the path to the library with the simulated clock for C code; tools/release/hosts builds the library."""
    return program_named("HINGE_CLOCK", "hinge-clock.so", "built/hinge-clock.so", "release/hinge-clock.so")


def packets_program() -> str:
    """Returns the path to the program that reads captures and writes packet rows; tools/release/hosts builds the program."""
    return program_named("HINGE_PACKETS", "hinge-packets", "built/hinge-packets", "release/hinge-packets")


def in_background(words: Sequence[str], log: Path, *pipes: int) -> "Process[bytes]":
    """Starts a `hinge` command with its output in a log; returns the process, which inherits the descriptors `pipes`."""
    out = opened_log(log)
    try:
        return begun([*HINGE, *words], stdin=NOTHING, stdout=out, stderr=out, pass_fds=pipes, start_new_session=True)
    finally:
        os.close(out)
