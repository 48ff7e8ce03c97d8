"""The places of threads in their programs, which gdb finds in the cores that a machine left."""

from __future__ import annotations

import re
import shutil
from itertools import groupby
from os.path import basename
from pathlib import Path
from typing import Iterator, Optional

from hinge.border.programs import TimeoutExpired, asked
from hinge.command import Fault
from hinge.simulated.verdict import Waiting

GDB = "gdb"
FRAME = re.compile(r"#\d+ +(?:0x[0-9a-f]+ in )?(\S+) \(.*?\)(?: at (\S+))?( from \S+)?$")
THREAD = re.compile(r"Thread \d+ .*\(?LWP (\d+)\)")
PROGRAM = re.compile(r'AT_EXECFN .* "(.*)"$', re.MULTILINE)
FRAMES = 4  # the most functions of a place
LONGEST = 30  # s after which gdb is ended


def has_debugger() -> bool:
    return shutil.which(GDB) is not None


def debugger(root: Optional[str], core: Path, *commands: str) -> str:
    """Returns gdb's output for a core; an empty text if gdb fails."""
    settings = ["set debuginfod enabled off", "set width 0", f"set sysroot {root or ''}", f"core-file {core}"]
    words = [word for text in [*settings, *commands] for word in ("-ex", text)]
    try:
        return asked([GDB, "-nx", "-batch", *words], statuses=range(128), limit=LONGEST).text
    except (Fault, OSError, TimeoutExpired):
        return ""


def innermost_place(lines: "list[str]") -> str:
    """Returns the innermost functions in the lines of a backtrace, each with its file and line, if known. Prefers the program's
    functions; without any, returns functions of libraries."""
    matches = [match for match in map(FRAME.match, lines) if match and match[1] != "??"]
    frames = [(match[1], match[2] or "", match[3]) for match in matches]
    own = [frame for frame in frames if not frame[2] and not frame[1].startswith(("../", "./"))]
    return " < ".join(f"{name} ({basename(file)})" if file else name for name, file, _ in (own or frames)[:FRAMES])


def backtraces(folder: Path, process: int, root: Optional[str]) -> "Iterator[tuple[int, str]]":
    """Yields each thread's number in its machine and the thread's place, beginning with the thread that ended the process, if the
    process left a core."""
    core = folder / f"core.{process}"
    program = PROGRAM.search(debugger(root, core, "info auxv")) if core.exists() else None
    if program is None:
        return
    path = f"{root or ''}{program[1]}" if program[1].startswith("/") else program[1]
    text = debugger(root, core, f"file {path}", f"core-file {core}", "thread apply all -ascending bt 20")
    _, *parts = THREAD.split(text)
    for number, lines in zip(parts[::2], parts[1::2]):
        yield int(number), innermost_place(lines.splitlines())


def innermost(folder: Path, process: int, root: Optional[str]) -> str:
    """Returns the innermost functions, with files and lines if known, of the thread that ended a process. Returns an empty text
    if the process left no core or gdb fails."""
    return next((text for _, text in backtraces(folder, process, root)), "")


def with_places(threads: "tuple[Waiting, ...]", folder: Path, root: Optional[str]) -> "tuple[Waiting, ...]":
    """Returns the threads with their places, if gdb finds them. In another namespace threads have other numbers, but the same
    order, which pairs threads and places."""
    result = list[Waiting]()
    for process, group in groupby(sorted(threads, key=Waiting.numbers), lambda thread: thread.process):
        places = (text for _, text in sorted(backtraces(folder, process, root)))
        result += [thread._replace(place=next(places, "")) for thread in group]
    return tuple(result)
