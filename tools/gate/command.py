"""Runs a command of the gate so that it ends, with all processes that it left.

Its output goes into a file. What a failed test left running would hold a pipe, and the gate would wait for that. The command leads
a separate process group, which ends afterwards. What takes another group is left to whoever began it.
"""

import os
import signal
import subprocess
from collections.abc import Mapping, Sequence
from contextlib import suppress
from pathlib import Path
from tempfile import TemporaryFile
from threading import Timer
from typing import Any, NamedTuple, Optional

running: set[int] = set()


class Ended(NamedTuple):
    """A command's end: status, output, and processor seconds, including its children's."""

    status: int
    text: str
    seconds: float


def end_group(leader: int) -> None:
    with suppress(ProcessLookupError):
        os.killpg(leader, signal.SIGKILL)


def end_all() -> None:
    """Ends what runs now, since a terminal's interrupt doesn't reach other groups."""
    for leader in list(running):
        end_group(leader)


def run(words: Sequence[str], limit: float, cwd: Path, env: Optional[Mapping[str, str]] = None) -> Ended:
    """Runs a command for at most `limit` seconds; returns its end. A longer command is killed, and its last line says so."""
    with TemporaryFile("w+", errors="replace") as said:
        output: dict[str, Any] = {"stdin": subprocess.DEVNULL, "stdout": said, "stderr": subprocess.STDOUT}
        begun = subprocess.Popen(words, cwd=cwd, env=env, process_group=0, **output)
        running.add(begun.pid)
        ends = Timer(limit, end_group, [begun.pid])
        ends.start()
        # The leader isn't reaped before its group is ended, so its number can't be another's by then.
        os.waitid(os.P_PID, begun.pid, os.WEXITED | os.WNOWAIT)
        is_late = not ends.is_alive()
        ends.cancel()
        end_group(begun.pid)
        running.discard(begun.pid)
        _, status, usage = os.wait4(begun.pid, 0)
        begun.returncode = os.waitstatus_to_exitcode(status)
        said.seek(0)
        text = said.read() + (f"ended after {limit:.0f} s\n" if is_late else "")
    return Ended(begun.returncode, text, usage.ru_utime + usage.ru_stime)
