"""The start that tools/coverage/coverage.py adds to each Python: count its lines, even if the process ends by os._exit or execv.

A file `.pth` among a user's packages imports it. It does nothing unless COVERAGE_PROCESS_START names what to count.
"""

import contextlib
import os
from typing import Any, Callable

try:
    import coverage

    counting = coverage.process_startup()
except ImportError:  # another Python, whose lines aren't counted
    counting = None

LEAVES = ("_exit", "execv", "execve")  # what execvp and the like call


def keeping(leave: Callable[..., Any]) -> Callable[..., Any]:
    """Returns a call that leaves this Python for good, and before that saves its counts where this user may write."""

    def kept(*words: Any) -> Any:
        with contextlib.suppress(Exception):
            counting.stop()
            counting.save()
        return leave(*words)

    return kept


if counting is not None:
    for name in LEAVES:
        setattr(os, name, keeping(getattr(os, name)))
