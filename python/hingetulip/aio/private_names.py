"""Checks the private names of asyncio that this package uses, on import, since a new Python version may change them."""

from __future__ import annotations

import asyncio
import sys
from types import FunctionType
from typing import Mapping

from hingetulip.aio.switched import is_known

NAMES = {  # the loop's functions, and the private names in each
    "_run_once": ("_selector", "select", "_process_events", "_clock_resolution"),
    "call_soon_threadsafe": ("_write_to_self",),
    "_add_callback": ("_ready",),
    "run_forever": ("_run_once",),
}


def changed(functions: Mapping[str, object]) -> list[str]:
    """Returns a text for each name that a function of the loop no longer uses. `functions` contains the loop's functions."""
    faults = []
    for function, names in NAMES.items():
        code = functions.get(function)
        present = code.__code__.co_names if isinstance(code, FunctionType) else ()
        faults += [f"BaseEventLoop.{function} without {name}" for name in names if name not in present]
    return faults


def check() -> None:
    """Checks this Python. ImportError: this package doesn't support the event loop, or the layout of C functions."""
    faults = changed(vars(asyncio.BaseEventLoop))
    if not is_known():
        faults.append("other functions in C, or no GIL")
    if faults:
        raise ImportError(f"hingetulip.aio doesn't know Python {sys.version.split()[0]}, but 3.9 to 3.13: {', '.join(faults)}")
