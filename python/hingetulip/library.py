"""Finds and loads the C library, whose functions hingetulip.h declares."""

from __future__ import annotations

import os
import sys
from ctypes import Structure, byref, c_bool, c_char, c_size_t, c_uint32, c_uint64, c_void_p
from pathlib import Path
from typing import Iterator

from hingetulip.errors import (
    ClosedError,
    ExhaustedError,
    HingetulipError,
    HistoryError,
    OutOfMemoryError,
    RangeError,
    RefusedError,
)
from hingetulip.layout import FAULT

try:
    from ctypes import PyDLL
except ImportError:
    raise ImportError(f"hingetulip needs CPython, and this is {sys.implementation.name}") from None

NAMES = ("libhingetulip.so.1", "libhingetulip.so")
MAJOR = 2  # the library's major version; later minor versions only add functions
LAST_MOMENT = 2**62
NEVER = 2**64 - 1
HISTORY_LIMIT = 268_435_456  # bytes

ROOM, LINE, NEW_FLOW, BAD_ROW, BAD_RECORD = 7, 8, 19, 22, 24
REASON_ROOM = 128  # bytes, enough for each reason
FAILURES: dict[int, type[HingetulipError]] = {
    1: ExhaustedError,
    **dict.fromkeys((2, 3, 4), RefusedError),
    5: ClosedError,
    6: OutOfMemoryError,
    **dict.fromkeys((9, 10, 11, 12, 13, 16, 20, 21, 22), RangeError),
    **dict.fromkeys((23, 24), HistoryError),
}


class Handle(Structure):
    """The library's memory for a shaper or an audit. The memory can't move while the handle is open."""

    _fields_ = [("at", c_void_p), ("open", c_bool)]


def reason(status: int, kind: int = 0) -> str:
    """Returns the library's reason for a status; for LINE, the reason for a kind of fault."""
    text = (c_char * REASON_ROOM)()
    length = c_uint64()
    CALLS.dn_reason(c_uint32(status), FAULT.record.pack(0, kind), text, c_size_t(REASON_ROOM), byref(length))
    return text.raw[: length.value].decode()


def failure(status: int) -> HingetulipError:
    """Returns the exception for the status of a call that failed."""
    kind = FAILURES.get(status, HingetulipError)
    return kind("the shaper is closed" if kind is ClosedError else reason(status))


def places() -> Iterator[str]:
    """Yields the paths at which the library may be: beside this module, in a clone's `release`, in the `lib` of each enclosing
    folder, and in the system's folders."""
    here = Path(__file__).resolve().parent
    folders = [here]
    clone = here.parents[1]
    if (clone / "crates.txt").exists():
        folders.append(clone / "release")
    folders += [above / "lib" for above in here.parents]
    for folder in folders:
        yield from (str(folder / name) for name in NAMES if (folder / name).exists())
    yield NAMES[0]


def load(place: str) -> PyDLL:
    """Loads the library and returns it. Callers must pass arguments of the right ctypes types, since no function declares its
    types.

    A call keeps Python's lock, since releasing and reacquiring the lock would need more time than the call. ImportError: the
    library has another major version.
    """
    library = PyDLL(place)
    version = library.dn_version()
    if version // 1_000_000 != MAJOR:
        raise ImportError(f"{place} has version {version}, and not {MAJOR}.x")
    return library


def find_library() -> tuple[PyDLL, str]:
    """Returns the library and its path: from HINGETULIP_LIBRARY, or else the first of `places` that can be loaded. ImportError: no
    library can be loaded."""
    path = os.environ.get("HINGETULIP_LIBRARY")
    faults = []
    for place in [path] if path else places():
        try:
            return load(place), place
        except (OSError, AttributeError, ImportError) as fault:
            faults.append(str(fault))
    raise ImportError(f"{NAMES[0]} can't be loaded ({'; '.join(faults)}); the variable HINGETULIP_LIBRARY can name it")


CALLS, LIBRARY = find_library()


def version_text(version: int) -> str:
    """Returns a version's number as text, such as 2.1.0 for 2001000."""
    return f"{version // 1_000_000}.{version // 1_000 % 1_000}.{version % 1_000}"


VERSION = version_text(CALLS.dn_version())
