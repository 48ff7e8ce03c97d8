"""Controls C code during a run, with the library hinge-clock.so: OpenSSL's clock, random numbers from the seed, and a count of the
calls that reached the system."""

from __future__ import annotations

import ctypes
import os
from collections import Counter
from contextlib import contextmanager
from ctypes import POINTER, c_char_p, c_int, c_int64, c_size_t, c_uint, c_uint64, c_void_p
from pathlib import Path
from random import Random
from typing import Any, Callable, Iterator, Optional

from hingetulip.aio.clock import Clock
from hingetulip.aio.switched import switch_copy, switched

PYTHON = Path(__file__).resolve().parents[2]
PLACES = ("../built", "../release", "hinge")  # the library's folders: two in a clone, and one where it is installed
BEHIND = 2**32 - 1  # the count that the library returns behind the last function
FUNCTIONS = {  # the library's functions, each with the types of its result and its arguments
    "hinge_border": (None,),
    "hinge_seed": (None, c_uint64),
    "hinge_random": (c_int, c_void_p, c_int),
    "hinge_run": (None, c_void_p, c_int64, c_uint64),
    "hinge_called": (c_uint, c_size_t, POINTER(c_char_p), POINTER(c_char_p)),
}


def load_library() -> Optional[Any]:
    """Returns the library hinge-clock.so if it is preloaded, or else loads it from the path in HINGE_CLOCK, or from the folders in
    PLACES without that variable. Returns None if there is no such library."""
    own = os.environ.get("HINGE_CLOCK")
    paths = [own] if own else [str(PYTHON / place / "hinge-clock.so") for place in PLACES]
    for path in (None, *paths):  # None stands for the process with its preloaded libraries
        try:
            library = ctypes.PyDLL(path)
            for name, (result, *argument_types) in FUNCTIONS.items():
                function = getattr(library, name)
                function.restype = result
                function.argtypes = argument_types
        except (AttributeError, OSError):
            continue
        return library
    return None


CLOCK_LIBRARY = load_library()
joining: list[Callable[[], object]] = []  # the functions that a thread calls when it joins the run; none without a run


def leave() -> None:
    """Makes this thread's C code use the system's clock and random numbers again."""
    if CLOCK_LIBRARY is not None:
        CLOCK_LIBRARY.hinge_run(None, 0, 0)


os.register_at_fork(after_in_child=leave)


def calls() -> Counter[str]:
    """Returns how often libraries called real functions since the last call, such as `libzmq.so.5 connect`."""
    counts = Counter[str]()
    if CLOCK_LIBRARY is None:
        return counts
    library, function = c_char_p(), c_char_p()
    for place in range(BEHIND):
        count = CLOCK_LIBRARY.hinge_called(place, library, function)
        if count == BEHIND:
            break
        if count:
            file = os.path.basename(library.value or b"").decode()
            counts[f"{file} {(function.value or b'').decode()}"] += count
    return counts


def loader_in_run(own: Callable[..., Any]) -> Callable[..., Any]:
    """Returns the run's version of a function that loads a C library or module: the loaded code calls the run's functions."""

    def load(*arguments: Any, **keywords: Any) -> Any:
        try:
            return own(*arguments, **keywords)
        finally:
            if CLOCK_LIBRARY is not None:
                CLOCK_LIBRARY.hinge_border()
            switch_copy(getattr(arguments[0], "__name__", ""))

    return load


@contextmanager
def border(clock: Clock, epoch: int, source: Random) -> Iterator[None]:
    """Makes C code use the run's clock and random numbers in this thread, and in threads that join the run, within the context.
    Begins to count the real calls of C code anew.

    `epoch` is the clock's beginning in ns since 1970, and `source` draws the seeds of random numbers.
    """
    import _ctypes
    import _imp

    loads = (_imp, "create_dynamic"), (_imp, "exec_dynamic"), (_imp, "exec_builtin"), (_ctypes, "dlopen")
    if CLOCK_LIBRARY is not None:
        CLOCK_LIBRARY.hinge_border()
        calls()
        run = CLOCK_LIBRARY.hinge_run
        joining.append(lambda: run(clock.place, epoch, source.getrandbits(64)))
        joining[-1]()
    try:
        with switched(dict.fromkeys(loads, loader_in_run)):
            yield
    finally:
        if CLOCK_LIBRARY is not None:
            joining.pop()
            leave()
