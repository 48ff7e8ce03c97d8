"""Replaces OpenSSL's random numbers during a run by numbers from the seed, if the process uses the shared library libcrypto."""

from __future__ import annotations

import ctypes
import re
from contextlib import contextmanager
from pathlib import Path
from typing import Iterator, Optional

from hingetulip.aio.border import CLOCK_LIBRARY

LOADED = re.compile(r"(/\S*libcrypto[^/\s]*\.so\S*)$", re.M)
FUNCTIONS = "seed", "bytes", "cleanup", "add", "pseudorand", "status"


class Method(ctypes.Structure):
    """OpenSSL's struct RAND_METHOD."""

    _fields_ = [(name, ctypes.c_void_p) for name in FUNCTIONS]


def libcrypto() -> Optional[ctypes.CDLL]:
    """Returns this process's libcrypto; None if the library isn't loaded, or lacks the function that replaces random numbers."""
    path = LOADED.search(Path("/proc/self/maps").read_text())
    if path is None:
        return None
    try:
        library = ctypes.CDLL(path[1])
    except OSError:
        return None
    return library if hasattr(library, "RAND_set_rand_method") else None


@contextmanager
def random_of_openssl(seed: int) -> Iterator[None]:
    """Makes OpenSSL's random numbers follow from a seed within the context, if there is hinge-clock.so."""
    library = libcrypto()
    if library is None or CLOCK_LIBRARY is None:
        yield
        return
    library.RAND_OpenSSL.restype = ctypes.c_void_p
    method = Method.from_buffer_copy(Method.from_address(library.RAND_OpenSSL()))
    method.bytes = method.pseudorand = ctypes.cast(CLOCK_LIBRARY.hinge_random, ctypes.c_void_p)
    CLOCK_LIBRARY.hinge_seed(seed)
    library.RAND_set_rand_method(ctypes.byref(method))
    try:
        yield
    finally:
        library.RAND_set_rand_method(None)
