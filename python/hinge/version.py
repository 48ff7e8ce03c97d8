"""The kit's version, equal to the versions of the program and the library beside it."""

from __future__ import annotations

import os

PACKAGE = os.path.dirname(os.path.realpath(__file__))
PLACES = [os.path.join(PACKAGE, "VERSION"), os.path.join(PACKAGE, "..", "..", "VERSION")]  # in an installation, and in a clone


def version() -> str:
    """Returns the version, such as `1.7.0`."""
    with open(next(filter(os.path.isfile, PLACES)), encoding="ascii") as file:
        return file.read().strip()
