"""numpy, loaded at first use, so that a command's help and faults don't need it, with the functions that tables and paragraphs use
(also in `hinge.plain`), and the array types."""

from __future__ import annotations

import importlib
from types import ModuleType
from typing import TYPE_CHECKING, Any

from hinge.command import Fault, numpy


class Lazy(ModuleType):
    """Loads numpy when a name of numpy is first used; the module `other`, if any, replaces a missing numpy."""

    def __init__(self, other: str = "") -> None:
        super().__init__("numpy")
        self.other = other

    def __getattr__(self, name: str) -> Any:
        try:
            module = numpy()
        except Fault:
            if not self.other:
                raise
            module = importlib.import_module(self.other)
        result = getattr(module, name)
        setattr(self, name, result)  # so that the next use doesn't call this method
        return result


if TYPE_CHECKING:
    import numpy as few
    import numpy as np
    from numpy.typing import NDArray

    Integers = NDArray[np.int64]
    Reals = NDArray[np.float64]
    Mask = NDArray[np.bool_]  # tells whether each place is chosen
    Octets = NDArray[np.uint8]  # the octets of a file
    Words = NDArray[np.uint64]  # words of eight octets
else:
    np, few = Lazy(), Lazy("hinge.plain")
    Integers = Reals = Mask = Octets = Words = Any

__all__ = ["Integers", "Mask", "Octets", "Reals", "Words", "few", "np"]
