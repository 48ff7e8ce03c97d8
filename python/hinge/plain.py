"""The few functions of numpy that tables and paragraphs call, written with Python's lists, for machines without numpy."""

from __future__ import annotations

import operator
from array import array as array_of_python
from bisect import bisect_left, bisect_right
from itertools import accumulate, chain, compress, repeat
from typing import Any, Callable, Iterable, Iterator, Optional, Sequence

int64 = int
CODES = {"i1": "b", "i4": "i", "u4": "I", "i8": "q"}  # Python's codes for numpy's types of numbers


class Array:
    """A row of numbers, or of truth values that select places in another row."""

    dtype = int

    def __init__(self, items: Iterable[Any]) -> None:
        self.items = list(items)

    def __len__(self) -> int:
        return len(self.items)

    def __iter__(self) -> Iterator[Any]:
        return iter(self.items)

    def __getitem__(self, key: Any) -> Any:
        if isinstance(key, slice):
            return Array(self.items[key])
        if not isinstance(key, Array):
            return self.items[key]
        return Array(compress(self.items, key)) if is_mask(key) else Array(map(self.items.__getitem__, key))

    def __setitem__(self, key: Any, value: Any) -> None:
        if not isinstance(key, Array):
            self.items[key] = value
            return
        places = flatnonzero(key) if is_mask(key) else key
        for place, item in zip(places, each(value)):
            self.items[place] = item

    def __neg__(self) -> Array:
        return Array(map(operator.neg, self))

    def __invert__(self) -> Array:
        return Array(map(operator.not_, self))

    def any(self) -> bool:
        return any(self.items)

    def all(self) -> bool:
        return all(self.items)

    def sum(self) -> Any:
        return sum(self.items)

    def max(self, initial: Any = None) -> Any:
        return max(self.items) if initial is None else max(self.items, default=initial)

    def min(self, initial: Any = None) -> Any:
        return min(self.items) if initial is None else min(self.items, default=initial)

    def tolist(self) -> list[Any]:
        return list(self.items)

    def copy(self) -> Array:
        return Array(self.items)


def is_mask(row: Array) -> bool:
    """Returns whether a row consists of truth values."""
    return len(row) > 0 and isinstance(row.items[0], bool)


def each(value: Any) -> Iterable[Any]:
    """Yields the items of a row, or a number repeated forever."""
    return value if isinstance(value, (Array, list)) else repeat(value)


def by_places(function: Callable[[Any, Any], Any], swaps: bool = False) -> Callable[[Array, Any], Array]:
    """Returns a method that applies a function to the two items at each place; `swaps` exchanges the two."""

    def method(self: Array, other: Any) -> Array:
        if swaps:
            return Array(map(function, each(other), self))
        return Array(map(function, self, each(other)))

    return method


for name in ("add", "sub", "mul", "floordiv", "truediv", "and", "or", "rshift", "lshift", "eq", "ne", "lt", "le", "gt", "ge"):
    function = getattr(operator, f"__{name}__")
    setattr(Array, f"__{name}__", by_places(function))
    if name in ("add", "sub", "mul"):
        setattr(Array, f"__r{name}__", by_places(function, swaps=True))


def array(items: Iterable[Any], dtype: object = None) -> Array:
    return Array(items)


def frombuffer(data: bytearray, width: str) -> Array:
    return Array(array_of_python(CODES[width], bytes(data)))


def full(count: int, value: Any, dtype: object = None) -> Array:
    return Array([value] * count)


def zeros(count: int, dtype: object = None) -> Array:
    return full(count, False if dtype is bool else 0)


def arange(*bounds: int) -> Array:
    return Array(range(*bounds))


def append(*rows: Any) -> Array:
    return Array(chain.from_iterable(row.items if isinstance(row, Array) else [row] for row in rows))


def concatenate(rows: Iterable[Array]) -> Array:
    return Array(chain.from_iterable(rows))


def where(choice: Array, one: Any, other: Any) -> Array:
    items = zip(choice, each(one), each(other))
    return Array(item if is_chosen else other_item for is_chosen, item, other_item in items)


def maximum(one: Array, other: Any) -> Array:
    return Array(map(max, one, each(other)))


setattr(maximum, "accumulate", lambda row: Array(accumulate(row, max)))


def flatnonzero(row: Array) -> Array:
    return Array(compress(range(len(row)), row))


def count_nonzero(row: Array) -> int:
    return sum(map(bool, row))


def argmax(row: Array) -> int:
    return row.items.index(max(row))


def cumsum(row: Array) -> Array:
    return Array(accumulate(row))


def bincount(row: Array, weights: Optional[Array] = None, minlength: int = 0) -> Array:
    counts = [0] * max(minlength, max(row, default=-1) + 1)
    for place, weight in zip(row, each(1 if weights is None else weights)):
        counts[place] += weight
    return Array(counts)


def partition(row: Array, places: Iterable[int]) -> Array:
    """Returns the sorted row, in which the items at these places are right, too."""
    return Array(sorted(row))


def argsort(row: Array, kind: str = "stable") -> Array:
    return Array(sorted(range(len(row)), key=row.items.__getitem__))


def lexsort(keys: Sequence[Array]) -> Array:
    return Array(sorted(range(len(keys[0])), key=lambda place: [key[place] for key in reversed(keys)]))


def unique(row: Array, return_inverse: bool = False) -> Any:
    values = sorted(set(row))
    places = {value: place for place, value in enumerate(values)}
    if return_inverse:
        return Array(values), Array(map(places.__getitem__, row))
    return Array(values)


def searchsorted(row: Array, value: Any, side: str = "left") -> Any:
    search = bisect_left if side == "left" else bisect_right
    if isinstance(value, Array):
        return Array(search(row.items, item) for item in value)
    return search(row.items, value)
