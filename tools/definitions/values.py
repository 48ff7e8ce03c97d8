"""Values: numbers, truth values, functions, and data, of which equal ones are one object.

So two values are compared in one step, and a definition's results are cached by these values.
"""

from __future__ import annotations

from collections.abc import Callable, Iterable, Iterator
from typing import Union


class Data:
    """A constructor with its parts. The constructor of a record is the sorted tuple of its fields' names."""

    __slots__ = ("constructor", "parts")

    def __init__(self, constructor: Constructor, parts: tuple[Value, ...]) -> None:
        self.constructor, self.parts = constructor, parts

    def __getitem__(self, field: str) -> Value:
        return self.parts[self.constructor.index(field)]


class Function:
    """A function with its number of arguments, and those already applied. If all are cached, equal functions are the same object."""

    __slots__ = ("arity", "run", "arguments", "is_kept")

    def __init__(self, arity: int, run: Callable[..., Value], arguments: tuple[Value, ...] = (), is_kept: bool = True) -> None:
        self.arity = arity
        self.run = run
        self.arguments = arguments
        self.is_kept = is_kept


Constructor = Union[str, tuple[str, ...]]
Value = Union[int, Data, Function]
PLAIN: dict[Constructor, Data] = {}  # the constructors without parts, which stay
KEPT: dict[tuple[object, ...], Union[Data, Function]] = {}


def data(constructor: Constructor, *parts: Value) -> Data:
    """The one value with these parts."""
    table, key = (KEPT, (constructor, *parts)) if parts else (PLAIN, constructor)
    found = table.get(key)  # type: ignore[attr-defined]
    if found is None:
        found = table[key] = Data(constructor, parts)  # type: ignore[index]
    return found  # type: ignore[no-any-return]


NIL, NONE = data("[]"), data("None")


def record(fields: dict[str, Value]) -> Data:
    names = tuple(sorted(fields))
    return data(names, *[fields[name] for name in names])


def some(value: Value) -> Data:
    return data("Some", value)


def to_list(items: Iterable[Value], end: Value = NIL) -> Value:
    for item in reversed([*items]):
        end = data("∷", item, end)
    return end


def items(value: Value) -> Iterator[Value]:
    while value is not NIL:
        assert isinstance(value, Data)
        head, value = value.parts
        yield head


def are_kept(arguments: Iterable[Value]) -> bool:
    """Whether equal arguments are one object: all but functions that a λ made."""
    for argument in arguments:
        if isinstance(argument, Function) and not argument.is_kept:
            return False
    return True


def apply(function: Value, *arguments: Value) -> Value:
    """Gives a function more arguments."""
    assert isinstance(function, Function)
    whole = (*function.arguments, *arguments)
    if len(whole) == function.arity:
        return function.run(*whole)
    if len(whole) > function.arity:
        return apply(function.run(*whole[: function.arity]), *whole[function.arity :])
    is_kept = function.is_kept and are_kept(arguments)
    more = KEPT.get((function.run, *whole)) if is_kept else None
    if more is None:
        more = Function(function.arity, function.run, whole, is_kept)
        if is_kept:
            KEPT[(function.run, *whole)] = more
    return more
