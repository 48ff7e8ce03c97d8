"""The words of the standard library that specs use, and the signs between two values."""

from collections.abc import Callable, Iterator
from functools import reduce
from itertools import takewhile
from typing import Any

from values import NIL, NONE, Data, Function, Value, apply, data, items, some, to_list

WORDS: dict[str, Value] = {"true": True, "false": False, "None": NONE, "zero": 0, "⊤": True, "⊥": False}


def word(arity: int, name: str = "") -> Callable[[Callable[..., Any]], Callable[..., Any]]:
    """Registers the function below as the meaning of a word."""

    def keep(function: Callable[..., Any]) -> Callable[..., Any]:
        WORDS[name or function.__name__] = Function(arity, function)
        return function

    return keep


word(2, "nat_eq")(lambda a, b: a == b)
word(2, "nat_lt")(lambda a, b: a < b)
word(2, "nat_le")(lambda a, b: a <= b)
word(2, "max")(max)
word(2, "min")(min)
word(2, "bit_and")(lambda a, b: a & b)
word(1, "suc")(lambda n: n + 1)
word(1, "Some")(some)
word(1, "Ok")(lambda value: data("Ok", value))
word(1, "Err")(lambda fault: data("Err", fault))
word(1, "codes")(lambda text: text)
word(2, "bytes_eq")(lambda a, b: a is b)
word(2, "unwrap_or")(lambda option, other: other if option is NONE else option.parts[0])
word(1, "is_ascii_digit")(lambda byte: 48 <= byte < 58)
word(1, "is_ascii_alphabetic")(lambda byte: chr(byte).isascii() and chr(byte).isalpha())
word(1, "to_ascii_lowercase")(lambda byte: byte + 32 * (65 <= byte < 91))
word(1, "digit_value")(lambda byte: int(chr(byte), 36) if chr(byte).isascii() and chr(byte).isalnum() else 36)
word(1, "is_some")(lambda option: option is not NONE)
word(1, "length")(lambda values: sum(1 for _ in items(values)))
word(1, "sum")(lambda values: sum(number for number in items(values) if isinstance(number, int)))
word(1, "reverse")(lambda values: to_list([*items(values)][::-1]))
word(2, "take")(lambda count, values: to_list([*items(values)][:count]))
word(3, "cond")(lambda condition, yes, no: yes if condition else no)
# An ordering is -1, 0 or 1.
word(2, "nat_cmp")(lambda a, b: (a > b) - (a < b))
word(2, "ordering_then")(lambda first, then: first or then)
word(1, "is_lt")(lambda ordering: ordering < 0)


@word(2)
def drop(count: int, values: Value) -> Value:
    while count > 0 and values is not NIL:
        assert isinstance(values, Data)
        count, values = count - 1, values.parts[1]
    return values


@word(2)
def slice_split(function: Value, values: Value) -> Value:
    parts: list[list[Value]] = [[]]
    for value in items(values):
        if apply(function, value):
            parts.append([])
        else:
            parts[-1].append(value)
    return to_list(to_list(part) for part in parts)


def first_of(values: Value, other: Value, then: Callable[[Value], Value]) -> Value:
    """Returns what follows from a list's head or an option's value; for an empty one, the other value."""
    return then(values.parts[0]) if isinstance(values, Data) and values not in (NIL, NONE) else other


def before(function: Value, values: Value, is_so: bool = True) -> Iterator[Value]:
    """Yields the values before the first one for which the function's result differs."""
    return takewhile(lambda value: bool(apply(function, value)) == is_so, items(values))


word(2, "map")(lambda function, values: to_list([apply(function, value) for value in items(values)]))
word(2, "filter")(lambda function, values: to_list([value for value in items(values) if apply(function, value)]))
word(2, "count_by")(lambda function, values: sum(1 for value in items(values) if apply(function, value)))
word(2, "list_any")(lambda function, values: any(apply(function, value) for value in items(values)))
for name in ("All", "list_all"):
    word(2, name)(lambda function, values: all(apply(function, value) for value in items(values)))
word(2, "take_while")(lambda function, values: to_list(before(function, values)))
word(2, "prefix_len")(lambda function, values: sum(1 for _ in before(function, values)))
word(2, "before_first")(lambda function, values: to_list(before(function, values, False)))
word(2, "position_or_len")(lambda function, values: sum(1 for _ in before(function, values, False)))
word(2, "digits_value")(lambda radix, text: reduce(lambda sum_of, byte: sum_of * radix + int(chr(byte), 36), items(text), 0))
word(2, "slice_index")(lambda values, place: first_of(drop(place, values), 0, lambda value: value))
word(2, "slice_get")(lambda values, place: first_of(drop(place, values), NONE, some))
word(2, "option_map")(lambda function, option: first_of(option, NONE, lambda value: some(apply(function, value))))
word(2, "option_and_then")(lambda function, option: first_of(option, NONE, lambda value: apply(function, value)))
# A difference below 0 is 0, and so is a quotient by 0, whose rest is all.
SIGNS: dict[str, Callable[..., Any]] = {
    "+": lambda a, b: a + b,
    "-": lambda a, b: max(a - b, 0),
    "*": lambda a, b: a * b,
    "/": lambda a, b: a // b if b else 0,
    "%": lambda a, b: a % b if b else a,
    "^": lambda a, b: a**b,
    "++": lambda a, b: to_list(items(a), b),
    "≡": lambda a, b: a == b,
    "==": lambda a, b: a == b,
    "≤": lambda a, b: a <= b,
    "<": lambda a, b: a < b,
}
