"""The expressions and patterns of specs."""

from __future__ import annotations

from dataclasses import dataclass
from typing import Optional, Union


@dataclass(frozen=True)
class Number:
    value: int


@dataclass(frozen=True)
class EmptyList:
    pass


@dataclass(frozen=True)
class Name:
    text: str


@dataclass(frozen=True)
class Field:
    """A field of a record, as in `p.len`."""

    record: Expression
    name: str


@dataclass(frozen=True)
class Infix:
    sign: str
    left: Expression
    right: Expression


@dataclass(frozen=True)
class Apply:
    function: Expression
    arguments: tuple[Expression, ...]


@dataclass(frozen=True)
class Let:
    name: str
    value: Expression
    body: Expression


@dataclass(frozen=True)
class Lambda:
    names: tuple[str, ...]
    body: Expression


@dataclass(frozen=True)
class Record:
    """A record by its fields, or another record with some fields changed."""

    base: Optional[Expression]
    fields: tuple[tuple[str, Expression], ...]


@dataclass(frozen=True)
class Elim:
    """A case distinction, as in `elim e [ None ↦ a | Some s ↦ b ]`."""

    value: Expression
    cases: tuple[tuple[Pattern, Expression], ...]


Expression = Union[Number, EmptyList, Name, Field, Infix, Apply, Let, Lambda, Record, Elim]


@dataclass(frozen=True)
class NumberPattern:
    value: int


@dataclass(frozen=True)
class NilPattern:
    pass


@dataclass(frozen=True)
class ConsPattern:
    head: Pattern
    tail: Pattern


@dataclass(frozen=True)
class NamePattern:
    """A constructor with patterns, or a variable; the scope decides which."""

    name: str
    parts: tuple[Pattern, ...]


Pattern = Union[NumberPattern, NilPattern, ConsPattern, NamePattern]


@dataclass(frozen=True)
class Equation:
    """`name pattern.. = body`"""

    name: str
    patterns: tuple[Pattern, ...]
    body: Expression
