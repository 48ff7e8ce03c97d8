"""Clients' operations on a system, a line each, and the models that check their results."""

from __future__ import annotations

import json
import math
from dataclasses import dataclass, replace
from typing import Any, Hashable, Iterator, Optional

from hinge.border.files import object_of
from hinge.command import ROWS, Fault

EXAMPLE = '{"client": 1, "key": "x", "op": "write", "value": 5, "begin": 0.25, "end": 0.31}'
SHOWN = 80  # the letters of a value that messages show
NO_END = math.inf
ALWAYS = -math.inf
LATEST = 2.0**63  # the greatest moment, which is also possible in ns
NULL = "null"  # in JSON: a register before its first write, or an empty queue
TRUE = "true"  # in JSON: the result of a `cas` that took place
text_of = json.JSONEncoder(sort_keys=True).encode  # the JSON text of a value; the order of names doesn't matter
Places = dict[str, list[int]]  # the bits of the open operations that change something, by the operations' values
UNSEEN = ""  # any value in a queue or list that no result shows; such values are all alike


@dataclass(frozen=True)
class Operation:
    """A client's operation, with JSON texts as values. An operation without an end has no result, and may take effect at any moment
    after its begin, or never."""

    line: int
    client: str
    op: str
    words: dict[str, str]
    begin: float
    end: float = NO_END
    values: tuple[str, ...] = ()  # the values that a read showed

    @property
    def is_over(self) -> bool:
        return self.end < NO_END

    @property
    def value(self) -> str:
        return self.words.get("value", "")

    @property
    def result(self) -> str:
        return self.words.get("result", "")

    def anywhen(self) -> Operation:
        """Returns the operation without a result, and without limits on its moment."""
        words = {name: text for name, text in self.words.items() if name != "result"}
        return replace(self, words=words, begin=ALWAYS, end=NO_END, values=())

    def told(self) -> str:
        """Returns the operation as text."""
        words = [self.op]
        for name, text in self.words.items():
            words += [name, text[:SHOWN]]
            if len(text) > SHOWN:
                words.append("..")
        end = f" to {self.end}" if self.is_over else ", never returned"
        return f"client {self.client}: {' '.join(words)}, from {self.begin}{end}"


class Model:
    """Describes a register, which contains `null` before the first write. Other models override the fields below and `after`."""

    words: dict[str, tuple[str, ...]] = {"write": ("value",), "read": ("result",)}
    makers: tuple[str, ...] = ("write",)  # operations after which the value is there
    asks: tuple[str, ...] = ()  # operations whose result is true or false
    start: Hashable = NULL  # the state before the first operation
    shows_lists: bool = False  # whether a read lists values
    shows_twice: bool = True  # whether a read may list a value twice

    def __init__(self, operations: list[Operation]) -> None:
        self.sights = dict[str, float]()  # the values that results show, each with the end of the first result that shows it
        values = [operation.value for operation in operations if operation.op in self.makers and not self.is_pure(operation)]
        self.is_unique = len({NULL, *values}) > len(values)  # whether each value is made once
        for operation in operations:
            for text in self.shown(operation) if operation.is_over else ():
                self.sights[text] = min(operation.end, self.sights.get(text, NO_END))
        self.operations = [settled for operation in operations for settled in self.settled(operation)]

    def settled(self, operation: Operation) -> Iterator[Operation]:
        """Yields the operation, unless no order needs it. An operation without an end ends with the first result that contains its
        value, if no other operation wrote that value; if no result contains the value, no order needs the operation."""
        if operation.is_over:
            yield operation
        elif operation.op not in self.makers or not self.is_unique:
            if not self.is_pure(operation):
                yield operation
        elif operation.value in self.sights and operation.begin <= self.sights[operation.value]:
            yield replace(operation, end=self.sights[operation.value])
        elif self.keeps_unseen():
            yield operation

    def keeps_unseen(self) -> bool:
        return False

    def shown(self, operation: Operation) -> Iterator[str]:
        yield from operation.values

    def is_pure(self, operation: Operation) -> bool:
        """Returns whether the operation changes nothing, so that it may be placed wherever its result fits."""
        return operation.op == "read"

    def useful(self, state: Any, pure: list[Operation], places: Places) -> Iterator[int]:
        """Yields the bits of open operations that may precede the ending operation; `pure` lists operations that wait for a
        state."""
        for bits in places.values():
            yield from bits

    def after(self, operation: Operation, state: Any) -> Optional[Hashable]:
        """Returns the state after an operation, or None if its result is impossible here."""
        if operation.op == "read":
            return state if operation.result == state else None
        return operation.value


class Exchange(Model):
    """A register with `cas`, which writes its value if the register contains the value in `from`, and reports the outcome."""

    words = {**Model.words, "cas": ("from", "value", "result")}
    makers = ("write", "cas")
    asks = ("cas",)

    def __init__(self, operations: list[Operation]) -> None:
        self.asks_more = any(operation.op == "cas" and operation.result != TRUE for operation in operations)
        super().__init__(operations)

    def keeps_unseen(self) -> bool:
        """Returns whether values that no result shows may matter: a `cas` that didn't write, or whose outcome is unknown, may need
        such a value."""
        return self.asks_more

    def shown(self, operation: Operation) -> Iterator[str]:
        if operation.op == "cas" and operation.result == TRUE:
            yield operation.words["from"]
        yield from super().shown(operation)

    def is_pure(self, operation: Operation) -> bool:
        return operation.op == "read" or (operation.op == "cas" and operation.result not in ("", TRUE))

    def after(self, operation: Operation, state: Any) -> Optional[Hashable]:
        if operation.op != "cas":
            return super().after(operation, state)
        if self.is_pure(operation):
            return state if operation.words["from"] != state else None
        return operation.value if operation.words["from"] == state else None


class Members(Model):
    """A set that grows. Its state has a bit for each value."""

    words = {"add": ("value",), "read": ("result",)}
    makers = ("add",)
    start = 0
    shows_lists = True
    shows_twice = False

    def __init__(self, operations: list[Operation]) -> None:
        self.bits = dict[str, int]()
        super().__init__(operations)
        self.read = {  # the state that each read shows, by the read's line
            operation.line: sum(map(self.bit, self.shown(operation))) for operation in operations if operation.result
        }
        self.names = {bit: text for text, bit in self.bits.items()}

    def bit(self, text: str) -> int:
        return self.bits.setdefault(text, 1 << len(self.bits))

    def useful(self, state: Any, pure: list[Operation], places: Places) -> Iterator[int]:
        """Yields the adds of the first value that an open read needs. The order of values is fixed, since adds commute."""
        for read in pure:
            missing = self.read[read.line] & ~state
            if missing and not state & ~self.read[read.line]:
                yield from places.get(self.names[missing & -missing], ())

    def after(self, operation: Operation, state: Any) -> Optional[Hashable]:
        if operation.op == "read":
            return state if self.read[operation.line] == state else None
        return int(state) | self.bit(operation.value)


class QueueModel(Model):
    """A first-in, first-out queue; `get` with `null` found the queue empty. The state lists the values."""

    words = {"put": ("value",), "get": ("result",)}
    makers = ("put",)
    start = ()

    def shown(self, operation: Operation) -> Iterator[str]:
        if operation.op == "get" and operation.result != NULL:
            yield operation.result

    def is_pure(self, operation: Operation) -> bool:
        return operation.op == "get" and operation.result == NULL

    def after(self, operation: Operation, state: Any) -> Optional[Hashable]:
        if operation.op == "put":
            value = operation.value if operation.value in self.sights else UNSEEN
            return (*state, value)
        if self.is_pure(operation):
            return state if not state else None
        return state[1:] if state and operation.result in ("", state[0]) else None


class Sequence(Model):
    """A list that grows at its end. Its state lists the values."""

    words = {"append": ("value",), "read": ("result",)}
    makers = ("append",)
    start = ()
    shows_lists = True

    def __init__(self, operations: list[Operation]) -> None:
        self.longest: tuple[str, ...] = max((operation.values for operation in operations), key=len, default=())
        super().__init__(operations)

    def after(self, operation: Operation, state: Any) -> Optional[Hashable]:
        """Returns the state after an operation, or None. An append continues the longest list in a read, or follows that list."""
        if operation.op == "read":
            return state if operation.values == state else None
        value = operation.value if operation.value in self.sights else UNSEEN
        return (*state, value) if self.longest[len(state) : len(state) + 1] in ((), (value,)) else None


class Lock(Model):
    """A lock that one client holds at a time, and releases. An `acquire` whose result isn't true met a holder."""

    words = {"acquire": ("result",), "release": ()}
    makers = ()
    asks = ("acquire",)
    start = ()  # nobody; the state while the lock is held is the holder alone

    def is_pure(self, operation: Operation) -> bool:
        return operation.op == "acquire" and operation.result not in ("", TRUE)

    def after(self, operation: Operation, state: Any) -> Optional[Hashable]:
        if self.is_pure(operation):
            return state or None
        if operation.op == "acquire":
            return (operation.client,) if state == () else None
        return () if state == (operation.client,) else None


MODELS = {"register": Model, "cas": Exchange, "set": Members, "queue": QueueModel, "list": Sequence, "lock": Lock}


def operation_of(line: int, text: bytes, model: type[Model]) -> Optional[tuple[str, Operation]]:
    """Returns a line's key and operation, or None if the line says that it didn't happen. ValueError: the line is wrong."""
    row = object_of(text)
    if row is None:
        raise ValueError(f"not an object of JSON; write {EXAMPLE}")
    if missing := [name for name in ("client", "key", "op", "begin") if name not in row]:
        raise ValueError(f"{missing[0]!r} is missing; write {EXAMPLE}")
    if row["op"] not in list(model.words):  # which also looks for what has no hash
        raise ValueError(f"op {row['op']!r}: write {', '.join(model.words)}, or another --model")
    if row.get("ok", True) not in (True, False):
        raise ValueError(f"ok {row['ok']!r}: write false if it surely didn't take place; leave out `end` if nobody knows")
    begin, end = row["begin"], row.get("end")
    is_over = end is not None
    for name, moment in (("begin", begin), *([("end", end)] if is_over else [])):
        if not isinstance(moment, (int, float)) or isinstance(moment, bool) or not -LATEST < moment < LATEST:
            raise ValueError(f"{name} {moment!r}: write a number, of one clock for all clients")
    if is_over and end < begin:
        raise ValueError(f"end {end} is before begin {begin}")
    words = {name: text_of(row[name]) for name in model.words[row["op"]] if name in row and (is_over or name != "result")}
    for name in model.words[row["op"]]:
        if name not in words and (is_over or name != "result"):
            raise ValueError(f"{name!r} is missing: {row['op']} has {', '.join(model.words[row['op']])}")
    if is_over and row["op"] in model.asks and not isinstance(row["result"], bool):
        raise ValueError(f"result {words['result'][:SHOWN]}: write true if the {row['op']} took place, else false")
    texts = [words["result"]] if is_over and row["op"] == "read" else []
    if model.shows_lists and texts:
        texts = [text_of(value) for value in row["result"]] if isinstance(row["result"], list) else []
        if not isinstance(row["result"], list) or not model.shows_twice and len(set(texts)) < len(texts):
            raise ValueError(f"result: write the list of all values{'' if model.shows_twice else ' in the set, each once'}")
    operation = Operation(line, str(row["client"]), row["op"], words, begin, NO_END if end is None else end, tuple(texts))
    return (text_of(row["key"]), operation) if row.get("ok", True) else None


def operations_of(name: str, data: bytes, model: type[Model]) -> tuple[dict[str, list[Operation]], int]:
    """Returns each key's operations, and the number of operations that didn't happen. Fault: a line is malformed."""
    keys, refusals = dict[str, list[Operation]](), 0
    for line, text in enumerate(data.split(b"\n"), 1):
        if text.strip():
            try:
                pair = operation_of(line, text, model)
            except ValueError as error:
                raise Fault(f"{name}:{line}: {error}", ROWS) from None
            if pair:
                keys.setdefault(pair[0], []).append(pair[1])
            refusals += not pair
    return keys, refusals
