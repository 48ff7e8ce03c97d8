"""The search for an order of a key's operations in which each takes effect between its begin and end: Wing and Gong's search with
Lowe's cache, keeping only operations open at the same moment."""

from __future__ import annotations

import sys
from collections import deque
from typing import Hashable, Iterator, Optional

from hinge.border.terminal import printable, several, show, tell
from hinge.checks.findings import MOST_FAULTS, Findings
from hinge.checks.operations import MODELS, Model, Operation, Places, QueueModel, operations_of
from hinge.checks.queues import first_breach
from hinge.command import ROWS

NO_ORDER = 1  # the status
MOST = 200_000  # configurations at the end of one operation
Configuration = tuple[int, Hashable]  # bits of the open operations that took effect, and the state


class TooMany(Exception):
    """Raised if there are more orders than the search can look at."""


class Search:
    """Holds the configurations that the operations so far allow, and moves on from moment to moment. A configuration says which
    open operations took effect, and the state after them."""

    def __init__(self, model: Model, most: int) -> None:
        self.model = model
        self.most = most
        self.begun = dict[int, Operation]()  # the open operations that change something, by their bits
        self.pure = dict[int, Operation]()  # the open operations that change nothing, by their bits
        self.places: Places = {}
        self.spare = list[int]()  # the bits of operations that are over, which later operations get
        self.loose = 0  # the bits of operations that never end
        self.frontier: list[Configuration] = [(0, model.start)]

    def begin(self, operation: Operation) -> int:
        bit = self.spare.pop() if self.spare else 1 << (len(self.begun) + len(self.pure))
        if self.model.is_pure(operation):
            self.pure[bit] = operation
        else:
            self.begun[bit] = operation
            self.places.setdefault(operation.value, []).append(bit)
        if not operation.is_over:
            self.loose |= bit
        return bit

    def end(self, bit: int) -> bool:
        """Keeps the configurations in which the operation took effect; returns False without such configurations."""
        self.frontier = [(mask & ~bit, state) for mask, state in self.reached(bit)]
        if not self.pure.pop(bit, None):
            value = self.begun.pop(bit).value
            self.places[value].remove(bit)
            if not self.places[value]:
                del self.places[value]  # else each step would walk through all values of the past
        self.spare.append(bit)
        return bool(self.frontier)

    def with_pure(self, mask: int, state: Hashable) -> int:
        """Returns the mask with the bits of all operations that change nothing and fit the state. To place them now excludes no
        order."""
        waiting = ((bit, operation) for bit, operation in self.pure.items() if not mask & bit)
        return mask | sum(bit for bit, operation in waiting if self.model.after(operation, state) is not None)

    def reached(self, goal: int) -> Iterator[Configuration]:
        """Yields the configurations in which the operation with the bit `goal` took effect. If two configurations are equal up to
        operations that may never take effect, and one used a subset of the other's, only that one counts. TooMany: there are too
        many."""
        used = dict[Configuration, list[int]]()
        pending = deque(self.frontier)
        count = len(pending)
        while pending:
            mask, state = pending.popleft()
            mask = self.with_pure(mask, state)
            others = used.setdefault((mask & ~self.loose, state), [])
            if any(other & mask == other for other in others):
                continue
            others.append(mask & self.loose)
            if mask & goal:
                yield mask, state
                continue
            if count > self.most:
                raise TooMany
            successors = self.successors(goal, mask, state)
            pending += successors
            count += len(successors)

    def successors(self, goal: int, mask: int, state: Hashable) -> list[Configuration]:
        """Returns the configurations after one more operation: the goal, or an operation that may have to precede the goal."""
        waiting = [operation for bit, operation in self.pure.items() if not mask & bit]
        useful = set(self.model.useful(state, waiting, self.places))
        if goal in self.begun:
            useful.add(goal)
        steps = ((bit, self.model.after(self.begun[bit], state)) for bit in sorted(useful) if not mask & bit)
        return [(mask | bit, after) for bit, after in steps if after is not None]


def first_impossible(operations: list[Operation], kind: type[Model], most: int = MOST) -> Optional[Operation]:
    """Returns the operation at whose end no order remains, or None. TooMany: the search is too large."""
    model = kind(operations)
    if isinstance(model, QueueModel) and model.is_unique:
        decides, breach = first_breach(model.operations)
        if decides:
            return breach
    moments = [(operation.begin, False, place) for place, operation in enumerate(model.operations)]
    moments += [(operation.end, True, place) for place, operation in enumerate(model.operations) if operation.is_over]
    search = Search(model, most)
    bits = dict[int, int]()  # of the open operations, by their places
    for _, is_end, place in sorted(moments):
        if not is_end:
            bits[place] = search.begin(model.operations[place])
        elif not search.end(bits.pop(place)):
            return model.operations[place]
    return None


def least(operations: list[Operation], kind: type[Model], last: Operation) -> list[Operation]:
    """Returns operations without an order, all of them necessary: if any operation could have taken effect at any later moment or
    never, the rest would have an order. `last` is the first impossible operation."""
    core = operations
    others = list[Operation]()  # the operations outside of the core, without limits on their moments
    early = [operation for operation in operations if operation.begin <= last.end]
    late = [operation.anywhen() for operation in operations if operation.begin > last.end]
    if is_impossible(early + late, kind):
        core, others = early, late
    size = len(core)
    while size:  # takes stretches out of the core, and halves them, so that fewer searches are needed than operations
        for place in range((len(core) - 1) // size * size, -1, -size):
            rest = core[:place] + core[place + size :]
            loose = [operation.anywhen() for operation in core[place : place + size]]
            if is_impossible(rest + others + loose, kind):
                core = rest
                others = others + loose
        size //= 2
    return sorted(core, key=lambda operation: (operation.begin, operation.line))


def is_impossible(operations: list[Operation], kind: type[Model]) -> bool:
    try:
        return first_impossible(operations, kind, MOST // 10) is not None
    except TooMany:
        return False


def failures_of(name: str, keys: dict[str, list[Operation]], kind: type[Model], findings: Findings) -> dict[str, Operation]:
    """Returns the keys whose operations lack an order, each with the operation at whose end no order remains. Reports the keys with
    too many orders to try."""
    failures = dict[str, Operation]()
    for key, operations in keys.items():
        try:
            last = first_impossible(operations, kind)
        except TooMany:
            findings.fault(name, f"key {key}: too many orders of {len(operations):,} operations to try; use more keys", ROWS)
            continue
        if last:
            failures[key] = last
    return failures


def show_failures(
    name: str, keys: dict[str, list[Operation]], failures: dict[str, Operation], kind: type[Model]
) -> list[Operation]:
    """Shows the keys whose operations lack an order, and the fewest such operations on the key that fails first; returns these
    operations. The key that fails first is the key with the fewest operations up to its failure."""
    for key in list(failures)[:MOST_FAULTS]:
        show(printable(f"{name}: key {key}: {several(len(keys[key]), 'operation')} without an order"))
    first = min(failures, key=lambda key: sum(operation.begin <= failures[key].end for operation in keys[key]))
    show(f"key {first} fails by these alone:")
    fewest = least(keys[first], kind, failures[first])
    for operation in fewest:
        show(printable(f"{name}:{operation.line}: {operation.told()}"))
    return fewest


def verdict(count: int, findings: Findings) -> str:
    """Returns the verdict on the keys, in words."""
    if count:
        return f"{count} without an order"
    if findings.status:
        return "not all judged"
    return "each with an order"


def check_operations(name: str, data: bytes, model: str, findings: Findings) -> list[Operation]:
    """Reports the keys whose operations lack an order; returns the fewest such operations on the key that fails first."""
    kind = MODELS[model]
    keys, refusals = operations_of(name, data, kind)
    operations = [operation for key in keys.values() for operation in key]
    if not any(operation.is_over and operation.result for operation in operations):
        findings.fault(name, "no operation returned with a result, so nothing can be judged; let clients read", ROWS)
        return []
    fewest = list[Operation]()
    failures = failures_of(name, keys, kind, findings)
    if failures:
        findings.faults += len(failures)
        findings.status = findings.status or NO_ORDER
        fewest = show_failures(name, keys, failures, kind)
    sys.stdout.flush()
    unknown = sum(not operation.is_over for operation in operations)
    counts = f"{several(len(operations), 'operation')} on {several(len(keys), 'key')}, {verdict(len(failures), findings)}"
    tell(f"{name}: {counts}; {unknown} never returned, {refusals} refused")
    return fewest
