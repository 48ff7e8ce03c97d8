"""The rules that decide a queue into which each value is put once, in the time that a sort takes (Henzinger, Sezgin and Vafeiadis,
Aspect-Oriented Linearizability Proofs, CONCUR 2013)."""

from __future__ import annotations

from bisect import bisect_left, bisect_right
from dataclasses import replace
from itertools import accumulate
from operator import attrgetter
from typing import Iterator, Optional

from hinge.checks.operations import ALWAYS, NO_END, NULL, Operation

END = attrgetter("end")


class Rules:
    """The puts, with their values as keys, the gets that returned a value, and the gets without a result, which may have received
    any value."""

    def __init__(self, operations: list[Operation]) -> None:
        self.puts = {put.value: put for put in operations if put.op == "put"}
        gets = sorted((get for get in operations if get.op == "get"), key=END)
        self.silent = sorted((get for get in gets if not get.result), key=lambda get: get.begin)
        self.empty = [get for get in gets if get.result == NULL]
        self.gets = [get for get in gets if get.result not in ("", NULL)]
        self.first = {get.result: get for get in reversed(self.gets)}  # the first get of each value
        puts = sorted(self.puts.values(), key=END)
        self.ends = [put.end for put in puts]
        self.there = list(accumulate(map(self.surely_there_until, puts), max, initial=ALWAYS))

    def surely_there_until(self, put: Operation) -> float:
        if put.value in self.first:
            return self.first[put.value].begin
        return ALWAYS if self.silent else NO_END

    def until(self, moment: float) -> float:
        """Returns the moment until which the queue surely contains a value that was put before `moment`."""
        return self.there[bisect_left(self.ends, moment)]

    def breaches(self) -> Iterator[Operation]:
        """Yields operations at whose end a rule is broken."""
        for get in self.gets:
            put = self.puts.get(get.result)
            if put is None or get.end < put.begin:
                yield get  # its value wasn't put yet
            elif get is not self.first[get.result] or self.until(put.begin) > get.end:
                yield get  # its value was got before, or overtook another value
        for get in self.empty:
            moment = get.begin
            while moment < self.until(moment) <= get.end:
                moment = self.until(moment)
            if self.until(moment) > moment:
                yield get  # the queue contained a value at all moments of this get
        begins = [get.begin for get in self.silent]
        for count, (_, get) in enumerate(self.due() if self.silent else ()):
            if bisect_right(begins, get.end) <= count:
                yield get  # no get is left that might have got the value before this get

    def due(self) -> list[tuple[str, Operation]]:
        """Returns the values that no known get returned, each with the first get at whose end the value must have left."""
        later = [(self.puts[get.result].begin, get) for get in self.gets if get.result in self.puts]
        later += [(get.begin, get) for get in self.empty]
        later.sort(key=lambda pair: pair[0])
        begins = [begin for begin, _ in later]
        gets = (get for _, get in reversed(later))
        earliest = list(accumulate(gets, lambda get, other: min(get, other, key=END)))[::-1]
        places = {value: bisect_right(begins, put.end) for value, put in self.puts.items() if value not in self.first}
        due = [(value, earliest[place]) for value, place in places.items() if place < len(earliest)]
        return sorted(due, key=lambda pair: pair[1].end)

    def likely(self) -> list[Operation]:
        """Returns the operations in which gets without a result get the values that have to leave first. Other such gets are left
        out."""
        pairs = zip(self.silent, self.due())
        guesses = [replace(get, words={**get.words, "result": value}) for get, (value, _) in pairs]
        return [*self.puts.values(), *self.empty, *self.gets, *guesses]


def first_breach(operations: list[Operation]) -> tuple[bool, Optional[Operation]]:
    """Returns whether the rules decide the operations, and the first operation at whose end a rule is broken. Each value is put
    once. If there are gets without a result and gets from an empty queue, the rules decide only if a rule is broken anyway, or if
    the likely values of the gets keep all rules."""
    rules = Rules(operations)
    breach = min(rules.breaches(), key=lambda one: (one.end, one.line), default=None)
    is_clear = breach is not None or not (rules.silent and rules.empty)
    return is_clear or not any(Rules(rules.likely()).breaches()), breach
