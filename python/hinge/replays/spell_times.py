"""The times in which a pipe or queue had a value, such as its bandwidth."""

from __future__ import annotations

from bisect import bisect_left, bisect_right
from typing import Callable, Optional

from hinge.configurations.configured import Setting
from hinge.replays.links import UNKNOWN, Parts
from hinge.replays.units import seconds

Value = Callable[[Setting], int]


class SpellTimes:
    """Finds the time in which a pipe or queue had a spell's value. A spell describes a pipe or queue from one command to the
    next."""

    def __init__(self, parts: Parts) -> None:
        self.parts = parts
        self.known_turns = dict[tuple[tuple[str, int], Value, int], list[int]]()

    def turns(self, number: int, value: Value) -> list[int]:
        """Returns the places among its target's spells at which a spell's value changes. Other spells don't count if they only slow
        a link down in an outage."""
        spells = self.parts.configuration.spells
        outages = self.parts.of_outages
        target = spells[number].target
        key = target, value, number if number in outages else UNKNOWN
        if key in self.known_turns:
            return self.known_turns[key]
        turns = list[int]()
        before: Optional[int] = UNKNOWN
        for at, place in enumerate(self.parts.configuration.by_target[target]):
            if place == number or place not in outages:
                setting = spells[place].setting
                current = None if setting is None else value(setting)
                if current != before:
                    turns.append(at)
                before = current
        self.known_turns[key] = turns
        return turns

    def time_of(self, number: int, value: Value) -> tuple[Optional[int], Optional[int]]:
        """Returns the moments in ns from which and to which a pipe or queue had this spell's value. None: from the beginning, or to
        the end."""
        spells = self.parts.configuration.spells
        places = self.parts.configuration.by_target[spells[number].target]
        turns = self.turns(number, value)
        end = bisect_right(turns, bisect_left(places, number))
        first = turns[end - 1]
        since = spells[places[first]].moment if first else None
        until = spells[places[turns[end]]].moment if end < len(turns) else None
        return since, until

    def in_force(self, number: int, value: Value) -> str:
        """Describes the time in which a pipe or queue had this spell's value; an empty text if the value never changed."""
        since, until = self.time_of(number, value)
        if since is None:
            return "" if until is None else f"in force until {seconds(until)}"
        end = "on" if until is None else f"to {seconds(until)}"
        return f"in force from {seconds(since)} {end}"
