"""The places of a replay's packets by pipe, for pictures: which pipes get lines, and which flows share a pipe."""

from __future__ import annotations

from dataclasses import replace
from typing import Iterator

from hinge.arguments import PICTURE_FLOWS
from hinge.border.terminal import several
from hinge.lazy import Integers, np
from hinge.replays.groups import Groups, group
from hinge.replays.replay import Replay

MOST_PIPES = PICTURE_FLOWS  # the pipes with lines of their own


def pipes_of(replay: Replay, known: dict[str, str]) -> Groups:
    """Returns the rows in groups by pipe, or by queue if its pipe is unknown; a picture sums up all but the largest."""
    targets = group(replay, "target")
    names = [known.get(name, name) for name in targets.names]
    numbers = {name: number for number, name in enumerate(dict.fromkeys(names))}
    pipes = Groups(np.array([numbers[name] for name in names], np.int64)[targets.of], [*numbers])
    if len(numbers) <= MOST_PIPES:
        return pipes
    pipes = pipes.largest(replay.packets.length, MOST_PIPES)
    *large, others = pipes.names
    return replace(pipes, names=[*large, others.replace("others", "other pipes")])


def shared(replay: Replay, groups: Groups, pipes: Groups) -> dict[str, Integers]:
    """Returns the places of the packets for each pipe, except if all belong to one drawn flow."""
    rest = len(groups.names) - 1 if groups.has_rest else -1  # the group that stands for several flows
    table = dict[str, Integers]()
    for name, places in pipes.places():
        flows = np.flatnonzero(np.bincount(groups.of[places]))
        if len(flows) > 1 or (rest in flows and replay.is_out[places].any()):
            table[name] = places
    return table


def named_places(groups: Groups, pipes: Groups) -> Iterator[tuple[str, Integers, bool]]:
    """Yields each flow's name and places, and whether the flow stands for several. Splits the rest of the flows by pipe or
    queue."""
    last = len(groups.names) - 1 if groups.has_rest else -1
    for number, (name, places) in enumerate(groups.places()):
        if number != last:
            yield name, places, False
            continue
        is_rest = groups.of == last
        parts = {pipe: of_pipe[is_rest[of_pipe]] for pipe, of_pipe in pipes.places() if is_rest[of_pipe].any()}
        for pipe, part in parts.items():
            count = 0 if groups.each is None else np.count_nonzero(np.bincount(groups.each[part]))
            yield f"{several(count, 'other')} of {pipe}" if len(parts) > 1 else name, part, True
