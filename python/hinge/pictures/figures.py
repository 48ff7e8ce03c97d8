"""A flow's figures: offered and carried traffic, drops, and delays, in ns."""

from __future__ import annotations

import csv
from dataclasses import dataclass
from typing import IO, Iterator, Optional, Union

from hinge.arguments import TABLE_FLOWS
from hinge.lazy import Integers, few as np
from hinge.replays.columns import GREATEST
from hinge.replays.groups import group, order_of, spans
from hinge.replays.links import Parts
from hinge.replays.replay import EVENT_NAMES, FULL, HELD, LOST, NONE, OUT, Replay

PERCENTILES = (50, 95, 99)
RECENT = 1 << 9  # the packets from which the jitter is computed first
WHOLE = slice(None)
Value = dict[str, Union[int, float, None]]
Rows = Union[Integers, slice]


@dataclass(frozen=True)
class Figures:
    """A flow's figures by name. Rates are in Mbit/s, names with `_ns` in ns; None means that no packet determines the figure."""

    name: str
    value: Value


def exact_sum(column: Integers) -> int:
    """Returns a sum that may exceed the range of the column's numbers."""
    if len(column) * max(int(column.max(initial=0)), -int(column.min(initial=0))) <= GREATEST:
        return int(column.sum())
    return sum(column.tolist())


def mean(total: int, count: int) -> Optional[int]:
    """Returns a mean, rounded down to whole ns, or None without values."""
    return total // count if count else None


def percentiles(took: Integers) -> dict[str, Optional[int]]:
    """Returns percentiles by nearest rank: the smallest delay that a given percentage doesn't exceed."""
    ranks = {part: -(-part * len(took) // 100) - 1 for part in PERCENTILES}
    order = np.partition(took, list(ranks.values())) if len(took) else took
    return {f"p{part}_ns": int(order[rank]) if len(took) else None for part, rank in ranks.items()}


def rate(size: int, moments: Integers) -> Optional[float]:
    """Returns the Mbit/s from the first to the last moment, or None if they are equal."""
    span = int(moments.max()) - int(moments.min()) if len(moments) else 0
    return size * 8000 / span if span else None


def last_to_leave(due: Integers, packet: Integers, count: int) -> Integers:
    """Returns the last packets' places in the order of departure."""
    first = len(due) - count
    near = np.flatnonzero(due >= np.partition(due, [first])[first]) if first > 0 else np.arange(len(due))
    places: Integers = near[np.lexsort((packet[near], due[near]))][-count:]
    return places


def jitter(due: Integers, packet: Integers, took: Integers) -> Optional[int]:
    """Returns RFC 3550's interarrival jitter (appendix A.8) in ns after the last of these packets, in order of arrival. The last
    few packets suffice if the smallest and the greatest possible earlier jitter lead to the same result."""
    if len(took) < 2:
        return None
    most = int(took.max()) - int(took.min())
    count = RECENT
    while True:
        recent = took[last_to_leave(due, packet, count)].tolist()
        least, greatest = (jitter_after(before, recent) for before in (0, 16 * most + 7))
        if least == greatest or count >= len(took):
            return least
        count *= 16


def jitter_after(sixteenfold: int, delays: list[int]) -> int:
    """Returns the jitter after packets with these delays, from sixteen times the jitter after the first one."""
    for change in map(int.__abs__, map(int.__sub__, delays[1:], delays)):
        sixteenfold += change - (sixteenfold + 8 >> 4)
    return sixteenfold >> 4


def of_rows(replay: Replay, rows: Rows, flows: list[slice]) -> Iterator[Value]:
    """Yields each flow's figures that count all rows, also those of packets that didn't leave."""
    event, length, at = (column[rows] for column in (replay.event, replay.packets.length, replay.at))
    for flow in flows:
        size = exact_sum(length[flow])
        value = {"packets": len(event[flow]), "bytes": size, "offered_mbit_s": rate(size, at[flow]), "carried_mbit_s": None}
        yield value | {EVENT_NAMES[kind]: int(np.count_nonzero(event[flow] == kind)) for kind in (OUT, LOST, FULL, NONE, HELD)}


def sums_of(column: Integers, flows: list[slice]) -> list[int]:
    """Returns the sum of each flow's numbers in a column."""
    return [exact_sum(column[flow]) for flow in flows]


def of_delays(replay: Replay, parts: Optional[Parts], out: Rows, flows: list[slice]) -> Iterator[Value]:
    """Yields each flow's figures for packets that left, and finally those for all flows, without jitter. The delays' parts need
    the configuration."""
    columns = [replay.at, replay.due, replay.packets.length, replay.start]
    if parts:
        columns.append(parts.transmission)
    sums_of_columns = [sums_of(column[out], flows) for column in columns]
    sums = list(zip(*sums_of_columns))
    all_sums = tuple(sum(sums_of_column) for sums_of_column in sums_of_columns)
    due, packet, took = replay.due[out], replay.packet[out], replay.took[out]
    for flow, (at, end, size, start, *sending) in zip((*flows, WHOLE), (*sums, all_sums)):
        own = took[flow]
        count = len(own)
        value: Value = {"carried_mbit_s": rate(size, due[flow]), "min_ns": int(own.min()) if count else None}
        value |= {"mean_ns": mean(end - at, count), **percentiles(own), "max_ns": int(own.max()) if count else None}
        value["jitter_ns"] = None if flow is WHOLE else jitter(due[flow], packet[flow], own)
        value["queueing_ns"] = mean(start - at, count)
        if sending:
            value |= {"transmission_ns": mean(sending[0], count), "link_delay_ns": mean(end - start - sending[0], count)}
        else:
            value["sending_and_delay_ns"] = mean(end - start, count)
        yield value


def table_of(replay: Replay, parts: Optional[Parts], by: str = "tuple", top: int = TABLE_FLOWS) -> list[Figures]:
    """Returns the figures for the largest flows, for the other flows together, and for all rows."""
    flows = group(replay, by).largest(replay.packets.length, top)
    count = len(flows.names)
    is_out = replay.is_out
    has_order = (flows.of[1:] >= flows.of[:-1]).all()
    rows: Rows = WHOLE if has_order else order_of(flows.of, count)  # rows in order needn't be copied
    of_all = [*of_rows(replay, rows, [*spans(flows.of, count), WHOLE])]
    if is_out.all():
        of_those_out = of_delays(replay, parts, rows, spans(flows.of, count))
    else:
        out = np.flatnonzero(is_out) if isinstance(rows, slice) else rows[is_out[rows]]
        of_those_out = of_delays(replay, parts, out, spans(flows.of[is_out], count))
    values = zip([*flows.names, "all"], of_all, of_those_out)
    return [Figures(name, {**counts, **delays}) for name, counts, delays in values]


def write_csv(table: list[Figures], out: IO[str]) -> None:
    writer = csv.writer(out, lineterminator="\n")
    writer.writerow(["flow", *table[0].value])
    for row in table:
        values = (f"{value:.6f}" if isinstance(value, float) else value for value in row.value.values())
        writer.writerow([row.name, *("" if value is None else value for value in values)])
