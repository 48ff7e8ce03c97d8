"""The settings over time from commands, for pictures: pipes' bandwidths, queues' limits, and each queue's pipe."""

from __future__ import annotations

from dataclasses import dataclass
from typing import Iterable, Optional

from hinge.configurations.configured import Limit, Pipe, Queue, setting_of
from hinge.lazy import Integers, Reals, np
from hinge.replays.remarks import NS_PER_S

A_FLOW = ", a flow"  # behind the name of a pipe that gives its bandwidth to each flow


@dataclass(frozen=True)
class Limits:
    """The limits of a queue in packets, each from a moment on; None if the limit is in bytes. `told` contains the limit with its
    unit."""

    moments: Reals
    numbers: Optional[Integers]
    told: str


def capacities(changes: Iterable[tuple[int, str]], span: int) -> dict[str, tuple[Reals, Reals]]:
    """Returns the bandwidth of each pipe over time. A pipe with a mask gives its bandwidth to each flow."""
    table: dict[str, list[tuple[int, float]]] = {}
    for moment, text in changes:
        kind, number, setting = setting_of(text)
        if kind == "pipe":
            rate = setting.bw / 10**6 if isinstance(setting, Pipe) and setting.bw else np.nan
            suffix = A_FLOW if "mask" in text.split() else ""
            table.setdefault(f"pipe {number}{suffix}", []).append((moment, rate))
    columns = dict[str, tuple[Reals, Reals]]()
    for name, points in table.items():
        last, rate = points[-1]
        moments, rates = np.array([*points, (max(span, last), rate)]).T
        if not np.isnan(rates).all():
            columns[name] = moments / NS_PER_S, rates
    return columns


def limits(changes: Iterable[tuple[int, str]], span: int) -> dict[str, Limits]:
    """Returns the limit of each pipe's and queue's backlog over time. A mask gives each flow a separate queue."""
    table: dict[str, list[tuple[int, Limit, bool]]] = {}
    for moment, text in changes:
        kind, number, setting = setting_of(text)
        if setting is not None:
            table.setdefault(f"{kind} {number}", []).append((moment, setting.limit, "mask" in text.split()))
    return {name: limits_of(points, span) for name, points in table.items()}


def limits_of(points: list[tuple[int, Limit, bool]], span: int) -> Limits:
    """Returns the limits of a queue from moments in ns, each with its limit and whether each flow has a separate queue."""
    last, limit, has_mask = points[-1]
    moments = np.array([*(moment for moment, _, _ in points), max(span, last)]) / NS_PER_S
    each = ", each flow" if has_mask else ""
    if any(limit.slots is None for _, limit, _ in points):
        text = f"{limit.kbytes} Kbytes" if limit.kbytes else f"{limit.slots:,} packets"
        return Limits(moments, None, f"{text}{each}")
    numbers = np.array([*(limit.slots for _, limit, _ in points), limit.slots])
    text = f"{numbers.min():,}" if numbers.min() == numbers.max() else f"{numbers.min():,} to {numbers.max():,}"
    return Limits(moments, numbers, f"{text} packets{each}")


def pipe_names(changes: Iterable[tuple[int, str]]) -> dict[str, str]:
    """Returns the name of each queue's pipe, if the commands contain that pipe."""
    settings = (setting_of(text) for _, text in changes)
    return {f"queue {number}": f"pipe {options.pipe}" for _, number, options in settings if isinstance(options, Queue)}
