"""Replays to draw, and which of the libraries of pictures are there."""

from pathlib import Path

import numpy as np
from kit import mixed, parts_of, write

from hinge.captures.packet_rows import HEADER
from hinge.command import Fault, module
from hinge.pictures import chart
from hinge.pictures.panels import drawing
from hinge.pictures.series import NS_PER_MS, NS_PER_S, Series, series, span_of
from hinge.replays.groups import group
from hinge.replays.replay import OUT, Packets, Replay


def figure(replays: list[Series], title: str):
    return chart.figure([drawing(found, ["made of this"]) for found in replays], title)


def matplotlib_there() -> bool:
    try:
        module("matplotlib", "python3-matplotlib").use("Agg")
    except Fault:
        return False
    return True


def forty() -> tuple[Path, Path]:
    """Packets of forty flows, the report of a link without limits."""
    rows = [(1000 * row, f"10.0.{row % 40}.1", 100 + row % 40) for row in range(4000)]
    packets = "".join(f"{at},pipe,1,{src},10.1.0.1,17,1,2,{length},0\n" for at, src, length in rows)
    report = "".join(f"out,{row},0,{row - 1},{at},{at},{at}\n" for row, (at, _, _) in enumerate(rows, 1))
    return write("forty.csv", f"{HEADER}\n{packets}"), write("forty.report", f"event,row,flow,packet,at,start,due\n{report}")


def full_link(flows: int) -> Replay:
    """A thousand packets of 1,000 bytes, one that leaves each ms, of so many flows in turn."""
    due = np.arange(1, 1001) * NS_PER_MS
    zero = np.zeros(1000, np.int64)
    one = np.ones(1000, np.int64)
    names = [("10.0.0.1", "10.0.0.2", 17, number, 2) for number in range(flows)]
    packets = Packets("full", due - NS_PER_MS, zero, np.arange(1000) % flows, 1000 * one, zero, [("pipe", 1)], names)
    return Replay("full", packets, OUT * one, zero, np.arange(1000), due - NS_PER_MS, due - NS_PER_MS, due, zero, zero, {})


def series_of(name: str, step_ns: int = NS_PER_S) -> Series:
    replay = parts_of(*mixed(name)).replay
    return series(replay, group(replay, "tuple").largest(replay.packets.length, 3), step_ns, span_of([replay]))
