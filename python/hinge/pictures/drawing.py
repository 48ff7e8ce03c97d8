"""The content of a picture: panels of lines, bands, points and bars. matplotlib (chart) and the page (html_page) draw the same
content."""

from __future__ import annotations

from dataclasses import dataclass, field
from typing import Optional, Union

from hinge.lazy import Integers, Reals


SOLID = "solid"
DASHED = "dash"
DOTTED = "dot"
MIXED = "dashdot"
DENSE = "longdash"


@dataclass(frozen=True)
class Line:
    """A line; `flow` is the number of the flow that the line represents, if any. With `steps` each value holds up to the next
    moment."""

    name: str
    x: Reals
    y: Reals
    color: str
    flow: Optional[int] = None
    width: float = 1.5
    dash: str = SOLID
    steps: bool = True
    is_behind: bool = False  # whether the lines of flows cover this line


@dataclass(frozen=True)
class Band:
    """A band between `low` and `high` with a middle line, in steps. `x` contains the steps' starts and the last end. Steps without
    a value are nan."""

    name: str
    x: Reals
    low: Reals
    middle: Reals
    high: Reals
    color: str
    flow: int


@dataclass(frozen=True)
class Points:
    """Points for packets. `places` are the packets' places in the replay."""

    name: str
    places: Integers
    x: Reals
    y: Reals
    color: str
    flow: Optional[int] = None
    is_cross: bool = False


@dataclass(frozen=True)
class Bars:
    """Counts in steps of equal width, stacked on the bars before."""

    name: str
    begins: Reals
    width: float
    counts: Integers
    color: str
    flow: Optional[int] = None


@dataclass(frozen=True)
class Node:
    """A host of a net, at a place from 0 to 1."""

    name: str
    x: float
    y: float
    is_switch: bool


@dataclass(frozen=True)
class Edge:
    """A link between two nodes."""

    begin: int
    end: int
    label: str
    color: str
    width: float
    dash: str


@dataclass(frozen=True)
class Graph:
    """Nodes and edges, without axes."""

    nodes: list[Node]
    edges: list[Edge]


Item = Union[Line, Band, Points, Bars, Graph]


@dataclass(frozen=True)
class Panel:
    """A panel with its axes. `notes` appear beside the names of items other than flows."""

    title: str
    across: str
    up: str
    items: list[Item]
    notes: list[str] = field(default_factory=list)
    from_zero: bool = True
    has_time: bool = True
    is_whole: bool = False  # whether the values are whole numbers
    most: Optional[float] = None  # the vertical axis's upper limit; None if the values decide
    names: list[str] = field(default_factory=list)  # the names of 0, 1, 2 .. on the horizontal axis
    rows: list[str] = field(default_factory=list)  # the names of 0.5, 1.5, 2.5 .. on the vertical axis


@dataclass(frozen=True)
class Key:
    """A flow's name, color and note."""

    name: str
    color: str
    told: str


@dataclass(frozen=True)
class Drawing:
    """A picture of a replay. Empty panels are None."""

    panels: list[Optional[Panel]]
    keys: list[Key]
    name: str
    seconds: float
    below: list[str] = field(default_factory=list)
    of_keys: str = "Flows, the largest first"
    row_inches: float = 3.75
    shades: tuple[tuple[float, float], ...] = ()  # the times in s in which a link lost or held all packets
