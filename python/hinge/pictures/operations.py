"""A picture of the fewest operations without an order: a line for each client, a bar for each operation, and shades for faults. The
axis shows the moments in order, but not to scale, since an operation that takes some ms may fail a read a minute later."""

from __future__ import annotations

import math
import textwrap
from contextlib import contextmanager
from pathlib import Path
from typing import Iterator, NamedTuple, Optional

from hinge.arguments import LookOptions
from hinge.border.files import MOST_TEXT, read_bytes, read_object
from hinge.border.terminal import tell
from hinge.checks.findings import Findings
from hinge.checks.operations import Operation
from hinge.checks.orders import check_operations
from hinge.command import FILES, ROWS, Fault
from hinge.events.kinds import TimedEvent, fault_ends
from hinge.lazy import np
from hinge.net.description import read_description
from hinge.net.net_plan import NetPlan
from hinge.outputs import format_of, refuse_inputs, written
from hinge.pictures.chart import save
from hinge.pictures.drawing import DASHED, SOLID, Bars, Drawing, Item, Key, Line, Panel
from hinge.pictures.panels import COLORS
from hinge.pictures.series import NS_PER_S
from hinge.run.words import Wrong
from hinge.simulated.failures import NET_KEY, file_beside

SHADE = "#f3cfc6"  # the color of faults
BAR = 9.0  # the width of an operation's bar
INCHES = 4.0  # the height of the picture
WIDTH = 80  # the letters of a line beside the picture
LONGEST_PACKET = 1500


class Shade(NamedTuple):
    """A fault between two moments, in seconds."""

    begin: float
    end: float
    words: str


@contextmanager
def net_in(path: Path) -> Iterator[Path]:
    """Yields the path of a net. For a failure of a test (a JSON file), the net is a temporary file beside the failure. Fault: the
    failure contains no net."""
    if not read_bytes(str(path), MOST_TEXT).startswith(b"{"):
        yield path
        return
    lines = read_object(path, "no failure").get(NET_KEY)
    if not isinstance(lines, list):
        raise Fault(f"{path}: no failure of a net", FILES)
    with file_beside(path.absolute(), "".join(f"{line}\n" for line in lines)) as net:
        yield net


def shades_of(path: str) -> list[Shade]:
    """Returns a net's faults, on the main command's clock. Fault: a seed draws them, or there is none."""
    try:
        with net_in(Path(path)) as net:
            events = NetPlan(read_description(str(net)), LONGEST_PACKET, 0).events
    except Wrong as wrong:
        raise Fault(str(wrong), ROWS) from None
    if any(event.is_drawn for event in events):
        raise Fault(f"{path}: a seed draws its faults; name the failure that hinge search wrote, or a net of its lines `at`", FILES)
    if not events:
        raise Fault(f"{path}: it has no fault", FILES)
    ends = dict(fault_ends(events))
    return [shade_of(event, ends.get(place), events) for place, event in enumerate(events) if place not in ends.values()]


def shade_of(one: TimedEvent, end: Optional[int], events: list[TimedEvent]) -> Shade:
    begin, lasting = one.moment.ns / NS_PER_S, one.event.length / NS_PER_S
    return Shade(begin, min(begin + lasting, events[end].moment.ns / NS_PER_S if end is not None else math.inf), str(one))


def operations_drawing(name: str, fewest: list[Operation], shades: list[Shade]) -> Drawing:
    """Returns the picture of operations. Each operation gets a color, which also marks its text. The bar of an operation that never
    returned is dashed, and ends at the right edge."""
    first = min(operation.begin for operation in fewest)
    last = max(operation.end if operation.is_over else operation.begin for operation in fewest)
    shades = [shade for shade in shades if shade.begin <= last and shade.end >= first]
    spans = [(operation.begin, operation.end) for operation in fewest]
    spans += [(shade.begin, shade.end) for shade in shades]
    moments = sorted({*(begin for begin, _ in spans), *(min(end, last) for _, end in spans)} - {-math.inf})
    place = {moment: float(number) for number, moment in enumerate(moments)}
    clients = sorted({operation.client for operation in fewest}, reverse=True)
    items = list[Item]()
    if shades:
        is_in_fault = np.array([any(shade.begin <= moment < shade.end for shade in shades) for moment in moments])
        heights = np.where(is_in_fault, float(len(clients)), 0.0)
        items.append(Bars("a fault", np.arange(len(moments), dtype=float), 1, heights, SHADE))
    keys = list[Key]()
    for number, operation in enumerate(fewest):
        color = COLORS[number % len(COLORS)]
        told = f"{name}:{operation.line}: {operation.told()}"
        dash = SOLID if operation.is_over else DASHED
        end = place[min(operation.end, last)] if operation.is_over else len(moments) - 0.5
        x = np.array([place[operation.begin], end])
        y = np.full(2, clients.index(operation.client) + 0.5)
        items.append(Line(str(operation.line), x, y, color, number, BAR, dash, steps=False))
        keys.append(Key(str(operation.line), color, textwrap.fill(told, WIDTH, subsequent_indent="  ")))
    panel = Panel(
        "The fewest operations without an order", "s, not to scale", "client", items, from_zero=False, has_time=False,
        most=float(len(clients)), names=[f"{moment:.3f}" for moment in moments], rows=clients,
    )  # fmt: skip
    return Drawing([panel], keys, name, 0, [shade.words for shade in shades], "Operations", INCHES)


def look_at_operations(options: LookOptions, name: str, faults: Optional[str] = None) -> int:
    """Judges the operations in a file, and draws the fewest without an order; returns the exit status. `faults` is the file of a
    net whose faults shade the picture."""
    refuse_inputs(options.outputs, options.source)
    shades = shades_of(faults) if faults else []
    findings = Findings()
    fewest = check_operations(name, read_bytes(name, MOST_TEXT), options.model or "", findings)
    if not fewest:
        tell(f"{name}: nothing to draw, so {options.o[0]} wasn't written")
        return findings.status
    for output in options.o:
        with written(output) as place:
            save([operations_drawing(Path(name).name, fewest, shades)], str(place), format_of(output).kind, options.title)
    return findings.status
