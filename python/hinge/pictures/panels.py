"""The panels of a replay in drawing order. Each color means a single thing: a flow, or, as a shade of gray, a pipe or a cause."""

from __future__ import annotations

from pathlib import Path
from typing import Callable, Iterator, Optional

from hinge.arguments import PICTURE_FLOWS
from hinge.lazy import Integers, Reals, np
from hinge.pictures.drawing import DASHED, DENSE, DOTTED, MIXED, SOLID, Band, Bars, Drawing, Item, Key, Line, Panel, Points
from hinge.pictures.series import CAUSES, NS_PER_MS, NS_PER_S, Flow, Series, TimeSteps, spread
from hinge.pictures.settings import A_FLOW
from hinge.replays.groups import order_of
from hinge.replays.remarks import LEAST_LATE
from hinge.replays.replay import EVENT_NAMES

COLORS = ("#0072b2", "#d55e00", "#009e73", "#cc79a7", "#56b4e9", "#e69f00", "#882255", "#999933")
RESTS = ("#c4c4c4", "#8f8f8f", "#dcdcdc", "#a9a9a9")  # the colors of lines that stand for a pipe's small flows
PIPES = (("#000000", SOLID), ("#808080", MIXED), ("#404040", DASHED), ("#a0a0a0", DENSE))
CAUSE_COLORS = {"lost": "#b8b8b8", "full": "#3f3f3f", "none": "#7a7a7a"}
MOST_FLOWS = PICTURE_FLOWS  # the flows with separate colors
MOST_ABOVE = 2  # a line above this multiple of the greatest value becomes a note
MOST_DOTS = 2_000  # a flow with more delays is drawn as a band
MOST_DOTS_IN_ALL = 4_000  # if all flows have more delays together, a flow with more than FEWEST_OF_BAND is a band
FEWEST_OF_BAND = 400
MOST_DROPS_TOLD = 2_000
MOST_COUNTS = 20_000  # the drawn points of a queue's length
LOW, MIDDLE, HIGH = 5, 50, 95  # percentiles of a band
BANDS_A_STEP = 5  # since a delay changes faster than a rate


def time_of(step_ns: int) -> str:
    return f"{step_ns / 10**9:g} s" if step_ns >= 10**9 else f"{step_ns / 10**6:g} ms"


def range_of(values: Reals, unit: str) -> str:
    low, high = np.nanmin(values), np.nanmax(values)
    if low == high:
        return f"{low:g} {unit}"
    return f"{low:g} to {high:g} {unit}"


def percentiles(moments: Integers, values: Reals, steps: TimeSteps) -> Reals:
    """Returns the 5th, 50th and 95th percentile of each step's values; nan for empty steps."""
    of = np.minimum(moments // steps.length, steps.rated - 1)
    order = np.argsort(values)
    order = order[order_of(of[order], steps.rated)]
    begins = np.searchsorted(of[order], np.arange(steps.rated))
    counts = np.diff(np.append(begins, len(order)))
    places = np.full((3, steps.rated), np.nan)
    there = counts > 0
    for row, part in enumerate((LOW, MIDDLE, HIGH)):
        places[row, there] = values[order[begins[there] - (-part * counts[there] // 100) - 1]]
    return places


def late_panel(title: str, lines: list[Line]) -> Optional[Panel]:
    """Returns the panel with the lateness of hosts, or None if no host was noticeably late."""
    is_late = any(line.y.max(initial=0) >= LEAST_LATE for line in lines)
    return Panel(title, "s", "ms", [*lines]) if is_late else None


class Panels:
    """Creates the panels of a replay."""

    def __init__(self, flows_in_time: Series) -> None:
        self.series = flows_in_time
        self.step = time_of(flows_in_time.steps.length)
        self.of_bands = TimeSteps(max(flows_in_time.steps.length // BANDS_A_STEP, 1), flows_in_time.steps.span)
        rests = [number for number, flow in enumerate(flows_in_time.flows) if flow.is_rest]
        self.colors = [
            RESTS[rests.index(number) % len(RESTS)] if flow.is_rest else COLORS[number]
            for number, flow in enumerate(flows_in_time.flows)
        ]
        names = {*(name.removesuffix(A_FLOW) for name in flows_in_time.capacities), *flows_in_time.carried, *flows_in_time.waiting}
        order = sorted(names, key=lambda name: (name.split()[0], len(name), name))
        self.pipes = {name: PIPES[number % len(PIPES)] for number, name in enumerate(order)}

    def flows(self) -> Iterator[tuple[int, Flow, str]]:
        """Yields the flows with numbers and colors, the largest on top and the rest at the bottom."""
        pairs = list(enumerate(self.series.flows))[::-1]
        rests = [(number, flow) for number, flow in pairs if flow.is_rest]
        others = [(number, flow) for number, flow in pairs if not flow.is_rest]
        for number, flow in rests + others:
            yield number, flow, self.colors[number]

    def greatest(self, which: str) -> float:
        """Returns the greatest rate, `carried` or `offered`, of a flow or a pipe's flows together."""
        columns = [getattr(flow, which) for flow in self.series.flows] + list(getattr(self.series, which).values())
        return max((float(column.max(initial=0)) for column in columns), default=0)

    def rates(self, which: str, title: str) -> Panel:
        """Returns the panel of the rates, `carried` or `offered`, of each flow and each pipe, with the capacities."""
        result = self.series
        edges = result.steps.edges
        most = self.greatest(which)
        items: list[Item] = []
        notes = list[str]()
        for name, total in getattr(result, which).items():
            color, dash = self.pipes[name]
            items.append(Line(f"all of {name}", edges, np.append(total, total[-1]), color, width=2.2, dash=dash, is_behind=True))
        for name, (moments, rates) in result.capacities.items():
            text = f"{name}: {range_of(rates, 'Mbit/s')}"
            if np.nanmax(rates) <= MOST_ABOVE * most:
                color, _ = self.pipes[name.removesuffix(A_FLOW)]
                items.append(Line(f"capacity of {text}", moments, rates, color, width=1.2, dash=DOTTED, is_behind=True))
            else:
                notes.append(f"capacity of {text}, above this panel")
        items += [
            Line(flow.name, edges, np.append(getattr(flow, which), getattr(flow, which)[-1]), color, number)
            for number, flow, color in self.flows()
        ]
        return Panel(f"{title}, per {self.step}", "s", "Mbit/s", items, notes)

    def carried(self) -> Panel:
        return self.rates("carried", "Throughput")

    def offered(self) -> Panel:
        return self.rates("offered", "Offered load")

    def band(self, number: int, flow: Flow, color: str) -> Band:
        result, out = self.series, flow.out_places
        low, middle, high = percentiles(result.replay.at[out], result.replay.took[out] / NS_PER_MS, self.of_bands)
        return Band(flow.name, self.of_bands.edges, low, middle, high, color, number)

    def delays(self) -> Optional[Panel]:
        """Returns the panel of delays, with a point for each packet, or a band if there are too many."""
        result = self.series
        items = list[Item]()
        has_band = False
        is_crowded = sum(len(flow.out_places) for flow in result.flows) > MOST_DOTS_IN_ALL
        most_dots = FEWEST_OF_BAND if is_crowded else MOST_DOTS
        for number, flow, color in self.flows():
            if len(flow.out_places) > most_dots:
                items.append(self.band(number, flow, color))
                has_band = True
            elif len(flow.out_places):
                places = flow.out_places
                items.append(Points(flow.name, places, result.sent_at(places), result.took_ms(places), color, number))
        if not items:
            return None
        band = f"band: {LOW} to {HIGH} of 100 packets sent in {time_of(self.of_bands.length)}; line: the median"
        notes = [band] if has_band else []
        lines, above = self.bounds()
        return Panel("One-way delay", "sent at, s", "ms", items + lines, notes + above, from_zero=False)

    def bounds(self) -> tuple[list[Item], list[str]]:
        """Returns the proved bound on each pipe's delay: a line, or a note if it is far above the delays."""
        lines, notes = list[Item](), list[str]()
        for pipe in self.series.bounds:
            limit = pipe.bound.due_ns / NS_PER_MS
            most = (pipe.delay_ns or 0) / NS_PER_MS
            text = f"bound on the delay of {pipe.name}: {limit:,.6g} ms"
            if limit <= MOST_ABOVE * most:
                ends = np.array([0, self.series.steps.span]) / NS_PER_S
                color, _ = self.pipes[pipe.name]
                lines.append(Line(text, ends, np.array([limit, limit]), color, width=0.9, dash=DASHED, is_behind=True))
            else:
                notes.append(f"{text}; the greatest is {most:,.6g} ms" if most else text)
        return lines, notes

    def distribution(self) -> Optional[Panel]:
        items: list[Item] = [
            Line(flow.name, flow.delays, flow.ranks, color, number) for number, flow, color in self.flows() if len(flow.delays)
        ]
        panel = Panel("Distribution of the delay", "ms", "part of what arrived", items, from_zero=False, has_time=False, most=1.02)
        return panel if items else None

    def waiting(self) -> Optional[Panel]:
        """Returns the panel with the packets waiting for each pipe or queue, with its limit."""
        items, notes = list[Item](), list[str]()
        for name, (moments, lengths) in self.series.waiting.items():
            places = spread(np.arange(len(moments)), MOST_COUNTS)
            most = int(lengths.max(initial=0))
            if not most:
                continue
            color, _ = self.pipes[name]
            items.append(Line(f"{name}, at most {most:,}", moments[places], lengths[places], color, width=0.8))
            limit = self.series.limits.get(name)
            if limit is None:
                continue
            if limit.numbers is not None and np.nanmax(limit.numbers) <= MOST_ABOVE * most:
                text = f"limit of {name}: {limit.told}"
                numbers = limit.numbers.astype(float)
                items.append(Line(text, limit.moments, numbers, color, width=1.2, dash=DASHED, is_behind=True))
            elif limit.numbers is not None:
                notes.append(f"limit of {name}: {limit.told}, above this panel")
            else:
                notes.append(f"limit of {name}: {limit.told}")
        return Panel("Packets that wait", "s", "packets", items, notes, is_whole=True) if items else None

    def bars(self, name: str, counts: Integers, color: str, flow: Optional[int] = None) -> Bars:
        steps = self.series.steps
        return Bars(name, steps.begins, steps.length / NS_PER_S, counts, color, flow)

    def drops(self) -> Optional[Panel]:
        items: list[Item] = [
            self.bars(f"{cause} {int(counts.sum()):,}", counts, CAUSE_COLORS[cause])
            for cause, counts in self.series.drops.items()
            if counts.any()
        ]
        return Panel(f"Drops by cause, packets per {self.step}", "s", "packets", items, is_whole=True) if items else None

    def drops_by_flow(self) -> Optional[Panel]:
        items: list[Item] = [
            self.bars(flow.name, flow.drops, color, number) for number, flow, color in self.flows() if flow.drops.any()
        ]
        return Panel(f"Drops by flow, packets per {self.step}", "s", "packets", items, is_whole=True) if items else None

    def lateness(self) -> Optional[Panel]:
        """Returns the panel with a live host's lateness and unread packets in each second: delays that no link caused."""
        dashes = {"late": SOLID, "unread": DOTTED}
        items = list[Line]()
        for number, (way, of_way) in enumerate(self.series.lateness.items()):
            for which, (moments, ms) in of_way.items():
                x, y = np.append(0, moments), np.append(ms, ms[-1:])  # each value is the maximum up to its moment
                text = f"{way}: {which}, at most {ms.max(initial=0):.3g} ms"
                color, _ = PIPES[number % 2]
                items.append(Line(text, x, y, color, width=1, dash=dashes[which]))
        return late_panel("The host's lateness, the most of each second", items)

    def drop_points(self) -> list[Points]:
        """Returns a mark for each dropped packet, at a delay of 0."""
        marks = list[Points]()
        for cause in CAUSES:
            places = spread(np.flatnonzero(self.series.replay.event == cause), MOST_DROPS_TOLD)
            if len(places):
                name = EVENT_NAMES[cause]
                moments = self.series.sent_at(places)
                zeros = np.zeros(len(places))
                marks.append(Points(f"dropped: {name}", places, moments, zeros, CAUSE_COLORS[name], is_cross=True))
        return marks

    def key(self, number: int, flow: Flow) -> Key:
        return Key(flow.name, self.colors[number], f"{flow.name}: {int(flow.drops.sum()):,} of {flow.packets:,} dropped")


OF_TRAFFIC: tuple[Callable[[Panels], Optional[Panel]], ...] = (Panels.carried, Panels.offered, Panels.delays, Panels.distribution)
ORDER = (*OF_TRAFFIC, Panels.waiting, Panels.drops, Panels.drops_by_flow, Panels.lateness)
DELAYS = ORDER.index(Panels.delays)


def drawing(flows_in_time: Series, below: Optional[list[str]] = None) -> Drawing:
    """Returns a replay's picture; `below` is the text under the picture."""
    panels = Panels(flows_in_time)
    keys = [panels.key(number, flow) for number, flow in enumerate(flows_in_time.flows)]
    name = Path(flows_in_time.replay.path).name
    span = flows_in_time.steps.span / NS_PER_S
    return Drawing([make(panels) for make in ORDER], keys, name, span, below or [])
