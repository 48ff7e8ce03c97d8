"""A picture as a self-contained page: users zoom, and read each packet's course. page.html draws the packed points."""

from __future__ import annotations

import gzip
import html
import json
import math
from base64 import b64encode
from functools import singledispatchmethod
from pathlib import Path
from typing import Any, Callable, Iterator, Optional

from hinge.command import Progress
from hinge.lazy import Integers, Reals, np
from hinge.pictures.chart import below_lines, title_lines
from hinge.pictures.drawing import Band, Bars, Drawing, Graph, Line, Panel, Points
from hinge.pictures.panels import DELAYS, Panels
from hinge.pictures.series import Series, spread, thinned
from hinge.replays.explain import Explainer
from hinge.replays.replay import EVENT_NAMES, HELD
from hinge.replays.units import ms

PAGE = Path(__file__).with_name("page.html")
PACKING = 6  # gzip's level
MOST_TOLD = 6_000  # the packets that left and have a text on the page of a replay
MOST_OF_WAY = 500  # the packets with a text for each way (one direction of a link) on the page of a net
TITLE_WIDTH, BELOW_WIDTH = 140, 200
Part = dict[str, Any]  # a shape that the page draws as a single path


def teller(flows_in_time: Series, explainer: Explainer | None, rows: Optional[Integers] = None) -> Callable[[int], str]:
    """Returns the function for a packet's text: the paragraph of `why`, or without a configuration the report's values. `rows`
    contains the places of the packets among those that the explainer knows."""
    replay = flows_in_time.replay
    if explainer is not None:
        paragraph = explainer.paragraph

        def paragraph_of(place: int) -> str:
            whole_place = place if rows is None else int(rows[place])
            return " ".join(paragraph(whole_place + 1).split())

        return paragraph_of

    def report_of(place: int) -> str:
        at, start, due = int(replay.at[place]), int(replay.start[place]), int(replay.due[place])
        if not replay.is_out[place]:
            return f"Row {place + 1}: {EVENT_NAMES[replay.event[place]]}."
        return f"Row {place + 1} took {ms(due - at)} = {ms(start - at)} waiting + {ms(due - start)} transmission and delay."

    return report_of


def outline(edges: Reals, low: Reals, high: Reals) -> tuple[Reals, Reals]:
    """Returns the outline of steps between two values: each run of steps with values goes along the top and back along the bottom,
    followed by a gap, so that pauses stay empty."""
    has_value = np.zeros(len(low) + 2, np.int8)
    has_value[1:-1] = np.isfinite(low)
    turns = np.flatnonzero(np.diff(has_value))
    xs, ys = list[Reals](), list[Reals]()
    for begin, end in turns.reshape(-1, 2).tolist():
        across = np.repeat(edges[begin : end + 1], 2)[1:-1]
        xs += [across, across[::-1], np.array([np.nan])]
        ys += [np.repeat(high[begin:end], 2), np.repeat(low[begin:end], 2)[::-1], np.array([np.nan])]
    return np.concatenate(xs or [np.zeros(0)]), np.concatenate(ys or [np.zeros(0)])


def numbers(values: Reals) -> list[Optional[float]]:
    """Returns each value with nine digits, and None for a gap, which is nan."""
    return [None if math.isnan(value) else float(f"{value:.9g}") for value in values.tolist()]


def group_of(name: str, flow: Optional[int]) -> str:
    """Returns the name with which the page hides an item in all panels: the flow's number, or else the item's name."""
    return name if flow is None else f"flow {flow}"


def part(item: Line | Band | Points | Bars, x: Reals, y: Reals, **style: object) -> Part:
    head = {"name": item.name, "group": group_of(item.name, item.flow), "color": item.color}
    return {**head, "x": numbers(x), "y": numbers(y), "width": 1.5, **style}


class HtmlPage:
    """Prepares the data of a replay, or of a net without series, for a page. `tell` returns the text about a packet."""

    def __init__(self, drawing: Drawing, tell: Callable[[int], str], flows_in_time: Optional[Series] = None) -> None:
        self.series = flows_in_time
        self.drawing = drawing
        self.tell = tell
        self.progress = Progress("packets told of")
        self.told = 0  # the number of packets with a text
        self.base = np.zeros(0)  # the tops of the bars that the next bars stand on

    @singledispatchmethod
    def parts(self, item: object) -> Iterator[Part]:
        """Yields the page's shapes for an item. TypeError: pages don't support such an item."""
        raise TypeError(item)

    @parts.register
    def _(self, item: Line) -> Iterator[Part]:
        x, y = item.x, item.y
        if item.steps:
            x, y = np.repeat(x, 2)[1:], np.repeat(y, 2)[:-1]
        yield part(item, x, y, width=item.width, dash=item.dash)

    @parts.register
    def _(self, item: Band) -> Iterator[Part]:
        """Yields the band, with the packets' points and texts."""
        yield part(item, *outline(item.x, item.low, item.high), fill=0.3)
        yield part(item, np.repeat(item.x, 2)[1:-1], np.repeat(item.middle, 2))
        if self.series:
            yield from self.points(item, self.series.flows[item.flow].out_places, self.series)

    @parts.register
    def _(self, item: Points) -> Iterator[Part]:
        if item.is_cross:
            yield part(item, item.x, item.y, width=1, cross=True, words=self.texts(item.places))
        elif self.series:
            yield from self.points(item, item.places, self.series)
        else:
            some = spread(np.arange(len(item.places)), MOST_OF_WAY)
            words = {} if item.flow is None else {"words": self.texts(item.places[some])}
            yield part(item, item.x[some], item.y[some], width=4, **words)

    @parts.register
    def _(self, item: Bars) -> Iterator[Part]:
        low = self.base if len(self.base) else np.zeros(len(item.counts))
        self.base = low + item.counts
        yield part(item, *outline(np.append(item.begins, item.begins[-1] + item.width), low, self.base), fill=1)

    def points(self, item: Band | Points, places: Integers, found: Series) -> Iterator[Part]:
        """Yields some of a flow's packets, including the fastest and slowest in each stretch of time."""
        count = sum(len(flow.out_places) for flow in found.flows) or 1
        places = thinned(places, found.replay, max(MOST_TOLD * len(places) // count, 100))
        yield part(item, found.sent_at(places), found.took_ms(places), width=4, words=self.texts(places))

    def texts(self, places: Integers) -> list[str]:
        self.told += len(places)
        self.progress.at(self.told)
        return [self.tell(place) for place in places.tolist()]

    def panel(self, number: int, panel: Panel) -> Part:
        self.base = np.zeros(0)
        is_of_packets = any(isinstance(item, (Band, Points)) for item in panel.items)
        marks = Panels(self.series).drop_points() if self.series and number == DELAYS else []
        title = f"{panel.title}: over a packet, why" if is_of_packets else panel.title
        return {
            "title": title,
            "across": panel.across,
            "unit": panel.across.rpartition(" ")[2],
            "up": panel.up,
            "zero": panel.from_zero,
            "most": panel.most,
            "whole": panel.is_whole,
            "time": panel.has_time,
            "items": [shape for item in [*panel.items, *marks] for shape in self.parts(item)],
        }

    def notes(self) -> list[str]:
        """Returns the panels' notes, and the page's omissions, so that nobody counts points."""
        notes = list(dict.fromkeys(note for panel in self.drawing.panels if panel for note in panel.notes))
        count = int(np.count_nonzero(self.series.replay.event != HELD)) if self.series else 0
        if count > self.told:
            which = "the fastest and the slowest of a stretch of time, and some between"
            notes.append(f"{self.told:,} of {count:,} packets have a point: {which}")
        return notes

    def record(self, title: str) -> Part:
        """Returns the page's data. Each name occurs once: first the flows, the largest first, and then everything else."""
        panels = [
            self.panel(number, panel)
            for number, panel in enumerate(self.drawing.panels)
            if panel and not isinstance(panel.items[0], Graph)
        ]
        self.progress.done()
        keys = enumerate(self.drawing.keys)
        names = {group_of("", number): {"name": key.told, "color": key.color} for number, key in keys}
        for shape in [shape for panel in panels for shape in panel["items"]]:
            names.setdefault(shape["group"], {key: shape[key] for key in ("name", "color", "dash") if key in shape})
        margin = 0.02 * self.drawing.seconds
        return {
            "title": "\n".join(title_lines(title, TITLE_WIDTH)),
            "times": [-margin, self.drawing.seconds + margin],
            "panels": panels,
            "names": [{"group": group, **name} for group, name in names.items()],
            "below": "\n".join(below_lines([*self.notes(), *self.drawing.below], BELOW_WIDTH)),
        }


def save_page(source: HtmlPage, path: str, title: str) -> None:
    """Writes a page. Texts on packets make up most of it; packing reduces them to a tenth."""
    record = json.dumps(source.record(title), allow_nan=False, separators=(",", ":"))
    archive = b64encode(gzip.compress(record.encode(), PACKING, mtime=0)).decode("ascii")
    name = html.escape(" ".join(title.split()) or source.drawing.name, quote=False)
    page = PAGE.read_text(encoding="utf-8").replace("PACKED", archive).replace("NAME", name, 1)
    Path(path).write_text(page, encoding="utf-8", errors="surrogateescape")
