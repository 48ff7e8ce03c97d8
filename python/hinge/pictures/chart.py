"""Pictures drawn with matplotlib: the panels for a replay, or for several replays side by side."""

from __future__ import annotations

import logging
import textwrap
from functools import singledispatch
from typing import TYPE_CHECKING, Sequence

from hinge.command import module, working
from hinge.lazy import Reals, np
from hinge.pictures.drawing import DASHED, DENSE, DOTTED, MIXED, SOLID, Band, Bars, Drawing, Graph, Line, Panel, Points

if TYPE_CHECKING:
    from matplotlib.axes import Axes
    from matplotlib.figure import Figure

TITLE_WIDTH, TITLE_LINES = 110, 3
BELOW_WIDTH, BELOW_LINES = 165, 6
BEHIND = 1.5  # matplotlib's order of lines that the lines of flows cover
DASHES = {SOLID: "-", DASHED: "--", DOTTED: ":", MIXED: "-.", DENSE: (0, (8, 2))}
NAME_ROOM = 0.078  # the part of a panel's height that a row of names takes
MOST_ROOM = 0.7  # the part that all rows of names take at most
LINE_INCHES = 0.19  # the height of a line of text
KEY_COLUMNS = 2
SHADE = {"color": "#d55e00", "alpha": 0.12, "lw": 0, "zorder": 0}  # marks a time in which a link lost or held all packets
LABEL_BOX = {"boxstyle": "round,pad=0.15", "facecolor": "#ffffff", "edgecolor": "none", "alpha": 0.75}
TIMES: dict[str, dict[str, None]] = {"svg": {"Date": None}, "pdf": {"CreationDate": None}}  # keeps dates out of files


def title_lines(title: str, width: int = TITLE_WIDTH) -> list[str]:
    """Returns a title in at most TITLE_LINES lines; the rest is left out."""
    return textwrap.wrap(title, width, max_lines=TITLE_LINES, placeholder=" ..")


def below_lines(below: list[str], width: int = BELOW_WIDTH) -> list[str]:
    """Returns the text under a picture, split into lines."""
    return [line for text in below for line in textwrap.wrap(text, width, max_lines=BELOW_LINES, placeholder=" ..")]


def as_written(text: str) -> str:
    """Returns a text that matplotlib doesn't interpret as a formula."""
    return text.replace("$", r"\$")


@singledispatch
def draw(item: object, axes: Axes, base: Reals) -> Reals:
    """Draws an item, with bars on top of `base`; returns the base for the next bars. TypeError: there is no such kind of item."""
    raise TypeError(item)


@draw.register(Line)
def draw_line(item: Line, axes: Axes, base: Reals) -> Reals:
    style = {"color": item.color, "lw": item.width, "ls": DASHES[item.dash], "solid_capstyle": "butt", "label": item.name}
    if item.steps:
        style["drawstyle"] = "steps-post"
    if item.is_behind:
        style["zorder"] = BEHIND
    axes.plot(item.x, item.y, **style)
    return base


@draw.register(Band)
def draw_band(item: Band, axes: Axes, base: Reals) -> Reals:
    low, middle, high = (np.append(row, row[-1]) for row in (item.low, item.middle, item.high))
    axes.fill_between(item.x, low, high, step="post", color=item.color, alpha=0.25, lw=0)
    axes.plot(item.x, middle, color=item.color, lw=1.2, drawstyle="steps-post", label=item.name)
    return base


@draw.register(Points)
def draw_points(item: Points, axes: Axes, base: Reals) -> Reals:
    mark, size = ("x", 4) if item.is_cross else (".", 2)
    axes.plot(item.x, item.y, mark, ms=size, color=item.color, label=item.name, rasterized=True)
    return base


@draw.register(Bars)
def draw_bars(item: Bars, axes: Axes, base: Reals) -> Reals:
    base = base if len(base) else np.zeros(len(item.counts))
    axes.fill_between(item.begins, base, base + item.counts, step="post", color=item.color, lw=0, label=item.name)
    return base + item.counts


@draw.register(Graph)
def draw_graph(item: Graph, axes: Axes, base: Reals) -> Reals:
    for edge in item.edges:
        begin, end = item.nodes[edge.begin], item.nodes[edge.end]
        axes.plot([begin.x, end.x], [begin.y, end.y], color=edge.color, lw=edge.width, ls=DASHES[edge.dash], zorder=BEHIND)
        middle = (begin.x + end.x) / 2, (begin.y + end.y) / 2
        axes.text(*middle, as_written(edge.label), fontsize=7, ha="center", va="center", bbox=LABEL_BOX)
    for node in item.nodes:
        box = {"boxstyle": "square" if node.is_switch else "round", "facecolor": "#ffffff", "edgecolor": "#000000"}
        axes.text(node.x, node.y, as_written(node.name), fontsize=9, ha="center", va="center", bbox=box)
    axes.set_axis_off()
    axes.margins(0.15)
    return base


def draw_panel(axes: Axes, panel: Panel) -> None:
    base = np.zeros(0)
    for item in panel.items:
        base = draw(item, axes, base)
    for note in panel.notes:
        axes.plot([], [], " ", label=note)
    axes.set(title=as_written(panel.title), xlabel=panel.across, ylabel=panel.up)


def finish_panel(axes: Axes, panel: Panel, drawing: Drawing) -> int:
    """Sets a panel's limits, grid and tick labels, and adds a legend for all plotted items except flows. Returns the number of
    rows in that legend.
    """
    axes.grid(alpha=0.3)
    if panel.from_zero:
        axes.update_datalim([(0, 0)], updatex=False)
        axes.autoscale_view(scalex=False)
        axes.set_ylim(bottom=0)
    if panel.most is not None:
        axes.set_ylim(0, panel.most)
    if panel.names:
        axes.set_xticks(range(len(panel.names)), [as_written(name) for name in panel.names])
    if panel.rows:
        axes.set_yticks([number + 0.5 for number in range(len(panel.rows))], [as_written(name) for name in panel.rows])
    if panel.has_time and drawing.seconds:
        margin = 0.02 * drawing.seconds
        axes.set_xlim(-margin, drawing.seconds + margin)
        for begin, end in drawing.shades:
            axes.axvspan(begin, end, **SHADE)
    if panel.is_whole:
        axes.yaxis.get_major_locator().set_params(integer=True)
    flows = {key.name for key in drawing.keys}
    own = [(handle, as_written(name)) for handle, name in zip(*axes.get_legend_handles_labels()) if name not in flows]
    columns = 2 if len(own) > 2 and max(len(name) for _, name in own) < 40 else 1
    if own:
        axes.legend(*zip(*own), fontsize=8, loc="upper left", ncol=columns, framealpha=0.85)
    return -(-len(own) // columns)


def make_room(axes: Axes, rows: int) -> None:
    """Raises an axis's upper limit, so that `rows` rows of names fit above the lines."""
    if rows:
        low, high = axes.get_ylim()
        axes.set_ylim(low, low + (high - low) / (1 - min(NAME_ROOM * rows + 0.03, MOST_ROOM)))


def name_flows(fig: Figure, column: Sequence[Axes], drawing: Drawing, several: bool, top: float) -> float:
    """Writes the names of flows with their colors above the panels, `top` inches below the upper edge; returns the height of the
    names in inches."""
    handles = {label: handle for axes in reversed(column) for handle, label in zip(*axes.get_legend_handles_labels())}
    labels = [as_written(key.name if several else key.told) for key in drawing.keys]
    if not labels:
        return 0
    lines = -(-len(labels) // KEY_COLUMNS) * max(label.count("\n") + 1 for label in labels)
    place = {"loc": "upper center", "bbox_to_anchor": (0.5, 1 - top / fig.get_figheight()), "ncol": KEY_COLUMNS}
    style = {"fontsize": 8, "frameon": False, "title": drawing.of_keys, "title_fontsize": 9}
    fig.legend([handles[key.name] for key in drawing.keys], labels, **place, **style)
    return LINE_INCHES * lines + 0.1


def draw_columns(drawings: list[Drawing], rows: list[int], cells: list[Sequence[Axes]]) -> None:
    """Draws a column of panels for each replay. Limits are set afterwards, since the panels of a row share them."""
    lines_with_places = [
        (axis, drawing, drawing.panels[row]) for drawing, column in zip(drawings, cells) for row, axis in zip(rows, column)
    ]
    for axis, drawing, panel in lines_with_places:
        if panel is None:
            axis.set_axis_off()
        else:
            draw_panel(axis, panel)
    names = [0 if panel is None else finish_panel(axis, panel, drawing) for axis, drawing, panel in lines_with_places]
    for place, row in enumerate(rows):
        make_room(cells[0][place], max(names[place :: len(rows)]))  # the others of the row share its limits


def figure(drawings: list[Drawing], title: str) -> Figure:
    """Returns the figure: two columns of panels for one replay, or a column for each of several with common axes in each row."""
    pyplot = module("matplotlib.pyplot", "python3-matplotlib")
    rows = [row for row, panels in enumerate(zip(*(drawing.panels for drawing in drawings))) if any(panels)]
    several = len(drawings) > 1
    if several:
        fig, axes = pyplot.subplots(
            len(rows), len(drawings), figsize=(6.5 * len(drawings), 3.4 * len(rows)), sharex="row", sharey="row", squeeze=False
        )
        cells = list(axes.T)
    else:
        columns = min(2, len(rows))
        height = -(-len(rows) // columns)
        fig, axes = pyplot.subplots(height, columns, figsize=(13, drawings[0].row_inches * height), squeeze=False)
        cells = [list(axes.flat)]
    draw_columns(drawings, rows, cells)
    for drawing, column in zip(drawings, cells):
        if several:
            column[0].set_title(f"{as_written(drawing.name)}\n{column[0].get_title()}")
    if not several:
        for cell in cells[0][len(rows) :]:
            cell.set_axis_off()
    frame(fig, cells[0], drawings[0], several, title_lines(title))
    return fig


def frame(fig: Figure, column: Sequence[Axes], drawing: Drawing, several: bool, title: list[str]) -> None:
    """Writes the title and the names of flows above all panels, and the text below them."""
    below = below_lines(drawing.below)
    fig.set_figheight(fig.get_figheight() + LINE_INCHES * -(-len(drawing.keys) // KEY_COLUMNS))
    height = fig.get_figheight()
    top = 0.25 * len(title) + 0.1
    fig.suptitle(as_written("\n".join(title)), y=1 - 0.1 / height, va="top")
    top += name_flows(fig, column, drawing, several, top)
    if below:
        fig.text(0.01, 0.06 / height, as_written("\n".join(below)), fontsize=7.5, color="#444444", va="bottom", family="monospace")
    room_below = LINE_INCHES * len(below) + 0.1 if below else 0
    fig.tight_layout(rect=(0, room_below / height, 1, 1 - top / height))


def begin_drawing() -> None:
    """Configures matplotlib to work without a screen and without messages on its folders."""
    logging.getLogger("matplotlib").setLevel(logging.ERROR)
    module("matplotlib", "python3-matplotlib").use("Agg")


def save(drawings: list[Drawing], path: str, kind: str, title: str) -> None:
    """Draws pictures side by side into a file. `kind` is a format of matplotlib, such as `png`."""
    begin_drawing()
    with working("drawing"):
        save_figure(figure(drawings, title), path, kind)


def save_figure(fig: Figure, path: str, kind: str) -> None:
    """Saves a figure without the time and random names, so that equal pictures have equal bytes."""
    with module("matplotlib", "python3-matplotlib").rc_context({"svg.hashsalt": "hinge"}):
        fig.savefig(path, format=kind, dpi=100, metadata=TIMES.get(kind))
