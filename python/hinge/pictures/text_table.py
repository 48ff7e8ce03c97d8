"""The table of flows as text, in blocks that fit the terminal."""

from __future__ import annotations

import shutil
from typing import Iterator, Mapping, Optional, Sequence, TextIO

from hinge.pictures.figures import Figures
from hinge.replays.bounds import Bounded

WIDTH, GAP = 80, "  "


def cell(name: str, value: Optional[int | float]) -> str:
    """Returns a figure in the format of the text table."""
    if value is None:
        return "-"
    if name.endswith("_ns"):
        return f"{value / 10**6:,.3f}"
    return f"{value:,.3f}" if isinstance(value, float) else f"{value:,}"


def head(name: str) -> tuple[str, str]:
    """Returns the name and unit of a figure, for the head's two lines."""
    for ending, unit in (("_mbit_s", "Mbit/s"), ("_ns", "ms"), ("_bytes", "bytes")):
        if name.endswith(ending):
            return name.removesuffix(ending).replace("_", " "), unit
    return name, ""


def blocks(columns: list[list[str]], width: int) -> Iterator[list[list[str]]]:
    """Yields the columns in blocks of at most `width` letters, if possible. The first column begins each block."""
    first, *rest = columns
    block, letters = [first], len(first[0])
    for column in rest:
        if len(block) > 1 and letters + len(GAP) + len(column[0]) > width:
            yield block
            block, letters = [first], len(first[0])
        block.append(column)
        letters += len(GAP) + len(column[0])
    yield block


def write_columns(columns: list[list[str]], texts: int, out: TextIO) -> None:
    """Writes the columns in blocks as wide as the terminal, or 80 columns. The first `texts` columns contain text."""
    cells = list[list[str]]()
    for place, column in enumerate(columns):
        widest = max(map(len, column))
        cells.append([text.ljust(widest) if place < texts else text.rjust(widest) for text in column])
    width = shutil.get_terminal_size((WIDTH, 0)).columns if out.isatty() else WIDTH
    parts = (
        "\n".join(GAP.join(row).rstrip() for row in zip(*block) if any(text.strip() for text in row))
        for block in blocks(cells, width)
    )
    out.write("\n\n".join(parts) + "\n")


def figure_columns(rows: Sequence[Mapping[str, Optional[int | float]]]) -> list[list[str]]:
    """Returns a column for each figure, with its head."""
    return [[*head(name), *(cell(name, row[name]) for row in rows)] for name in rows[0]]


def write_text(table: list[Figures], out: TextIO) -> None:
    """Writes the table of flows. Each flow gets a number, explained in the first block."""
    numbers = [str(number) for number in range(1, len(table))] + ["all"]
    columns = [["", "", *numbers], ["flow", "", *(row.name for row in table)]]
    write_columns(columns + figure_columns([row.value for row in table]), 2, out)


def write_bounds(bounds_of_pipes: list[Bounded], out: TextIO) -> None:
    """Writes the table of pipes, with the greatest observed wait and delay, and their bounds."""
    if bounds_of_pipes:
        out.write("\n")
        write_columns(figure_columns([pipe.figures() for pipe in bounds_of_pipes]), 1, out)
