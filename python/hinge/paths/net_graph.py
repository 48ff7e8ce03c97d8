"""Draws a net: the hosts, and the links with both ways' (directions') words, load and losses."""

from __future__ import annotations

import re
from fractions import Fraction
from typing import Optional

from hinge.configurations.configured import LOSS_PARTS
from hinge.lazy import Reals, np
from hinge.paths.matching import Matched
from hinge.paths.passages import BETWEEN
from hinge.paths.report import ways
from hinge.paths.timeline import Timeline
from hinge.pictures.drawing import DASHED, SOLID, Edge, Graph, Node, Panel
from hingetulip_words.foreign import in_units
from hingetulip_words.values import decimal

BANDWIDTH = re.compile(r"\bbw (\d{1,18})bit/s")
DELAY = re.compile(r"\bdelay (\d+)")
LOSS = re.compile(r"\bplr (\d{0,18}\.?\d{1,18})(?!\S)")  # only numbers, since a history may contain any text
MOST_HOSTS = 40  # hosts in a drawing
MOST_WORDS = 12  # links in a drawing with the links' words
ROUNDS = 200  # of the layout
FIRST_STEP = 0.1  # by which a host moves at most in the first round
THINNEST, THICKEST = 1.0, 6.0  # widths of links
WHOLE, CUT = "#606060", "#d55e00"  # colors of links


def places_of(count: int, links: list[tuple[int, int]]) -> Reals:
    """Returns a place in the unit square for each of `count` hosts: hosts repel each other, and links attract their two hosts, like
    in Fruchterman and Reingold (1991)."""
    turn = 2 * np.pi * np.arange(count) / max(count, 1)
    places = np.column_stack((np.cos(turn), np.sin(turn)))
    ideal = np.sqrt(4 / max(count, 1))
    pulls = np.zeros((count, count))
    for begin, end in links:
        pulls[begin, end] = pulls[end, begin] = 1
    for part in range(ROUNDS):
        apart = places[:, None] - places[None]
        distance = np.maximum(np.sqrt((apart**2).sum(axis=2)), 1e-3)
        force = (apart * (ideal**2 / distance**2 - pulls * distance / ideal)[:, :, None]).sum(axis=1)
        length = np.maximum(np.sqrt((force**2).sum(axis=1)), 1e-9)[:, None]
        places += force / length * np.minimum(length, FIRST_STEP * (1 - part / ROUNDS))
    low, high = places.min(axis=0), places.max(axis=0)
    in_unit: Reals = (places - low) / np.maximum(high - low, 1e-9)
    return in_unit


def as_link(words: str) -> str:
    """Converts a pipe's configuration into link words, such as `12Mbit/s 10ms loss 1%`."""
    words = BANDWIDTH.sub(lambda match: in_units(Fraction(match[1])), words)
    words = LOSS.sub(lambda match: f"loss {decimal(as_typed(Fraction(match[1])) * 100)}%", words)
    return DELAY.sub(r"\1ms", words)


def as_typed(kept: Fraction) -> Fraction:
    """Returns the loss rate with fewest digits that dummynet, which counts parts of 2^31, would store like the given rate."""
    for digits in range(1, 12):
        rate = round(kept, digits)
        if int(rate * LOSS_PARTS) == int(kept * LOSS_PARTS):
            return rate
    return kept


class NetGraph:
    """Makes the panel of a net's hosts and links. `words` are the pipes' configurations."""

    def __init__(self, matching: Matched, timeline: Timeline, words: dict[int, str]) -> None:
        topology = matching.passages.topology
        self.timeline = timeline
        self.words = words
        self.figures = {way.pipe: way for way in ways(matching)}
        self.switches = {topology.hosts[number] for number in topology.switches}
        self.links: dict[tuple[str, str], list[int]] = {}  # the pipes of a link's ways, by the link's two hosts
        for pipe, numbers in topology.pipes.items():
            first, second = sorted(topology.hosts[number].partition(BETWEEN)[0] for number in numbers)
            if first != second:
                self.links.setdefault((first, second), []).append(pipe)
        self.hosts = sorted({name for ends in self.links for name in ends})

    def rates(self, pipes: list[int]) -> list[float]:
        """Returns each pipe's traffic in Mbit/s; 0 for a pipe without packets."""
        figures = [self.figures.get(pipe) for pipe in pipes]
        return [(way.mbit_s or 0) if way else 0 for way in figures]

    def label(self, pipes: list[int]) -> str:
        """Returns the words of a link's ways, only once if they are equal, and a line with the traffic and the drops."""
        words = dict.fromkeys(as_link(self.words.get(pipe, "")) for pipe in pipes)
        drops = sum(self.figures[pipe].lost + self.figures[pipe].full for pipe in pipes if pipe in self.figures)
        traffic = " and ".join(f"{rate:.3g}" for rate in self.rates(pipes)) + " Mbit/s"
        if drops:
            traffic += f", {drops:,} dropped"
        return "\n".join([*filter(None, words), traffic])

    def edge(self, ends: tuple[str, str], most: float, has_label: bool) -> Edge:
        """Returns the drawing of the link between two hosts. The link with traffic `most` has the greatest width."""
        pipes = self.links[ends]
        is_cut = any(pipe in self.timeline.cuts for pipe in pipes)
        share = sum(self.rates(pipes)) / most if most else 0
        width = THINNEST + (THICKEST - THINNEST) * share
        color, dash = (CUT, DASHED) if is_cut else (WHOLE, SOLID)
        begin, end = map(self.hosts.index, ends)
        return Edge(begin, end, self.label(pipes) if has_label else "", color, width, dash)

    def panel(self) -> Optional[Panel]:
        """Returns the panel; None for a net with more than MOST_HOSTS hosts, or fewer than three."""
        if not 2 < len(self.hosts) <= MOST_HOSTS:
            return None
        most = max(sum(self.rates(pipes)) for pipes in self.links.values())
        has_labels = len(self.links) <= MOST_WORDS
        edges = [self.edge(ends, most, has_labels) for ends in self.links]
        places = places_of(len(self.hosts), [(edge.begin, edge.end) for edge in edges])
        nodes = [Node(name, x, y, name in self.switches) for name, (x, y) in zip(self.hosts, places.tolist())]
        cut = "; dashed: cut for a time" if any(edge.dash == DASHED for edge in edges) else ""
        return Panel(f"The net: width by load{cut}", "", "", [Graph(nodes, edges)], from_zero=False, has_time=False)
