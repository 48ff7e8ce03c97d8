"""A net's picture: hosts and links, the traffic of each way (one direction of a link), packets' times on ways and hop by hop,
drops, cuts, and the links' lateness."""

from __future__ import annotations

from typing import Optional

from hinge.lazy import np
from hinge.paths.net_graph import NetGraph
from hinge.paths.report import MS, Path, WayFigures, hosts_of, paths, ways
from hinge.paths.timeline import SECOND, Looked, carried_by_way
from hinge.pictures.drawing import DOTTED, SOLID, Bars, Drawing, Item, Key, Line, Panel, Points
from hinge.pictures.panels import CAUSE_COLORS, COLORS, MOST_ABOVE, PIPES, RESTS, late_panel, time_of
from hinge.pictures.series import FEWEST_STEPS, round_step, rounded_down, rounded_up, spread
from hinge.pictures.settings import capacities
from hinge.replays.replay import EVENT_NAMES, FULL, LOST, OUT

PATH_COLORS = ("#332288", "#117733", "#aa4499", "#661100")  # other colors than those of ways
MOST_WAYS = len(COLORS)
MOST_PATHS = len(PATH_COLORS)
MOST_DOTS = 3_000  # for a way or a path
CUT_WIDTH = 6.0
PACKETS_A_STEP = 4  # on the busiest way at least, since single packets would make the rate jump to 0 and back
NS_PER_MS = 10**6


class NetPicture:
    """Makes a net's panels. The ways with most packets have a color each; the others aren't drawn. `step_ms` is the time step
    of rates; None chooses a step for the packets."""

    def __init__(self, view: Looked, step_ms: Optional[int]) -> None:
        self.view = view
        self.matching = view.matching
        self.passages = view.matching.passages
        self.timeline = view.timeline
        busiest_first = sorted(ways(self.matching), key=lambda way: -way.packets)
        self.left_out = len(busiest_first[MOST_WAYS:])
        self.ways: list[tuple[WayFigures, str]] = list(zip(busiest_first[:MOST_WAYS], COLORS))
        self.step = step_ms * NS_PER_MS if step_ms else self.usual_step()
        self.count = self.timeline.span // self.step + 1
        self.edges = np.arange(self.count + 1) * self.step / SECOND

    def usual_step(self) -> int:
        """Returns a step in ns that fits the span, and is longer if the busiest way carries few packets."""
        span = self.timeline.span
        packets = self.ways[0][0].packets if self.ways else 1
        longer = min(rounded_up(PACKETS_A_STEP * span // packets), rounded_down(span // FEWEST_STEPS))
        return max(round_step(span), longer)

    def throughput(self) -> Panel:
        """Returns the panel with each way's traffic, and with capacities that aren't far above the traffic."""
        load = [carried_by_way(self.matching, way.pipe, self.step, self.count) for way, _ in self.ways]
        most = max((float(rates.max(initial=0)) for rates in load), default=0)
        rates_of_pipes = capacities(self.view.obeyed, self.timeline.span)
        items: list[Item] = []
        above = 0  # capacities that aren't drawn
        for number, (way, color) in enumerate(self.ways):
            moments, rates = rates_of_pipes.get(f"pipe {way.pipe}", (self.edges[:0], self.edges[:0]))
            if not len(rates):
                continue
            if np.nanmax(rates) > MOST_ABOVE * most:
                above += 1
            else:
                items.append(Line(way.name, moments, rates, color, number, width=1, dash=DOTTED, is_behind=True))
        notes = self.notes(bool(items), above)
        items += [
            Line(way.name, self.edges, np.append(rates, rates[-1]), color, number)
            for number, ((way, color), rates) in enumerate(zip(self.ways, load))
        ]
        return Panel(f"Throughput of each way, per {time_of(self.step)}", "s", "Mbit/s", items, notes)

    def notes(self, has_capacities: bool, above: int) -> list[str]:
        """Returns the notes below the throughput; `above` is the number of capacities above the panel."""
        notes = []
        if self.left_out:
            notes.append(f"{self.left_out} other ways, which carried fewer packets, aren't drawn")
        if has_capacities:
            notes.append("dotted: a way's capacity")
        if above:
            notes.append(f"{above} capacities are above this panel")
        return notes

    def delays(self) -> Optional[Panel]:
        """Returns the panel with a dot for each delivered packet of a way, or for some of them; None without such packets."""
        passages = self.passages
        items: list[Item] = []
        for number, (way, color) in enumerate(self.ways):
            out = np.flatnonzero((passages.pipe == way.pipe) & (passages.event == OUT))
            places = out[spread(np.arange(len(out)), MOST_DOTS)]
            if len(places):
                x = passages.came[places] / SECOND
                y = (passages.due - passages.came)[places] / MS
                items.append(Points(way.name, places, x, y, color, number))
        return Panel("Delay on each way", "came at, s", "ms", items) if items else None

    def cuts(self) -> Optional[Panel]:
        """Returns a panel that draws a horizontal line for each way while a cut loses all packets of the way; None without cuts."""
        items: list[Item] = []
        for place, (pipe, times) in enumerate(sorted(self.timeline.cuts.items()), 1):
            topology = self.passages.topology
            name = " > ".join(topology.hosts[host] for host in topology.pipes[pipe])
            x = np.array([moment for begin, end in times for moment in (begin, end, end)]) / SECOND
            y = np.array([level for _ in times for level in (place, place, np.nan)], float)
            color = next((color for way, color in self.ways if way.pipe == pipe), RESTS[place % len(RESTS)])
            length = sum(end - begin for begin, end in times) / SECOND
            items.append(Line(f"{place}: {name}, {length:.3g} s", x, y, color, width=CUT_WIDTH))
        return Panel("Ways that lose all packets", "s", "", items, most=len(items) + 1, is_whole=True) if items else None

    def drops(self) -> Optional[Panel]:
        """Returns the panel of lost packets, and of packets that found a full queue; None without drops."""
        items: list[Item] = []
        for event in (LOST, FULL):
            came = self.passages.came[self.passages.event == event]
            counts = np.bincount(came // self.step, minlength=self.count)[: self.count]
            if counts.any():
                name = EVENT_NAMES[event]
                items.append(Bars(f"{name} {int(counts.sum()):,}", self.edges[:-1], self.step / SECOND, counts, CAUSE_COLORS[name]))
        return Panel(f"Drops by cause, packets per {time_of(self.step)}", "s", "packets", items, is_whole=True) if items else None

    def over_links(self) -> list[Path]:
        """Returns the busiest paths over several links."""
        return [path for path in paths(self.matching) if len(path.pipes) > 1][:MOST_PATHS]

    def of_paths(self) -> Optional[Panel]:
        """Returns the panel of packets' whole times, from the first host to the last, for the busiest paths over several links;
        None without such paths."""
        items: list[Item] = []
        for path, color in zip(self.over_links(), PATH_COLORS):
            places = spread(np.arange(len(path.sent)), MOST_DOTS)
            total = (path.links.sum(axis=1) + path.hosts.sum(axis=1))[places]
            items.append(Points(" - ".join(hosts_of(self.matching, path)), places, path.sent[places] / SECOND, total / MS, color))
        return Panel("Delay of paths", "sent at, s", "ms", items) if items else None

    def hops(self) -> Optional[Panel]:
        """Returns the panel of the busiest path over several links, with the time that each link and host added; None without such
        a path."""
        path = next(iter(self.over_links()), None)
        if path is None:
            return None
        hosts = hosts_of(self.matching, path)
        step_of_packet = np.minimum(path.sent // self.step, self.count - 1)
        counts = np.bincount(step_of_packet, minlength=self.count)
        colors = {way.pipe: color for way, color in self.ways}
        items: list[Item] = []
        for place, column in enumerate(path.links.T):
            hops = []
            if place:
                hops.append((f"in {hosts[place]}", path.hosts[:, place - 1], PIPES[0][0]))
            color = colors.get(path.pipes[place], RESTS[place % len(RESTS)])
            hops.append((f"from {hosts[place]} to {hosts[place + 1]}", column, color))
            for name, times, color in hops:
                mean = np.bincount(step_of_packet, weights=times, minlength=self.count) / np.maximum(counts, 1) / MS
                items.append(Bars(name, self.edges[:-1], self.step / SECOND, mean, color))
        return Panel(f"{' - '.join(hosts)}, hop by hop: mean per {time_of(self.step)}", "sent at, s", "ms", items)

    def lateness(self) -> Optional[Panel]:
        """Returns the panel with the emulation's own lateness in each second: the maximum over all ways, for packets that were sent
        too late and for packets that waited to be read; None without lateness."""
        items: list[Line] = []
        for kind, dash in (("late", SOLID), ("unread", DOTTED)):
            columns = [way[kind] for way in self.view.lateness.values()]
            if columns:
                moments = columns[0][0]
                most = np.max([values for _, values in columns], axis=0)
                x = np.append(0, moments)
                y = np.append(most, most[-1:])
                name = f"{kind}, at most {most.max(initial=0):,.4g} ms"
                items.append(Line(name, x, y, PIPES[0][0], width=1, dash=dash))
        return late_panel("The links' lateness, the most of each second", items)

    def drawing(self, below: list[str]) -> Drawing:
        """Returns the whole picture, with the lines `below` under the panels. Cuts shade all panels."""
        net = NetGraph(self.matching, self.timeline, self.view.words).panel()
        of_packets = [self.throughput(), self.delays(), self.of_paths(), self.hops(), self.drops()]
        panels = [net, *of_packets, self.cuts(), self.lateness()]
        keys = [
            Key(way.name, color, f"{way.name}: {way.packets:,} packets, {way.lost:,} lost, {way.full:,} met a full queue")
            for way, color in self.ways
        ]
        shades = dict.fromkeys((begin / SECOND, end / SECOND) for times in self.timeline.cuts.values() for begin, end in times)
        heading = "Ways, those with most packets first"
        return Drawing(panels, keys, "", self.timeline.span / SECOND, below, heading, shades=tuple(shades))
