"""The panels of a picture, by what matplotlib was told to draw."""

import unittest
from functools import lru_cache
from pathlib import Path

import pytest

import numpy as np
from captures import ETHERNET, ethernet, ip6, udp
from captures import write as write_capture
from kit import MIXED, folder, mixed, needs_tshark, parts_of, replay as replayed, rows_of, run, write

from hinge.captures.packet_rows import HEADER
from hinge.configurations.configured import spelled_lines
from hinge.pictures.panels import CAUSE_COLORS, COLORS, PIPES, RESTS, drawing, percentiles
from hinge.pictures.panels import Panels as PanelsOf
from hinge.pictures.series import NS_PER_S, TimeSteps, series, span_of, waiting
from hinge.replays.groups import group
from hinge.replays.replay import read_packets
from hinge.replays.source import of_reports
from hinge.version import version
from pictured import figure, forty, full_link, matplotlib_there, series_of


@lru_cache(maxsize=None)
def rows_of_one(packets: Path) -> list[str]:
    """The number of each row's target."""
    return [row["number"] for row in rows_of(packets)]


@needs_tshark
@unittest.skipUnless(matplotlib_there(), "matplotlib isn't there")
class Panels(unittest.TestCase):
    """What the panels beyond the report's own figures tell, by hand or by a count that is made anew."""

    def test_the_capacity_is_a_line_and_all_flows_are_one(self) -> None:
        config, packets, report = mixed("shared")
        replay = parts_of(config, packets, report).replay
        changes = [(0, text) for text in spelled_lines(config.read_bytes())]
        span = span_of([replay])
        found = series(replay, group(replay, "tuple").largest(replay.packets.length, 3), NS_PER_S, span, changes)
        carried = figure([found], "").axes[0]
        lines = {line.get_label(): line.get_ydata().tolist() for line in carried.get_lines()}
        assert lines["capacity of pipe 1: 6 Mbit/s"] == [6, 6]
        assert set(found.carried) == {"pipe 1"}, "queue 7 has no pipe"
        sent, events = rows_of(packets), rows_of(report)
        bits = sum(
            8 * int(sent[int(line["row"]) - 1]["len"])
            for line in events
            if line["event"] == "out" and 7 * NS_PER_S <= int(line["due"]) < 8 * NS_PER_S
        )
        assert lines["all of pipe 1"][7] == pytest.approx(bits / 1e6, abs=5e-10)
        assert max(lines["all of pipe 1"]) <= 6.02

    def test_a_capacity_far_above_is_told_and_not_drawn(self) -> None:
        replay = parts_of(*mixed("dsl")).replay
        found = series(
            replay, group(replay, "tuple"), NS_PER_S, span_of([replay]), [(0, "pipe 1 config bw 1000000000bit/s mask src-ip 0xff")]
        )
        carried = figure([found.__class__(**{**vars(found), "flows": found.flows[:8]})], "").axes[0]
        assert "capacity of pipe 1, a flow: 1000 Mbit/s, above this panel" in [
            text.get_text() for text in carried.get_legend().get_texts()
        ]
        assert carried.get_ylim()[1] < 20

    def test_of_many_pipes_the_smaller_are_summed_up(self) -> None:
        """Pipe N carries N packets of 1,000 bytes at once, each of a flow of its own; pipe 11 carries none."""
        numbers = [number for number in range(1, 11) for _ in range(number)]
        lines = [f"0,pipe,{number},10.0.0.{place},10.0.1.0,17,1,2,1000,9" for place, number in enumerate(numbers)]
        config = write("pipes.config", "".join(f"pipe {number} config bw 8Mbit/s\n" for number in range(1, 12)))
        packets = write("pipes.csv", "\n".join([HEADER, *lines]) + "\n")
        [source] = of_reports(str(packets), [str(replayed("pipes", config, packets))], str(config))
        groups = group(source.replay, "tuple").largest(source.replay.packets.length, 1)
        found = series(source.replay, groups, NS_PER_S, NS_PER_S, source.changes, bounds=source.bounds)
        large = [f"pipe {number}" for number in range(3, 11)]
        assert {*found.carried} == {"2 other pipes", *large}
        assert found.carried["2 other pipes"].tolist() == [0.024]
        assert [*found.capacities] == [one.name for one in found.bounds] == large
        assert found.waiting["2 others"][1].max() == 1
        rest = {flow.name: flow.packets for flow in found.flows if flow.is_rest}
        assert rest == {"2 others of 2 other pipes": 2, **{f"{number} others of pipe {number}": number for number in range(3, 11)}}

    def test_the_packets_that_wait(self) -> None:
        """At each moment, those that came and didn't begin to be sent."""
        config, packets, report = mixed("dsl")
        replay = parts_of(config, packets, report).replay
        moments, lengths = waiting(replay, np.flatnonzero(np.array(replay.packets.targets)[replay.packets.target][:, 1] == "1"))
        events = [line for line in rows_of(report) if line["event"] == "out" and rows_of_one(packets)[int(line["row"]) - 1] == "1"]
        for moment in (3, 6, 9.5, 12.25):
            there = sum(int(line["at"]) <= moment * NS_PER_S < int(line["start"]) for line in events)
            assert lengths[np.searchsorted(moments, moment, side="right") - 1] == there
        assert lengths.max() == 50

    def test_each_pipe_has_its_sum_where_its_flows_are_among_the_others(self) -> None:
        """Forty flows to pipe 1 and one to pipe 2, of which three have a color: the others are by pipe, and their rates
        are the pipe's."""
        replay = full_link(40)
        replay.packets.target[39::40] = 1
        replay.packets.targets.append(("pipe", 2))
        found = series(replay, group(replay, "tuple").largest(replay.packets.length, 3), NS_PER_S // 2, span_of([replay]))
        assert [flow.name for flow in found.flows][3:] == ["36 others of pipe 1", "1 other of pipe 2"]
        assert list(found.carried) == ["pipe 1", "pipe 2"]
        assert found.carried["pipe 2"].tolist() == found.flows[4].carried.tolist()
        assert sum(found.carried["pipe 1"]) + sum(found.carried["pipe 2"]) == pytest.approx(
            sum(sum(flow.carried) for flow in found.flows), abs=5e-8
        )

    def test_a_color_has_one_meaning(self) -> None:
        grays = [*RESTS, *(color for color, _ in PIPES), *CAUSE_COLORS.values()]
        assert len(set(COLORS)) == len(COLORS)
        assert not set(COLORS) & set(grays)
        for gray in grays:
            assert len({gray[1:3], gray[3:5], gray[5:7]}) == 1, gray
        found = PanelsOf(series_of("dsl"))
        used = [color for number, _, color in found.flows() if not found.series.flows[number].is_rest]
        assert len(set(used)) == len(used)

    def test_empty_panels_are_left_out(self) -> None:
        replay = full_link(2)
        found = series(replay, group(replay, "tuple"), NS_PER_S // 2, span_of([replay]))
        panels = [panel and panel.title for panel in drawing(found).panels]
        assert [title is None for title in panels] == [False, False, False, False, True, True, True, True], panels
        assert [axes.get_title() for axes in figure([found], "").axes if axes.axison] == [title for title in panels if title]

    def test_the_limit_of_a_queue_is_a_line(self) -> None:
        config, packets, report = mixed("dsl")
        replay = parts_of(config, packets, report).replay
        changes = [(0, "pipe 1 config bw 10000000bit/s queue 50"), (0, "pipe 2 config queue 64Kbytes")]
        found = series(replay, group(replay, "tuple").largest(replay.packets.length, 3), NS_PER_S, span_of([replay]), changes)
        panel = next(panel for panel in drawing(found).panels if panel and panel.title == "Packets that wait")
        lines = {item.name: item for item in panel.items}
        assert lines["limit of pipe 1: 50 packets"].y.tolist() == [50, 50]
        assert ([note for note in panel.notes if "Kbytes" in note] or any(not line.y.any() for line in panel.items)) == (
            ["limit of pipe 2: 64 Kbytes"] if panel.notes else True
        )

    def test_percentiles_are_nearest_ranks(self) -> None:
        moments, values = np.array([0, 1, 2, 3, 12, 13]), np.array([4.0, 1.0, 3.0, 2.0, 7.0, 9.0])
        low, middle, high = percentiles(moments, values, TimeSteps(5, 20))
        assert [row[[0, 2]].tolist() for row in (low, middle, high)] == [[1, 7], [2, 7], [4, 9]]
        assert np.isnan(low[[1, 3]]).all()

    def test_what_a_picture_was_made_of_is_under_it(self) -> None:
        packets, report = forty()
        config = write("forty.config", "pipe 1 config\n")
        assert run("look", packets, report, "--config", config, "-o", "under.svg").returncode == 0
        told = (folder() / "under.svg").read_text()
        assert "<!-- pipe 1 config -->" in told
        assert f"<!-- of forty.csv, forty.report, forty.config; hinge {version()} -->" in told

    def test_drops_by_flow_are_those_of_the_report(self) -> None:
        found = series_of("dsl")
        whole = sum(line["event"] in ("lost", "full", "none") for line in rows_of(mixed("dsl")[2]))
        assert sum(int(flow.drops.sum()) for flow in found.flows) == whole
        [legend] = figure([found], "").legends
        told = [text.get_text() for text in legend.get_texts()]
        assert told == [f"{flow.name}: {int(flow.drops.sum()):,} of {flow.packets:,} dropped" for flow in found.flows]

    def test_ipv6_flows_have_their_own_addresses(self) -> None:
        frames = [
            ethernet(0x86DD, ip6("2001:db8::1", "2001:db8::2", 17, udp(1, 2, 300))),
            ethernet(0x86DD, ip6("2001:db8::2", "2001:db8::1", 58, bytes(8))),
        ]
        write_capture(folder() / "six.pcap", ETHERNET, [(number, frame) for number, frame in enumerate(frames)])
        assert run("packets", "six.pcap", "-o", "six.csv").returncode == 0
        names = [read_packets(str(folder() / "six.csv")).tuple_name(number) for number in (0, 1)]
        assert names == ["udp [2001:db8::1]:1 > [2001:db8::2]:2", "icmpv6 2001:db8::2 > 2001:db8::1"]
        assert run("packets", MIXED, "-o", "six.csv").returncode == 0
        assert not (folder() / "six.csv.addresses").exists(), "that of the earlier capture"
