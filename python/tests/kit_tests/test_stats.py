"""The table of flows against figures made by hand and from the report."""

import csv
import io
import unittest
from typing import Optional, Union

import numpy as np
from kit import mixed, needs_tshark, recorded, replay, rows_of, run, write

from hinge.captures.packet_rows import HEADER
from hinge.lazy import Integers
from hinge.pictures.figures import exact_sum, jitter, jitter_after, mean, percentiles
from hinge.replays.units import packets, rows


def jitter_of(took: Union[Integers, list[int]]) -> Optional[int]:
    """Returns the jitter of packets that left in their order."""
    return jitter(np.arange(len(took)), np.zeros(len(took), np.int64), np.array(took))


def table(*words: object) -> dict[str, dict[str, str]]:
    done = run("look", *words, "--csv")
    assert done.returncode == 0, done.stderr
    return {row["flow"]: row for row in csv.DictReader(io.StringIO(done.stdout))}


class Words(unittest.TestCase):
    def test_rows_by_runs(self) -> None:
        for numbers, wanted in (([7], "row 7"), ([4, 3, 5], "rows 3-5"), ([1, 3], "rows 1, 3"), ([2, 9, 1], "rows 1-2, 9")):
            assert rows(numbers) == wanted
        assert rows([1, 3, 5, 7, 8, 1009], most=2) == "rows 1, 3 and 4 more"

    def test_packets(self) -> None:
        assert [packets(count) for count in (0, 1, 1000)] == ["0 packets", "1 packet", "1,000 packets"]


class ByHand(unittest.TestCase):
    def test_four_packets(self) -> None:
        rows = "".join(
            f"{moment},pipe,{pipe},10.0.0.1,10.0.0.2,17,1,2,1000,0\n"
            for moment, pipe in ((0, 1), (0, 1), (0, 1), (1_000_000, 1), (2_000_000, 9))
        )
        packets = write("hand.csv", f"{HEADER}\n{rows}")
        report = write(
            "hand.report",
            "event,row,flow,packet,at,start,due\nout,1,0,0,0,0,1000000\nout,2,0,1,0,1000000,2000000\n"
            "out,4,0,2,1000000,2000000,3000000\nfull,3,0,,0,,\nnone,5,,,2000000,,\n",
        )
        config = write("hand.config", "pipe 1 config bw 8Mbit/s queue 1\n")
        row = table(packets, report, "--config", config)["udp 10.0.0.1:1 > 10.0.0.2:2"]
        names = (
            "flow,packets,bytes,offered_mbit_s,carried_mbit_s,out,lost,full,none,held,min_ns,mean_ns,p50_ns,p95_ns,p99_ns,max_ns,"
        )
        times = "1000000,1666666,2000000,2000000,2000000,2000000,58593,666666,1000000,0"
        figures = f"udp 10.0.0.1:1 > 10.0.0.2:2,5,5000,20.000000,12.000000,3,0,1,1,0,{times}".split(",")
        wanted = dict(zip(f"{names}jitter_ns,queueing_ns,transmission_ns,link_delay_ns".split(","), figures))
        assert {name: row[name] for name in wanted} == wanted and len(wanted) == len(figures)
        done = run("look", packets, report, "--by", "target")
        assert "1 row went to pipe 9, which isn't configured" in done.stderr
        lines = done.stdout.splitlines()
        assert [line[5:].split("  ")[0] for line in lines[:5]] == ["flow", lines[1][5:].split("  ")[0], "pipe 1", "pipe 9", "all"]
        assert max(map(len, lines)) <= 80
        assert [line.split()[0] for line in lines if line and not line.startswith(" ")] == ["1", "2", "all"] * lines.count("") + [
            "1",
            "2",
            "all",
        ]

    def test_no_row_has_a_target(self) -> None:
        """Every command that reads such a replay says so."""
        packets = write(
            "lost.csv", HEADER + "\n" + "".join(f"{moment},pipe,7,10.0.0.1,10.0.0.2,17,1,2,1000,0\n" for moment in (0, 1000))
        )
        spelled = write("lost1.config", "pipe 1 config bw 8Mbit/s\n")
        report = replay("lost", spelled, packets)
        history = recorded("lost", spelled, packets)
        for words in (("look", packets, report), ("look", packets, report, "-o", "lost.png"), ("look", history)):
            done = run(*words)
            told = (
                f"hinge {words[0]}: 2 rows went to pipe 7, which isn't configured\nhinge {words[0]}: no row has a "
                f"target: nothing went through a link\n"
            )
            assert (done.returncode, done.stderr) == (0, told)

    def test_percentiles_by_nearest_rank(self) -> None:
        for count, wanted in ((200, [100, 190, 198]), (1, [1, 1, 1]), (0, [None] * 3)):
            assert list(percentiles(np.arange(count, 0, -1)).values()) == wanted

    def test_sums_beyond_63_bits(self) -> None:
        column = np.full(5, 2**62, np.int64)
        assert (exact_sum(column), exact_sum(-column), mean(5 * 2**62 + 4, 5), mean(0, 0)) == (
            5 * 2**62,
            -5 * 2**62,
            2**62,
            None,
        )

    def test_jitter_of_a_step(self) -> None:
        """J += (|D| - J) / 16, rounded: a steady delay has none, a step of 16 ms leaves 1 ms, and 24 ns go to 0."""
        assert jitter_of([5, 5, 5]) == 0
        assert jitter_of([0, 16_000_000]) == 1_000_000
        assert [jitter_of([0, *[24] * steady]) for steady in (1, 8, 9)] == [1, 1, 0]
        assert jitter_of([7]) is None

    def test_jitter_of_many(self) -> None:
        """The last of many packets decide the jitter, or all packets if all matter."""
        random = np.random.default_rng(3).integers(0, 10**9, 30_000)
        for took in (random, np.arange(30_000), np.append(0, np.full(30_000, 24)), np.arange(30_000) % 2 * 10**9):
            wanted = jitter_after(0, took.tolist())
            assert jitter_of(took) == wanted
            order = np.random.default_rng(5).permutation(len(took))  # of the rows; of packets that leave at once the number decides
            assert jitter(np.arange(len(took))[order] // 3, np.arange(len(took))[order], took[order]) == wanted


@needs_tshark
class Mixed(unittest.TestCase):
    def test_counts_and_the_mean_of_the_parts(self) -> None:
        config, packets, report = mixed("shared")
        lines = rows_of(report)
        rows = table(packets, report, "--config", config)
        every = rows.pop("all")
        for event in ("out", "lost", "full", "none", "held"):
            count = sum(line["event"] == event for line in lines)
            assert int(every[event]) == count
            assert sum(int(row[event]) for row in rows.values()) == count
        took = [int(line["due"]) - int(line["at"]) for line in lines if line["event"] == "out"]
        assert int(every["mean_ns"]) == sum(took) // len(took)
        parts = sum(int(every[name]) for name in ("queueing_ns", "transmission_ns", "link_delay_ns"))
        assert abs(parts - int(every["mean_ns"])) <= 3, "each mean is rounded down"

    def test_the_largest_flows_and_the_rest(self) -> None:
        _, packets, report = mixed("dsl")
        whole, few = table(packets, report), table(packets, report, "--top", "2")
        assert list(few)[2:] == ["12 others", "all"]
        assert list(few)[:2] == list(whole)[:2]
        assert sum(int(row["packets"]) for name, row in few.items() if name != "all") == int(whole["all"]["packets"])
