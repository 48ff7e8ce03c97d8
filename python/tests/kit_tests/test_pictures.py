"""Pictures have the series that they should: read from the figure and the page, not from the pixels. `hinge look OPERATIONS --model`: its
picture, and its refusals."""

import gzip
import json
import os
import re
import unittest
from base64 import b64decode
from typing import Any

import numpy as np

from hinge.checks.operations import MODELS, Operation, operations_of
from hinge.pictures.drawing import Bars, Line
from hinge.pictures.drawn import of_run
from hinge.pictures.html_page import HtmlPage, outline, teller
from hinge.pictures.operations import Shade, operations_drawing, shades_of
from hinge.pictures.panels import MOST_FLOWS, drawing
from hinge.pictures.series import NS_PER_MS, NS_PER_S, Series, TimeSteps, fitting_step, round_step, series, span_of, thinned
from hinge.replays.explain import Explainer
from hinge.replays.groups import group
from hinge.replays.history import read_sources
from hinge.replays.replay import read_packets, read_report
from kit import folder, live, mixed, needs_tshark, parts_of, rows_of, run, write
from pictured import figure, forty, full_link, matplotlib_there, series_of


def drawn_by(page: str) -> dict[str, Any]:
    """What a page unpacks and draws."""
    packed = re.search(r"data:application/gzip;base64,([^\"]*)", page)
    return json.loads(gzip.decompress(b64decode(packed[1])))


def series_of_forty() -> Series:
    replay = read_report(*(lambda packets, report: (str(report), read_packets(str(packets))))(*forty()))
    return series(replay, group(replay, "tuple").largest(replay.packets.length, 3), 1000, span_of([replay]))


def test_a_picture_has_the_words_of_the_link_and_its_cuts() -> None:
    """1 % and 2 Mbit/s as they were typed, and a cut from 1 to 2 s."""
    words = "bw 2000000bit/s delay 20 plr 0.009999999776482583"
    lines = [f"pipe {number} config {words}" for number in (1, 2)]
    submit, cut = "c,0,submit,pipe,1,10.0.0.1,10.0.0.2,17,1,2,1000,2147483647,", "pipe 1 config bw 2000000bit/s delay 20 plr 1"
    later = [f"{submit}1500000000", "c,0,advance,2000000000", lines[0], "c,0,collect,3000000000"]
    text = live([*lines, f"{submit}0", "c,0,advance,1000000000", cut, *later])
    path = write("run.history", text.replace("\n", "\n#,seed,7\n", 1))
    [source] = read_sources([str(path)], None)
    assert of_run(source) == "2Mbit/s 20ms loss 1%"
    assert Explainer(source.explained()).shades(3 * 10**9) == {(10**9, 2 * 10**9)}


@needs_tshark
class Figures(unittest.TestCase):
    @unittest.skipUnless(matplotlib_there(), "matplotlib isn't there")
    def test_rates_delays_and_drops_are_those_of_the_report(self) -> None:
        found = series_of("shared")
        carried, offered, delays, distribution, waiting, drops, by_flow, names = figure([found], "").axes
        config, packets, report = mixed("shared")
        sent, events = rows_of(packets), rows_of(report)
        for axes, which in ((carried, "carried"), (offered, "offered")):
            lines = {line.get_label(): line for line in axes.get_lines()}
            for flow in found.flows:
                self.assertIn(flow.name, lines)
                self.assertEqual(lines[flow.name].get_ydata().tolist()[:-1], getattr(flow, which).tolist())
        out = [line for line in events if line["event"] == "out"]
        bits = sum(
            8 * int(sent[int(line["row"]) - 1]["len"])
            for line in out
            if int(line["due"]) < 3 * NS_PER_S <= int(line["due"]) + NS_PER_S
        )
        self.assertAlmostEqual(sum(flow.carried[2] for flow in found.flows), bits / 1e6, places=9)
        of_all = sorted((int(line["due"]) - int(line["at"])) / NS_PER_MS for line in out)
        self.assertEqual(sorted(np.concatenate([found.took_ms(flow.out_places) for flow in found.flows]).tolist()), of_all)
        for flow in found.flows:
            dots = found.took_ms(flow.out_places)
            if not len(dots):
                continue
            line = next(line for line in delays.get_lines() if line.get_label() == flow.name)
            if len(dots) <= 400:
                self.assertEqual(line.get_ydata().tolist(), dots.tolist())
                continue
            fifth = sorted(dots[found.replay.at[flow.out_places] // (NS_PER_S // 5) == 35])
            self.assertEqual(line.get_ydata()[35], fifth[(len(fifth) + 1) // 2 - 1], "the median of a fifth of the eighth second")
        self.assertEqual(
            {flow.name for flow in found.flows if len(flow.out_places)}, {line.get_label() for line in distribution.get_lines()}
        )
        counts = {cause: sum(line["event"] == cause for line in events) for cause in ("lost", "full", "none")}
        told = [text.get_text() for text in drops.get_legend().get_texts()]
        self.assertEqual(told, [f"{cause} {count:,}" for cause, count in counts.items()])

    @unittest.skipUnless(matplotlib_there(), "matplotlib isn't there")
    def test_reports_side_by_side_have_the_same_flows_and_axes(self) -> None:
        found = series_of("dsl")
        fig = figure([found, found], "Both")
        self.assertEqual(len(fig.axes), 14)
        first, second = fig.axes[:2]
        self.assertEqual(first.get_ylim(), second.get_ylim())
        highest = max(line.get_ydata().max() for line in first.get_lines())
        self.assertTrue(1.1 * highest < first.get_ylim()[1] < 1.5 * highest, "room above the highest line, for the names")
        self.assertEqual([line.get_label() for line in first.get_lines()], [line.get_label() for line in second.get_lines()])

    @unittest.skipUnless(matplotlib_there(), "matplotlib isn't there")
    def test_reports_side_by_side_show_the_whole_of_each(self) -> None:
        quiet, full = series_of("dsl"), series_of("shared")
        for replays in ([quiet, full], [full, quiet]):
            axes = figure(replays, "").axes
            for row in range(len(axes) // 2):
                for axis in axes[2 * row : 2 * row + 2]:
                    highest = max((line.get_ydata().max(initial=0) for line in axis.get_lines()), default=0)
                    self.assertLessEqual(highest, axis.get_ylim()[1], axis.get_title())
            highest = max(int(sum(found.drops.values()).max()) for found in replays)
            self.assertGreaterEqual(axes[10].get_ylim()[1], highest)

    def test_a_home_that_is_not_there_is_no_matter(self) -> None:
        _, packets, report = mixed("dsl")
        done = run(
            "look", packets, report, "-o", "homeless.png", env={**os.environ, "HOME": "/dev/null", "XDG_CONFIG_HOME": "/dev/null"}
        )
        self.assertEqual((done.returncode, done.stderr), (0, ""))

    def test_a_page_tells_of_its_packets_without_network(self) -> None:
        config, packets, report = mixed("shared")
        done = run("look", packets, report, "--config", config, "-o", "page.html")
        self.assertEqual(done.returncode, 0, done.stderr)
        page = (folder() / "page.html").read_text()
        self.assertNotRegex(page, r"<script[^>]+src=")
        self.assertTrue(page.startswith('<!DOCTYPE html>\n<html lang="en">\n<head>\n<title>shared.report</title>'), page[:200])
        self.assertLess(len(page), 2_000_000)
        record = drawn_by(page)
        parts = [part for panel in record["panels"] for part in panel["items"]]
        words = [word for part in parts for word in part.get("words", []) if "(tcp" in word]
        row = int(re.match(r"Row (\d+) ", words[-1])[1])
        self.assertEqual(words[-1], " ".join(run("why", row, config, packets, report).stdout.split()))
        run("look", packets, report, "--config", config, "-o", "again.html")
        self.assertEqual(page, (folder() / "again.html").read_text())
        groups = [name["group"] for name in record["names"]]
        self.assertEqual(sorted(groups), sorted({part["group"] for part in parts}), "each name is once in the legend")

    def test_a_page_draws_what_the_series_has(self) -> None:
        found = series_of("shared")
        carried, _, _, _, _, drops, *_ = HtmlPage(drawing(found), teller(found, None), found).record("")["panels"]
        for number, flow in enumerate(found.flows):
            part = next(part for part in carried["items"] if part["group"] == f"flow {number}")
            self.assertEqual(part["y"][:-1:2], [float(f"{rate:.9g}") for rate in flow.carried])
        tops = np.array([part["y"] for part in drops["items"]][-1], float)
        self.assertEqual(np.nanmax(tops), sum(found.drops.values()).max(), "bars stand on those before them")


class Titles(unittest.TestCase):
    @unittest.skipUnless(matplotlib_there(), "matplotlib isn't there")
    def test_every_title_is_shown_letter_by_letter(self) -> None:
        packets, report = forty()
        for title, ending in (
            ("$\\foo$", "png"),
            ("</script><b>", "svg"),
            ("x " * 1500, "png"),
            ("y" * 3000, "svg"),
            ("a % of \\$5, $6 and \\alpha^{", "png"),
        ):
            done = run("look", packets, report, "-o", f"title.{ending}", "--title", title)
            self.assertEqual((done.returncode, done.stderr), (0, ""), title)
        shown = figure([series_of_forty()], "a $\\foo$ b")._suptitle
        self.assertEqual(shown.get_text(), "a \\$\\foo\\$ b")

    def test_a_title_of_a_page_is_text(self) -> None:
        packets, report = forty()
        done = run("look", packets, report, "-o", "title.html", "--title", "</script><script>alert(1)</script>")
        self.assertEqual(done.returncode, 0, done.stderr)
        self.assertNotIn("<script>alert", (folder() / "title.html").read_text())

    def test_a_band_has_a_gap_where_no_packet_was(self) -> None:
        nan = np.nan
        rows = [np.array([at, at, nan, at]) for at in (1.0, 2.0, 3.0)]
        x, y = outline(np.array([0.0, 1, 2, 3, 4]), rows[0], rows[2])
        np.testing.assert_equal(x, [0, 1, 1, 2, 2, 1, 1, 0, nan, 3, 4, 4, 3, nan])
        np.testing.assert_equal(y, [3, 3, 3, 3, 1, 1, 1, 1, nan, 3, 3, 1, 1, nan])


@unittest.skipUnless(matplotlib_there(), "matplotlib isn't there")
def test_forty_flows_and_each_ending_with_the_same_bytes_each_time() -> None:
    packets, report = forty()
    for ending, begin in ((".png", b"\x89PNG"), (".svg", b"<?xml"), (".pdf", b"%PDF"), (".html", b"<!DOCTYPE html>")):
        for name in ("forty", "again"):
            done = run("look", packets, report, "-o", f"{name}{ending}")
            assert done.returncode == 0, done.stderr
        one, other = ((folder() / f"{name}{ending}").read_bytes() for name in ("forty", "again"))
        assert one.startswith(begin)
        assert one == other, ending
    assert f"{40 - MOST_FLOWS} others" in (folder() / "forty.svg").read_text()


@needs_tshark
class Thinning(unittest.TestCase):
    def test_the_slowest_and_the_fastest_stay(self) -> None:
        replay = parts_of(*mixed("dsl")).replay
        out = np.flatnonzero(replay.is_out)
        few = thinned(out, replay, 500)
        self.assertLessEqual(len(few), 500)
        self.assertTrue(set(few.tolist()) <= set(out.tolist()))
        self.assertEqual((replay.took[few].min(), replay.took[few].max()), (replay.took[out].min(), replay.took[out].max()))

    def test_steps_are_round(self) -> None:
        self.assertEqual(
            [round_step(span) for span in (0, 49, 8 * NS_PER_S, 25 * NS_PER_S, 3600 * NS_PER_S)],
            [1, 1, NS_PER_S // 5, NS_PER_S, 20 * NS_PER_S],
        )

    def test_a_step_has_packets_enough(self) -> None:
        """A packet each ms for a second: 40 of them are 40 ms, and 5 ms would have 5; of the 40 flows 10 each want 50
        ms, the most."""
        one = full_link(1)
        self.assertEqual(fitting_step([one], span_of([one])), 50 * NS_PER_MS)
        self.assertEqual(fitting_step([full_link(40)], NS_PER_S), 50 * NS_PER_MS)
        self.assertEqual(fitting_step([full_link(40)], 1021 * NS_PER_MS), 50 * NS_PER_MS, "twenty steps at the least")

    def test_a_full_link_has_no_sawtooth(self) -> None:
        replay = full_link(1)
        found = series(replay, group(replay, "tuple"), fitting_step([replay], span_of([replay])), span_of([replay]))
        self.assertTrue((abs(found.flows[0].carried[1:] - 8) < 0.2).all(), found.flows[0].carried)

    def test_steps_end_with_the_span(self) -> None:
        for span, rated, width in ((10, 1, 10), (14, 1, 10), (15, 2, 5), (19, 2, 9), (20, 2, 10), (3, 1, 3), (0, 1, 1)):
            steps = TimeSteps(10, span)
            self.assertEqual((steps.rated, int(steps.widths[-1])), (rated, width), span)
            self.assertEqual(len(steps.edges), rated + 1)


NET = "host a x\nhost b x\nmain c true\nlink a b\nlink c a\n"
FAULTS = "at 1s cut a from b 2s\nat 5s kill b\nat 7s restart b\nat 50s stop b 1s\n"
LOST = [
    {"client": "w", "key": 0, "op": "add", "value": 1, "begin": 2, "end": 2.5},
    {"client": "w", "key": 0, "op": "add", "value": 2, "begin": 3},
    {"client": "r", "key": 0, "op": "read", "result": [], "begin": 6, "end": 9},
]


def operations(*rows: dict[str, object]) -> list[Operation]:
    return operations_of("rows", "\n".join(map(json.dumps, rows)).encode(), MODELS["set"])[0]["0"]


class Pictures(unittest.TestCase):
    def test_bars_and_shades_are_at_the_places_of_their_moments(self) -> None:
        """The moments are 1, 2, 2.5, 3, 5, 6, 7 and 9 s; what never returned goes on behind them."""
        shades = shades_of(str(write("f.net", NET + FAULTS)))
        self.assertEqual(shades[:2], [Shade(1, 3, "at 1s cut a from b 2s"), Shade(5, 7, "at 5s kill b")])
        drawing = operations_drawing("ops", operations(*LOST), shades)
        assert drawing.panels[0] is not None
        faults, *bars = drawing.panels[0].items
        assert isinstance(faults, Bars) and all(isinstance(bar, Line) for bar in bars)
        self.assertEqual(faults.counts.tolist(), [2, 2, 2, 0, 2, 2, 0, 0])
        self.assertEqual([(bar.x.tolist(), float(bar.y[0])) for bar in bars], [([1, 2], 0.5), ([3, 7.5], 0.5), ([5, 7], 1.5)])
        self.assertEqual((drawing.panels[0].rows, drawing.panels[0].names[1:4]), (["w", "r"], ["2.000", "2.500", "3.000"]))
        self.assertEqual(drawing.below, ["at 1s cut a from b 2s", "at 5s kill b"])

    def test_the_net_of_a_failure(self) -> None:
        failure = write("failure.hinge", json.dumps({"words": ["net", "x"], "net": (NET + FAULTS).splitlines()}))
        self.assertEqual(shades_of(str(failure))[1].words, "at 5s kill b")
        self.assertEqual(list(failure.parent.glob(".failure-*")), [])


class Command(unittest.TestCase):
    @unittest.skipUnless(matplotlib_there(), "matplotlib isn't there")
    def test_the_fewest_are_judged_and_drawn(self) -> None:
        path = write("ops.jsonl", "\n".join(map(json.dumps, LOST)))
        picture = folder() / "x.svg"
        done = run("look", path, write("f.net", NET + FAULTS), "--model", "set", "-o", picture)
        self.assertEqual((done.returncode, done.stdout.count(f"\n{path}:")), (1, 2), done.stderr)
        self.assertIn("at 1s cut a from b 2s", picture.read_text())

    def test_what_has_an_order_has_no_picture(self) -> None:
        path = write("ops.jsonl", json.dumps(LOST[2]))
        picture = folder() / "none.svg"
        done = run("look", path, "--model", "set", "-o", picture)
        self.assertEqual((done.returncode, picture.exists()), (0, False))
        self.assertIn("nothing to draw", done.stderr)

    def test_what_is_refused(self) -> None:
        path = write("ops.jsonl", json.dumps(LOST[2]))
        for words, status, said in (
            ((path, "--model", "set"), 2, "--model does nothing without -o"),
            ((path, "--model", "set", "-o", "x.svg", "--csv"), 2, "--csv does nothing beside --model"),
            ((path, "--model", "set", "-o", "x.html"), 2, "--model draws -o FILE.png"),
            ((path, path, path, "--model", "set", "-o", "x.svg"), 2, "--model takes a file of operations, and"),
            ((path, write("n.net", NET), "--model", "set", "-o", "x.svg"), 6, "it has no fault"),
            ((path, write("s.net", NET + "at 1s..2s cut a 1s\n"), "--model", "set", "-o", "x.svg"), 6, "a seed draws its faults"),
        ):
            done = run("look", *words)
            self.assertEqual((done.returncode, said in done.stderr), (status, True), done.stderr)
