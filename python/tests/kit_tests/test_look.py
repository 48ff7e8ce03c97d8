"""`hinge look`: a replay's history tells what the packet file, the report and the configuration tell; and where two histories differ."""

import csv
import json
import subprocess
import sys
import unittest

from hinge.pictures.drawn import series_of
from hinge.pictures.figures import table_of
from hinge.pictures.panels import Panels
from hinge.pictures.series import series
from hinge.replays.groups import group
from hinge.replays.history import read_history_source
from hinge.replays.source import of_reports, seen
from hinge.run.page import HEAD, WAY, Counts
from hinge.run.summary import record
from kit import TOP, folder, history_of, live, mixed, run


class Look(unittest.TestCase):
    def test_a_history_and_a_report_with_its_configuration_have_one_table(self) -> None:
        for name in ("dsl", "shared"):
            config, packets, report = mixed(name)
            wanted = run("look", packets, report, "--config", config)
            self.assertIn("transmission", wanted.stdout)
            for files in ((history_of(name),), (packets, "--config", config, report)):
                done = run("look", *files)
                self.assertEqual((done.returncode, done.stdout, done.stderr), (0, wanted.stdout, wanted.stderr))

    def test_several_reports_have_a_table_each(self) -> None:
        _, packets, report = mixed("dsl")
        one = run("look", packets, report).stdout
        self.assertEqual(run("look", packets, report, report).stdout, f"{report}\n{one}\n{report}\n{one}")

    def test_files_are_written_before_a_reader_goes_away(self) -> None:
        config, packets, report = mixed("dsl")
        words = [sys.executable, "-m", "hinge", "look", packets, report, "--config", config, "-o", "gone.svg", "-o", "gone.html"]
        process = subprocess.Popen(words, cwd=folder(), stdout=subprocess.PIPE)
        process.stdout.close()
        self.assertEqual(process.wait(), 0)
        self.assertIn("</svg>", (folder() / "gone.svg").read_text())
        self.assertIn("</html>", (folder() / "gone.html").read_text())

    def test_a_history_and_a_report_with_its_configuration_have_one_picture(self) -> None:
        config, packets, report = mixed("dsl")
        drawn = []
        for files in ((packets, report, "--config", config), (packets, "--config", config, report)):
            done = run("look", *files, "-o", "one.svg")
            self.assertEqual(done.returncode, 0, done.stderr)
            lines = (folder() / "one.svg").read_text().splitlines()
            drawn.append([line for line in lines if line.lstrip().startswith(("<path d=", "L ", "M "))])
        self.assertEqual(drawn[0], drawn[1])
        of_report, of_history = (
            series_of(sources, "tuple", 3, None)[0]
            for sources in (of_reports(str(packets), [str(report)], str(config)), [read_history_source(history_of("dsl"))])
        )
        self.assertGreater(len(of_report.flows), 2)
        for flow, other in zip(of_report.flows, of_history.flows):
            self.assertEqual((flow.name, flow.packets), (other.name, other.packets))
            for name in ("offered", "carried", "delays", "drops"):
                self.assertEqual(getattr(flow, name).tolist(), getattr(other, name).tolist(), name)
        self.assertEqual(
            [(name, rates.tolist()) for name, (_, rates) in of_report.capacities.items()],
            [(name, rates.tolist()) for name, (_, rates) in of_history.capacities.items()],
        )

    def test_its_paragraphs_are_those_of_why(self) -> None:
        for name in ("dsl", "shared"):
            config, packets, report = mixed(name)
            count = len(read_history_source(history_of(name)).replay.packets)
            rows = range(1, count + 1, max(1, count // 50))
            wanted = run("why", *rows, config, packets, report).stdout
            for words in (("why", *rows, history_of(name)), ("why", *rows, packets, report, "--config", config)):
                self.assertEqual(run(*words).stdout.replace(history_of(name), str(config)), wanted)

    def test_a_source_that_lacks_something_says_what(self) -> None:
        config, packets, report = mixed("dsl")
        for words, status, told in (
            (("look", packets), 4, "is a packet file: behind it comes the report that dummynet wrote of it"),
            (("why", 1, packets, report, report, "--config", config), 2, "a packet file has one report here, and these are 2"),
            (("look", *[packets] * 6), 2, "a packet file has up to four reports"),
            (("look", packets, report, report, "-o", "x.html"), 2, "of several reports there are pictures"),
            (("look", packets, report, "-o", "x.pcap"), 2, "--capture, --index and -o FILE.pcap or FILE.pcapng go together"),
            (("look", packets, report, "--capture", "c", "--index", "i"), 2, "go together"),
            (("look", history_of("dsl"), "--config", config), 2, "is alone: a history has its configuration"),
            (("why", 1, packets, report), 2, "a paragraph needs the configuration: --config FILE"),
            (("why", 1), 2, "behind the rows comes a history or the transcript of a live session, or a packet file and the report"),
            (("why", 0, history_of("dsl")), 2, "'0' isn't a number from 1"),
        ):
            done = run(*words)
            self.assertEqual((done.returncode, told in done.stderr), (status, True), done.stderr)

    def test_a_link_that_was_changed_has_the_parts_of_each_moment(self) -> None:
        """The second packet waits 1 ms for the first, and takes 8 ms at the rate that came meanwhile."""
        submit = "c,0,submit,pipe,1,10.0.0.1,10.0.0.2,17,1,2,1000,0,0"
        lines = ["pipe 1 config bw 8Mbit/s", submit, submit, "pipe 1 config bw 1Mbit/s", "c,0,collect,50000000"]
        (folder() / "changed.history").write_text(live(lines))
        done = run("look", "changed.history", "-o", "changed.png", "--json", "changed.json")
        self.assertEqual((done.returncode, done.stderr), (0, ""))
        [*_, every] = json.loads((folder() / "changed.json").read_text())["flows"]
        self.assertEqual([every[f"{part}_ns"] for part in ("queueing", "transmission", "link_delay")], [500_000, 4_500_000, 0])
        capacity = [(at, text) for at, text in read_history_source(str(folder() / "changed.history")).changes]
        self.assertEqual([at for at, _ in capacity], [0, 0])

    def test_a_jitter_and_an_outage_add_no_packets(self) -> None:
        """A packet takes 1 ms, and 3 ms of jitter in a second pipe. Then nobody's packet stands for an outage of a second."""
        kept, row = 2**31 - 1, "c,0,submit,pipe,{},10.0.0.1,10.0.0.2,17,1,2,1000,{},{}"
        nobody = f"c,0,submit,pipe,1,0.0.0.0,0.0.0.0,255,0,0,1500,{kept},1000000000"
        lines = ["pipe 1 config bw 8Mbit/s", "pipe 65535 config delay 3", row.format(1, 5, 0), "c,0,collect,1000000"]
        lines += [row.format(65535, kept, 1000000), "pipe 1 config bw 12000bit/s", nobody, "pipe 1 config bw 8Mbit/s"]
        head, rest = live([*lines, "c,0,collect,3000000000"]).split("\n", 1)
        words = "8Mbit/s jitter 5ms, twice"
        (folder() / "twice.history").write_text(f"{head}\n#,seed,7\n#,asked,--up,0,{words}\n{rest}")
        source = read_history_source(str(folder() / "twice.history"))
        found = seen(source)
        self.assertEqual((len(found.replay.packets), found.replay.took.tolist(), found.rows.tolist()), (1, [4_000_000], [0]))
        self.assertEqual([text.split()[-1] for _, text in found.changes], ["8000000bit/s"] * 2)
        self.assertEqual(table_of(found.replay, found.parts)[-1].value["link_delay_ns"], 3_000_000)
        self.assertEqual((found.words, seen(found)), ({"--up": words}, found))
        self.assertRegex(run("look", "twice.history", "-o", "twice.html").stdout, r"(?m)^all  all +1  1,000 ")

    def test_the_lateness_and_the_seed_of_a_live_host(self) -> None:
        lines = ["pipe 1 config bw 8Mbit/s", "c,0,submit,pipe,1,10.0.0.1,10.0.0.2,17,1,2,1000,0,0", "c,0,collect,5000000"]
        head, rest = live(lines).split("\n", 1)
        last = rest.rindex("end,")
        late = "#,late,1000000000,35000000,0,2000,1000\n#,late,bad\n#,late,2000000000,1000,81000000,0,0\n"
        told = f"{head}\n#,seed,77\n{rest[:last]}{late}{rest[last:]}"
        (folder() / "late.history").write_text(told)
        found = read_history_source(str(folder() / "late.history"))
        self.assertEqual((found.seed, list(found.lateness)), ("77", ["up", "down"]))
        moments, ms = found.lateness["up"]["unread"]
        self.assertEqual((moments.tolist(), ms.tolist()), ([1, 2], [0, 81]))
        replay = found.replay
        made = series(replay, group(replay, "tuple"), 10**9, 2 * 10**9, found.changes, found.lateness)
        drawn = Panels(made).lateness()
        made.lateness.clear()
        made.lateness["up"] = {"late": (moments, ms / 10**5)}
        self.assertIsNone(Panels(made).lateness(), "of simulated time")
        line = next(item for item in drawn.items if item.name.startswith("up: unread"))
        self.assertEqual((line.x.tolist(), line.y.tolist()), ([0, 1, 2], [0, 81, 81]), "each is of the time before its moment")
        done = run("look", "late.history", "-o", "late.svg")
        self.assertEqual(done.returncode, 0, done.stderr)
        remark = "the host was late by 35 ms and packets lay unread for 81 ms at most: the picture has each second"
        self.assertIn(f"hinge look: {remark}\n", done.stderr)
        picture = (folder() / "late.svg").read_text()
        for text in ("The host's lateness, the most of each second", "up: late, at most 35 ms", "; seed 77; "):
            self.assertIn(text, picture)

    def test_the_table_for_a_program_has_the_keys_of_its_page(self) -> None:
        path = history_of("dsl")
        assert run("look", path, "--json", folder() / "look.json").returncode == 0
        told = json.loads((folder() / "look.json").read_text())
        config, packets, report = mixed("dsl")
        rows = list(csv.DictReader(run("look", packets, report, "--config", config, "--csv").stdout.splitlines()))
        self.assertEqual(
            (told["format"], told["seed"], told["lateness_ms"], [flow["flow"] for flow in told["flows"]]),
            (1, None, None, [row["flow"] for row in rows]),
        )
        self.assertEqual([flow["p95_ns"] for flow in told["flows"]], [int(row["p95_ns"]) for row in rows])
        page_of_runs, page = ((TOP / "docs" / f"{name}.md").read_text(encoding="utf-8") for name in ("LIVE", "CAPTURE"))
        for key in {*told, *told["flows"][0], *told["pipes"][0]}:
            self.assertIn(f"`{key}`", page)
        counts = Counts((1, *[0] * (len(HEAD) - 1), *[0] * 2 * WAY))
        told_of_run = record(counts, [0, 0], 0, 1, [])
        self.assertLessEqual({"late_p50_ms", "late_max_ms", "unread_p50_ms", "unread_max_ms"}, set(told_of_run["up"]))
        for key, value in told_of_run.items():
            self.assertIn(f"`{key}`", page_of_runs)
            for inner in value if isinstance(value, dict) else ():
                self.assertIn(f"`{inner}`", page_of_runs)


class Differences(unittest.TestCase):
    """Histories of three packets: the first call that differs is found by hand."""

    LINES = [
        "pipe 1 config bw 8Mbit/s plr 0.5",
        *[
            f"c,0,submit,pipe,1,10.0.0.1,10.0.0.2,17,1,2,1000,{word},{at}"
            for at, word in ((0, 2**31 - 1), (500, 7), (1000, 2**31 - 1))
        ],
        "c,0,collect,5000000",
    ]

    def made(self, name: str, lines: list[str], remark: str = "") -> str:
        (folder() / name).write_text(live(lines).replace("\nc,0,collect", f"\n{remark}c,0,collect"))
        return name

    def test_calls_and_replies_that_part(self) -> None:
        other = [*self.LINES[:3], self.LINES[3].replace("1000,2147483647,1000", "999,2147483647,1000"), self.LINES[4]]
        drawn = [line.replace(",7,500", ",2147483647,500") for line in self.LINES]
        slower = [self.LINES[0].replace("0.5", "0"), *self.LINES[1:]]
        one = self.made("one.history", self.LINES)
        for name, lines, text in (
            ("calls", other, "call 4, at 0.000001000 s: the calls differ"),
            ("words", drawn, "call 3, at 0.000000500 s: the calls differ"),
            ("lines", slower, "call 1: the calls differ"),
            ("shorter", self.LINES[:3], "call 4, at 0.000001000 s: the second ends before it"),
        ):
            done = run("look", "--diff", one, self.made(f"{name}.history", lines))
            self.assertEqual(
                (1, f"one.history and {name}.history part in {text}"), (done.returncode, done.stdout.splitlines()[0]), done.stderr
            )

    def test_what_is_around_it(self) -> None:
        one = self.made("one.history", self.LINES)
        (folder() / "reply.history").write_text((folder() / one).read_text().replace("r,lost,500,0", "r,queued,500,0,1"))
        done = run("look", "--diff", one, "reply.history", "--json", "diff.json")
        self.assertEqual(
            """\
one.history and reply.history part in call 3, at 0.000000500 s: its replies differ
  1  c,0,configure,pipe 1 config bw 8000000bit/s plr 0.500000000000000000
     r,configured
  2  c,0,submit,pipe,1,10.0.0.1,10.0.0.2,17,1,2,1000,2147483647,0  (row: 1)
     r,queued,0,0,0
- 3  c,0,submit,pipe,1,10.0.0.1,10.0.0.2,17,1,2,1000,7,500  (row: 2)
-    r,lost,500,0
- 4  c,0,submit,pipe,1,10.0.0.1,10.0.0.2,17,1,2,1000,2147483647,1000  (row: 3)
-    r,queued,1000,0,1
- 5  c,0,collect,5000000
-    r,delivered,5000000,2
-    d,0,0,0,1000000
-    d,1,0,1000000,2000000
+ 3  c,0,submit,pipe,1,10.0.0.1,10.0.0.2,17,1,2,1000,7,500  (row: 2)
+    r,queued,500,0,1
""",
            done.stdout.partition("+ 4")[0],
        )
        told = json.loads((folder() / "diff.json").read_text())
        self.assertEqual(
            (1, 1, False, 3, "its replies differ"), (done.returncode, told["format"], told["equal"], told["call"], told["reason"])
        )
        self.assertEqual([(1, None, None), (2, 1, 0)], [(it["call"], it["row"], it["moment_ns"]) for it in told["before"]])
        self.assertEqual([["r,lost,500,0"], ["r,queued,500,0,1"]], [found[0]["reply"] for found in told["after"]])
        self.assertEqual([6, 6], [found[0]["line"] for found in told["after"]])

    def test_equal_but_for_a_remark(self) -> None:
        words = self.made("one.history", self.LINES), self.made("remarked.history", self.LINES, "#,seed,5\n")
        done = run("look", "--diff", *words, "--json", "equal.json")
        self.assertEqual((0, "one.history and remarked.history have the same calls and replies\n"), (done.returncode, done.stdout))
        self.assertEqual({"format": 1, "histories": list(words), "equal": True}, json.loads((folder() / "equal.json").read_text()))

    def test_what_it_does_not_take(self) -> None:
        one = self.made("one.history", self.LINES)
        (folder() / "text").write_text("a text\n")
        for words, status in (((one,), 2), ((one, one, one), 2), ((one, "text"), 4), ((one, "none"), 6)):
            self.assertEqual(status, run("look", "--diff", *words).returncode)
        self.assertEqual(2, run("look", one, one).returncode)
