"""`hinge look` on a net's folder: ways, paths hop by hop, changes with their moments, and the picture."""

import json
import unittest
from pathlib import Path
from typing import Any

import pytest

import numpy as np
from kit import folder, run
from routed import HOSTS, MS, Net, Packet, good
from test_pictures import drawn_by

from hinge.paths.net_graph import places_of

SECOND = 1_000 * MS
CUT_FROM, CUT_TO = 4 * SECOND, 6 * SECOND


def cut_link() -> str:
    """A packet of 1,250 bytes each 100 ms for 10 s over a - r, of 10 ms; the way to r is cut from 4 s to 6 s, and then
    is one of 20 ms."""
    lines = ["dummynet-live,1", *(line.strip() for line in HOSTS), "#,seed,7"]
    entries = 0
    number = 0
    changes = [(CUT_FROM, "delay 10 plr 1"), (CUT_TO, "delay 20")]
    for pipe in (1, 2, 3, 4):
        lines += [f"c,0,configure,pipe {pipe} config delay 10", "r,configured"]
        entries += 1
    for moment in range(0, 10 * SECOND, 100 * MS):
        while changes and changes[0][0] <= moment:
            at, words = changes.pop(0)
            lines += [f"c,0,advance,{at}", f"r,advanced,{at}", f"c,0,configure,pipe 1 config {words}", "r,configured"]
            entries += 2
        is_lost = CUT_FROM <= moment < CUT_TO
        due = moment + (10 if moment < CUT_TO else 20) * MS
        lines += [
            f"#,content,{number:016x}",
            f"c,0,submit,pipe,1,10.8.0.1,10.8.0.3,17,1,2,1250,0,{moment}",
            f"r,lost,{moment},0" if is_lost else f"r,queued,{moment},0,{number}",
        ]
        if not is_lost:
            lines += [f"c,0,collect,{due}", f"r,delivered,{due},1", f"d,{number},0,{moment},{due}"]
            number += 1
        entries += 1 + (not is_lost)
    return "\n".join([*lines, f"end,{entries}", ""])


class OfNets(unittest.TestCase):
    def session(self, text: str) -> Path:
        place = folder() / "session"
        place.mkdir(exist_ok=True)
        (place / "net.history").write_text(text)
        return place

    def looked(self, text: str, *words: object) -> tuple[list[str], Any]:
        """What is printed, and the same for a program."""
        done = run("look", self.session(text), "--json", "x.json", *words)
        assert (done.returncode, done.stderr) == (0, "")
        return done.stdout.splitlines(), json.loads((folder() / "x.json").read_text())

    def test_a_way_that_was_cut(self) -> None:
        lines, told = self.looked(cut_link())
        assert lines[1].split() == "a > r 100 20 0 0.081 15.000 20.000".split()  # 80 x 10,000 bits in 9.91 s
        assert lines[-5:-2] == ["     4.000 s  a > r: cut", "     6.000 s  a > r: delay 20", ""]
        way, counts = {"pipe": 1, "from": "a", "to": "r"}, {"packets": 100, "lost": 20, "full": 0}
        assert told["ways"] == [{**way, **counts, "carried_mbit_s": 800_000 / 9_910_000, "mean_ns": 15 * MS, "p99_ns": 20 * MS}]
        assert told["cuts"] == [{**way, "begin_ns": CUT_FROM, "end_ns": CUT_TO}]
        assert [(change["moment_ns"], change["line"], change["cut"]) for change in told["changes"]] == [
            (CUT_FROM, "delay 10", True),
            (CUT_TO, "delay 20", False),
        ]
        assert (told["span_ns"], told["seed"], told["lawful_between_links"]) == (9_920 * MS, "7", True)

    def test_a_model_of_losses_has_its_name(self) -> None:
        """And the rate under which it decides has none."""
        text = cut_link().replace("config delay 10\n", "config delay 10 plr 0.500000000000000000\n")
        text = text.replace("config delay 20\n", "config delay 20 plr 0.500000000000000000\n")
        rate, _ = self.looked(text)
        assert "     6.000 s  a > r: delay 20 plr 0.500000000000000000" in rate
        lines, _ = self.looked(text.replace("#,seed,7", "#,seed,7\n#,model,1,gilbert:0.01,0.3", 1), "-o", "x.svg")
        assert "     6.000 s  a > r: delay 20 loss gilbert:0.01,0.3" in lines
        assert "10ms loss gilbert:0.01,0.3" in (folder() / "x.svg").read_text()

    def test_a_row_of_letters(self) -> None:
        lines, _ = self.looked(cut_link())
        head, row = lines[3:5]
        assert head.split() == ["way", "0", "s", "9.920", "s", "most,", "Mbit/s"]
        letters = row.split("  ")[1]
        assert head.index("0 s") == row.index(letters[0])
        assert letters.count("x") == pytest.approx(len(letters) * 2 / 9.92, abs=1)
        assert letters.index("x") == pytest.approx(len(letters) * 4 / 9.92, abs=1)
        assert " " not in letters

    def test_a_cut_that_has_no_end(self) -> None:
        text = cut_link()
        begin = text.index("c,0,advance,6000000000")
        end = text.index("#,content", text.index("c,0,advance,6000000000"))
        _, told = self.looked(text[:begin] + text[end:])
        assert [(cut["begin_ns"], cut["end_ns"]) for cut in told["cuts"]] == [(CUT_FROM, 9_920 * MS)]

    def test_paths_hop_by_hop(self) -> None:
        lines, told = self.looked(Net(good, [Packet(place) for place in range(40)]).text)
        assert "a - r - b: 40 packets, 15.050 ms: links 10.000 + 5.000, hosts 0.050, at most 0.050" in lines
        path = {"hosts": ["a", "r", "b"], "pipes": [1, 3], "packets": 40}
        assert told["paths"] == [{**path, "links_ns": [10 * MS, 5 * MS], "hosts_ns": [50_000], "most_in_hosts_ns": 50_000}]
        assert (told["changes"], told["cuts"]) == ([], [])

    def test_pictures(self) -> None:
        for text, panels in (
            (cut_link(), ("Throughput of each way", "Ways that lose all packets", "1: a &gt; r, 2 s", "lost 20")),
            (
                Net(good, [Packet(place) for place in range(40)]).text,
                ("a - r - b, hop by hop", "in r", "from a to r", "Delay of paths"),
            ),
        ):
            self.looked(text, "-o", "x.svg")
            drawn = (folder() / "x.svg").read_text()
            for name in panels:
                assert f"<!-- {name}" in drawn

    def test_a_picture_has_the_net_its_words_and_its_lateness(self) -> None:
        late = "#,late,1000000000" + ",5000000,1000000" * 4 + "\n"
        text = cut_link()
        end = text.index("c,0,submit")
        self.session(text[:end].rpartition("#,content")[0] + late + text[end:].join(["#,content,0000000000000000\n", ""]))
        done = run("look", folder() / "session", "-o", "x.svg")
        assert done.returncode == 0, done.stderr
        assert "late by 5 ms and packets lay unread for 1 ms" in done.stderr
        drawn = (folder() / "x.svg").read_text()
        net = "The net: width by load; dashed: cut for a time"
        for name in (net, "a &gt; r: 10ms; ", "late, at most 5 ms", "The links' lateness"):
            assert f"<!-- {name}" in drawn

    def test_hosts_stand_apart(self) -> None:
        star = [(0, other) for other in range(1, 6)]
        places = places_of(6, star)
        apart = np.sqrt(((places[:, None] - places[None]) ** 2).sum(axis=2))
        assert apart[np.triu_indices(6, 1)].min() > 0.2
        assert (places.min(), places.max()) == (0, 1)
        assert abs(places[0] - 0.5).max() < 0.2, "the host that all others have a link to is in the middle"

    def test_an_empty_net(self) -> None:
        text = "".join(["dummynet-live,1\n", *HOSTS, "end,0\n"])
        lines, told = self.looked(text, "-o", "x.png")
        assert lines == [
            "way  packets  lost  full  Mbit/s  mean ms  p99 ms",
            "",
            "0 packets on links, 0 handed on by hosts, 0 arrived",
            "lawful between links",
        ]
        assert told["ways"] == []

    def test_its_page_has_the_words_of_links_and_why_of_packets(self) -> None:
        place = self.session(cut_link())
        assert run("look", place, "-o", place / "x.html").returncode == 0
        drawn = drawn_by((place / "x.html").read_text())
        assert drawn["title"].split("; ")[0] == "a - r 10ms"
        [delays] = [panel for panel in drawn["panels"] if panel["title"] == "Delay on each way: over a packet, why"]
        assert delays["items"][0]["words"][3].startswith("a > r: Row 4 (udp 10.8.0.1:1 > 10.8.0.3:2, 1,250 bytes)"), delays

    def test_what_is_refused(self) -> None:
        place = self.session(cut_link())
        for words in (["--csv"], ["--by", "target"]):
            done = run("look", place, *words)
            assert (done.returncode, "is of one history" in done.stderr) == (4, True), done.stderr
        assert run("look", place, "--json", place / "net.history").returncode == 2
        (folder() / "nothing").mkdir()
        done = run("look", "nothing")
        assert done.returncode == 4
        assert done.stderr == "hinge look: nothing: there is no net.history in it, as hinge net --transcripts makes it\n"
