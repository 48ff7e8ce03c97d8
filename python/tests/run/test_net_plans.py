"""The meaning of a file for `hinge net`: lines of a plan, cuts, and the faults that a nemesis draws."""

import re
from pathlib import Path

import pytest

from hinge.net.net_plan import NetPlan
from hinge.run.words import LAST_MOMENT, Wrong
from net_files import TWO, OfFiles


class OfPlans(OfFiles):
    def test_each_link_has_its_pipes(self) -> None:
        assert self.plan("host a\nhost b\nswitch s a b 5ms / 6ms\nlink b a 1Mbit/s\n") == [
            f"line pipe {pipe} config {words}" for pipe, words in enumerate(["delay 5ms", "delay 6ms"] * 2 + ["bw 1Mbit/s"] * 2, 1)
        ]

    def test_presets(self) -> None:
        assert self.plan(TWO + "link a b preset dsl\nat 1s b a preset dsl\n") == [
            f"{when}pipe {pipe} config {words}"
            for when, rates in (("line ", ("384", "1500")), ("at 1000000000 ", ("1500", "384")))
            for pipe, rate in enumerate(rates, 1)
            for words in [f"bw {rate}Kbit/s delay 25ms queue {'10' if rate == '384' else '30'}"]
        ]

    def test_a_link_is_named_from_either_end(self) -> None:
        said = {
            "loss a b up:list:3": ["list 0 3"],
            "loss b a up:list:3": ["list 1 3"],
            "loss b a list:3": ["list 0 3", "list 1 3"],
            "at 1s a b 5ms / 6ms": ["at 1000000000 pipe 1 config delay 5ms", "at 1000000000 pipe 2 config delay 6ms"],
            "at 1s b a 5ms / 6ms": ["at 1000000000 pipe 1 config delay 6ms", "at 1000000000 pipe 2 config delay 5ms"],
            "at 1s b a up 5ms": ["at 1000000000 pipe 2 config delay 5ms"],
            "at 1s b a pipe 1 config delay 5": ["at 1000000000 pipe 2 config delay 5"],
            "at 1s b a up outage 1s lossy": ["at 1000000000 cut 2 1", "at 2000000000 open 2 1"],
            "at start+1s a b up 5ms": ["at 1000000000 pipe 1 config delay 5ms"],
            "main a true\nat 1s a b up 5ms": ["main at 1000000000 pipe 1 config delay 5ms"],
            "main a true\nat main+1s a b up outage 1s": ["main hold 1 1000000000 2000000000", "main outage 1000000000 1 1500"],
        }
        for text, lines in said.items():
            assert [line for line in self.plan(f"{TWO}link a b\n{text}\n") if not line.startswith("line")] == lines, text

    def test_the_second_link_between_two_hosts(self) -> None:
        assert "at 1000000000 pipe 3 config delay 9ms" in self.plan(TWO + "link a b 1ms\nlink b a 2ms\nat 1s a b 2 down 9ms\n")

    def test_queues_of_two_links_are_apart(self) -> None:
        told = self.plan(
            "host a\nhost b\nhost c\nlink a b\nlink b c\nline a b queue 1 config pipe 1 weight 3\nline c b queue 1"
            " config pipe 1 queue 9\nmap a b tcp => queue 1\nmap c b up udp => queue 1\nmap c b down => pipe 2\n"
        )
        assert told[-2:] == ["line queue 1 config pipe 1 weight 3", "line queue 2 config pipe 4 queue 9"]
        assert [line.split()[1:5] for line in told if line.startswith("map")] == [
            ["0", "1", "1", "6"],
            ["3", "1", "2", "17"],
            ["2", "0", "3", "-1"],
        ]

    def test_rules_name_hosts(self) -> None:
        net = "host a\nhost b\nlink a b\nline a b queue 1 config pipe 1\n"
        both = [
            line
            for name in ("10.8.0.1", "fd08::1")
            for line in self.plan(net + f"map a b up tcp src {name} dport 80 => queue 1\n")
            if line.startswith("map")
        ]
        assert [line for line in self.plan(net + "map a b up tcp src a dport 80 => queue 1\n") if line.startswith("map")] == both
        assert [line.split()[1] for line in self.plan(net + "map a b up udp => queue 1\n") if line.startswith("map")] == ["0"]
        assert "line 5: " in self.wrong(net + "map a b up src c => queue 1\n")

    def test_a_queue_that_says_its_own_loss(self) -> None:
        net = TWO + "link a b loss 20%\nmap a b up tcp => queue 1\nat 1s a b 5ms loss 5%\nline a b queue 1 config pipe 1 "
        for loss in ("plr 0.2", "plr 0"):
            assert f"line queue 1 config pipe 1 {loss}" in self.plan(net + loss + "\n")

    def test_a_cut_is_of_all_links_or_of_those_to_some(self) -> None:
        net = "host a\nhost b\nhost c\nlink a b\nlink a c\nlink b c\n"
        for text, pipes in (
            ("at 1s cut a 1s", "1234"),
            ("at 1s cut c from b 1s", "56"),
            ("at 1s cut b from a c 1s", "1256"),
            ("at 1s cut b up", "25"),
            ("at 1s cut c from b down", "5"),
        ):
            assert [line.split()[3] for line in self.plan(net + text) if " cut " in line] == list(pipes)

    def test_a_cut_without_an_end_lasts_until_it_is_healed(self) -> None:
        net = "host a\nhost b\nhost c\nlink a b 5ms\nlink b c\n"
        said = {
            "at 1s cut b\nat 3s heal a\n": {1: "cut 1, heal 3", 2: "cut 1, heal 3", 3: "cut 1", 4: "cut 1"},
            "at 3s heal b\nat 2s heal b from a\nat 1s cut b\n": {
                1: "cut 1, heal 2, heal 3",
                2: "cut 1, heal 2, heal 3",
                3: "cut 1, heal 3",
                4: "cut 1, heal 3",
            },
            "at 1s cut a\nat 2s heal a\nat 4s cut a\n": {pipe: "cut 1, heal 2, cut 4" for pipe in (1, 2)},
            "at 1s cut a 5s\nat 2s heal b\n": {1: "cut 1, heal 2, open 6", 2: "cut 1, heal 2, open 6", 3: "heal 2", 4: "heal 2"},
        }
        for text, wanted in said.items():
            moments: dict[int, list[str]] = {}
            for line in self.plan(net + text):
                words = line.split()
                if words[0] == "at":
                    assert int(words[1]) < LAST_MOMENT
                    moments.setdefault(int(words[3]), []).append(f"{words[2]} {int(words[1]) // 10**9}")
            assert {pipe: ", ".join(found) for pipe, found in moments.items()} == wanted, text

    def drawn(self, kind: str, count: int, seed: int) -> list[str]:
        """Returns the lines of a nemesis on a mesh of this many hosts."""
        names = "abcdefg"[:count]
        mesh = "".join(f"link {one} {two}\n" for one in names for two in names if one < two)
        text = "".join(f"host {name} x\n" for name in names) + mesh + f"nemesis {kind} every 2s for 1s until 5s\n"
        return NetPlan(self.net(text), 1500, seed).drawn

    def apart(self, lines: list[str], moment: str) -> set[frozenset[str]]:
        """Returns the pairs of hosts that are cut from each other at a moment; each pair appears once."""
        pairs = [
            frozenset((words[3], other))
            for words in map(str.split, lines)
            for other in words[5:-1]
            if words[1] == moment and words[2] == "cut"
        ]
        assert len(pairs) == len(set(pairs)), lines
        return set(pairs)

    def test_what_partitions_leave(self) -> None:
        for seed in range(10):
            for count in range(3, 8):
                for kind in ("halves", "one", "ring", "majorities"):
                    if kind == "ring" and count == 3:
                        with pytest.raises(Wrong, match="takes 4 hosts"):
                            self.drawn("partition-ring", 3, seed)
                        continue
                    lines = self.drawn(f"partition-{kind}", count, seed)
                    both = [self.apart(lines, moment) for moment in ("2s", "4s")]
                    for pairs in both:
                        lost = sorted(sum(name in pair for pair in pairs) for name in "abcdefg"[:count])
                        spare, half = count - count // 2 - 1, count // 2
                        if kind == "halves":
                            assert lost == sorted([count - half] * half + [half] * (count - half))
                        elif kind == "one":
                            assert lost == [1] * (count - 1) + [count - 1]
                        elif kind == "ring":
                            assert lost == [count - 3] * count
                        else:
                            assert (lost[-1], lost[1] > 0) == (spare, True), pairs

    def test_times_that_the_seed_draws(self) -> None:
        net = "host a x\nhost b x\nlink a b\n"
        text = net + "at 5s..20s cut a 1s\nat 1s cut b 1s\nnemesis stop-one every 3s..9s for 1s..2s until 60s\n"
        made = NetPlan(self.net(text), 1500, 7)
        moments = [float(line.split()[1][:-1]) for line in made.drawn]
        lengths = [float(line.split()[-1][:-1]) for line in made.drawn[1:]]
        assert 5 <= moments[0] <= 20 and all(1 <= one <= 2 for one in lengths), made.drawn
        assert all(3 <= two - one <= 9 for one, two in zip([0.0, *moments[1:]], moments[1:])), made.drawn
        assert [one.is_drawn for one in made.events] == [True, False, *[True] * (len(moments) - 1)]
        written = NetPlan(self.net(net + "at 1s cut b 1s\n" + "\n".join(made.drawn) + "\n"), 1500)
        assert sorted(written.acts) == sorted(made.acts)
        for wrong in (
            "at 9s..5s cut a",
            "at 5s.. cut a",
            "nemesis stop-one every 3s..2s for 1s",
            "nemesis stop-one every 3s for 2s..4s",
        ):
            with pytest.raises(Wrong, match="line 4: "):
                NetPlan(self.net(f"{net}{wrong}\n"), 1500)

    def test_a_nemesis_is_the_lines_that_it_draws(self) -> None:
        net = "host a x\nhost b x\nhost c x\nmain m x\nlink a b\nlink b c\nlink a c\nlink m a\n"
        text = net + "nemesis partition-halves every 2s for 1s until 9s\nnemesis kill-one every 3s for 1s until 6s of b c\n"
        made = NetPlan(self.net(text), 1500, 5)
        lines = made.drawn
        assert NetPlan(self.net(text), 1500, 5).drawn == lines
        assert NetPlan(self.net(text), 1500, 6).drawn != lines
        assert [line.split()[1] for line in lines if " cut " in line] == [f"{n}s" for n in (2, 4, 6, 8)]
        for line in lines[:4]:
            assert re.search("cut (a from b c|b from a c|c from a b) 1s$", line)
        assert re.search(r"^at 3s kill (b|c) 1s\nat 6s kill (b|c) 1s$", "\n".join(lines[4:]))
        written = NetPlan(self.net(net + "\n".join(lines) + "\n"), 1500)
        assert (written.plan.text(1), written.acts) == (made.plan.text(1), made.acts)

    def test_when_the_faults_of_a_nemesis_begin(self) -> None:
        net = "host a x\nhost b x\nlink a b\nnemesis stop-one every 3s..4s for 1s {} until 30s\n"
        plain, early, drawn = (NetPlan(self.net(net.format(words)), 1500, 7).drawn for words in ("", "from 0s", "from 15s..20s"))
        assert plain == NetPlan(self.net(net.format("from 3s..4s")), 1500, 7).drawn
        assert (early[0].split()[1], len(early) >= len(plain)) == ("0s", True)
        moments = [float(line.split()[1][:-1]) for line in drawn]
        assert 15 <= moments[0] <= 20 and all(3 <= two - one <= 4 for one, two in zip(moments, moments[1:])), drawn

    def test_a_trace_is_beside_the_file(self) -> None:
        Path(self.path.parent, "t").write_text("0,8000\n1,9000\n")
        assert self.plan(TWO + "link a b 5ms\ntrace b a t\n")[2:] == [
            "at 0 pipe 2 config bw 8000bit/s delay 5ms",
            "at 1000000000 pipe 2 config bw 9000bit/s delay 5ms",
        ]
