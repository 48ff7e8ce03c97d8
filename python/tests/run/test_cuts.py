"""Cuts of a link are counted: a direction opens when the last cut ends, or by `heal`."""

import os
import time
import unittest

from linked import Linked, found, needs_host, plan_of, state_of, stopped, udp, until, with_lines

from hinge.run.page import WayCounts


@needs_host
class OfPlans(unittest.TestCase):
    def obeyed(self, plan: str, end: int = 60_000_000) -> list[str]:
        """Runs two pipes with this plan until `end` ns. Returns the configuration lines that the link applied, without the two
        lines that created the pipes."""
        link = Linked("line pipe 1 config delay 5 plr 0.5\nline pipe 2 config\n" + plan + f"at {end} remark end\n")
        until(lambda: link.page.read()["moment"] >= end)
        ended = link.end()
        assert (ended.status, ended.said) == (0, "")
        return found("^c,0,configure,(.*)", ended.history)[2:]

    def test_a_way_opens_with_its_last_cut(self) -> None:
        cut, whole = "pipe 1 config delay 5 plr 1", "pipe 1 config delay 5 plr 0.500000000000000000"
        one, two = "at 10000000 cut 1 7\nat 40000000 open 1 7\n", "at 20000000 cut 1 8\nat 30000000 open 1 8\n"
        for plan in (one, one + two, two + one, one + one, one + two.replace("1 8", "1 9").replace("0000 o", "9000 o")):
            assert self.obeyed(plan) == [cut, whole], plan
        assert self.obeyed("at 1 cut 1 1\nat 2 open 1 2\n") == [cut]
        assert self.obeyed(one + two.replace("cut 1", "cut 2").replace("open 1", "open 2")) == [
            cut,
            "pipe 2 config plr 1",
            "pipe 2 config",
            whole,
        ]

    def test_a_heal_ends_all_cuts(self) -> None:
        cut, whole = "pipe 1 config delay 5 plr 1", "pipe 1 config delay 5 plr 0.500000000000000000"
        plan = "at 1 cut 1 1\nat 2 cut 1 2\nat 3000000 heal 1\nat 4000000 open 1 1\nat 5000000 cut 1 3\n"
        assert self.obeyed(plan) == [cut, whole, cut]
        assert self.obeyed("at 1 heal 1\n") == []

    def test_a_cut_of_a_port_gives_the_least_loss(self) -> None:
        """Only the port's packets get the word for a loss: a pipe with a loss keeps its line, and a fully cut pipe loses all
        packets."""
        chosen, cut, whole = (f"pipe 2 config{loss}" for loss in (" plr 0.000000000465661288", " plr 1", ""))
        port = "at 1000000 cut 2 1 17 53\nat 9000000 open 2 1\n"
        assert self.obeyed(port) == [chosen, whole]
        assert self.obeyed(port.replace(" 2 ", " 1 ")) == []
        assert self.obeyed(port + "at 2000000 cut 2 2\nat 3000000 open 2 2\n") == [chosen, cut, chosen, whole]
        assert self.obeyed(port + "at 2000000 cut 2 2\nat 9500000 open 2 2\n") == [chosen, cut, whole]
        assert self.obeyed(port + "at 2000000 heal 2 17 54\nat 3000000 heal 2 6 53\n") == [chosen, whole]
        for heal in ("heal 2 17 53", "heal 2"):
            assert self.obeyed(port + f"at 2000000 {heal}\nat 3000000 pipe 2 config plr 0.5\n")[:2] == [chosen, whole], heal

    def test_a_line_in_a_cut_holds_after_it(self) -> None:
        assert self.obeyed("at 1 cut 1 1\nat 2 pipe 1 config bw 1000bit/s plr 0.25 queue 5\nat 3 open 1 1\n") == [
            "pipe 1 config delay 5 plr 1",
            "pipe 1 config bw 1000bit/s queue 5 plr 1",
            "pipe 1 config bw 1000bit/s queue 5 plr 0.250000000000000000",
        ]
        for delete in ("pipe delete 1", "pipe 1 delete", "ipfw pipe  1 delete # in any spelling"):
            assert self.obeyed(f"at 1 cut 1 1\nat 2 {delete}\nat 3 open 1 1\nat 4 cut 1 2\nat 5 pipe 1 config\n") == [
                "pipe 1 config delay 5 plr 1",
                "pipe delete 1",
                "pipe 1 config plr 1",
            ]

    def test_acts_are_writes_in_the_order_of_the_plan(self) -> None:
        """Stops form a set: a stop ends by its own number, and the number 0 ends all stops. A kill freezes the processes
        meanwhile."""
        ends = {name: os.pipe() for name in ("freeze", "kill")}
        for end in (one for pair in ends.values() for one in pair):
            self.addCleanup(os.close, end)
        words = "stop a 1,stop a 2,cont a 2,kill a 3,cont a 2,cont a 1,kill a 4,stop a 5,stop a 6,cont a 0,cont a 6".split(",")
        freeze, kill = ends["freeze"][1], ends["kill"][1]
        host = f"host a {freeze} {kill} {freeze}\n"
        plan = host + "".join(f"at {place} act {one}\n" for place, one in enumerate(words, 1))
        link = Linked(f"{plan}at 9 cut 1 1\nat 30000000 remark end\n", descriptors=[freeze, kill])
        until(lambda: link.page.read()["moment"] >= 30_000_000)
        ended = link.end()
        assert (ended.status, ended.said) == (0, "")
        assert (os.read(ends["freeze"][0], 99), os.read(ends["kill"][0], 99)) == (b"11" + b"1" + b"0" + b"10" + b"11" + b"0", b"11")
        stops, kills, conts = ["stop a"], ["kill a"], ["cont a"]
        assert found("^#,act,(.*)", ended.history) == stops * 2 + kills + conts + kills + stops * 2 + conts
        assert len(found(r"^#,late-act,\d+\n#,act,", ended.history)) == 8
        for line in ("act stop b 1", "act hold a 1", "act stop a", "act stop a 1 2"):
            assert Linked(f"{host}at 1 {line}\n").ended().status == 3, line

    def test_a_line_in_any_spelling(self) -> None:
        assert self.obeyed("at 1 ipfw pipe 1 config bw 1KByte/s plr .25 queue 5k\nat 2 cut 1 1\nat 3 open 1 1\n") == [
            "pipe 1 config bw 8000bit/s queue 5Kbytes plr 0.250000000000000000",
            "pipe 1 config bw 8000bit/s queue 5Kbytes plr 1",
            "pipe 1 config bw 8000bit/s queue 5Kbytes plr 0.250000000000000000",
        ]


@needs_host
class OfRules(unittest.TestCase):
    """Cuts also lose packets that rules send to queues, to other pipes or in the other direction."""

    def test_a_cut_is_of_all_packets_of_its_way(self) -> None:
        plan = plan_of("pipe 1 config", "pipe 2 config", "queue 1 config pipe 1 weight 3", "pipe 7 config")
        for number, target in ((2, "queue 1"), (3, "pipe 7"), (4, "pipe 2")):
            plan.rule(f"up udp dport {number} => {target}")
        plan.rule("down udp dport 2 => pipe 7")
        link = Linked(plan.text(1) + "at 1 cut 1 1\nat 2 queue 1 config pipe 1 weight 9\nat 400000000 open 1 1\n")
        for number in range(1, 5):
            link.near.send(udp(number)), link.far.send(udp(number))
        assert [link.near.recv(2000) for _ in range(4)] == [udp(number) for number in range(1, 5)]
        until(lambda: link.page.read()["moment"] >= 400_000_000)
        for number in range(1, 5):
            link.near.send(udp(number))
        assert [link.far.recv(2000) for _ in range(4)] == [udp(number) for number in range(1, 5)]
        ended = link.end()
        assert [way["lost"] for way in ended.counts.ways] == [4, 0]
        assert found("^c,0,submit,(.*?,.*?),.*,1,4,", ended.history) == ["pipe,1", "pipe,2", "pipe,2"]

    def test_a_cut_of_a_port_is_of_its_packets(self) -> None:
        """The cut also loses the port's packets in queues of rules, in both directions. All other packets keep their rules."""
        plan = plan_of("pipe 1 config", "pipe 2 config", "queue 1 config pipe 1 weight 3")
        plan.rule("up udp => queue 1")
        link = Linked(plan.text(1) + "at 1 cut 1 1 17 2\nat 2 cut 2 1 17 1\nat 3 cut 1 2 6 3\nat 400000000 open 1 1\n")
        for number in range(1, 5):
            link.near.send(udp(number)), link.far.send(udp(number))
        assert [link.far.recv(2000) for _ in range(3)] == [udp(1), udp(3), udp(4)]
        until(lambda: link.page.read()["moment"] >= 400_000_000)
        link.near.send(udp(2))
        assert link.far.recv(2000) == udp(2)
        ended = link.end()
        assert [way["lost"] for way in ended.counts.ways] == [1, 4]
        assert found("^c,0,submit,(.*?,.*?),.*,1,2,40,0,", ended.history) == ["pipe,1", "pipe,2"]


@needs_host
class OfTheMainCommand(unittest.TestCase):
    def test_moments_by_its_beginning(self) -> None:
        link, lines = with_lines("line pipe 1 config\nline pipe 2 config\nmain at 20000000 cut 1 1\nmain at 40000000 open 1 1\n")
        time.sleep(0.05)
        begun = lines.ask("main").moment
        assert begun > 40_000_000
        until(lambda: link.page.read()["moment"] >= begun + 40_000_000)
        assert lines.ask("moment").wrong == ""
        ended = link.end()
        moments = [int(one) for one in found(r"^r,advanced,(\d+)\nc,0,configure,pipe 1", ended.history)]
        assert [moment - begun for moment in moments] == [20_000_000, 40_000_000]

    def test_an_outage_by_its_beginning_and_one_of_the_start(self) -> None:
        link, lines = with_lines(
            "hold 1 0 300000000\nmain hold 1 0 600000000\nline pipe 1 config\nline pipe 2 config\nmain outage 0 1 1500\n"
        )
        begun = lines.ask("main").moment
        link.near.send(udp(1))
        link.far.recv(2000)
        ended = link.end()
        left = [int(one) for one in found(r"^r,delivered,(\d+),[1-9]", ended.history)]
        assert left and begun + 600_000_000 <= left[0], (begun, left)


@needs_host
class OfStops(unittest.TestCase):
    """The host checks for late turns at least each second, and reports the moment of each check."""

    def setUp(self) -> None:
        self.epoch = time.monotonic_ns()
        self.link = Linked(f"epoch {self.epoch}\nline pipe 1 config\nline pipe 2 config\n")
        until(lambda: state_of(self.link.process.pid) == "S")  # a stop is one of its sleep

    def lain(self, looked: int) -> WayCounts:
        """Returns the upward counts at the link's end. The unread packet waited at most since the moment of the host's check."""
        self.link.far.recv(2000)
        now, up = time.monotonic_ns() - self.epoch, self.link.end().counts.ways[0]
        assert up.unread.most <= now - looked
        return up

    def test_what_came_while_the_host_was_stopped_has_lain_unread(self) -> None:
        looked = self.link.page.read()["moment"]
        with stopped(self.link.process.pid):
            self.link.near.send(udp(1))
            time.sleep(0.4)
        up = self.lain(looked)
        assert up.unread.most >= 400_000_000
        assert up.unread_time.within(0.99) >= 400

    def test_the_time_before_a_stop_is_none_of_it(self) -> None:
        time.sleep(2)
        looked = self.link.page.read()["moment"]
        with stopped(self.link.process.pid):
            self.link.near.send(udp(1))
        self.lain(looked)

    def test_what_came_after_a_stop_has_not(self) -> None:
        before = self.link.page.read()["moment"]
        with stopped(self.link.process.pid):
            time.sleep(0.4)
        until(lambda: self.link.page.read()["moment"] > before + 400_000_000)
        looked = self.link.page.read()["moment"]
        self.link.near.send(udp(1))
        self.lain(looked)
