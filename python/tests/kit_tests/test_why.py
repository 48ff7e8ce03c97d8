"""The explanations from `why`, for all rows in three scenarios: the figures add up to the report's, and queues equal the
reference's."""

import re
import unittest
from collections import Counter
from copy import deepcopy
from functools import lru_cache
from pathlib import Path
from random import Random

from kit import folder, live, mixed, needs_tshark, parts_of, replay, rows_of, run, write

from hinge.captures.packet_rows import HEADER
from hinge.replays.explain import Explainer
from hinge.replays.links import Parts
from oracle import STYLES, FastDummynet, call_text, configured, random_calls, reply_lines
from hinge.captures.random_words import word
from hinge.replays.history import read_history_source
from hinge.replays.replay import EVENT_NAMES
from model import Collect, FiveTuple, Full, Packet, Submit, Target

DURATION = r"([\d,]+\.\d{6}) ms"
SUM = re.compile(rf"(?:In all it took|would take) {DURATION} = {DURATION} waiting \+ {DURATION} transmission \+ {DURATION} delay")
WAIT = re.compile(rf"It waited {DURATION} for .*?: (.*?)\. Its transmission")
SENT = re.compile(r"was sent to \S+ \d+ at ([\d,]+\.\d{9}) s")
LEFT = re.compile(r"(?:it left|It would leave) at ([\d,]+\.\d{9}) s")
LAST = 2**62


def ns(text: str) -> int:
    """A figure in ms with all digits, in ns."""
    return int(text.replace(",", "").replace(".", ""))


@lru_cache(maxsize=None)
def late() -> tuple[Path, Path, Path]:
    """A slow link: moments that go back, packets that are held beyond the last moment, on a link of their own and a shared one."""
    config = write(
        "late.config",
        "pipe 1 config bw 1000bit/s delay 7 queue 3Kbytes plr 0.1 mask src-ip 0xff\n"
        "pipe 2 config bw 333bit/s delay 1\nqueue 1 config pipe 2 weight 2 queue 4\nqueue 2 config pipe 2\n"
        "pipe 3 config bw 300bit/s delay 9\n",
    )
    targets = ("pipe,1", "queue,1", "queue,2", "queue,3")
    lines = [HEADER]
    for row in range(1, 1201):
        chance = word(5, row)
        began = LAST - 40 * 10**9 if row > 900 else row * 10**9
        moment = min(began + chance % (3 * 10**9), LAST)
        target = targets[chance % 5 % 4] if row <= 1190 else "pipe,3"
        flow = f"10.0.0.{chance % 2},10.0.1.0,17,{chance % 3},9"
        lines.append(f"{moment},{target},{flow},{40 + chance % 900},{word(6, row)}")
    packets = write("late.csv", "\n".join(lines) + "\n")
    return config, packets, replay("late", config, packets)


class Sums:
    """The scenario is `paths`: configuration, packets and report."""

    paths: staticmethod

    def test_the_parts_of_every_row_add_up(self) -> None:
        config, packets, report = self.paths()
        explainer = Explainer(parts_of(config, packets, report))
        for line in rows_of(report):
            with self.subTest(row=line["row"]):
                self.judge(line, explainer.paragraph(int(line["row"])))

    def judge(self, line: dict[str, str], text: str) -> None:
        assert ns(SENT.search(text)[1]) == int(line["at"])
        if line["event"] == "out":
            took, waited, *others = (ns(part) for part in SUM.search(text).groups())
            assert took == int(line["due"]) - int(line["at"])
            assert waited == int(line["start"]) - int(line["at"])
            assert took == waited + sum(others)
            assert ns(LEFT.search(text)[1]) == int(line["due"])
            pieces = WAIT.search(text)
            told = [ns(piece) for piece in re.findall(DURATION, pieces[2])] if pieces else []
            assert sum(told) == waited
        elif line["event"] == "held" and (found := SUM.search(text)) is not None:
            took, *others = (ns(part) for part in found.groups())
            assert took == sum(others)
            assert int(line["at"]) + took == ns(LEFT.search(text)[1])
            assert int(line["at"]) + took > LAST

    def test_queues_and_waits_are_the_references(self) -> None:
        config, packets, report = self.paths()
        parts = parts_of(config, packets, report)
        order, found = Explainer(parts).order, rows_of(packets)
        net, place_of = FastDummynet(), {}
        configured(net, config.read_bytes())
        for place, row in enumerate(found):
            before = self.backlog_of(net, parts, place, int(row["moment"]))
            reply = net.apply(submit_of(row))
            assert type(reply).__name__ == {"none": "NoTarget"}.get(
                event := EVENT_NAMES[parts.replay.event[place]], "Queued" if event in ("out", "held") else event.capitalize()
            )
            if event in ("out", "held"):
                place_of[reply.packet] = place
            if event == "full":
                assert order.backlog(place).tolist() == [place_of[packet] for packet in before]

    @staticmethod
    def backlog_of(net: FastDummynet, parts: Parts, place: int, moment: int) -> list[int]:
        """The packets that wait in the flow of a row when the row comes."""
        net.clock = max(net.clock, moment)
        net.settle()
        flow = int(parts.replay.flow[place])
        return [waiting.packet for waiting in net.flows[flow].queue] if 0 <= flow < len(net.flows) else []


def submit_of(row: dict[str, str]) -> Submit:
    addresses = (int.from_bytes(map(int, row[name].split(".")), "big") for name in ("src", "dst"))
    five = FiveTuple(*addresses, *(int(row[name]) for name in ("proto", "sport", "dport")))
    return Submit(Target(row["target"], int(row["number"])), Packet(five, int(row["len"]), int(row["word"])), int(row["moment"]))


@needs_tshark
class Dsl(Sums, unittest.TestCase):
    paths = staticmethod(lambda: mixed("dsl"))


@needs_tshark
class Shared(Sums, unittest.TestCase):
    paths = staticmethod(lambda: mixed("shared"))


class Late(Sums, unittest.TestCase):
    paths = staticmethod(late)

    def test_every_kind_of_row_is_there(self) -> None:
        packets, report = rows_of(late()[1]), rows_of(late()[2])
        assert {line["event"] for line in report} == set(EVENT_NAMES)
        held = Counter(packets[int(line["row"]) - 1]["target"] for line in report if line["event"] == "held")
        assert held["pipe"] > 1
        assert held["queue"] > 1


class Changed(unittest.TestCase):
    """Histories in which links are changed and deleted between packets."""

    def test_random_histories_against_the_reference(self) -> None:
        """For 60 random histories, the explanation of each packet agrees with the reference emulator. The parts of a delay add up,
        a packet dropped at a full queue has the same packets ahead, and held packets leave or are discarded in the same way as in a
        reference that continues."""
        kinds: Counter[str] = Counter()
        for seed in range(60):
            rng = Random(seed)
            calls = random_calls(rng, STYLES[seed % len(STYLES)], 80, 2, True)
            net, lines = FastDummynet(), ["dummynet-history,3"]
            queues: list[list[int]] = []
            for caller, call in calls:
                if isinstance(call, Submit):
                    queues.append(self.waiting(net, call))
                lines += [call_text(caller, call), *reply_lines(net.apply(call), 3)]
            path = write("changed.history", "\n".join([*lines, f"end,{len(calls)}"]) + "\n")
            later = {one.packet: one for one in net.apply(Collect(2 * LAST - 1)).list}
            self.judge(Explainer(read_history_source(str(path)).explained()), queues, later, kinds, seed)
        wanted = {"out", "changed", "behind", "lost", "cut", "full", "discarded", "held", "leaves"}
        assert wanted - set(kinds) == set(), kinds

    @staticmethod
    def waiting(net: FastDummynet, call: Submit) -> list[int]:
        """The packets that wait in the flow of a packet when it comes."""
        other = deepcopy(net)
        reply = other.apply(call)
        return [one.packet for one in other.flows[reply.flow].queue] if isinstance(reply, Full) else []

    def judge(self, explainer: Explainer, queues: list[list[int]], later: dict, kinds: Counter, seed: int) -> None:
        replay = explainer.replay
        for place in range(len(replay.packets)):
            text = explainer.paragraph(place + 1)
            event = EVENT_NAMES[replay.event[place]]
            with self.subTest(seed=seed, row=place + 1, text=text):
                kinds[event] += 1
                if event == "out":
                    took, *others = (ns(part) for part in re.findall(DURATION, text.partition("In all it took ")[2]))
                    assert (took, sum(others)) == (int(replay.due[place] - replay.at[place]), took)
                    kinds["behind"] += "It stayed" in text
                    kinds["changed"] += "in force" in text
                elif event == "full":
                    found = replay.packet[explainer.order.backlog(place)].tolist()
                    is_sure = "at most" not in text
                    assert (found[-len(queues[place]) :] if not is_sure else found) == queues[place]
                elif event == "held":
                    one = later.get(int(replay.packet[place]))
                    assert "discarded it at" in text if one is None else "unless" in text or "discarded" not in text, (seed, text)
                    kinds["discarded" if one is None else "held"] += 1
                    if one is not None and (found := LEFT.search(text)) is not None:
                        kinds["leaves"] += 1
                        assert ns(found[1]) <= one.due
                        assert ns(SUM.search(text)[2]) == one.start - int(replay.at[place])
                kinds["cut"] += "It was lost in a cut" in text

    def told(self, *lines: str) -> list[str]:
        rows = range(1, sum(",submit," in line for line in lines) + 1)
        return run("why", *rows, write("told.history", live([*lines]))).stdout.split("\n\n")

    def test_a_link_that_is_changed_by_hand(self) -> None:
        """Two packets of 1,000 bytes at 0: the first takes 1 ms and 10 ms. Then the link has 4 Mbit/s and 2 ms, so the
        second starts at 1 ms, takes 2 ms and would be there at 5 ms, but stays behind the first until 11 ms."""
        submit = "c,0,submit,pipe,1,10.0.0.1,10.0.0.2,17,1,2,1000,0,{}"
        one, two, three, four = self.told(
            *("pipe 1 config bw 8Mbit/s delay 10", submit.format(0), submit.format(0), "pipe 1 config bw 4Mbit/s delay 2"),
            *("c,0,collect,50000000", "pipe 1 config bw 4Mbit/s delay 2 plr 1", submit.format(60_000_000)),
            *("c,0,advance,70000000", "pipe 1 config bw 4Mbit/s delay 2", submit.format(80_000_000), "c,0,collect,90000000"),
        )
        assert "(1,000 bytes at 8,000,000 bit/s, in force until 0.000000000 s). The" in one
        assert "11.000000 ms = 0.000000 ms waiting + 1.000000 ms transmission + 10.000000 ms delay, and" in one
        assert "4,000,000 bit/s, in force from 0.000000000 s on). The link's delay was 2.000000 ms, in force from 0.0" in two
        assert "It stayed 6.000000 ms more behind row 1, since a link keeps the order" in two
        assert "2.000000 ms transmission + 2.000000 ms delay + 6.000000 ms behind another, and it left at 0.011000000 s" in two
        assert "lost in a cut or a lossy outage: pipe 1 lost all packets from 0.050000000 s to 0.070000000 s." in three
        assert "it left at 0.084000000 s" in four

    def test_an_outage_that_holds_packets(self) -> None:
        """As a host makes one: nobody's 1,500 bytes at 12,000 bit/s take a second."""
        texts = self.told(
            "pipe 1 config bw 8Mbit/s",
            "pipe 1 config bw 12000bit/s",
            f"c,0,submit,pipe,1,0.0.0.0,0.0.0.0,255,0,0,1500,{2**31 - 1},1000000000",
            "pipe 1 config bw 8Mbit/s",
            *(f"c,0,submit,pipe,1,10.0.0.1,10.0.0.2,17,1,2,1000,0,{moment}00000000" for moment in (12, 15)),
            "c,0,collect,3000000000",
        )
        outage = "an outage, in which pipe 1 held packets from 1.000000000 s to 2.000000000 s"
        assert texts[0] == f"Row 1 is a packet that nobody sent. It stands for {outage}."
        assert f"(pipe 1): 800.000000 ms until the end of {outage}. Its" in texts[1]
        assert f"500.000000 ms until the end of {outage}; 1.000000 ms for 1 packet that came before it: row 2." in texts[2]
        assert "8,000,000 bit/s)" in texts[2]  # which an outage doesn't change

    def test_a_run_over_a_trace(self) -> None:
        """4 bytes of 1,500 may leave at each moment in a trace; each packet gets a separate rate."""
        texts = self.told(
            *("pipe 1 config", "pipe 1 config bw 89949bit/s"),
            "c,0,submit,pipe,1,10.0.0.1,10.0.0.2,1,0,0,84,1,529152",
            "c,0,collect,8000104",
            "pipe 1 config bw 282098bit/s",
            "c,0,submit,pipe,1,10.0.0.1,10.0.0.2,1,0,0,84,1,501617855",
            "c,0,collect,600000000",
        )
        assert (
            "84 bytes at 89,949 bit/s, rounded up to whole ns, in force from 0.000000000 s to 0.008000104 s for this packet alone"
            in texts[0]
        )
        assert "2.382151 ms transmission" in texts[1]  # 84 * 8 * 10^9 / 282,098 = 2,382,150.6


class Command(unittest.TestCase):
    def test_a_paragraph_a_row(self) -> None:
        config, packets, report = late()
        done = run("why", 1, 2, config, packets, report)
        assert done.returncode == 0, done.stderr
        assert [text.split(" (")[0] for text in done.stdout.split("\n\n")] == [f"Row {row}" for row in (1, 2)]

    def test_four_packets_by_hand(self) -> None:
        config = write("hand.config", "pipe 1 config bw 8Mbit/s queue 1\n")
        packets = write(
            "hand.csv",
            HEADER + "\n" + "".join(f"{moment},pipe,1,10.0.0.1,10.0.0.2,17,1,2,1000,0\n" for moment in (0, 0, 0, 1_000_000)),
        )
        report = write(
            "hand.report",
            "event,row,flow,packet,at,start,due\nout,1,0,0,0,0,1000000\nout,2,0,1,0,1000000,2000000\n"
            "out,4,0,2,1000000,2000000,3000000\nfull,3,0,,0,,\n",
        )
        texts = run("why", 1, 2, 3, 4, config, packets, report).stdout.split("\n\n")
        assert "The link was free" in texts[0]
        assert f"1.000000 ms until row {1}, which was under transmission, had been sent. Its" in texts[1]
        assert (
            f"1 packet waited there (row {2}), 1,000 bytes in all, and its limit is 1 packet. "
            f"There was room again 1.000000 ms later, when row {2} began to be sent."
        ) in texts[2]
        assert f"until row {2}, which" in texts[3]

    def test_of_many_flows_the_smaller_are_summed_up(self) -> None:
        """A packet behind another one, behind 19 flows with 500 bytes each at 8 Mbit/s, and behind 40 flows with 1,000."""
        config = write("many.config", "pipe 1 config bw 8Mbit/s\nqueue 1 config pipe 1 mask all\n")
        lengths = [1000, *[500] * 19, *[1000] * 40, 1500]
        lines = [f"0,queue,1,10.0.0.{row},10.0.1.0,17,1,2,{length},9" for row, length in enumerate(lengths, 1)]
        packets = write("many.csv", "\n".join([HEADER, *lines]) + "\n")
        text = run("why", 61, config, packets, replay("many", config, packets)).stdout
        told = [f"1.000000 ms for 1 packet of flow {row - 1} (queue 1, weight 1): row {row}" for row in range(21, 61)]
        assert "; ".join([*told, "9.500000 ms for 19 packets of 19 others. Its transmission"]) in text
        assert "It waited 50.500000 ms for pipe 1, which its queues share: 1.000000 ms until row 1 of" in text

    def test_another_configuration_is_noticed(self) -> None:
        config, packets, report = late()
        other = write("other.config", config.read_text().replace("delay 7", "delay 8"))
        done = run("why", 1, other, packets, report)
        assert done.returncode == 4, done.stdout
        assert "another configuration" in done.stderr

    def test_another_configuration_is_noticed_by_rows_that_did_not_leave(self) -> None:
        """One row each that was lost, met a full queue and had no target, by configurations that would have taken it."""
        packets = write(
            "left.csv", HEADER + "\n" + "".join(f"0,pipe,{pipe},10.0.0.1,10.0.0.2,17,1,2,1000,5\n" for pipe in (1, 1, 1, 2, 3))
        )
        told = "pipe 1 config bw 8Mbit/s queue 1\npipe 2 config plr 1\n"
        report = replay("left", write("left.config", told), packets)
        for row, one, other, fault in (
            (3, "queue 1", "queue 2", "row 3 would have found room"),
            (3, "queue 1", "queue 2Kbytes", "row 3 would have found room"),
            (4, "plr 1", "", "row 4 would not have been lost"),
            (5, "pipe 2", "pipe 3 config\npipe 2", "row 5 would have had a target"),
        ):
            assert run("why", row, "left.config", packets, report).returncode == 0
            done = run("why", row, write("other.config", told.replace(one, other)), packets, report)
            assert (done.returncode, done.stdout) == (4, "")
            assert f"{fault} by " in done.stderr
            assert "the report of another configuration" in done.stderr

    def test_faults_are_one_line(self) -> None:
        config, packets, report = late()
        bad_config = write("bad.config", "pipe 1 confg\n")
        bad_row = write("bad.csv", f"{HEADER}\n\n1,pipe,1,10.0.0.1,10.0.0.2,17,1,2,x,0\n")
        short = write("short.report", "\n".join(report.read_text().splitlines()[:-1]) + "\n")
        absent = 9999
        (folder() / "bytes.csv").write_bytes(f"{HEADER}\n1,pipe,1,10.0.0.1,10.0.0.2,17,1,\n".encode() + b"\xff\n")
        for words, status, told in (
            ((absent, config, packets, report), 4, f"no row {absent}"),
            (("x", config, packets, report), 2, "'x' isn't the number of a row"),
            ((1, bad_config, packets, report), 3, "config line 1, word 3: unknown word"),
            ((1, config, bad_row, report), 4, "line 3: bad len 'x'"),
            ((1, config, "bytes.csv", report), 4, "line 2: 8 fields in place of 10"),
            ((1, config, packets, short), 4, "aren't those of the 1200 rows"),
            ((1, config, "missing", report), 6, "missing: No such file"),
            ((1, config, report, packets), 4, "line 1: the header isn't moment"),
        ):
            done = run("why", *words)
            assert done.returncode == status, done.stderr
            assert told in done.stderr
            assert "Traceback" not in done.stderr
