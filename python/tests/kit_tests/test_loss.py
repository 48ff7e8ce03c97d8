"""Models of loss: their figures by theory, and that a link loses exactly the packets that they say. The rules of --map: a live link and a
capture read the same short words, and mean the same packets."""

import asyncio
import ipaddress
import itertools
import random
import unittest

from hinge.captures.frames import MAPPED, Frame, FrameColumns
from hinge.captures.packet_rows import HEADER
from hinge.captures.random_words import direction_of
from hinge.captures.rule_words import BadRule
from hinge.captures.targets import UP, Targets, directions, read_rule
from hinge.loss import KEPT, LOST, Bernoulli, BurstsByTime, Chosen, GilbertElliott, Listed, Words, read_model
from hinge.pictures.drawn import provenance_of
from hinge.replays.history import read_sources
from hinge.run.rules import WayRule
from hinge.run.words import Wrong
from hingetulip.aio import Network
from hingetulip.records import Outcome
from kit import MIXED, folder, needs_tshark, replay, rows_of, run, write

MANY = 100_000


def drawn(words: Words, count: int = MANY) -> list[int]:
    return [words.next() for _ in range(count)]


def runs(lost: list[bool]) -> list[int]:
    """The lengths of the runs of lost packets."""
    return [len(list(group)) for is_lost, group in itertools.groupby(lost) if is_lost]


class Models(unittest.TestCase):
    def test_gilbert_has_the_losses_of_theory(self) -> None:
        """In the long run it is bad for p / (p + r) of the packets, and 1 / r of them in a row."""
        lost = [word == LOST for word in drawn(GilbertElliott(0.01, 0.25, seed=3))]
        self.assertAlmostEqual(sum(lost) / MANY, 0.01 / 0.26, delta=0.004)
        lengths = runs(lost)
        self.assertAlmostEqual(sum(lengths) / len(lengths), 4, delta=0.4)

    def test_gilbert_elliott_loses_in_both_states(self) -> None:
        lost = sum(word == LOST for word in drawn(GilbertElliott(0.1, 0.3, 0.5, 0.02, seed=5)))
        self.assertAlmostEqual(lost / MANY, (0.1 * 0.5 + 0.3 * 0.02) / 0.4, delta=0.006)

    def test_bursts_by_time_have_one_length_however_many_packets_come(self) -> None:
        """In the long run a link is bad for a fifth of the time, 0.5 s in a row."""
        for step in (0.01, 0.1):
            moments = itertools.count()
            lost = [word == LOST for word in drawn(BurstsByTime(2, 0.5, seed=3, clock=lambda: next(moments) * step))]
            self.assertAlmostEqual(sum(lost) / MANY, 0.2, delta=0.02)
            self.assertAlmostEqual(sum(runs(lost)) / len(runs(lost)) * step, 0.5 if step == 0.01 else 0.55, delta=0.05)
        with self.assertRaises(TypeError):
            BurstsByTime(2, 0.5).next()
        with self.assertRaises(ValueError):
            BurstsByTime(2, 0)

    def test_a_link_gives_its_clock(self) -> None:
        with Network(seed=3) as net:
            one, other = net.host("10.0.0.1"), net.host("10.0.0.2")
            link = net.link(one, other, "20ms", loss=BurstsByTime(10, 2))
            transport, _ = net.run(one.endpoint(asyncio.DatagramProtocol, remote=("10.0.0.2", 7)))
            for _ in range(1000):
                transport.sendto(b"x")
                net.run(asyncio.sleep(1))
            self.assertAlmostEqual(link.counts[Outcome.LOST] / 1000, 1 / 6, delta=0.05)

    def test_rates_of_zero_and_one(self) -> None:
        assert set(drawn(GilbertElliott(0, 1), 1000)) == {KEPT}
        assert drawn(GilbertElliott(1, 1), 6) == [KEPT, LOST, KEPT, LOST, KEPT, LOST]
        assert drawn(GilbertElliott(1, 0), 4) == [KEPT, LOST, LOST, LOST]

    def test_words_by_seed_are_even(self) -> None:
        words = drawn(Bernoulli(9, 2))
        self.assertAlmostEqual(sum(word < 2**31 // 20 for word in words) / MANY, 0.05, delta=0.003)
        assert words == drawn(Bernoulli(9, 2))
        for other in (Bernoulli(9, 1), Bernoulli(8, 2)):
            assert len(set(words) & set(drawn(other))) < 20

    def test_lists_and_functions(self) -> None:
        assert [number for number, word in enumerate(drawn(Listed([2, 5]), 9), 1) if word == LOST] == [2, 5]
        assert [number for number, word in enumerate(drawn(Chosen(lambda number: number % 4 == 0), 9), 1) if word == LOST] == [4, 8]
        assert [number for number, word in enumerate(drawn(read_model("list:1,3-5")(1, 1), 9), 1) if word == LOST] == [1, 3, 4, 5]

    def test_what_is_no_model(self) -> None:
        texts = "|gilbert|gilbert:0.1|gilbert:0.1,2|gilbert:a,b|gilbert:1,1,1,1,1|list:|list:0|list:5-3|list:a|plr:1"
        for text in texts.split("|"):
            with self.assertRaises(ValueError, msg=text):
                read_model(text)

    def test_a_link_loses_exactly_what_the_model_says(self) -> None:
        words = drawn(GilbertElliott(0.02, 0.3, seed=11))
        rows = "".join(f"{number},pipe,1,10.0.0.1,10.0.0.2,17,1,2,100,{word}\n" for number, word in enumerate(words))
        report = replay("model", write("model.config", "pipe 1 config plr 0.5\n"), write("model.csv", f"{HEADER}\n{rows}"))
        lost = {int(row["row"]) for row in rows_of(report) if row["event"] == "lost"}
        assert lost == {number for number, word in enumerate(words, 1) if word == LOST}

    def test_a_picture_names_the_model_and_not_the_rate_under_which_it_decides(self) -> None:
        """The words of each packet say which: random ones stay a rate of 0.5."""
        told = dict[str, str]()
        for name, loss in {"gilbert": GilbertElliott(0.02, 0.2), "random": None}.items():
            path = folder() / f"{name}.history"
            with Network(history=path, seed=7) as net:
                one, other = net.host("10.0.0.1"), net.host("10.0.0.2")
                net.link(one, other, "8Mbit/s plr 0.5", loss=loss)
                transport, _ = net.run(one.endpoint(asyncio.DatagramProtocol, remote=("10.0.0.2", 7)))
                for _ in range(400):
                    transport.sendto(b"x")
                    net.run(asyncio.sleep(0.001))
                rows = [dropped.row for dropped in net.dropped]
            told[name] = provenance_of(read_sources([str(path)], None, [], 1, []))[0]
            why = run("why", rows[0], path).stdout
            assert {"gilbert": "lost by a model", "random": "lost by the loss rate"}[name] in why
        self.assertRegex(
            told["gilbert"],
            r"^pipe 1 config bw 8000000bit/s losses by a model \(\d+(\.\d+)? % of 400 packets, [3-9]\.\d+ in a row\)$",
        )
        assert told["random"] == "pipe 1 config bw 8000000bit/s plr 0.500000000000000000"


@needs_tshark
class Packets(unittest.TestCase):
    def written(self, *words: object) -> list[dict[str, str]]:
        done = run("packets", MIXED, "-o", "loss.csv", *words)
        assert done.returncode == 0, done.stderr
        return rows_of(folder() / "loss.csv")

    def test_each_direction_has_a_model_of_its_own(self) -> None:
        rows = self.written("--from", "10.9.0.1", "--loss", "pipe 1=gilbert:0.01,0.3", "--loss", "pipe 2=list:1,7-9")
        ways = {number: [int(row["word"]) for row in rows if row["number"] == number] for number in "12"}
        assert ways["1"] == drawn(GilbertElliott(0.01, 0.3, seed=1, direction=1), len(ways["1"]))
        assert [number for number, word in enumerate(ways["2"], 1) if word == LOST] == [1, 7, 8, 9]

    def test_words_do_not_depend_on_the_other_direction(self) -> None:
        for words in ((), ("--loss", "gilbert:0.05,0.5")):
            both = [row["word"] for row in self.written("--from", "10.9.0.1", *words) if row["number"] == "1"]
            alone = [row["word"] for row in self.written("--map", "src 10.9.0.1 => pipe 1", *words)]
            assert both == alone

    def test_faults_are_one_line(self) -> None:
        for model in ("plr:1", "pipe=list:1", "pipe 1=list:0", "gilbert:1"):
            done = run("packets", MIXED, "--loss", model)
            assert (done.returncode, "Traceback" in done.stderr) == (2, False)


ADDRESSES = ("10.0.0.1", "10.0.0.9", "10.1.0.1", "fd08::1", "fd08:1::2")
NETS = ("10.0.0.0/24", "10.0.0.1", "10.0.0.0/8", "fd08::/32", "fd08::1", "0.0.0.0/0")
CHOICES = {
    "way": ("up", "down"),
    "protocol": ("tcp", "udp", "icmp", "icmp6", "proto 6", "proto 58"),
    "src": [f"src {net}" for net in NETS],
    "dst": [f"dst {net}" for net in NETS],
    "host": [f"host {net}" for net in NETS],
    "port": ("port 5", "port 4-6", "port 1-3"),
    "sport": ("sport 5", "src-port 3-5"),
    "dport": ("dport 6", "dst-port 1-5"),
    "dscp": ("dscp ef", "dscp 0", "dscp 0x2e"),
}
WRONG = (
    ("sprot 5 => pipe 1", "'sprot': not a word of a rule; write sport"),
    ("port 5-4 => pipe 1", "'5-4': no port from 0 to 65535"),
    ("port => pipe 1", "'port': its value is missing"),
    ("tcp udp => pipe 1", "'udp' beside 'tcp': a rule has one of them"),
    ("src-port 1 sport 2 => pipe 1", "'sport' beside 'src-port'"),
    ("dscp best => pipe 1", "'best': no DSCP from 0 to 63"),
    ("proto 256 => pipe 1", "'256': no protocol from 0 to 255"),
    ("src 10.0.0.0/33 => pipe 1", "'10.0.0.0/33' does not appear"),
    ("tcp", "it doesn't end in `=> pipe N` or `=> queue N`"),
    ("=> pipe 65536", "it doesn't end in"),
    ("tcp => pipe 01", "it doesn't end in"),
    ("tcp.port == 443 => pipe 1", "'tcp.port': not a word of a rule; write "),
)


def fits(line: str, frame: Frame, way: int) -> bool:
    """What hinge-link does with a line of a plan and a packet."""
    _, of_way, _, _, protocol, dscp, *nets_and_ports = line.split()
    sides = nets_and_ports[:4]
    ports = list(map(int, nets_and_ports[4:]))
    for text, address, mask in ((frame.src, *sides[:2]), (frame.dst, *sides[2:])):
        number = int(ipaddress.ip_address(text)) | (0 if ":" in text else MAPPED)
        if number & int(mask, 16) != int(address, 16):
            return False
    return (
        int(of_way) == way
        and int(protocol) in (-1, frame.proto)
        and int(dscp) in (-1, frame.dscp)
        and ports[0] <= frame.sport <= ports[1]
        and ports[2] <= frame.dport <= ports[3]
    )


def random_frame(rng: random.Random) -> Frame:
    src = rng.choice(ADDRESSES)
    dst = rng.choice([it for it in ADDRESSES if (":" in it) == (":" in src)])
    proto = rng.choice((6, 17, 58 if ":" in src else 1))
    ports = [rng.randint(1, 7) if proto in (6, 17) else 0 for _ in range(2)]
    return Frame(1, src, dst, proto, *ports, rng.choice((0, 46)))


def asked(frame: Frame) -> FrameColumns:
    """The frame in the form that `hinge packets` compares with rules."""
    ends = [int(it) | (MAPPED if it.version == 4 else 0) for it in map(ipaddress.ip_address, (frame.src, frame.dst))]
    return FrameColumns(lambda: ends, [0], [1], [frame.proto], [frame.sport], [frame.dport], [frame.dscp])


class Rules(unittest.TestCase):
    def test_a_live_link_and_a_capture_mean_the_same(self) -> None:
        rng, met = random.Random(3), 0
        for _ in range(3000):
            kinds = rng.sample(list(CHOICES), rng.randint(0, 3))
            text = " ".join([*(rng.choice(CHOICES[kind]) for kind in kinds), "=> queue 7"])
            live = WayRule(text)
            of_capture = read_rule(text)
            frame = random_frame(rng)
            way = rng.randint(0, 1)
            self.assertEqual((live.way, of_capture.target), (of_capture.way, ("queue", 7)))
            lines = live.lines(way if live.way is None else live.way)
            there = any(fits(line, frame, way) for line in lines)
            here = of_capture.way in (None, way) and all(test(asked(frame)) == [True] for test in of_capture.tests)
            self.assertEqual(there, here, (text, frame, way))
            met += here
        self.assertGreater(met, 300)

    def test_what_is_wrong_is_the_same_in_both(self) -> None:
        for text, told in WRONG:
            with self.subTest(text):
                with self.assertRaises(BadRule) as of_capture:
                    read_rule(text)
                with self.assertRaises(Wrong) as live:
                    WayRule(text)
                self.assertTrue(str(of_capture.exception).startswith(told), of_capture.exception)
                self.assertEqual(str(live.exception), f"--map {text}: {of_capture.exception}")

    def test_directions_are_by_the_sender(self) -> None:
        """`up` is from the sender; what no rule matches goes by direction."""
        targets = Targets([read_rule("up udp => queue 1"), read_rule("down => pipe 9")], directions("10.0.0.1"))
        sent = [Frame(1, *ends, proto, 5, 5, 0) for ends in (ADDRESSES[:2], ADDRESSES[1::-1]) for proto in (17, 6)]
        found = [targets.of(asked(frame))[0] for frame in sent]
        self.assertEqual(found, [direction_of("queue", 1), 1, 9, 9])
        self.assertEqual(UP, 0)
        self.assertRaisesRegex(BadRule, "by --from", Targets, [read_rule("up => pipe 1")], [])
