"""Jitter and duplicates: a second pass through a pipe with a drawn delay, and a second submission."""

import shutil
import tempfile
import unittest
from pathlib import Path
from typing import Sequence

import pytest

from linked import SEEDS, Ended, Linked, found, hinge, ip4, needs, needs_host, needs_rooms, run, until
from test_net import InAFolder

from hinge.captures.random_words import word
from hinge.command_line import Parser
from hinge.run.options import add_link, add_run
from hinge.run.plan_of_options import plan_of
from hinge.run.page import WayCounts
from hinge.run.settings import LiveOptions
from hinge.run.words import Wrong, read_link_words
from hingetulip_words.link import CERTAIN, Extra, Place

OF_JITTER, OF_COPIES, OF_CORRUPTION, OF_BITS = (
    number << 20 for number in range(1, 5)
)  # the streams of random words, as passes.c has them
COUNT, FIRST, STEP = 40, 60000, 60  # packets; the first second pipe; ms between their delays
PIPES = "".join(f"line pipe {FIRST + place} config delay {STEP * place}\n" for place in range(5))


def plan_words(*words: str) -> list[str]:
    """Returns the lines of the plan for these options."""
    parser = Parser()
    add_link(parser), add_run(parser)
    options = LiveOptions(**vars(parser.parse_args(words)), more_files=())
    return plan_of(options, 1500).text(options.seed or 0).splitlines()


def udp(number: int) -> bytes:
    return ip4("10.8.0.1", "10.8.0.2", 17, 1, number, 100)


@needs_host
class OfPasses(unittest.TestCase):
    def sent(self, plan: str, wanted: Sequence[int]) -> tuple[Ended, WayCounts]:
        """Returns a host's result and its upward counts for COUNT packets, if these packets arrive in this order."""
        link = Linked(SEEDS + plan)
        for number in range(COUNT):
            link.near.send(udp(number))
        assert [link.far.recv(1000) for _ in wanted] == [udp(number) for number in wanted]
        ended = link.end()
        return ended, ended.counts.ways[0]

    def test_a_second_pass_is_drawn_for_each(self) -> None:
        drawn = [word(7, number, 1 + OF_JITTER) % 5 for number in range(1, COUNT + 1)]
        plan = f"line pipe 1 config delay 3\n{PIPES}jitter 0 {FIRST} 5 7\n"
        ended, way = self.sent(plan, sorted(range(COUNT), key=lambda number: drawn[number]))
        assert found(r"^c,0,submit,pipe,(6\d{4}),10.8.0.1,10.8.0.2,17,1,(\d+),100,2147483647,", ended.history) == [
            (str(FIRST + place), str(number)) for number, place in enumerate(drawn)
        ]
        assert (way["came"], way["sent"], way["held"], way.underway) == (COUNT, COUNT, 0, 0)

    def test_faults_are_of_packets_by_their_numbers(self) -> None:
        """The first packet arrives twice and counts once, the second is lost, and the fourth and the fifth are late."""
        faults = f"list 0 2 7\nfault 0 1 1 1\nfault 0 1 7 1\nfault 0 2 4 {FIRST + 2}\nfault 0 2 5 {FIRST + 1}\n"
        plan = f"line pipe 1 config delay 3 plr 0.5\n{PIPES}jitter 0 {FIRST} 1 7\n{faults}"
        _, way = self.sent(plan, [0, 0, 2, 5, 6, *range(7, COUNT), 4, 3])
        assert (way["came"], way["lost"], way["sent"], way.underway) == (COUNT + 2, 2, COUNT, 0)

    def test_a_way_without_jitter_has_one_pass(self) -> None:
        link = Linked(f"{SEEDS}line pipe 2 config\nline pipe {FIRST} config\njitter 0 {FIRST} 1 7\n")
        link.far.send(udp(1))
        assert link.near.recv(1000) == udp(1)
        assert found("^c,0,submit,pipe,(\\d+),", link.end().history) == ["2"]

    def test_a_copy_is_a_second_submit(self) -> None:
        wanted = [number for number in range(COUNT) for _ in range(1 + (word(9, number + 1, 1 + OF_COPIES) < CERTAIN // 4))]
        assert COUNT < len(wanted) < 2 * COUNT
        _, way = self.sent(f"line pipe 1 config delay 3\nduplicate 0 {CERTAIN // 4} 9\n", wanted)
        assert (way["came"], way["came_bytes"], way["sent"], way.underway) == (len(wanted), 100 * len(wanted), len(wanted), 0)

    def test_copies_draw_losses_of_their_own(self) -> None:
        link = Linked(f"{SEEDS}line pipe 1 config plr 0.5\nduplicate 0 {CERTAIN} 9\n")
        for number in range(COUNT):
            link.near.send(udp(number))
        until(lambda: link.came() == 2 * COUNT)
        words = found(r"^c,0,submit,pipe,1,.*,(\d+),\d+$", link.end().history)
        assert words == [str(word(1, number)) for number in range(1, 2 * COUNT + 1)]

    def test_a_bit_is_flipped_behind_the_last_pass(self) -> None:
        """The fault counts packets that leave, and skips a packet without a byte behind its header."""
        link = Linked(f"{SEEDS}line pipe 1 config\nline pipe {FIRST} config\njitter 0 {FIRST} 1 7\ncorrupt 0 {CERTAIN // 4} 7\n")
        wanted, got = [udp(0)[:20]], list[bytes]()
        for number in range(1, COUNT):
            packet = bytearray(udp(number))
            bit = word(7, number + 1, 1 + OF_BITS) % 640
            packet[-1 - bit // 8] ^= (word(7, number + 1, 1 + OF_CORRUPTION) < CERTAIN // 4) << bit % 8
            wanted.append(bytes(packet))
        for number in range(COUNT):
            link.near.send(udp(number)[: 20 if number == 0 else 100])
            got.append(link.far.recv(1000))
        assert got == wanted
        flipped = sum(one != udp(number) for number, one in enumerate(wanted[1:], 1))
        ended = link.end()
        assert ended.counts.ways[0]["corrupted"] == flipped > 0
        assert len(found(r"^#,corrupt,\d+,\d+,640,", ended.history)) == flipped

    def test_a_second_pipe_that_was_deleted(self) -> None:
        link = Linked(
            f"{SEEDS}line pipe 1 config delay 20\nline pipe {FIRST} config\njitter 0 {FIRST} 1 7\nat 0 pipe delete {FIRST}\n"
        )
        link.near.send(udp(1))
        until(lambda: link.page.read().ways[0]["no_target"] == 1)
        ended = link.end()
        assert (ended.counts.ways[0].underway, ended.counts.ways[0]["held"]) == (0, 0)


class OfWords(unittest.TestCase):
    def test_they_are_parted_from_the_others(self) -> None:
        for text, line, extra in (
            ("10Mbit/s jitter 5ms 20ms duplicate 0.5%", "pipe 1 config bw 10Mbit/s delay 20ms", Extra(5, round(CERTAIN / 200))),
            ("jitter 1ms", "pipe 1 config", Extra(1)),
            ("jitter 1000ms duplicate 100%", "pipe 1 config", Extra(1000, CERTAIN)),
            ("", "pipe 1 config", Extra()),
            ("duplicate 100%", "pipe 1 config", Extra(0, CERTAIN)),
            ("corrupt 25%", "pipe 1 config", Extra(0, 0, CERTAIN // 4)),
        ):
            link = read_link_words(text, "x", Place.KERNELS)
            assert (link.line(1), link.extra) == (line, extra)

    def test_a_plan_has_a_pipe_for_each_delay(self) -> None:
        told = plan_words("--up", "20ms jitter 2ms", "--down", "jitter 1ms duplicate 50%", "--seed", "7")
        assert [line for line in told if line.startswith("line")] == [
            "line pipe 1 config delay 20ms",
            "line pipe 2 config",
            "line pipe 65533 config",
            "line pipe 65534 config delay 1",
            "line pipe 65535 config delay 2",
            "line pipe 65531 config",
            "line pipe 65532 config delay 1",
        ]
        assert [line for line in told if line.startswith(("jitter", "duplicate"))] == [
            "jitter 0 65533 3 7",
            "jitter 1 65531 2 7",
            f"duplicate 1 {CERTAIN // 2} 7",
        ]
        with pytest.raises(Wrong, match="^pipe 65535 is needed for jitter or late packets, and is another's"):
            plan_words("--up", "jitter 2ms", "--line", "pipe 65535 config")

    def test_a_plan_of_faults_has_no_other_losses(self) -> None:
        path = Path(tempfile.mkdtemp()) / "faults"
        self.addCleanup(shutil.rmtree, path.parent)
        path.write_text("client > server packet 4 late 9ms\nclient > server packet 3 lost\nserver > client packet 1 twice\n")
        told = plan_words("--up", "jitter 1ms", "--faults", str(path), "--seed", "7")
        wanted = [
            "line pipe 65533 config delay 9",
            "list 0 3",
            "fault 0 2 4 65533",
            "list 1 ",
            "fault 1 1 1 1",
            "jitter 0 65534 2 7",
        ]
        assert [line for line in wanted if line not in told] == []
        path.write_text("at 1.5s cut server > client 2s\nat 4s hold client > server 500ms\n")
        told = plan_words("--up", "20ms", "--faults", str(path))
        wanted = ["at 1500000000 cut 2 1", "at 3500000000 open 2 1", "hold 1 4000000000 4500000000"]
        assert [line for line in wanted if line not in told] == []
        path.write_text("at 1s hold server 1s\n")
        with pytest.raises(Wrong, match="no cut or hold of a link; write `at 1s cut client > server 2s` or `hold`$"):
            plan_words("--faults", str(path))
        path.write_text("a > b packet 3 lost\n")
        with pytest.raises(Wrong, match="'a > b packet 3 lost': no such link; write client > server or server > client$"):
            plan_words("--faults", str(path))


@needs_rooms
@needs("ping")
class OfRuns(InAFolder):
    def test_a_net_is_lawful_between_links_too(self) -> None:
        done = self.net(
            "host a\nrouter r\nmain b ping -c 100 -i 0.002 -W 5 -q a; ping -c 10 -i 0.01 -q ip6-a\nlink a r 2ms"
            " jitter 4ms\nlink r b duplicate 20% / jitter 3ms\n",
            "--seed",
            "1",
        )
        assert (done.returncode, "100 received, +" in done.stdout) == (0, True), done.stdout + done.stderr
        assert found("^#,(?:pipe|copies),(.*)$", self.history()) == [
            "1,a,a~r",
            *(f"{pipe},a~r,r" for pipe in range(65531, 65536)),
            "2,r,r~a",
            *(f"{pipe},r~a,a" for pipe in range(65526, 65531)),
            "3,r,b",
            "3",
            "4,b,b~r",
            *(f"{pipe},b~r,r" for pipe in range(65522, 65526)),
        ]
        paths = hinge("look", self.folder / "out")
        if paths.returncode == 7:
            pytest.skip("no numpy")
        assert paths.stdout.splitlines()[-1] == "lawful between links", paths.stdout
        assert "a - a~r - r - b: " in paths.stdout

    def test_second_passes_have_no_part_in_a_caution(self) -> None:
        done = run("--up", "500ms jitter 1ms", "--", "ping", "-c", "1", "-q", "server")
        limits = found("--late (.*)ms makes", done.stderr)  # one only where this machine was late
        assert set(limits) <= {"50"}, done.stderr
