"""The bound on delay next to the greatest delay of a run, as `hinge look` has both. The figures are made by hand."""

import json
import unittest
from typing import Optional

from hinge.pictures.drawing import Line, Panel
from hinge.pictures.drawn import series_of
from hinge.pictures.panels import Panels
from hinge.replays.history import read_history_source
from kit import folder, live, recorded, run, write

HEAD = "moment,target,number,src,dst,proto,sport,dport,len,word"


def packet(length: int, moment: int = 0, target: str = "pipe,1") -> str:
    return f"{moment},{target},10.0.0.1,10.0.0.2,17,1,2,{length},0"


def history(config: str, packets: list[str]) -> str:
    """The history of a replay, by its name."""
    rows = write("bounds.csv", "\n".join([HEAD, *packets, ""]))
    return recorded("bounds", write("bounds.config", config + "\n"), rows)


def written(lines: list[str]) -> str:
    """The transcript of a session, by its name."""
    return str(write("live.history", live(lines)))


def pipes(path: str) -> Optional[list[dict[str, Optional[int]]]]:
    done = run("look", path, "--json", "bounds.json")
    assert done.returncode == 0, done.stderr
    found: Optional[list[dict[str, Optional[int]]]] = json.loads((folder() / "bounds.json").read_text())["pipes"]
    return found


def delays(path: str) -> Panel:
    """The panel of the delays."""
    panel = Panels(series_of([read_history_source(path)], "tuple", None, None)[0]).delays()
    assert panel is not None
    return panel


def bound_lines(panel: Panel) -> list[Line]:
    return [item for item in panel.items if isinstance(item, Line) and item.name.startswith("bound")]


def figures(pipe: int, longest: int, *ns: Optional[int]) -> dict[str, Optional[int]]:
    return dict(
        zip(("pipe", "longest_bytes", "max_wait_ns", "wait_bound_ns", "max_delay_ns", "delay_bound_ns"), (pipe, longest, *ns))
    )


FULL = "pipe 1 config bw 1Mbit/s delay 20", [packet(1500)] * 60


class Bounds(unittest.TestCase):
    def test_a_full_queue_of_slots_reaches_both(self) -> None:
        """Fifty packets of 12 ms before the last one, its own 12 ms, and 20 ms."""
        ms = 10**6
        assert pipes(history(*FULL)) == [figures(1, 1500, 600 * ms, 600 * ms, 632 * ms, 632 * ms)]

    def test_the_bound_is_of_the_longest_packet_that_was_accepted(self) -> None:
        """Room for two: the third waits for 1,000 and 500 bytes at 8 Mbit/s. The fourth, of 1,400, is refused."""
        rows = [packet(1000), packet(500), packet(250), packet(1400)]
        found = pipes(history("pipe 1 config bw 8Mbit/s delay 5 queue 2", rows))
        assert found == [figures(1, 1000, 1_500_000, 2_000_000, 6_750_000, 8_000_000)]

    def test_kbytes_and_a_link_without_a_bandwidth(self) -> None:
        """1,024 bytes at 8 Mbit/s take 1,024,000 ns, and 1,024 are for rounding. The second packet waits 0.5 ms."""
        lines = "pipe 1 config bw 8Mbit/s queue 1Kbytes\npipe 2 config delay 3"
        found = pipes(history(lines, [packet(500), packet(500), packet(40, 5, "pipe,2")]))
        assert found == [figures(1, 500, 500_000, 1_525_024, 1_000_000, 2_025_024), figures(2, 40, 0, 0, 3_000_000, 3_000_000)]

    def test_pipes_without_a_bound(self) -> None:
        """A queue names the first, the second got no packet, and the third lost its packet."""
        lines = "pipe 1 config bw 8Mbit/s\nqueue 1 config pipe 1\npipe 2 config\npipe 3 config plr 1"
        path = history(lines, [packet(500, 0, "queue,1"), packet(500, 0, "pipe,3")])
        assert pipes(path) == []
        assert "bound" not in run("look", path).stdout
        assert bound_lines(delays(path)) == []

    def test_packets_that_are_still_held(self) -> None:
        path = written(["pipe 1 config bw 8Mbit/s queue 1", f"c,0,submit,{packet(1000).removeprefix('0,')},7"])
        assert pipes(path) == [figures(1, 1000, None, 1_000_000, None, 2_000_000)]
        assert run("look", path).stdout.splitlines()[-1].split() == ["1", "1,000", "-", "1.000", "-", "2.000"]

    def test_a_link_that_was_changed_has_none(self) -> None:
        path = written(
            [
                "pipe 1 config bw 8Mbit/s",
                f"c,0,submit,{packet(1000).removeprefix('0,')},0",
                "pipe 1 config bw 4Mbit/s",
                "c,0,collect,5000000",
            ]
        )
        assert pipes(path) is None
        assert "bound" not in run("look", path).stdout
        assert bound_lines(delays(path)) == []

    def test_the_table_of_look(self) -> None:
        path = history(*FULL)
        assert run("look", path).stdout.split("\n\n")[-1] == (
            """\
pipe  longest  max wait  wait bound  max delay  delay bound
        bytes        ms          ms         ms           ms
1       1,500   600.000     600.000    632.000      632.000
"""
        )
        assert "bound" not in run("look", path, "--csv").stdout

    def test_the_line_of_a_picture(self) -> None:
        [line] = bound_lines(delays(history(*FULL)))
        assert (line.name, line.x.tolist(), line.y.tolist()) == ("bound on the delay of pipe 1: 632 ms", [0, 0.632], [632, 632])

    def test_a_bound_far_above_the_delays_is_a_note(self) -> None:
        """One packet takes 32 ms, and 632 ms are more than twice that."""
        panel = delays(history(FULL[0], [packet(1500)]))
        assert bound_lines(panel) == []
        assert panel.notes == ["bound on the delay of pipe 1: 632 ms; the greatest is 32 ms"]

    def test_a_bound_is_far_above_by_its_own_pipe(self) -> None:
        """The delays of the first pipe reach 632 ms, and the one packet of the second takes 32 ms."""
        both = f"{FULL[0]}\npipe 2 config bw 1Mbit/s delay 20"
        panel = delays(history(both, [*FULL[1], packet(1500, 0, "pipe,2")]))
        assert [line.name for line in bound_lines(panel)] == ["bound on the delay of pipe 1: 632 ms"]
        assert panel.notes == ["bound on the delay of pipe 2: 632 ms; the greatest is 32 ms"]
