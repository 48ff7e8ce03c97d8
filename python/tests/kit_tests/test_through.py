"""Captures as the far end sees them. Frames are joined by no count but the kit's own: what another program counts otherwise maps no
frame wrongly."""

import os
import re
import shlex
import struct
import subprocess
import unittest
from pathlib import Path

from captures import block, ethernet, ip4, odd_ethernet
from hinge.captures.capture_file import capture_file
from hinge.program import HINGE
from kit import MIXED, folder, needs_tshark, replay, rows_of, run, write

Frames = list[tuple[int, int, bytes]]


def frames_of(path: Path) -> Frames:
    """Time, length and bytes of each frame."""
    with capture_file(str(path)) as capture:
        return [(record.time, record.length, capture.data[record.begin : record.end]) for record in capture.records]


def through(capture: Path, config: str, *words: object) -> tuple[Frames, list[dict[str, str]], list[int]]:
    """The frames that arrive, the report, and the frame of each row."""
    done = run("packets", capture, "-o", "t.csv", "--index", "t.index", *words)
    assert done.returncode == 0, done.stderr
    report = replay("t", write("t.config", config), folder() / "t.csv")
    done = run("look", "t.csv", report, "--capture", capture, "--index", "t.index", "-o", "through.pcap")
    assert done.returncode == 0, done.stderr
    return frames_of(folder() / "through.pcap"), rows_of(report), [int(row["frame"]) for row in rows_of(folder() / "t.index")]


@needs_tshark
class Through(unittest.TestCase):
    def test_a_link_without_limits_changes_nothing(self) -> None:
        odd_ethernet(folder() / "odd.pcap")
        for capture in (MIXED, folder() / "odd.pcap"):
            arrived, _, index = through(capture, "pipe 1 config\n")
            sent = frames_of(capture)
            assert arrived == [sent[frame - 1] for frame in index]
            assert len(arrived) > 9

    def test_frames_arrive_when_they_leave_the_link(self) -> None:
        arrived, report, index = through(MIXED, "pipe 1 config bw 5Mbit/s delay 30 queue 20\n")
        sent = frames_of(MIXED)
        began = sent[index[0] - 1][0]
        due = {int(line["row"]): int(line["due"]) for line in report if line["event"] == "out"}
        expected = [
            (began + due[row], *sent[index[row - 1] - 1][1:]) for row in sorted(due, key=lambda row: (due[row], index[row - 1]))
        ]
        assert arrived == expected
        assert len(arrived) < len(sent) - 100

    def test_why_comments_each_frame_for_wireshark(self) -> None:
        """tshark finds the frames that the report has as dropped, and a comment is the paragraph of `hinge why`."""
        config = write("why.config", "pipe 1 config bw 5Mbit/s queue 20\npipe 2 config\n")
        assert run("packets", MIXED, "-o", "why.csv", "--index", "why.index", "--mtu", 1500, "--from", "10.9.0.1").returncode == 0
        report = replay("why", config, folder() / "why.csv")
        done = run("look", "why.csv", report, "--capture", MIXED, "--index", "why.index", "--config", config, "-o", "why.pcapng")
        assert done.returncode == 0, done.stderr
        index = [int(row["frame"]) for row in rows_of(folder() / "why.index")]
        first = {frame: row for row, frame in reversed(list(enumerate(index, 1)))}
        dropped = {
            index[int(row["row"]) - 1]
            for row in rows_of(report)
            if row["event"] == "full" and index.count(index[int(row["row"]) - 1]) == 1
        }
        fields = shlex.split("-Y 'frame.comment contains \"dropped\"' -T fields -e frame.number -e frame.comment")
        asked = ["tshark", "-r", folder() / "why.pcapng", *fields]
        found = dict(line.split("\t", 1) for line in subprocess.run(asked, capture_output=True, text=True).stdout.splitlines())
        assert len(dropped) > 10
        assert {str(frame) for frame in dropped} <= set(found)
        one = min(dropped)
        assert found[str(one)] == run("why", first[one], config, "why.csv", report).stdout.strip()
        assert [it[2] for it in frames_of(folder() / "why.pcapng")] == [it[2] for it in frames_of(MIXED)]

    def test_a_split_frame_arrives_with_its_last_packet_or_not_at_all(self) -> None:
        arrived, report, index = through(MIXED, "pipe 1 config bw 5Mbit/s queue 20\n", "--mtu", 1500)
        sent, due, gone = frames_of(MIXED), {}, set()
        for line in report:
            frame = index[int(line["row"]) - 1]
            if line["event"] == "out":
                due[frame] = max(due.get(frame, 0), int(line["due"]))
            else:
                gone.add(frame)
        began = sent[index[0] - 1][0]
        whole = sorted((moment, frame) for frame, moment in due.items() if frame not in gone)
        assert arrived == [(began + moment, *sent[frame - 1][1:]) for moment, frame in whole]
        assert gone & set(due), "some frame lost a part"

    def test_a_cut_header_is_told_of_the_capture(self) -> None:
        through(MIXED, "pipe 1 config\n")
        (folder() / "header.pcap").write_bytes(MIXED.read_bytes()[:10])
        done = run("look", "t.csv", "t.report", "--capture", "header.pcap", "--index", "t.index", "-o", "x.pcap")
        assert done.returncode == 4
        assert "hinge look: header.pcap: " in done.stderr
        assert "cut short" in done.stderr

    def test_an_index_of_other_packets_is_noticed(self) -> None:
        through(MIXED, "pipe 1 config\n")
        index = (folder() / "t.index").read_text().splitlines()
        write("other.index", "\n".join(index[:-1]) + "\n")
        done = run("look", "t.csv", "t.report", "--capture", MIXED, "--index", "other.index", "-o", "x.pcap")
        assert done.returncode == 4
        assert "aren't those of" in done.stderr


PORTS = re.compile(rb"(?s)\0\x09(..)\0\x0c\0\0data")
MAP = ("--map", "udp dport 8000 => pipe 2", "--map", "=> pipe 1")


def frame(port: int, at: int) -> bytes:
    data = ethernet(0x0800, ip4("10.0.0.1", "10.0.0.2", 17, struct.pack("!HHHH", 9, port, 12, 0) + b"data"))
    return block(6, struct.pack("<IIIII", 0, 0, at, len(data), len(data)) + data)


SECTION = block(0x0A0D0D0A, struct.pack("<IHHq", 0x1A2B3C4D, 1, 0, -1)) + block(1, struct.pack("<HHI", 1, 0, 0))
FRAMES = [frame(7000 + 1000 * (place % 2), place) for place in range(6)]
OTHERS = {  # which some programs count as frames
    "custom": block(0xBAD, struct.pack("<I", 32473) + b"note"),
    "custom, not copied": block(0x40000BAD, struct.pack("<I", 32473) + b"note"),
    "journal": block(9, b"__REALTIME_TIMESTAMP=1\nMESSAGE=x\n"),
    "statistics": block(5, bytes(12)),
    "unknown": block(0x777, b"note"),
}


@needs_tshark
class OfCounts(unittest.TestCase):
    def look(self, capture: Path) -> list[object]:
        """What writes the frames that arrive."""
        packets, index = folder() / "t.csv", folder() / "t.index"
        assert run("packets", capture, "-o", packets, "--index", index).returncode == 0
        report = replay("t", write("t.config", "pipe 1 config\n"), packets)
        return ["look", packets, report, "--capture", capture, "--index", index, "-o", folder() / "through.pcap"]

    def test_other_blocks_move_no_frame(self) -> None:
        capture = folder() / "blocks.pcapng"
        for name, other in OTHERS.items():
            capture.write_bytes(SECTION + b"".join(other + one for one in FRAMES) + other)
            done = run("packets", capture, *MAP)
            pipes = [row.split(",")[2] for row in done.stdout.splitlines()[1:]]
            assert (done.returncode, pipes) == (0, ["1", "2"] * 3), (name, done.stderr)
            done = run(*self.look(capture))
            assert done.returncode == 0, (name, done.stderr)
            assert PORTS.findall((folder() / "through.pcap").read_bytes()) == [b"\x1b\x58", b"\x1f\x40"] * 3, name

    def test_a_cut_capture_is_counted_as_far_as_it_goes(self) -> None:
        capture = folder() / "cut.pcapng"
        data = SECTION + b"".join([*FRAMES[:2], OTHERS["custom"], FRAMES[2], FRAMES[3][:-5]])
        capture.write_bytes(data)
        done = run("packets", capture, *MAP)
        assert (done.returncode, [row.split(",")[2] for row in done.stdout.splitlines()[1:]]) == (0, ["1", "2", "1"]), done

    def test_another_count_is_refused(self) -> None:
        """editcap writes one frame more, or one less, than there are."""
        (place := folder() / "counts").mkdir()
        (capture := place / "capture").write_bytes(SECTION + b"".join(FRAMES))
        env = {**os.environ, "PATH": f"{place}:{os.environ['PATH']}"}
        for count in (5, 7):
            (program := place / "editcap").write_text(f'#!/bin/sh\nhead -c {24 + 16 * count} /dev/zero >"$4"\n')  # empty frames
            program.chmod(0o755)
            done = subprocess.run([*HINGE, *map(str, self.look(capture))], env=env, capture_output=True, text=True)
            assert (done.returncode, f"it has 6 frames, and editcap writes {count}" in done.stderr) == (4, True), done.stderr
