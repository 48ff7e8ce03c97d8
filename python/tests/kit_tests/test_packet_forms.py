"""`hinge packets` over captures of every form and of every kind of link."""

import contextlib
import gzip
import io
import os
import struct
import subprocess
import unittest
from pathlib import Path

from captures import nested, odd_ethernet, other_links, without_times, write
from kit import MIXED, folder, needs_tshark, rows_of, run
from random_frames import Frames
from tshark_frames import frames_by_kit, frames_by_tshark

from hinge.command import Fault


def edited(name: str, capture: Path, *words: str) -> Path:
    """What editcap makes of a capture."""
    subprocess.run(["editcap", *words, str(capture), str(folder() / name)], check=True, capture_output=True)
    return folder() / name


def every_capture() -> list[Path]:
    """Those that the tests write, mixed.pcap, and some of them in other forms."""
    odd_ethernet(folder() / "odd.pcap")
    other_links(folder())
    several = nested(folder())
    raw = (folder() / "raw.pcap").read_bytes()
    half = folder() / "half.pcap"
    swapped = folder() / "swapped.pcap"
    twice = folder() / "twice.pcapng"
    half.write_bytes(MIXED.read_bytes()[:50_000])
    packet = raw[40 : 40 + int.from_bytes(raw[32:36], "little")]
    # in microseconds
    fields = [0xA1B2C3D4, 0x2_0004, 0, 0, 65535, 101, 1_700_000_000, 123_456, len(packet), len(packet)]
    swapped.write_bytes(b"".join(field.to_bytes(4, "big") for field in fields) + packet)
    sections = [edited("a.pcapng", folder() / "odd.pcap", "-F", "pcapng"), folder() / "other.pcapng"]
    twice.write_bytes(b"".join(section.read_bytes() for section in sections))
    (folder() / "mixed.pcap.gz").write_bytes(gzip.compress(MIXED.read_bytes(), 1))
    cut = [
        edited(f"{size}.{capture.name}", capture, "-s", str(size), "-F", "pcap")
        for size in (40, 56, 66)
        for capture in (folder() / "odd.pcap", several[0])
    ]
    others = [folder() / name for name in ("odd.pcap", "other.pcapng", "mixed.pcap.gz")]
    return [MIXED, *others, *several, half, swapped, twice, *cut]


@needs_tshark
class Reader(unittest.TestCase):
    """The frames that the kit reads are those that tshark finds."""

    def test_the_captures_of_the_tests(self) -> None:
        for capture in every_capture():
            with self.subTest(capture=capture.name):
                self.assertEqual(list(frames_by_kit(str(capture))), list(frames_by_tshark(str(capture))))

    def test_every_link_that_is_known_is_tried(self) -> None:
        write(folder() / "other.pcap", 147, [(0, bytes(60))])
        known = run("packets", "other.pcap").stderr.rpartition(": ")[2]
        self.assertEqual(sorted(Frames(1).links), [int(link) for link in known.split(", ")])


class Hostile(unittest.TestCase):
    """Captures that others wrote."""

    def made(self, name: str, data: bytes) -> Path:
        (folder() / name).write_bytes(data)
        return folder() / name

    def test_a_segment_that_no_card_sends(self) -> None:
        packet = bytes.fromhex("4500000000000000401100000a0000010a0000020001000200080000")
        head = struct.pack("<IHHIIII", 0xA1B2C3D4, 2, 4, 0, 0, 65535, 12)
        for length, rows in ((524_280, 357), (524_281, 0), (2**32 - 1, 0)):
            capture = self.made("s.pcap", head + struct.pack("<IIII", 0, 0, len(packet), length) + packet)
            for options in ([], ["--mtu", 1500]):
                done = run("packets", capture, "-o", "s.csv", *options)
                self.assertEqual(done.returncode, 0 if rows else 4, done.stderr)
                self.assertEqual("a card is given at most 524,280 to cut" in done.stderr, not rows)
        self.assertEqual(len(rows_of(folder() / "s.csv")), 357)

    def test_damaged_and_endless_archives(self) -> None:
        whole = gzip.compress(MIXED.read_bytes()[:20_000], mtime=0)
        for at in [*range(20), *range(20, len(whole), len(whole) // 40)]:
            capture = self.made("d.pcap.gz", whole[:at] + bytes([whole[at] ^ 4]) + whole[at + 1 :])
            with contextlib.redirect_stderr(io.StringIO()), contextlib.suppress(Fault):
                list(frames_by_kit(str(capture)))
        head = struct.pack("<IHHIIII", 0xA1B2C3D4, 2, 4, 0, 0, 65535, 12)
        bomb = gzip.compress(head + (struct.pack("<IIII", 0, 0, 1 << 20, 0) + bytes(1 << 20)) * 80)
        self.assertLess(len(bomb), 1 << 18)
        done = run("packets", self.made("b.pcap.gz", bomb))
        self.assertEqual((done.returncode, "unpacks to more than 100 times its length" in done.stderr), (4, True))

    def test_a_named_pipe(self) -> None:
        pipe = folder() / "pipe"
        pipe.unlink(missing_ok=True)
        os.mkfifo(pipe)
        with subprocess.Popen(["sh", "-c", 'exec cat "$1" > "$2"', "sh", str(MIXED), str(pipe)]) as writer:
            done = run("packets", pipe, timeout=60)
            writer.kill()
        self.assertEqual((done.returncode, done.stdout), (0, run("packets", MIXED).stdout), done.stderr)

    def test_a_program_that_is_killed_or_cannot_write(self) -> None:
        killed = self.made("killed", b"#!/bin/sh\nkill -SEGV $$\n")
        killed.chmod(0o755)
        for env, words, status, line in (
            ({"HINGE_PACKETS": str(killed)}, (), 6, "hinge-packets was ended by SIGSEGV"),
            ({}, ("-o", "/dev/full"), 6, "No space left on device"),
        ):
            done = run("packets", MIXED, *words, env={**os.environ, **env})
            self.assertEqual((done.returncode, line in done.stderr), (status, True), done.stderr)


def test_no_other_program_is_needed() -> None:
    """Captures are read without any other program."""
    odd_ethernet(folder() / "odd.pcap")
    alone = {**os.environ, "PATH": ""}
    done = run("packets", "odd.pcap", "-o", "alone.csv", env=alone)
    assert done.returncode == 0, done.stderr
    assert len(rows_of(folder() / "alone.csv")) == 12
    (folder() / "text.pcap").write_text("no capture")
    write(folder() / "other.pcap", 147, [(0, bytes(60))])
    without_times(folder() / "timeless.pcapng")
    for words, status, line in (
        ([MIXED, "--map", "tcp.flags.syn == 1 => pipe 9"], 2, "'tcp.flags.syn': not a word of a rule; write "),
        (["text.pcap"], 4, "neither pcap nor pcapng"),
        (["other.pcap"], 4, "frame 1 has the link type 147, and none is known of these: 0, 1, 9"),
        (["timeless.pcapng"], 4, "frame 1 of the capture has no time"),
        (["missing.pcap"], 6, "missing.pcap"),
    ):
        done = run("packets", *words, env=alone)
        assert done.returncode == status, done.stderr
        assert line in done.stderr.splitlines()[-1]
        assert "Traceback" not in done.stderr
