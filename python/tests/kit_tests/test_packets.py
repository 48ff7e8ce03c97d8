"""Packet files from captures, against the packets that were written, and against what tshark finds."""

import re
import shlex
import subprocess
import unittest
from pathlib import Path

from captures import ETHERNET, Expected, ethernet, ip4, ip6, odd_ethernet, other_links, tcp, timed_in_ns, udp, without_times, write
from kit import MIXED, folder, needs_tshark, rows_of, run


def expected_of(rows: list[dict[str, str]]) -> list[Expected]:
    names = ("proto", "sport", "dport", "len")
    return [Expected(int(row["moment"]), row["src"], row["dst"], *(int(row[name]) for name in names)) for row in rows]


def packets_of(capture: Path, *words: object) -> list[dict[str, str]]:
    done = run("packets", capture, "-o", "packets.csv", *words)
    assert done.returncode == 0, done.stderr
    return rows_of(folder() / "packets.csv")


def packets_of_file(name: str) -> list[str]:
    """The moments of a packet file."""
    return [row["moment"] for row in rows_of(folder() / name)]


def tshark_totals(capture: Path) -> tuple[int, int]:
    """The count of IP packets and the sum of their lengths, as tshark's statistics have them."""
    fields = [f"{what}({field}){field}" for field in ("ip.len", "ipv6.plen") for what in ("COUNT", "SUM")]
    words = ["tshark", "-n", "-o", "ip.defragment:FALSE", "-r", str(capture), "-q", "-z", f"io,stat,0,{','.join(fields)}"]
    table = subprocess.run(words, capture_output=True, text=True, check=True).stdout
    line = next(line for line in table.splitlines() if "<>" in line and re.search(r"\d", line))
    four, four_bytes, six, six_bytes = (int(cell) for cell in re.findall(r"\d+", line.split("|", 2)[2]))
    return four + six, four_bytes + six_bytes + 40 * six


@needs_tshark
class Packets(unittest.TestCase):
    def test_a_real_capture_has_tsharks_counts_bytes_and_times(self) -> None:
        rows = packets_of(MIXED)
        self.assertEqual((len(rows), sum(int(row["len"]) for row in rows)), tshark_totals(MIXED))
        times = subprocess.run(
            ["tshark", "-n", "-r", str(MIXED), "-Y", "ip", "-T", "fields", "-e", "frame.time_epoch"],
            capture_output=True,
            text=True,
            check=True,
        ).stdout.split()
        whole = [int(time.replace(".", "")) for time in times]
        self.assertEqual([int(row["moment"]) for row in rows], [time - whole[0] for time in whole])

    def test_tags_pppoe_ipv6_fragments_and_offloaded_segments(self) -> None:
        expected = odd_ethernet(folder() / "odd.pcap")
        rows = packets_of(folder() / "odd.pcap")
        self.assertEqual(expected_of(rows), expected)
        # tshark's own counts have the packet of 28 bytes that an ICMP message quotes, and no payload of the two IPv6
        # segments of length 0
        count, total = tshark_totals(folder() / "odd.pcap")
        self.assertEqual((count, total), (len(rows) + 1, sum(row.length for row in expected) + 28 - 308 - 316))

    def test_interfaces_of_a_pcapng_and_other_links(self) -> None:
        expected = other_links(folder())
        rows = packets_of(folder() / "other.pcapng")
        self.assertEqual(expected_of(rows), expected)
        self.assertEqual(tshark_totals(folder() / "other.pcapng"), (3, 113))

    def test_what_is_no_capture(self) -> None:
        for text, told in (("", "an empty file, and no capture"), ("some text\n", "neither pcap nor pcapng; ")):
            (path := folder() / "none.pcap").write_text(text)
            done = run("packets", path)
            self.assertEqual((done.returncode, done.stdout, f"{path}: {told}" in done.stderr), (4, "", True), done.stderr)

    def test_cut_frames_keep_their_length(self) -> None:
        expected = odd_ethernet(folder() / "odd.pcap")
        subprocess.run(
            ["editcap", "-s", "66", "-F", "pcap", str(folder() / "odd.pcap"), str(folder() / "cut.pcap")],
            check=True,
            capture_output=True,
        )
        found = expected_of(packets_of(folder() / "cut.pcap"))
        self.assertEqual([row.length for row in found], [row.length for row in expected])
        self.assertTrue(all(row.moment % 1000 == 0 for row in found), "a capture in microseconds")

    def test_an_incomplete_last_frame_is_told(self) -> None:
        (folder() / "half.pcap").write_bytes(MIXED.read_bytes()[:50_000])
        done = run("packets", "half.pcap", "-o", "packets.csv")
        self.assertEqual(done.returncode, 0)
        self.assertIn("cut short", done.stderr)

    def test_segments_are_split_at_the_mtu(self) -> None:
        expected = odd_ethernet(folder() / "odd.pcap")
        rows = packets_of(folder() / "odd.pcap", "--mtu", 1500, "--l2", 22)
        self.assertEqual([int(row["len"]) for row in rows[:-3]], [row.length + 22 for row in expected[:-1]])
        self.assertEqual([int(row["len"]) for row in rows[-3:]], [1522, 1522, 4000 - 2 * 1460 + 40 + 22])

    def test_a_card_sends_the_packets_of_a_segment_one_after_the_other(self) -> None:
        """At 1 Gbit/s a packet of 1,500 bytes takes 12,304 ns, with the 38 that Ethernet adds; of two segments the
        later one waits."""
        segment = ethernet(0x0800, ip4("10.0.0.1", "10.0.0.2", 6, tcp(1, 2, 3000), length=0))
        ack = ethernet(0x0800, ip4("10.0.0.2", "10.0.0.1", 6, tcp(2, 1, 0)))
        write(folder() / "burst.pcap", ETHERNET, [(0, segment), (5_000, ack), (20_000, segment)])
        for rate in ("1Gbit/s", "125mbyte/s", "1000000000"):
            rows = packets_of(folder() / "burst.pcap", "--mtu", 1500, "--rate", rate, "--index", "burst.index")
            self.assertEqual(
                [(int(row["moment"]), int(row["len"])) for row in rows],
                [(0, 1500), (5_000, 40), (12_304, 1500), (24_608, 120), (25_872, 1500), (38_176, 1500), (50_480, 120)],
            )
        self.assertEqual([row["frame"] for row in rows_of(folder() / "burst.index")], ["1", "2", "1", "1", "3", "3", "3"])
        at_once = packets_of(folder() / "burst.pcap", "--mtu", 1500)
        self.assertEqual([row["moment"] for row in at_once], ["0", "0", "0", "5000", "20000", "20000", "20000"])

    def test_each_direction_has_a_pipe(self) -> None:
        for who in ("10.9.0.1", "10.9.0.0/31", "first"):
            rows = packets_of(MIXED, "--from", who)
            for row in rows:
                to = "1" if row["src"] == "10.9.0.1" else "2"
                self.assertEqual((row["target"], row["number"]), ("pipe", to))
            self.assertGreater(len(rows), 9000)

    def test_who_sends_first(self) -> None:
        """Of two hosts, the one whose packet comes first, in whatever order the frames stand."""
        sent = [
            (2, "10.0.0.2", "10.0.0.1"),
            (1, "10.0.0.1", "10.0.0.2"),
            (3, "2001:db8::2", "2001:db8::1"),
            (4, "2001:db8::1", "2001:db8::2"),
        ]
        kinds = [(0x86DD, ip6) if ":" in src else (0x0800, ip4) for _, src, _ in sent]
        frames_of_two = [
            (at, ethernet(kind, make(src, dst, 17, udp(1, 2, 3)))) for (at, src, dst), (kind, make) in zip(sent, kinds)
        ]
        write(folder() / "first.pcap", ETHERNET, frames_of_two)
        self.assertEqual([row["number"] for row in packets_of(folder() / "first.pcap", "--from", "first")], ["1", "2", "1", "2"])

    def test_directions_that_meet_in_a_pipe_are_told(self) -> None:
        told = "both directions of 10.9.0.1 and 10.9.0.2 go to "
        for words, targets in (
            ((), ["pipe 1"]),
            (("--from", "10.9.0.1"), []),
            (("--map", "udp => pipe 3", "--map", "=> queue 2"), ["pipe 3", "queue 2"]),
        ):
            done = run("packets", MIXED, "-o", "packets.csv", *words)
            found = [line.partition(told)[2].partition(",")[0] for line in done.stderr.splitlines() if told in line]
            self.assertEqual(sorted(found), targets)

    def test_no_moment_is_beyond_the_last(self) -> None:
        """A pcapng counts ns in 64 bits, and a packet file ends at 2^62."""
        frame = ethernet(0x0800, ip4("10.0.0.1", "10.0.0.2", 17, udp(1, 2, 3)))
        for span, status in ((2**62, 0), (2**62 + 1, 4)):
            timed_in_ns(folder() / "far.pcapng", [(1, frame), (1 + span, frame)])
            done = run("packets", "far.pcapng", "-o", "far.csv")
            self.assertEqual(done.returncode, status, done.stderr)
        self.assertIn("frame 2 of the capture comes 4,611,686,018,427,387,905 ns after the first packet", done.stderr)
        self.assertEqual(packets_of_file("far.csv"), ["0", str(2**62)])

    def test_maps_by_words(self) -> None:
        rows = packets_of(
            MIXED,
            *shlex.split(
                "--map 'src 10.9.0.1/32 udp dport 5202 => queue 2' --map 'tcp dport 5201 => pipe 9' --map "
                "'icmp => queue 3' --map '=> pipe 4'"
            ),
        )
        counts = {}
        for row in rows:
            counts[row["target"], row["number"]] = counts.get((row["target"], row["number"]), 0) + 1
        self.assertEqual(counts, {("queue", "2"): 1001, ("pipe", "9"): 1854, ("queue", "3"): 200, ("pipe", "4"): 9129 - 3055})

    def test_packets_that_no_link_has_are_told(self) -> None:
        told = "are longer than 1500 bytes, since the card was still to cut them"
        self.assertIn(told, run("packets", MIXED, "-o", "long.csv").stderr)
        self.assertNotIn(told, run("packets", MIXED, "-o", "long.csv", "--mtu", 1500).stderr)

    def test_directions_beside_a_map(self) -> None:
        rows = packets_of(MIXED, "--from", "10.9.0.1", "--map", "up udp dport 5000-6000 => queue 3")
        self.assertEqual({(row["target"], row["number"]) for row in rows}, {("queue", "3"), ("pipe", "1"), ("pipe", "2")})
        self.assertTrue(all(row["src"] == "10.9.0.1" for row in rows if row["target"] == "queue"))

    def test_an_earlier_frame_behind_a_later_one_comes_in_its_place(self) -> None:
        sent = [(2_000, 1), (1_000, 2), (3_000, 3)]
        late = [(time, ethernet(0x0800, ip4("10.0.0.1", "10.0.0.2", 17, udp(port, 9, 1)))) for time, port in sent]
        write(folder() / "late.pcap", ETHERNET, late)
        rows = packets_of(folder() / "late.pcap", "--index", "late.index")
        self.assertEqual([(row["moment"], row["sport"]) for row in rows], [("0", "2"), ("1000", "1"), ("2000", "3")])
        self.assertEqual([row["frame"] for row in rows_of(folder() / "late.index")], ["2", "1", "3"])

    def test_words_come_from_the_seed(self) -> None:
        words = [[row["word"] for row in packets_of(MIXED, "--seed", seed)] for seed in (1, 1, 2)]
        self.assertEqual(words[0], words[1])
        self.assertNotEqual(words[0], words[2])
        below = sum(int(word) < 2**30 for word in words[0])
        self.assertAlmostEqual(below / len(words[0]), 0.5, delta=0.03)

    def test_faults_are_one_line(self) -> None:
        (folder() / "text.pcap").write_text("no capture")
        without_times(folder() / "timeless.pcapng")
        for words, status in (
            (["missing.pcap"], 6),
            (["text.pcap"], 4),
            (["timeless.pcapng"], 4),
            ([MIXED, "--map", "a b c => pipe 1"], 2),
            ([MIXED, "--map", "=> pipe 0"], 2),
            ([MIXED, "--map", "src 10.0.0.0/33 => pipe 1"], 2),
            ([MIXED, "--mtu", "10"], 2),
            ([MIXED, "--rate", "1Gbit/s"], 2),
            ([MIXED, "--mtu", "1500", "--rate", "1Gbps"], 2),
            ([MIXED, "--mtu", "1500", "--rate", "0bit/s"], 2),
            ([MIXED, "--from", "nobody"], 2),
            ([MIXED, "--map", "up => pipe 1"], 2),
            ([MIXED, "--map", "tcp.port == x => pipe 1"], 2),
            ([MIXED, "-o", "nowhere/packets.csv"], 6),
        ):
            done = run("packets", *words)
            self.assertEqual(done.returncode, status, done.stderr)
            self.assertNotIn("Traceback", done.stderr)
