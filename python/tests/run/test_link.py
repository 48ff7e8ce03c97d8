"""The host between two sockets: packets, the map, losses, changes, outages and the end."""

import fcntl
import select
import signal
import socket
import struct
import time
import unittest

from linked import (
    AT_ONCE,
    CLIENT,
    SEEDS,
    SERVER,
    Ended,
    Linked,
    audited_as_lawful,
    found,
    ip4,
    ip6,
    needs_host,
    plan_of,
    stopped,
    udp,
    until,
    with_sigterm,
)
from hinge.captures.random_words import word
from hinge.loss import LOST, GilbertElliott
from hinge.run.page import ENDED_WELL


@needs_host
class OfPackets(unittest.TestCase):
    def run_link(self, plan: str, packets: list[bytes], expected: int) -> tuple[list[bytes], Ended]:
        """Sends packets up; returns the packets that arrive. The transcript is lawful."""
        link = Linked(SEEDS + plan)
        for packet in packets:
            link.near.send(packet)
        got = [link.far.recv(65535) for _ in range(expected)]
        until(lambda: link.came() + link.page.read().ways[0]["not_ip"] == len(packets))
        ended = link.end()
        self.assertEqual(ended.status, 0)
        return got, ended

    def test_packets_come_whole_in_order_and_not_early(self) -> None:
        sent = [udp(number, 100 + number) for number in range(50)]
        begun = time.monotonic()
        got, ended = self.run_link("line pipe 1 config delay 100\n", sent, 50)
        self.assertGreaterEqual(time.monotonic() - begun, 0.1)
        self.assertEqual(got, sent)
        up = ended.counts.ways[0]
        self.assertEqual(
            (up["came"], up["sent"], up["came_bytes"], ended.counts["state"]), (50, 50, sum(range(100, 150)), ENDED_WELL)
        )
        self.assertEqual((sum(up.late.bins), sum(up.unread.bins), up.underway), (50, 50, 0))

    def test_the_way_back(self) -> None:
        link = Linked(SEEDS + "line pipe 2 config delay 1\n")
        link.far.send(ip4(SERVER, CLIENT, 6, 80, 9, 40))
        self.assertEqual(len(link.near.recv(100)), 40)
        self.assertIn("c,0,submit,pipe,2,10.8.0.2,10.8.0.1,6,80,9,40,", link.end().history)

    def test_ipv6_has_stand_ins_and_ports_behind_headers(self) -> None:
        ports = struct.pack("!HHHH", 7, 8, 8, 0)
        options, later = struct.pack("!BB6x", 17, 0) + ports, struct.pack("!BBHI", 17, 0, 8, 0) + ports
        packets = [
            ip6("fd08::1", "fd08::2", 17, ports),
            ip6("fd08::1", "fd08::2", 0, options),
            ip6("fd08::1", "fd08::3", 44, later),
            b"\x15odd",
        ]
        _, ended = self.run_link("line pipe 1 config\n", packets, 3)
        self.assertEqual(
            found(r"pipe,1,(.*?,\d+,\d+,\d+,\d+),", ended.history),
            ["240.0.0.1,240.0.0.2,17,7,8,48", "240.0.0.1,240.0.0.2,17,7,8,56", "240.0.0.1,240.0.0.3,17,0,0,56"],
        )
        self.assertIn("#,address,240.0.0.2,fd08:0000:0000:0000:0000:0000:0000:0002\n", ended.history)
        self.assertEqual(ended.counts.ways[0]["not_ip"], 1)

    def test_the_map(self) -> None:
        plan = plan_of("pipe 1 config", "pipe 2 config", "queue 3 config pipe 1 weight 9", "queue 4 config pipe 1")
        for rule in ("tcp port 443 => queue 3", "dscp ef => queue 4", "udp dst 10.8.0.0/30 dst-port 5-7 => queue 3"):
            plan.rule(rule)
        sent = [
            ip4(CLIENT, SERVER, 6, 443, 9, 40),
            ip4(CLIENT, SERVER, 6, 9, 443, 40),
            ip4(CLIENT, SERVER, 6, 9, 9, 40),
            ip4(CLIENT, SERVER, 1, 9, 9, 40, tos=46 << 2),
            ip4(CLIENT, SERVER, 17, 9, 7, 40),
            ip4(CLIENT, "10.8.0.9", 17, 9, 7, 40),
            ip4(CLIENT, SERVER, 6, 443, 9, 40, fragment=1),
        ]
        _, ended = self.run_link(plan.text(1), sent, 7)
        self.assertEqual(
            found(r"submit,(\w+,\d+)", ended.history), ["queue,3", "queue,3", "pipe,1", "queue,4", "queue,3", "pipe,1", "pipe,1"]
        )

    def test_networks_of_ipv6_in_the_map(self) -> None:
        plan = plan_of("pipe 1 config", "queue 1 config pipe 1", "queue 2 config pipe 1")
        for rule in ("dst fd08:1::/33 => queue 1", "src 10.8.0.1 => queue 2", "dst ::/0 => queue 2"):
            plan.rule(rule)
        far, near = "fd08:1:7fff::9", "fd08:1:8000::9"
        sent = [
            ip6("fd08::1", far, 17, bytes(8)),
            ip6("fd08::1", near, 17, bytes(8)),
            udp(1),
            ip4("10.8.0.3", SERVER, 17, 1, 1, 40),
        ]
        _, ended = self.run_link(plan.text(1), sent, 4)
        self.assertEqual(found(r"submit,(\w+,\d+)", ended.history), ["queue,1", "queue,2", "queue,2", "queue,2"])


@needs_host
class OfLosses(unittest.TestCase):
    def fates(self, seed: int, back: int = 0) -> list[str]:
        """Returns the fates of 200 packets up, with this number of packets down beside them."""
        plan = plan_of("pipe 1 config")
        plan.loss("gilbert:0.1,0.3")
        link = Linked(plan.text(seed))
        for number in range(200):
            link.near.send(udp(1))
            if number < back:
                link.far.send(ip4(SERVER, CLIENT, 17, 1, 1, 40))
        until(lambda: link.came() == 200)
        return found(r"submit,pipe,1.*\nr,(queued|lost)", link.end().history)

    def test_a_list(self) -> None:
        plan = plan_of("pipe 1 config")
        plan.loss("up:list:2,4-5")
        link = Linked(plan.text(1))
        for number in range(8):
            link.near.send(udp(number))
        got = [struct.unpack("!H", link.far.recv(100)[22:24])[0] for _ in range(5)]
        self.assertEqual((got, link.end().counts.ways[0]["lost"]), ([0, 2, 5, 6, 7], 3))

    def test_a_list_of_hundreds(self) -> None:
        plan = plan_of("pipe 1 config")
        plan.loss("up:list:" + ",".join(str(number) for number in range(1, 600, 2)))
        link = Linked(plan.text(1))
        got = []
        for number in range(600):
            link.near.send(udp(number))
            if number % 2:
                got.append(struct.unpack("!H", link.far.recv(100)[22:24])[0])
        self.assertEqual((got, link.end().counts.ways[0]["lost"]), (list(range(1, 600, 2)), 300))

    def test_words_and_losses_are_those_of_the_models(self) -> None:
        """hinge.captures.random_words draws the words of a loss rate, and hinge.loss decides by the same seed which packets a burst
        loses."""
        link = Linked("seed 0 9\nseed 1 9\nline pipe 1 config plr 0.3\nline pipe 2 config\n")
        for number in range(30):
            link.near.send(udp(1))
            link.far.send(ip4(SERVER, CLIENT, 17, 1, 1, 40))
        until(lambda: link.came() + link.page.read().ways[1]["came"] == 60)
        history = link.end().history
        for direction in (1, 2):
            words = [int(text) for text in found(rf"submit,pipe,{direction},.*,40,(\d+),\d+$", history)]
            self.assertEqual(words, [word(9, number, direction) for number in range(1, 31)])
        model = GilbertElliott(0.1, 0.3, seed=5)
        self.assertEqual([fate == "lost" for fate in self.fates(5)], [model.next() == LOST for _ in range(200)])

    def test_a_seed_decides_by_directions(self) -> None:
        first = self.fates(5)
        self.assertEqual(first, self.fates(5, back=70))
        self.assertNotEqual(first, self.fates(6))

    def test_the_share_of_losses_is_that_of_the_model(self) -> None:
        """With 0.25 to the bad state and 0.75 to the good one, a quarter of all packets is lost, within 0.034: five standard
        deviations for 4,000 separate draws."""
        plan = plan_of("pipe 1 config")
        plan.loss("gilbert:0.25,0.75")
        link = Linked(plan.text(3))
        for sent in range(50, 4050, 50):
            for _ in range(50):
                link.near.send(udp(1))
            until(lambda: link.came() == sent and link.page.read().ways[0].underway == 0)
            while select.select([link.far], [], [], 0)[0]:
                link.far.recv(100)
        self.assertAlmostEqual(link.end().counts.ways[0]["lost"] / 4000, 0.25, delta=0.034)


WRONG = """transcript|transcript x|at|at x pipe 1 config|outage 5 1|outage 5 0 9|outage 5 3 9|hold 1 5|hold 3 5 6|hold 1 6 5\
|slots 0 1|slots 3 1|slots 1|slots 1 x|slots 1 5 4|slots 1 0|map 0 0 1|seed|seed 2 1|seed -1 1|gilbert 0 1 2 3|gilbert 5 1 2 3 4\
|list 0 x|list 0 1 x|list 2 1|jitter 0 9 2|jitter 0 0 2 1|jitter 0 9 0 1|jitter 0 65535 2 1|jitter 0 2147483647 2147483647 1\
|jitter 7 9 2 1|duplicate 0 5|duplicate 2 5 1|switch |switch 0 2|switch 0 x|switch -1|realtime now|simulated now|epoch|epoch x\
|epoch 5 x|control 0|contents too|lines||list -1 3|hold 9 1 2|jitter 0 65530 7 7|duplicate 0 1|corrupt 0 1|fault 0 1 1|fault 2 1 1 1\
|fault 0 3 1 1|fault 0 2 1 0|fault 0 2 1 65536|host b 3 4|host b 3 4 5 6|at 5 act stop b 1|at 5 cut 3 1|at 5 cut 0 1|at 5 open 1\
|at 5 cut 1 1 1|at 5 heal x|at 5 cut 1 1 17 0|at 5 cut 1 1 17 53 1|at 5 heal 1 17|main line pipe 1 config|main at 5 cut 9 9|"""


@needs_host
class OfTheEnd(unittest.TestCase):
    def test_it_ends_while_packets_wait(self) -> None:
        """After a signal, the host reads at most as many waiting packets as in a single turn."""
        link = Linked(SEEDS + "line pipe 1 config\n")
        link.near.setsockopt(socket.SOL_SOCKET, socket.SO_SNDBUF, 2**20)
        with stopped(link.process.pid):
            for number in range(2 * AT_ONCE):
                link.near.send(udp(number))
            link.process.terminate()
            until(lambda: with_sigterm(link.process.pid))
        ended = link.ended()
        self.assertEqual((ended.status, link.page.head("state")), (0, ENDED_WELL))
        self.assertLessEqual(link.came(), AT_ONCE)

    def test_an_interface_that_goes_away_ends_it_with_a_whole_transcript(self) -> None:
        link = Linked(SEEDS + "line pipe 1 config delay 1\n")
        link.near.send(udp(1))
        link.far.recv(100)
        link.far.close()
        ended = link.ended()
        self.assertEqual((ended.status, ended.said), (6, "hinge: an interface: is gone\n"))
        audited_as_lawful(self, link.transcript)

    def test_a_killed_host_leaves_whole_entries(self) -> None:
        link = Linked(SEEDS + "line pipe 1 config delay 1\n")
        for number in range(600):
            link.near.send(udp(number))
            link.far.recv(100)
        link.process.kill()
        self.assertEqual(link.ended().status, -signal.SIGKILL)
        with open(link.transcript, "a+") as history:
            fcntl.flock(history, fcntl.LOCK_EX)  # its writer has ended
            history.seek(0)
            entries = history.read().count("\nc,")
            history.write(f"end,{entries}\n")
        self.assertGreater(entries, 200)
        audited_as_lawful(self, link.transcript)

    def test_what_is_under_way_at_the_end_is_counted_and_not_delivered(self) -> None:
        link = Linked(SEEDS + "line pipe 1 config delay 60000\n")
        for number in range(3):
            link.near.send(udp(number))
        until(lambda: link.came() == 3)
        ended = link.end()
        self.assertEqual((ended.counts["underway"], ended.counts.ways[0].underway, ended.counts.ways[0]["discarded"]), (3, 3, 0))
        self.assertNotIn("\nd,", ended.history)

    def test_a_wrong_line_is_told_before_the_first_packet(self) -> None:
        for text, told in (
            ("line pipe 1 config bw 8Mbps\n", "word 5: bad number"),
            ("at 5 queue 1 config weight 2\n", "word 1: "),
            ("at 5 pipe delete 7\n", "no-such-pipe"),
            ("nonsense\n", "no line of a plan"),
        ):
            ended = Linked(text).ended()
            self.assertEqual((ended.status, told in ended.said), (3, True))

    def test_a_plan_has_no_other_lines(self) -> None:
        """The host refuses each line with its whole text, and accepts no packet."""
        for text in f"{WRONG}map 0 0 1 -1 -1 {'x ' * 4}0 65535 0 65535".split("|"):
            ended = Linked(text + "\n").ended()
            line = text.rpartition("at 5 ")[2]
            self.assertIn((ended.status, ended.said), [(3, f"hinge: {line}: no line{of}\n") for of in ("", " of a plan")])
