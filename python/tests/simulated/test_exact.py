"""Programs over links meet the theory exactly: only readings of the simulated clock add time."""

import asyncio

from machines import Ran, Simulated, idle, needs, packets_of, served, shares_of
from simulated_hosts import Ends

from hinge.fault_lines import read_faults
from hinge.faults import FaultyNetwork

SECOND, MILLISECOND, MICROSECOND = 10**9, 10**6, 10**3
TEN = 10**7  # bit/s
LISTENS = """
import socket, time
s = socket.socket(socket.AF_INET, socket.SOCK_DGRAM)
s.bind(("", 7))
moments = []
while s.recv(2000) != b"end":
    moments.append(time.monotonic_ns())
print(*moments)
"""
SENDS = """
import socket, sys
s = socket.socket(socket.AF_INET, socket.SOCK_DGRAM)
for text in [bytes(int(sys.argv[1]))] * 50 + [b"end"]:
    s.sendto(text, ("10.8.0.2", 7))
"""
TWO_SERVERS = "iperf3 -s -1 -p 5201 >/dev/null & iperf3 -s -1 -p 5202 >/dev/null; wait"
TWO_CLIENTS = "sleep 0.3; for port in 5201 5202; do iperf3 -c server -p $port -t 5 -w 200K >/dev/null & done; wait"


class Exact(Simulated):
    def exact(self, *words: str) -> Ran:
        """Returns a run that ends well, on a lawful link whose only lateness comes from clock readings."""
        ran = self.run_by(1, *words)
        self.assertEqual(ran.status, 0, ran.out + ran.err)
        self.assert_lawful(ran.history)
        late = [ran.summary[way][name] for way in ("up", "down") for name in ("late_p99_ms", "unread_p99_ms")]
        self.assertLess(max(late), 0.01, ran.err)
        return ran


@needs("ping")
class OfPings(Exact):
    def test_an_hour_of_pings(self) -> None:
        """84 bytes take 336,000 ns at 2 Mbit/s and 67,200 ns at 10 Mbit/s. With 20 ms each way that is 40.4032 ms, plus the
        programs' clock readings. The link also knows the moment of a packet that leaves without a reading."""
        ran = self.exact("--up", "2Mbit/s 20ms", "--down", "10Mbit/s 20ms", "--", "ping", "-q", "-c", "3600", "server")
        self.assertEqual([ran.summary[way]["late_max_ms"] for way in ("up", "down")], [0, 0])
        self.assertRegex(ran.out, r"= 40\.403/[\d.]+/40\.404/")


class OfDatagrams(Exact):
    def sent_at_once(self, size: int, *links: str) -> Ran:
        """Sends 50 datagrams at once, in packets of this size; returns the moments of arrival that the server prints."""
        listens, sends = self.folder / "listens", self.folder / "sends"
        listens.write_text(LISTENS)
        sends.write_text(SENDS)
        sent = ["python3", str(sends), str(size - 28)]
        return self.exact(*links, "--down", "20ms", "--server", f"python3 {listens}", "--", *sent)

    def test_the_spacing_is_the_transmission_time(self) -> None:
        """1,000 bytes take 1 ms at 8 Mbit/s, so 50 packets sent at once arrive 1 ms apart, to the microsecond."""
        ran = self.sent_at_once(1000, "--up", "8Mbit/s 20ms queue 100")
        moments = [int(word) for word in ran.out.split()]
        gaps = {round((after - before) / MICROSECOND) for before, after in zip(moments, moments[1:])}
        self.assertEqual((len(moments), gaps), (50, {1000}), ran.err)

    def test_a_trace(self) -> None:
        """The trace's moments are 1, 2, 4 and 8 ms, repeated every 8 ms. At each moment 1,500 bytes leave, to the microsecond."""
        trace = self.folder / "trace"
        trace.write_text("1\n2\n4\n8\n")
        ran = self.sent_at_once(1500, "--up", "20ms queue 100", "--up-trace", str(trace))
        ends = [
            round((packet.due - 20 * MILLISECOND) / MICROSECOND)
            for packet in served(packets_of(ran.history), 1)
            if packet.size == 1500
        ]
        moments = [1000 * (8 * period + moment) for period in range(1000) for moment in (1, 2, 4, 8)]
        self.assertEqual(ends, moments[moments.index(ends[0]) :][:50])
        told = [int(word) for word in ran.out.split()]
        gaps = [round((after - before) / MICROSECOND) for before, after in zip(told, told[1:])]
        self.assertEqual(gaps, [after - before for before, after in zip(ends, ends[1:])])

    def test_faults_do_the_same_as_in_a_test(self) -> None:
        """With the same file of faults, a run's datagrams and asyncio's datagrams in simulated time arrive at the same moments, to
        the microsecond."""
        link, path = "8Mbit/s 20ms queue 100", self.folder / "faults"
        path.write_text("".join(f"client > server packet {it}\n" for it in ("1 twice", "2 lost", "4 late 15ms")))
        ran = self.sent_at_once(1000, "--up", link, "--faults", str(path))
        with FaultyNetwork(read_faults(path)) as net:
            client, server = net.host("10.8.0.1", name="client"), net.host("10.8.0.2", name="server")
            net.link(client, server, link)

            async def main() -> list[int]:
                _, ends = await server.endpoint(Ends, 7)
                transport, _ = await client.endpoint(Ends, remote=("10.8.0.2", 7))
                for _ in range(50):
                    transport.sendto(bytes(1000 - 28))
                await asyncio.sleep(1)
                return [moment for _, _, moment in ends.got]

            moments = [net.run(main()), [int(word) for word in ran.out.split()]]
        one, other = ([round((moment - them[0]) / MICROSECOND) for moment in them] for them in moments)
        self.assertEqual((len(one), one), (50, other))

    @needs("ping")
    def test_an_outage(self) -> None:
        """A ping leaves each 100 ms, and its transmission takes 84 us. Pings before 2 s need 20.084 ms, and none starts during the
        outage of 3 s."""
        (self.folder / "changes").write_text("2s up outage 3s\n")
        changes = ["--timeline", str(self.folder / "changes")]
        ran = self.exact(
            "--up", "8Mbit/s 20ms queue 1000", "--down", "20ms", *changes, "--", "ping", "-q", "-i", "0.1", "-c", "60", "server"
        )
        pings = [packet for packet in served(packets_of(ran.history), 1) if packet.size == 84]
        before = {packet.due - packet.came for packet in pings if packet.came < 2 * SECOND - MILLISECOND}
        self.assertEqual(before, {20 * MILLISECOND + 84 * MICROSECOND})
        first = next(packet for packet in pings if packet.came > 2 * SECOND)
        self.assertEqual((first.start - first.came + first.came % (100 * MILLISECOND)) // MILLISECOND, 3000)


@needs("iperf3")
class OfTcp(Exact):
    def carried(self, control: str, seconds: int = 10) -> Ran:
        links = ["--up", "10Mbit/s 20ms queue 100", "--down", "20ms"]
        return self.exact(
            *links, "--server", "iperf3 -s -1 >/dev/null", "--", "iperf3", "-c", "server", "-t", str(seconds), "-C", control
        )

    def test_a_link_that_met_a_full_queue_is_never_idle(self) -> None:
        """From the first packet that met a full queue to a second before the last, the link serves packet after packet without a
        nanosecond between them. So at any time the link carries exactly its bandwidth."""
        for control in ("reno", "cubic"):
            with self.subTest(control):
                packets = packets_of(self.carried(control).history)
                full = next(packet.came for packet in packets if packet.fate == "full")
                last = packets[-1].came
                steady = [packet for packet in served(packets, 1) if full < packet.start < last - SECOND]
                self.assertGreater(len(steady), 4000)
                self.assertEqual(set(idle(steady, TEN)), {0})

    def test_bbr_loses_nothing_and_fills_the_link(self) -> None:
        """No packet meets a full queue, and after the first second the link is idle for less than a hundredth of the time."""
        packets = packets_of(self.carried("bbr", 8).history)
        self.assertEqual({packet.fate for packet in packets}, {"queued"})
        steady = [packet for packet in served(packets, 1) if SECOND < packet.start < 8 * SECOND]
        self.assertLess(sum(idle(steady, TEN)), 7 * SECOND / 100)

    def test_two_flows_have_their_weights(self) -> None:
        """With weights 3 and 1, while packets wait in both queues, the first queue sends three of four packets, to within one of
        any hundred."""
        lines = [
            "pipe 1 config bw 20Mbit/s delay 1",
            *(f"queue {number} config pipe 1 weight {weight} queue 300" for number, weight in ((1, 3), (2, 1))),
        ]
        links = [word for line in lines for word in ("--line", line)]
        links += [word for number in (1, 2) for word in ("--map", f"tcp port 520{number} => queue {number}")]
        ran = self.exact(*links, "--down", "1ms", "--server", TWO_SERVERS, "--", "sh", "-c", TWO_CLIENTS)
        shares = shares_of(ran.history, 2 * SECOND, 4 * SECOND)
        self.assertGreater(len(shares), 20)
        self.assertEqual({round(100 * share) for share in shares} - {74, 75, 76}, set())
