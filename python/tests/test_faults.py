"""Faults that are chosen: their lines, what they do to packets, and the bugs that they find, each by the fewest."""

import asyncio
import time
import unittest
from random import Random
from typing import Awaitable, Callable, Optional

from planted import Adder, Asker, Receiver, Sender
from pytest_runs import Runs, lacking
from simulated_hosts import Ends
from with_folder import WithFolder

from hinge.fault_lines import Drawn, Fault, Faults, read_faults
from hinge.faults import FaultyNetwork, run, some_faults
from hingetulip import aio

MOST_RUNS = 200  # until a bug is found
NO_ACTS = "at 1s cut a", "at cut a 1s", "at 1s skew a 1s", "at 1s cut a +1s", "at 1s crash a > b 1s", "at 1s kill a 1s"
Protocol = Callable[[str], Awaitable[None]]


def two_hosts(options: str = "8Mbit/s 20ms") -> tuple[aio.Host, aio.Host]:
    net = aio.network()
    one, other = net.host("10.0.0.1", name="a"), net.host("10.0.0.2", name="b")
    net.path(one, other, options)
    return one, other


async def transfer(bug: str) -> None:
    one, other = two_hosts()
    bodies = [b"%d" % number for number in range(24)]
    _, receiver = await other.endpoint(lambda: Receiver(bug), 7)
    _, sender = await one.endpoint(lambda: Sender(bodies, bug), remote=("b", 7))
    sender.pump()
    await asyncio.wait({sender.done}, timeout=60)
    assert sender.done.done() and sender.done.exception() is None and receiver.got == bodies
    assert sender.done.result() < 0.1 + 0.041 * len(bodies) / 8 + 0.3 * len(aio.network().chosen), "it waits for nothing"


async def questions(bug: str) -> None:
    one, other = two_hosts()
    _, server = await other.endpoint(lambda: Adder(bug), 7)
    _, client = await one.endpoint(lambda: Asker(bug), remote=("b", 7))
    for number in range(1, 13):
        assert await client.add(1) == number
    assert server.total == 12


# The most faults that are left of each bug, in runs of its protocol.
PLANTED: list[tuple[str, Protocol, int]] = [
    ("takes a packet twice", transfer, 1),
    ("acknowledges no old packet", transfer, 2),
    ("repeats once", transfer, 2),
    ("gives up early", transfer, 4),
    ("wraps wrongly", transfer, 1),
    ("executes twice", questions, 1),
    ("takes any reply", questions, 1),
]


def least(bug: str, protocol: Protocol) -> Optional[Faults]:
    """The fewest faults by which a protocol fails, as hypothesis finds and shrinks them; None if it doesn't fail."""
    from hypothesis import errors, find, settings

    def fails(faults: Faults) -> bool:
        try:
            run(protocol(bug), faults)
        except (AssertionError, ConnectionError, TimeoutError):
            return True
        return False

    links = some_faults("a > b", "b > a", packets=30)
    try:
        return find(links, fails, settings=settings(max_examples=MOST_RUNS, database=None, deadline=None), random=Random(1))
    except errors.NoSuchExample:
        return None


@unittest.skipIf(lacking("hypothesis"), "no python3-hypothesis")
class Planted(unittest.TestCase):
    def test_each_bug_is_found_by_the_fewest_faults(self) -> None:
        for bug, protocol, most in PLANTED:
            with self.subTest(bug):
                faults = least(bug, protocol)
                self.assertIsNotNone(faults)
                self.assertLessEqual(len(faults), most, faults)

    def test_none_is_found_where_none_is(self) -> None:
        for protocol in (transfer, questions):
            self.assertIsNone(least("", protocol))


class Lines(WithFolder):
    def test_a_file_reads_back(self) -> None:
        lines = ("a > b packet 3 lost", "10.0.0.2 > b packet 1 twice", "b > a packet 12 late 80ms")
        path = self.folder / "link.faults"
        path.write_text(f"# of a test\n\n{Faults(*lines)}  a > b packet 4 lost  # one more\n")
        faults = read_faults(path)
        path.write_text("a > b packet 3 late\n")
        with self.assertRaisesRegex(ValueError, "link.faults line 1: 'a > b packet 3 late': not a fault; write "):
            read_faults(path)
        self.assertEqual(faults, (*Faults(*lines), Fault("a > b", 4, "lost")))
        self.assertEqual(eval(repr(faults)), faults)

    def test_what_is_no_fault(self) -> None:
        for line in (
            "",
            "a > b 3 lost",
            "a > b packet 0 lost",
            "a > b packet 3 late 80",
            "a > b packet 3 late 3600001ms",
            *NO_ACTS,
        ):
            with self.assertRaises(ValueError, msg=line):
                Faults(line)


class Packets(unittest.TestCase):
    def moments(self, *lines: str, **more: object) -> list[tuple[bytes, int]]:
        """What came to a host to which five packets are sent, one each 10 ms, and in which ms."""
        with FaultyNetwork(Faults(*lines)) as net:
            one, other = net.host("10.0.0.1", name="a"), net.host("10.0.0.2", name="b")
            net.link(one, other, "20ms plr 0", **more)

            async def main() -> Ends:
                _, ends = await other.endpoint(Ends, 7)
                transport, _ = await one.endpoint(Ends, remote=("10.0.0.2", 7))
                for number in range(1, 6):
                    transport.sendto(b"%d" % number)
                    await asyncio.sleep(0.01)
                await asyncio.sleep(1)
                return ends

            ends = net.run(main())
            self.unmet = net.unmet()
        return [(data, moment // 10**6) for data, _, moment in ends.got]

    def test_each_kind(self) -> None:
        came = self.moments("a > b packet 1 twice", "a > b packet 2 lost", "a > b packet 3 late 15ms", "a > b packet 6 lost")
        self.assertEqual(came, [(b"1", 20), (b"1", 20), (b"4", 50), (b"3", 55), (b"5", 60)])
        self.assertEqual(self.unmet, Faults("a > b packet 6 lost"))

    def test_beside_copies_and_jitter_of_a_test(self) -> None:
        """Copies that a test makes are packets of their own, of which a fault delays one, and delays add up."""
        faults = "a > b packet 2 lost", "a > b packet 3 late 4ms", "a > b packet 7 twice"
        came = self.moments(*faults, copies=lambda it: 2, jitter=lambda it: 1)
        self.assertEqual([data for data, _ in came], [b"1", b"2", b"2", b"3", b"3", b"4", b"4", b"4", b"5", b"5"])
        self.assertEqual([moment for _, moment in came], [21, 31, 35, 41, 41, 51, 51, 51, 61, 61])

    def test_answers_of_closed_ports_count(self) -> None:
        with FaultyNetwork(Faults("b > a packet 2 lost", "a > b packet 3 twice")) as net:
            one, other = net.host("10.0.0.1", name="a"), net.host("10.0.0.2", name="b")
            net.path(one, other, "20ms")

            async def main() -> int:
                transport, ends = await one.endpoint(Ends, remote=("10.0.0.2", 7))
                for _ in range(3):
                    transport.sendto(b"x")
                    await asyncio.sleep(1)
                return len(ends.faults)

            self.assertEqual(net.run(main()), 3)


class Unmet(unittest.TestCase):
    def test_a_link_that_is_not_there_and_a_packet_that_never_came(self) -> None:
        for kind, line, text in (
            (Faults, "x > b packet 1 lost", "x > b packet 1 lost: there is no such link; there are a > b, b > a"),
            (Drawn, "x > b packet 1 lost", "x > b packet 1 lost: there is no such link"),
            (Faults, "a > b packet 9000 lost", "a > b packet 9000 lost: it came to no packet"),
        ):
            with self.assertRaisesRegex(aio.Unmet, text):
                run(transfer(""), kind(line))
        run(transfer(""), Drawn("a > b packet 9000 lost"))


class Acts(unittest.TestCase):
    def run_acts(self, *lines: str, kind: type[Faults] = Faults) -> tuple[list[tuple[bytes, int]], list[float]]:
        """What came to a host to which a packet is sent each second from 0.5 s on, and in which ms, and when its program began."""
        begun, came = list[float](), list[tuple[bytes, int]]()

        class Come(Ends):
            def datagram_received(self, data: bytes, source: object) -> None:
                came.append((data, round(asyncio.get_running_loop().time() * 1000)))

        async def serve(host: aio.Host) -> None:
            begun.append(time.time() - 1_700_000_000)
            await asyncio.get_running_loop().create_datagram_endpoint(Come, ("0.0.0.0", 7))
            await asyncio.Event().wait()

        async def main() -> None:
            one, other = two_hosts("20ms")
            other.boot(lambda: serve(other))
            transport, _ = await one.endpoint(Ends, remote=("b", 7))
            await asyncio.sleep(0.5)
            for number in range(8):
                transport.sendto(b"%d" % number)
                await asyncio.sleep(1)

        run(main(), kind(*lines))
        return came, begun

    def test_what_each_does(self) -> None:
        lines = "at 1s cut a > b 2s", "at 4s hold b 1000ms", "at 5.2s skew b +30s", "at 6s crash b 1s"
        came, begun = self.run_acts(*lines)
        self.assertEqual([(b"0", 520), (b"3", 3520), (b"4", 5020), (b"5", 5520), (b"7", 7520)], came)
        self.assertEqual([0, 37], begun)
        self.assertEqual(lines[1].replace("1000ms", "1s"), str(Faults(lines[1])[0]))

    def test_one_that_met_nothing(self) -> None:
        for line, text in (
            ("at 9s cut a > b 1s", "at 9s cut a > b 1s: the run ended before, at 8.5"),
            ("at 1s hold x 1s", "at 1s hold x 1s: there is no host 'x'; there are a, b"),
            ("at 1s cut b > c 1s", "at 1s cut b > c 1s: there is no link 'b > c'; there are a > b, b > a"),
            ("at 1s cut b > a 1s", "cut of b > a at 1.000000 s for 1 s: it met no packet"),
            ("at 1s skew a -2s", "skew of a at 1.000000 s by -2 s: it met no look at the clock"),
        ):
            with self.subTest(line), self.assertRaisesRegex(aio.Unmet, text):
                self.run_acts(line)
        self.run_acts("at 9s cut a > b 1s", "at 1s cut b > a 1s", kind=Drawn)


class OfTests(Runs):
    BODY = """
        @pytest.mark.link("20ms plr 0.1")
        async def test_all_come(sim_net):
            assert await session(sim_net) > 57
        """

    def test_a_failure_is_shrunk_and_its_losses_read_again(self) -> None:
        done = self.run_pytest(self.BODY, "--link-shrink")
        self.assertEqual(done.counts, {"failed": 1}, done.text)
        least_lines = done.text.partition(" least faults ")[2].splitlines()[1:4]
        self.assertRegex("\n".join(least_lines), r"^(10\.0\.0\.\d > 10\.0\.0\.\d packet \d+ lost\n?){3}$")
        path = self.folder / "link.faults"
        path.write_text("".join(f"{line}\n" for line in least_lines) + "b > a packet 1 twice\n")
        again = self.run_pytest(self.BODY, f"--link-faults={path}")
        absent = self.run_pytest(self.BODY, f"--link-faults={self.folder}/none")
        self.assertRegex(absent.text, r"error: argument --link-faults: .*No such file or directory: '\S+/none'")
        self.assertEqual(again.counts, {"failed": 1}, again.text)
        self.assertIn(f"fault: {least_lines[0]}\nfault: ", again.text)
        self.assertIn("fault: b > a packet 1 twice: it came to no packet\n", again.text)

    def test_a_failure_without_losses_and_one_that_does_not_come_again(self) -> None:
        done = self.run_pytest(
            """
            count = iter(range(9))

            def test_once(sim_net):
                assert next(count)

            @pytest.mark.link("plr 0.5")
            async def test_without(sim_net):
                assert await session(sim_net, 9) == 99
            """,
            "--link-shrink",
        )
        self.assertIn("\nno such failure by these faults alone\n", done.text)
        self.assertRegex(done.text, r"least faults -+\nfails by 0 of \d faults, found in 2 runs\n")
