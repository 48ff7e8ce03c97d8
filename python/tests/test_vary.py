"""What a seed varies in a test, and cuts and holds of hosts."""

import asyncio
import time
import unittest
from typing import Callable

from planted import Node, Store, now
from simulated_hosts import Ends

from hinge.testing.marks import Variation, variation_of
from hinge.testing.varied import VariedNetwork
from hingetulip import aio

SEEDS = range(1, 13)


async def lease(net: aio.Network, bug: str) -> bool:
    """Whether two nodes hold a lease at once."""
    store, *hosts = (net.host(f"10.0.0.{number}", name=name) for number, name in enumerate(("store", "a", "b"), 1))
    await store.endpoint(Store, 7)
    nodes = []
    for host in hosts:
        net.path(host, store, "8Mbit/s 30ms")
        nodes.append((await host.endpoint(lambda: Node(bug), remote=("store", 7)))[1])
        host.create_task(nodes[-1].run())
    for _ in range(1500):
        await asyncio.sleep(0.02)
        if all(now() < node.until for node in nodes):
            return True
    return False


class Varied(unittest.TestCase):
    def network(self, seed: int = 1, **words: str) -> VariedNetwork:
        net = VariedNetwork(variation_of(words), seed=seed)
        self.addCleanup(net.close)
        return net

    def leases(self, bug: str, **words: str) -> list[int]:
        """The seeds by which two nodes hold a lease at once."""
        seeds = list[int]()
        for seed in SEEDS:
            net = self.network(seed, **words)
            seeds += [seed] * net.run(lease(net, bug))
        return seeds

    def test_a_bug_of_moments_that_no_loss_shows(self) -> None:
        words = {"delay": "5..100ms", "phase": "0..1s", "cuts": "1..3s"}
        self.assertEqual(self.leases("counts from the receipt"), [])
        self.assertGreaterEqual(len(self.leases("counts from the receipt", **words)), 2)
        self.assertEqual(self.leases("", **words), [])

    def test_what_is_drawn(self) -> None:
        net = self.network(phase="0.5..1s", drift="100ppm", delay="5..9ms", jitter="10..30ms")
        one, other = net.host("10.0.0.1"), net.host("10.0.0.2")
        there, back = net.path(one, other, "8Mbit/s 500ms plr 0")
        self.assertRegex(there.line, r"^pipe 1 config bw 8Mbit/s plr 0 delay [5-9]ms$")
        self.assertTrue(0 < abs(one.drift) <= 1e-4 and one.drift != other.drift)

        async def ticks() -> tuple[float, float]:
            begin = now()
            await asyncio.sleep(1000)
            return begin, time.time() - 1_700_000_000 - now()

        async def main() -> tuple[float, float]:
            _, ends = await other.endpoint(Ends, 7)
            transport, _ = await one.endpoint(Ends, remote=("10.0.0.2", 7))
            for number in range(40):
                transport.sendto(b"%d" % number)
            begin, gained = await one.create_task(ticks())
            self.assertAlmostEqual(gained, one.drift * now(), 4)
            numbers = [int(data) for data, _, _ in ends.got]
            self.assertEqual(sorted(numbers), list(range(40)))
            self.assertNotEqual(numbers, list(range(40)))
            self.assertTrue(all(15 <= moment / 10**6 <= 45 for _, _, moment in ends.got))
            return begin, gained

        self.assertTrue(0.5 <= net.run(main())[0] <= 1)

    def test_words_and_what_they_are_not(self) -> None:
        self.assertEqual(variation_of({}), Variation())
        self.assertEqual(str(variation_of({"phase": "1s", "delay": "5ms..1s"})), "delay 5ms..1s, phase 1s")
        for words in ({"dealy": "5ms"}, {"delay": "9..5ms"}, {"delay": 5}, {"drift": "1ms"}, {"cuts": ""}):
            with self.assertRaisesRegex(ValueError, "^the mark vary.*; write "):
                variation_of(words)


class Apart(unittest.TestCase):
    def moments(self, act: Callable[[aio.Network], None]) -> dict[bytes, int]:
        """In which ms packets come that are sent each second from 0.5 s on, where something happens at 2 s."""
        with aio.Network() as net:
            one, other = net.host("10.0.0.1"), net.host("10.0.0.2")
            self.links = net.path(one, other, "20ms")

            async def main() -> Ends:
                _, ends = await other.endpoint(Ends, 7)
                transport, _ = await one.endpoint(Ends, remote=("10.0.0.2", 7))
                await asyncio.sleep(0.5)
                net.loop.call_at(2, act, net)
                for number in range(6):
                    transport.sendto(b"%d" % number)
                    await asyncio.sleep(1)
                return ends

            return {data: moment // 10**6 for data, _, moment in net.run(main()).got}

    def test_a_cut(self) -> None:
        def act(net: aio.Network) -> None:
            net.cut(net.hosts["10.0.0.2"], 2)
            net.cut(net.hosts["10.0.0.1"], 1)
            self.assertEqual([link.line for link in self.links], [f"pipe {number} config delay 20ms plr 1" for number in (1, 2)])

        self.assertEqual(self.moments(act), {b"0": 520, b"1": 1520, b"4": 4520, b"5": 5520})
        self.assertEqual(self.links[0].line, "pipe 1 config delay 20ms")

    def test_a_hold(self) -> None:
        def act(net: aio.Network) -> None:
            net.hold(net.hosts["10.0.0.2"], 2)
            net.hold(net.hosts["10.0.0.1"], 1)

        self.assertEqual(self.moments(act), {b"0": 520, b"1": 1520, b"2": 4020, b"3": 4020, b"4": 4520, b"5": 5520})


class Unmet(unittest.TestCase):
    def disturbed(self, act: Callable[[aio.Network], object], *, sends: bool = True) -> None:
        async def main() -> None:
            net = aio.network()
            one, other = net.host("10.0.0.1", name="one"), net.host("10.0.0.2", name="other")
            net.host("10.0.0.3", name="alone")
            net.path(one, other, "20ms")
            transport, _ = await one.endpoint(Ends, remote=("10.0.0.2", 7))
            act(net)
            if sends:
                transport.sendto(b"x")
            await asyncio.sleep(3)

        aio.run(main())

    def test_hosts_by_name_and_address(self) -> None:
        for host in ("other", "10.0.0.2"):
            self.disturbed(lambda net: (net.cut(host, 1), net.hold(host, 1)))

    def test_what_is_no_host_or_no_time(self) -> None:
        for act, text in (
            (lambda net: net.cut("othr", 1), "no host 'othr'; there are one, other, alone"),
            (lambda net: net.hold(7, 1), "no host 7"),
            (lambda net: net.cut("alone", 1), "alone has no links"),
            (lambda net: net.cut("one", -1), "a cut lasts for more than 0 s"),
            (lambda net: net.cut("one", "3"), "a cut lasts for more than 0 s"),
            (lambda net: net.hold("one", float("nan")), "a hold lasts for more than 0 s"),
            (lambda net: next(iter(net.links.values())).cut(0), "a cut lasts for more than 0 s"),
        ):
            with self.assertRaisesRegex(ValueError, text):
                self.disturbed(act)

    def test_a_cut_and_a_hold_that_no_packet_met(self) -> None:
        text = "cut of one at 0.000000 s for 1 s: it met no packet\nhold of other > one at 0.000000 s for 2 s: it met no packet"
        with self.assertRaisesRegex(aio.Unmet, text):
            self.disturbed(lambda net: (net.cut("one", 1), list(net.links.values())[1].hold(2)), sends=False)
