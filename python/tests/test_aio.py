"""asyncio in simulated time: moments worked out by hand, runs that repeat, what can't go on, and histories that are
lawful.

A packet of 1,000 bytes takes 1 ms at 8 Mbit/s; a datagram has 28 bytes more than its data.
"""

import asyncio
import unittest

from hingetulip import LineError, Outcome, aio
from simulated_hosts import Ends, audited, exchange, network, opened
from with_folder import WithFolder

MS = 10**6  # ns


class Moments(WithFolder):
    def test_after_an_hour(self) -> None:
        with network("bw 8Mbit/s delay 20ms") as net:

            async def main() -> Ends:
                await asyncio.sleep(3600.000000123)
                return await exchange(net, 1, 1)

            self.assertEqual([it[2] for it in net.run(main()).got], [3_600_000_000_123 + 2 * (20 * MS + 29_000)])

    def test_timers_are_whole_ns(self) -> None:
        net, found = aio.Network(), []

        async def main() -> None:
            for delay in (3e-9, 1e-9, 2e-9, 86_400.000000001, 4e-10):
                net.loop.call_later(delay, lambda: found.append(net.loop.clock.now))
            await asyncio.sleep(100_000)

        net.run(main())
        net.close()
        self.assertEqual(found, [1, 1, 2, 3, 86_400_000_000_001])

    def test_several_hops(self) -> None:
        with aio.Network() as net:
            one, middle, far = (net.host(f"10.0.{n}.1") for n in range(3))
            net.path(one, middle, "8Mbit/s 1ms")
            net.path(middle, far, "4Mbit/s 3ms")

            async def main() -> tuple[Ends, Ends]:
                there = await far.create_task(opened(True, ("0.0.0.0", 7)))
                ends = await one.create_task(opened(remote=("10.0.2.1", 7)))
                ends.transport.sendto(bytes(972))
                await asyncio.sleep(1)
                return there, ends

            there, ends = net.run(main())
            self.assertEqual([it[1:] for it in there.got], [(("10.0.0.1", 49152), 7 * MS)])
            self.assertEqual([it[1:] for it in ends.got], [(("10.0.2.1", 7), 14 * MS)])

    def test_ways_of_a_star_and_of_a_ring(self) -> None:
        with aio.Network() as net:
            middle, *leaves = [net.host(f"10.0.{n // 256}.{n % 256}") for n in range(2001)]
            for leaf in leaves:
                net.path(middle, leaf)
            links = [net.routes.next(near, far) for near, far in zip(leaves, leaves[1:])]
            self.assertEqual([net.links[near, middle] for near in leaves[:-1]], links)
            self.assertEqual([net.links[middle, leaf] for leaf in leaves], [net.routes.next(middle, leaf) for leaf in leaves])
            self.assertEqual([middle], list(net.routes.first))
        with aio.Network() as net:
            ring = [net.host(f"10.0.0.{n}") for n in range(5)]
            for near, far in zip(ring, ring[1:] + ring[:1]):
                net.link(near, far)
            alone = net.host("10.0.0.9")
            self.assertIs(net.links[ring[3], ring[4]], net.routes.next(ring[3], ring[2]))
            self.assertIsNone(net.routes.next(ring[0], alone))
            self.assertIsNone(net.routes.next(alone, ring[0]))

    def test_a_route_and_a_link_under_way(self) -> None:
        """Earlier packets keep their way, and later packets use the new way: 1 ms + 1 ms, and then 50 ms."""
        with aio.Network() as net:
            one, middle, far = (net.host(f"10.0.{n}.1") for n in range(3))
            net.path(one, middle, "1ms")
            net.path(middle, far, "1ms")

            async def main() -> Ends:
                there = await far.create_task(opened(True, ("0.0.0.0", 7)))
                ends = await one.create_task(opened(remote=("10.0.2.1", 7)))
                for second in range(3):
                    ends.transport.sendto(b"x")
                    if second == 0:
                        net.path(one, far, "50ms")
                    elif second == 1:
                        net.route(one, far, via=middle)
                    await asyncio.sleep(1)
                return there

            self.assertEqual([2 * MS, 1050 * MS, 2002 * MS], [it[2] for it in net.run(main()).got])
            self.assertEqual({Outcome.QUEUED: 1}, net.links[one, far].counts)

    def test_a_change_gives_the_whole_link(self) -> None:
        with network("bw 8Mbit/s delay 20ms plr 1 queue 5") as net:
            link = net.links[tuple(net.hosts.values())]
            for words, line in (
                ("plr 0 bw 0 delay 0 queue 50", "plr 0 bw 0 delay 0 queue 50"),
                ("bw 8Mbit/s 20ms plr 0 queue 5 mask src-ip 0xff", "bw 8Mbit/s delay 20ms plr 0 queue 5 mask src-ip 0xff"),
                ("loss 0.5% 4ms 1MByte/s queue 5", "plr 0.005 delay 4ms bw 1MByte/s queue 5"),
            ):
                link.change(words)
                self.assertEqual(link.line, f"pipe 1 config {line}")
            for words in ("plr lots", "", " ", "plr 0"):
                with self.assertRaises(LineError):
                    link.change(words)
            self.assertEqual(link.line, "pipe 1 config plr 0.005 delay 4ms bw 1MByte/s queue 5")
            self.assertRaises(TypeError, lambda: link.change(plr=0))

    def test_a_change_under_way(self) -> None:
        with network("delay 10ms") as net:

            async def main() -> Ends:
                net.loop.call_later(2.5, lambda: net.links[tuple(net.hosts.values())].change("100ms"))
                return await exchange(net, 5, 1)

            took = [at - second * 1000 * MS for second, (_, _, at) in enumerate(net.run(main()).got)]
            self.assertEqual(took, [20 * MS] * 3 + [110 * MS] * 2)

    def test_classes_share_a_link_by_weight(self) -> None:
        with aio.Network() as net:
            one, other = net.host("10.0.0.1"), net.host("10.0.0.2")
            net.link(
                one,
                other,
                "8Mbit/s",
                classes={"heavy": "weight 3 queue 100", "light": "queue 100"},
                classify=lambda it: "heavy" if it.target[1] == 7 else "light",
            )

            async def main() -> list[Ends]:
                found = [await other.create_task(opened(local=("0.0.0.0", port))) for port in (7, 8)]
                ends = await one.create_task(opened())
                for _ in range(80):
                    for port in (7, 8):
                        ends.transport.sendto(bytes(972), ("10.0.0.2", port))
                await asyncio.sleep(0.0405)
                return found

            heavy, light = (len(ends.got) for ends in net.run(main()))
            self.assertEqual(heavy + light, 40)
            self.assertAlmostEqual(heavy, 30, delta=2)  # one packet of each class more, at the ends of a share

    def test_jitter_overtakes_and_copies_come_twice(self) -> None:
        history = self.folder / "h"
        with aio.Network(history=history) as net:
            one, other = net.host("10.0.0.1"), net.host("10.0.0.2")
            net.link(
                one,
                other,
                "8Mbit/s 1ms",
                jitter=lambda it: {b"0": 10, b"1": 0, b"2": 5}[it.data[:1]],
                copies=lambda it: 2 if it.data[:1] == b"1" else 1,
            )

            async def main() -> Ends:
                _, there = await other.endpoint(Ends, 7)
                transport, _ = await one.endpoint(Ends, remote=("10.0.0.2", 7))
                for number in range(3):
                    transport.sendto(b"%d" % number + bytes(971))
                await asyncio.sleep(1)
                return there

            got = net.run(main()).got
        self.assertEqual([(it[0][:1], it[2]) for it in got], [(b"1", 3 * MS), (b"1", 4 * MS), (b"2", 10 * MS), (b"0", 12 * MS)])
        self.assertRegex(audited(history), r"^lawful \d+\n$")

    def test_words_of_jitter_and_duplicates(self) -> None:
        with network("20ms jitter 9ms duplicate 50%", seed=3) as net:

            async def main() -> Ends:
                one, other = list(net.hosts.values())
                _, there = await other.endpoint(Ends, 7)
                transport, _ = await one.endpoint(Ends, remote=("10.0.0.2", 7))
                for number in range(20):
                    transport.sendto(b"%d" % number)
                await asyncio.sleep(1)
                return there

            moments = [moment // MS for _, _, moment in net.run(main()).got]
        self.assertTrue(20 < len(moments) < 40 and 20 <= min(moments) <= 21 and 28 <= max(moments) <= 29, moments)


class Ended(unittest.TestCase):
    def test_a_socket_that_outlives_its_run(self) -> None:
        async def main() -> asyncio.DatagramTransport:
            net = aio.network()
            one, other = net.host("10.0.0.1", name="one"), net.host("10.0.0.2")
            net.path(one, other, "20ms")
            return (await one.endpoint(asyncio.DatagramProtocol, 5, remote=("10.0.0.2", 7)))[0]

        with aio.Network() as net:
            transport = net.run(main())
            self.assertEqual(repr(net), "<Network of 2 hosts at 0 s>")
            transport.sendto(b"")
            socket = transport.get_extra_info("socket")
        with self.assertRaisesRegex(RuntimeError, "a socket of one at port 5 outlives its run"):
            socket.send(b"")

    def test_a_network_in_a_coroutine(self) -> None:
        async def main() -> bool:
            async with aio.network() as net:
                task = net.host("10.0.0.1").create_task(asyncio.sleep(99))
                await asyncio.sleep(1)
            return task.cancelled()

        async def beside() -> None:
            async with aio.Network():
                pass

        self.assertTrue(aio.run(main()))
        with self.assertRaisesRegex(RuntimeError, "a network has a loop of its own: write `with"):
            asyncio.run(beside())
