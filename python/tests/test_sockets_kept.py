"""Names of hosts and sockets bound to them, and groups of multicast."""

import asyncio
import socket
import unittest
from typing import Any

from hingetulip import aio
from simulated_hosts import ONE, ONE_OF_6, OTHER, OTHER_OF_6, Ends, both, on, opened, udp


class Groups(unittest.TestCase):
    GROUP = ("224.0.0.251", 5353)

    def member(self, port: int = 5353, interface: str = "0.0.0.0") -> socket.socket:
        made = udp()
        made.setsockopt(socket.SOL_SOCKET, socket.SO_REUSEADDR, 1)
        made.bind(("", port))
        made.setsockopt(socket.IPPROTO_IP, socket.IP_ADD_MEMBERSHIP, socket.inet_aton(self.GROUP[0]) + socket.inet_aton(interface))
        return made

    def test_a_group_goes_over_each_link_of_its_host(self) -> None:
        async def main(net: aio.Network) -> list[list[bytes]]:
            async def listen() -> socket.socket:
                return self.member()

            members = [await net.hosts[f"10.0.0.{n}"].create_task(listen()) for n in (1, 1, 2, 3, 4)]
            members[1].setsockopt(socket.IPPROTO_IP, socket.IP_DROP_MEMBERSHIP, socket.inet_aton(self.GROUP[0]) + bytes(4))
            members[0].sendto(b"to all", self.GROUP)
            members[3].setsockopt(socket.IPPROTO_IP, socket.IP_DROP_MEMBERSHIP, socket.inet_aton(self.GROUP[0]) + bytes(4))
            await asyncio.sleep(1)
            quiet = members[0]
            quiet.setsockopt(socket.IPPROTO_IP, socket.IP_MULTICAST_LOOP, 0)
            quiet.sendto(b"to others", self.GROUP)
            await asyncio.sleep(1)
            return [[it.data for it in made._queue] for made in members]

        with aio.Network() as net:
            hosts = [net.host(f"10.0.0.{n}") for n in range(1, 5)]
            for far in hosts[1:3]:
                net.path(hosts[0], far, "5ms")
            net.path(hosts[1], hosts[3], "5ms")
            got = on(net, ONE, main(net))
            self.assertEqual({}, net.unheard)
        # The second socket of the host has it as the first has joined; the last host is behind another one.
        self.assertEqual([[b"to all"], [b"to all"], [b"to all", b"to others"], [], []], got)

    def test_all_and_a_group_of_ipv6(self) -> None:
        async def main(net: aio.Network) -> list[bytes]:
            async def listen() -> socket.socket:
                made = udp(socket.AF_INET6)
                made.bind(("::", 5353))
                made.setsockopt(
                    socket.IPPROTO_IPV6, socket.IPV6_JOIN_GROUP, socket.inet_pton(socket.AF_INET6, "ff02::fb") + bytes(4)
                )
                with self.assertRaises(OSError):
                    made.setsockopt(
                        socket.IPPROTO_IPV6, socket.IPV6_JOIN_GROUP, socket.inet_pton(socket.AF_INET6, "ff02::fb") + bytes(4)
                    )
                return made

            member = await net.hosts[OTHER].create_task(listen())
            six, four = udp(socket.AF_INET6), udp()
            six.sendto(b"six", ("ff02::fb%2", 5353, 0, 0))
            four.setsockopt(socket.SOL_SOCKET, socket.SO_BROADCAST, 1)
            four.sendto(b"four", ("<broadcast>", 5353))
            await asyncio.sleep(1)
            return [member.recv(100) for _ in range(2)]

        with both() as net:
            self.assertEqual([b"six", b"four"], on(net, ONE, main(net)))


MS = 10**6  # ns


class SecondNames(unittest.TestCase):
    def test_ipv6_and_a_dual_stack_socket(self) -> None:
        """1,000 bytes of IPv6 have 952 of data. An IPv6 socket accepts both, and shows IPv4 addresses in a special form."""

        async def main(net: aio.Network) -> list[Any]:
            loop = asyncio.get_running_loop()
            made = udp(socket.AF_INET6)
            server = (await net.hosts[OTHER].create_task(loop.create_datagram_endpoint(lambda: Ends(True), ("::", 7))))[1]
            made.setsockopt(socket.IPPROTO_IPV6, socket.IPV6_V6ONLY, 0)
            made.bind(("::", 5000, 0, 0))
            ends = (await loop.create_datagram_endpoint(Ends, sock=made))[1]
            infos = await loop.getaddrinfo("other", 7, family=socket.AF_INET6, type=socket.SOCK_DGRAM)
            ends.transport.sendto(b"x" * 952, infos[0][4])
            await asyncio.sleep(1)
            ends.transport.sendto(b"y", ("::ffff:10.0.0.2", 7, 0, 0))
            await asyncio.sleep(1)
            return [[(data[:1], source) for data, source, _ in it.got] for it in (server, ends)] + [ends.got[0][2]]

        with both() as net:
            server, client, at = on(net, ONE, main(net))
        self.assertEqual([(b"x", (ONE_OF_6, 5000, 0, 0)), (b"y", ("::ffff:10.0.0.1", 5000, 0, 0))], server)
        self.assertEqual([(b"x", (OTHER_OF_6, 7, 0, 0)), (b"y", ("::ffff:10.0.0.2", 7, 0, 0))], client)
        self.assertEqual(42 * MS, at)

    def test_only_ipv6(self) -> None:
        async def main(net: aio.Network) -> tuple[int, int]:
            made = udp(socket.AF_INET6)
            beside = udp()
            ends = await opened()
            made.setsockopt(socket.IPPROTO_IPV6, socket.IPV6_V6ONLY, 1)
            made.bind(("::", 7))
            beside.bind(("", 7))
            ends.transport.sendto(b"x", (ONE, 7))
            with self.assertRaises(BlockingIOError):
                made.recv(1)
            return len(beside.recv(10)), len(net.unheard)

        with both() as net:
            self.assertEqual((1, 0), on(net, ONE, main(net)))

    def test_names(self) -> None:
        async def main(net: aio.Network) -> list[Any]:
            return [
                socket.gethostname(),
                socket.if_nameindex(),
                socket.gethostbyname("other"),
                [it[4] for it in socket.getaddrinfo("other", 9)],
                [it[4] for it in socket.getaddrinfo("other", 9, socket.AF_INET6)],
                [it[4] for it in await asyncio.get_running_loop().getaddrinfo("224.0.0.251", 9)],
            ]

        with both() as net:
            found = on(net, ONE, main(net))
            with self.assertRaises(ValueError):
                net.host("fd00::9")
        six = (OTHER_OF_6, 9, 0, 0)
        self.assertEqual(["one", [(1, "one")], OTHER, [(OTHER, 9), six], [six], [("224.0.0.251", 9)]], found)

    def test_names_that_are_none(self) -> None:
        async def main(net: aio.Network) -> dict[str, int]:
            for call in (lambda: socket.getaddrinfo("nobody.test", 80), lambda: socket.gethostbyname("nobody.test")):
                with self.assertRaisesRegex(socket.gaierror, "there is no simulated host nobody.test"):
                    call()
            made = udp(socket.AF_INET6)
            made.bind(("::", 5000))
            made.sendto(b"x", (OTHER_OF_6, 9))
            made.sendto(b"own", ("localhost", 5000))
            made.sendto(b"own", ("::", 5000))
            self.assertEqual([(b"own", ("::ffff:10.0.0.1", 5000, 0, 0))] * 2, [made.recvfrom(10) for _ in range(2)])
            with self.assertRaises(OSError):
                made.sendto(b"x", ("fd00::77", 9))
            await asyncio.sleep(1)
            return dict(net.unheard)

        with both() as net:
            self.assertEqual({"[fd00::2]:9": 1}, on(net, ONE, main(net)))
            self.assertEqual({"one > fd00::77": 1}, net.unrouted)
