"""Simulated hosts' sockets through the system's calls: arrivals and refusals.

A packet of 1,000 bytes takes 1 ms at 8 Mbit/s. A datagram has 28 bytes more than its data, and an IPv6 datagram 48.
"""

import asyncio
import errno
import fcntl
import os
import re
import socket
from typing import Any, Callable, Optional

import pytest

from hingetulip import aio
from simulated_hosts import ONE, OTHER, OTHER_OF_6, Ends, audited, both, on, opened, udp
from with_folder import WithFolder

MS = 10**6  # ns


class Calls(WithFolder):
    def test_a_reader_and_what_a_socket_tells(self) -> None:
        async def main(net: aio.Network) -> list[Any]:
            await net.hosts[OTHER].endpoint(lambda: Ends(True), 7)
            made, loop, got = udp(), asyncio.get_running_loop(), []
            fcntl.fcntl(made.fileno(), fcntl.F_SETFD, fcntl.FD_CLOEXEC)
            made.bind(("", 5000))
            loop.add_reader(made.fileno(), lambda: got.append((made.recvfrom(100), net.loop.clock.now)))
            for data in (b"x" * 972, b"y"):
                made.sendto(data, (OTHER, 7))
            told = made.getsockname(), made.family, made.type, made.getblocking()
            await asyncio.sleep(1)
            assert loop.remove_reader(made)
            assert not loop.remove_reader(made)
            with pytest.raises(BlockingIOError):
                made.recv(1)
            made.close()
            assert -1 == made.fileno()
            return [*got, told]

        with both() as net:
            first, second, told = on(net, ONE, main(net))
        assert ((b"x" * 100, (OTHER, 7)), 42 * MS) == first
        assert ((b"y", (OTHER, 7)), 42 * MS + 29_000) == second
        assert (("0.0.0.0", 5000), socket.AF_INET, socket.SOCK_DGRAM, False) == told

    def test_calls_of_the_loop(self) -> None:
        async def serve(net: aio.Network) -> None:
            loop, made = asyncio.get_running_loop(), udp()
            made.bind((OTHER, 7))
            room = bytearray(10)
            for _ in range(2):
                length, source = await loop.sock_recvfrom_into(made, room)
                await loop.sock_sendto(made, room[:length].upper(), source)

        async def ask(net: aio.Network) -> tuple[bytes, int, float]:
            loop, made = asyncio.get_running_loop(), udp()
            await loop.sock_connect(made, ("other", 7))
            assert (OTHER, 7) == made.getpeername()
            await loop.sock_sendall(made, b"one")
            answer = await loop.sock_recv(made, 100)
            made.sendmsg([b"t", b"wo"])
            return answer, await loop.sock_recv_into(made, bytearray(2)), loop.time()

        with both("20ms") as net:
            task = net.hosts[OTHER].create_task(serve(net))
            assert (b"ONE", 2, 0.08) == on(net, ONE, ask(net))
            assert task.done()

    def test_a_closed_port_answers_along_the_link(self) -> None:
        """The question has 29 bytes and the answer 28 more than it, at 8 Mbit/s and 20 ms each way."""

        async def main(net: aio.Network) -> tuple[list[int], int]:
            made, ends = udp(), await opened(remote=(OTHER, 9))
            made.connect((OTHER, 9))
            made.send(b"x")
            with pytest.raises(ConnectionRefusedError):
                await asyncio.get_running_loop().sock_recv(made, 100)
            at = net.loop.clock.now
            ends.transport.sendto(b"x" * 2000)
            lonely = await opened()
            lonely.transport.sendto(b"x", (OTHER, 9))
            made.send(b"x")
            await asyncio.sleep(1)
            assert errno.ECONNREFUSED == made.getsockopt(socket.SOL_SOCKET, socket.SO_ERROR)
            assert [] == lonely.faults
            return [it.errno for it in ends.faults], at

        history = self.folder / "h"
        with both(history=history) as net:
            faults, at = on(net, ONE, main(net))
            assert {f"{OTHER}:9": 4} == net.unheard
        lines = history.read_text().splitlines()
        assert ([errno.ECONNREFUSED], 2 * 20 * MS + (29 + 57) * 1000) == (faults, at)
        answers = [line.split(",") for line in lines if line.startswith("c,0,submit,pipe,2")]
        assert [[OTHER, ONE, "1", "0", "0", length] for length in ("57", "576", "57", "57")] == [it[5:11] for it in answers]
        assert re.search(r"^lawful \d+\n$", audited(history))

    def test_a_host_that_is_down_answers_nothing(self) -> None:
        async def main(net: aio.Network) -> list[Exception]:
            ends = await opened(remote=(OTHER, 9))
            net.hosts[OTHER].stop()
            ends.transport.sendto(b"x")
            await asyncio.sleep(1)
            return ends.faults

        with both() as net:
            assert [] == on(net, ONE, main(net))

    def test_what_is_refused(self) -> None:
        async def main(net: aio.Network) -> None:
            def number(call: Callable[..., object], *words: Any) -> Optional[int]:
                with pytest.raises(OSError) as caught:
                    call(*words)
                return caught.value.errno

            one, second, third = udp(), udp(), udp()
            one.bind((ONE, 7))
            refusals = (
                (errno.EADDRINUSE, second.bind, ("", 7)),
                (errno.EADDRNOTAVAIL, second.bind, (OTHER, 7)),
                (errno.EADDRNOTAVAIL, second.bind, ("10.9.9.9", 7)),
                (errno.EINVAL, one.bind, (ONE, 8)),
                (errno.EDESTADDRREQ, second.send, b"x"),
                (errno.ENOTCONN, second.getpeername),
                (errno.EMSGSIZE, second.sendto, b"x" * 65508, (OTHER, 9)),
                (errno.ENETUNREACH, second.sendto, b"x", ("10.9.9.9", 9)),
                (errno.EACCES, second.sendto, b"x", ("255.255.255.255", 9)),
                (errno.EOPNOTSUPP, second.listen),
                (socket.EAI_ADDRFAMILY, second.sendto, b"x", (OTHER_OF_6, 9)),
            )
            for wanted, call, *words in refusals:
                assert number(call, *words) == wanted
            assert second.connect_ex(("10.0.0.2", 1)) == 0
            third.setblocking(True)
            with pytest.raises(aio.RealTimeError, match="await loop.sock_recv"):
                third.recv(100)
            with pytest.raises(NotImplementedError):
                third.dup()
            third.close()
            assert number(third.send, b"x") == errno.EBADF

        with both() as net:
            on(net, ONE, main(net))

    def test_a_pipe_of_the_system_has_readers(self) -> None:
        async def main() -> bytes:
            loop, come = asyncio.get_running_loop(), asyncio.Event()
            ours, theirs = os.pipe()
            loop.add_reader(ours, come.set)
            os.write(theirs, b"x")
            await come.wait()
            loop.remove_reader(ours)
            got = os.read(ours, 10)
            for end in (ours, theirs):
                os.close(end)
            return got

        assert b"x" == aio.run(main())

    def test_names_and_options_before_a_socket_has_a_port(self) -> None:
        """Outside the tasks of hosts it keeps them for the host whose task uses it next."""

        async def ask(made: socket.socket) -> tuple[Any, Any]:
            made.sendto(b"x", (OTHER, 7))
            return made.getsockname(), made.getsockopt(socket.SOL_SOCKET, socket.SO_BROADCAST)

        async def main(net: aio.Network) -> list[Any]:
            four, six = udp(), udp(socket.AF_INET6)
            assert (("0.0.0.0", 0), ("::", 0, 0, 0)) == (four.getsockname(), six.getsockname())
            assert (socket.IPPROTO_UDP, 0.0) == (four.proto, four.gettimeout())
            four.setsockopt(socket.SOL_SOCKET, socket.SO_BROADCAST, 1)
            four.bind(("", 5000))
            assert "<hingetulip.aio.DatagramSocket>" == repr(four)
            found = await net.hosts[ONE].create_task(ask(four))
            assert " on one, laddr=('0.0.0.0', 5000)>" in repr(four)
            four.close()
            assert "<hingetulip.aio.DatagramSocket [closed]>" == repr(four)
            return found

        with both() as net:
            assert (("0.0.0.0", 5000), 1) == net.run(main(net))

    def test_a_datagram_that_is_longer_than_its_room(self) -> None:
        async def main(net: aio.Network) -> list[Any]:
            made, room = udp(), bytearray(3)
            made.settimeout(0.0)
            made.bind(("", 7))
            ends = await net.hosts[OTHER].create_task(opened(remote=(ONE, 7)))
            for data in (b"longer", b"short", b"third"):
                ends.transport.sendto(data)
            await asyncio.sleep(1)
            cut, whole = made.recvmsg(3), made.recvmsg(5)
            assert (3, b"thi") == (made.recv_into(room), bytes(room))
            with pytest.raises(OSError) as unconnected:
                made.shutdown(socket.SHUT_RDWR)
            assert errno.ENOTCONN == unconnected.value.errno
            pytest.raises(NotImplementedError, made.detach)
            return [cut[:3], whole[:3]]

        with both() as net:
            assert [(b"lon", [], socket.MSG_TRUNC), (b"short", [], 0)] == on(net, ONE, main(net))

    def test_what_a_transport_refuses(self) -> None:
        """As asyncio's own do: wrong calls raise, and the protocol is told what the system refuses. Nothing is sent."""

        async def main(net: aio.Network) -> list[Any]:
            server = await net.hosts[OTHER].create_task(opened(local=("0.0.0.0", 7)))
            free = await opened()
            bound = await opened(remote=(OTHER, 7))
            later = Ends()
            with pytest.raises(TypeError, match="not str"):
                free.transport.sendto("text", (OTHER, 7))
            with pytest.raises(OSError) as without_peer:
                free.transport.sendto(b"x")
            with pytest.raises(ValueError, match="connected to .*10.0.0.2"):
                bound.transport.sendto(b"x", (OTHER, 8))
            bound.transport.sendto(b"x" * 65508)
            told = [fault.errno for fault in bound.faults]
            bound.transport.set_protocol(later)
            assert later is bound.transport.get_protocol()
            bound.transport.sendto(b"x" * 65508, (OTHER, 7))
            bound.transport.abort()
            bound.transport.sendto(b"x")
            bound.transport.close()
            await asyncio.sleep(1)
            return [without_peer.value.errno, told, len(later.faults), bound.transport.is_closing(), server.got]

        with both() as net:
            assert [errno.EDESTADDRREQ, [errno.EMSGSIZE], 1, True, []] == on(net, ONE, main(net))

    def test_options_of_a_transport(self) -> None:
        async def main(net: aio.Network) -> tuple[int, bytes]:
            ends = await opened()
            made = ends.transport.get_extra_info("socket")
            made.setsockopt(socket.SOL_SOCKET, socket.SO_RCVBUF, 5000)
            assert ends.transport.get_extra_info("sockname") == made.getsockname()
            assert made is ends.transport.get_extra_info("socket")
            assert made.fileno() > 0
            net.loop.call_soon(ends.transport.close)
            return made.getsockopt(socket.SOL_SOCKET, socket.SO_RCVBUF), made.getsockopt(socket.IPPROTO_IP, socket.IP_TTL, 4)

        with both() as net:
            assert (5000, b"\x40\0\0\0") == on(net, ONE, main(net))
