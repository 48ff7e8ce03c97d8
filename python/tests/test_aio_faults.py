"""asyncio in simulated time: what can't go on, what is refused, and loops of other kinds."""

import asyncio
import errno
import socket
import threading
import unittest

from hingetulip import aio
from hingetulip.aio import private_names
from simulated_hosts import Ends, network, opened


class Faults(unittest.TestCase):
    def test_what_cannot_go_on(self) -> None:
        with network("") as net:

            async def waits() -> None:
                await net.loop.create_future()

            async def asks() -> None:
                while True:
                    await asyncio.sleep(0)

            with self.assertRaisesRegex(
                aio.Stuck, r"(?s)at 0\.000000000 s nothing can happen any more.*waits in waits, .*test_aio_faults.py:\d+: await"
            ):
                net.run(waits())
            with self.assertRaisesRegex(asyncio.TimeoutError, "after 5 s of simulated time.*\n.*waits in waits"):
                net.run(waits(), timeout=5)
            with self.assertRaisesRegex(aio.Stuck, "a task asks again and again"):
                net.run(asks())

    def test_names_other_threads(self) -> None:
        ended = threading.Event()
        thread = threading.Thread(target=ended.wait, name="answers")
        thread.start()
        try:

            async def waits() -> None:
                await asyncio.get_running_loop().create_future()

            with aio.Network() as net, self.assertRaisesRegex(
                aio.Stuck, r"Other threads run \(answers\), and simulated time waits for none"
            ):
                net.run(waits())
        finally:
            ended.set()
            thread.join()

    def test_names_the_hosts_of_those_who_wait(self) -> None:
        with network("") as net:

            async def waits() -> None:
                await asyncio.Queue().get()

            async def main() -> None:
                await net.hosts["10.0.0.2"].create_task(waits(), name="reader")

            with self.assertRaisesRegex(aio.Stuck, r"reader on 10\.0\.0\.2 waits in waits, .*await asyncio.Queue\(\).get\(\)"):
                net.run(main())

    def test_ports(self) -> None:
        async def main() -> list[int]:
            net = aio.network()
            host = net.host("10.0.0.1", "10.0.0.3")
            ports = [(await host.endpoint(Ends))[0].local[1] for _ in range(3)]
            opened_at = await host.create_task(net.loop.create_datagram_endpoint(Ends, ("10.0.0.3", ports[-1] + 1)))
            ports.append((await host.endpoint(Ends))[0].local[1])
            for local in (("10.0.0.3", ports[0]), ("0.0.0.0", ports[2] + 1)):
                with self.assertRaises(OSError):
                    await host.create_task(net.loop.create_datagram_endpoint(Ends, local))
            opened_at[0].close()
            await host.endpoint(Ends, ports[2] + 1)
            return ports

        self.assertEqual([49152, 49153, 49154, 49156], aio.run(main()))

    def test_what_is_left_out(self) -> None:
        with network("") as net:
            one = net.hosts["10.0.0.1"]
            with self.assertRaisesRegex(RuntimeError, "runs on no host"):
                net.run(opened(local=("0.0.0.0", 7)))
            with self.assertRaisesRegex(NotImplementedError, "hinge run"):
                net.run(asyncio.open_connection("10.0.0.2", 80))
            for name in ("sock_accept", "create_unix_connection", "subprocess_exec", "add_signal_handler"):
                with self.assertRaisesRegex(NotImplementedError, "hinge run --simulated"):
                    getattr(net.loop, name)(1)
            with self.assertRaisesRegex(NotImplementedError, "Unix sockets"):
                net.run(net.loop.create_datagram_endpoint(Ends, "/nowhere", family=socket.AF_UNIX))
            with self.assertRaises(OSError):
                net.run(one.net.loop.getaddrinfo("nobody", 1))

            async def elsewhere() -> None:
                with self.assertRaises(OSError):
                    await one.create_task(opened(local=("10.0.0.2", 1)))
                await one.create_task(opened(local=("10.0.0.1", 5)))
                with self.assertRaises(OSError):
                    await one.create_task(opened(local=("0.0.0.0", 5)))

            net.run(elsewhere())

    def test_what_leads_nowhere_is_counted(self) -> None:
        with network("") as net:
            net.host("10.0.0.9")

            async def main() -> list[Exception]:
                ends = await opened()
                for data, host in ((b"x", "10.0.0.9"), (b"x", "10.9.9.9"), (bytes(65507), "10.0.0.2")):
                    ends.transport.sendto(data, (host, 1))
                await asyncio.sleep(1)
                return ends.faults

            faults = net.run(net.hosts["10.0.0.1"].create_task(main()))
            self.assertEqual([it.errno for it in faults], [errno.ENETUNREACH] * 2)
            self.assertEqual(dict(net.unrouted), {"10.0.0.1 > 10.0.0.9": 1, "10.0.0.1 > 10.9.9.9": 1})
            self.assertEqual(dict(net.unheard), {"10.0.0.2:1": 1})

    def test_another_asyncio(self) -> None:
        self.assertEqual(private_names.changed(vars(asyncio.BaseEventLoop)), [])
        without = {**vars(asyncio.BaseEventLoop), "run_forever": len}
        self.assertEqual(private_names.changed(without), ["BaseEventLoop.run_forever without _run_once"])


class Loops(unittest.TestCase):
    def test_executor_names_and_own_datagrams(self) -> None:
        async def on_host() -> object:
            loop = asyncio.get_running_loop()
            there = await opened(local=("127.0.0.1", 7))
            ends = await opened(remote=("localhost", 7))
            ends.transport.sendto(b"own")
            server = (await loop.getaddrinfo("server", 5))[0][4]
            await asyncio.sleep(0.001)
            threaded = await loop.run_in_executor(None, lambda: 5)
            return there.got[0][:2], server, threaded, aio.current_host().name

        async def main() -> object:
            net = aio.network()
            net.host("10.0.0.2", "10.0.1.2", name="server")
            return await net.host("10.0.0.1", name="client").create_task(on_host())

        self.assertEqual(aio.run(main()), ((b"own", ("10.0.0.1", 49152)), ("10.0.0.2", 5), 5, "client"))

    def test_no_simulated_loop(self) -> None:
        async def main() -> aio.Network:
            return aio.network()

        with self.assertRaisesRegex(RuntimeError, "simulated time"):
            asyncio.run(main())

    def test_a_close_runs_the_ends_of_tasks_in_their_order(self) -> None:
        ended = []

        async def waits(number: int) -> None:
            try:
                await asyncio.get_running_loop().create_future()
            finally:
                ended.append(number)
                await asyncio.sleep(1)

        with aio.Network() as net:

            async def main() -> None:
                for number in range(50):
                    net.loop.create_task(waits(number))
                await asyncio.sleep(1)

            net.run(main())
        self.assertEqual(ended, list(range(50)))
