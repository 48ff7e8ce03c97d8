"""asyncio in simulated time: two runs of one seed are the same, also in two processes."""

import asyncio
import errno
import os
import socket
import subprocess
import sys
import threading
import time
from pathlib import Path

from hinge.loss import GilbertElliott
from hingetulip import RangeError, aio
from hingetulip.aio.drawn import Drawn
from simulated_hosts import Ends, exchange, network, opened
from with_folder import WithFolder

RUN = """
import sys
sys.path[:0] = {path!r}
import random
from hingetulip import aio
from simulated_hosts import exchange, network, opened

async def bye(net, host, number):
    ends = await opened(remote=("10.0.0.2", 7))
    try:
        await net.loop.create_future()
    finally:
        ends.transport.sendto(b"bye" * number)

async def main(net):
    hosts = {{f"10.0.0.{{n}}" for n in range(3, 20)}}
    for number, name in enumerate(sorted(hosts)):
        net.path(net.host(name), net.hosts["10.0.0.2"], "1Mbit/s 5ms")
        net.hosts[name].create_task(bye(net, name, number + 1))
    for _ in range(10):
        await exchange(net, random.randrange(3, 9), random.random())
        next(iter(net.hosts.values())).sockets.clear()
        net.hosts["10.0.0.2"].sockets.clear()

with network("8Mbit/s 20ms plr 0.1", seed=5, history=sys.argv[1]) as net:
    net.run(main(net))
"""


def text_of_run(folder: str, hash_seed: str) -> str:
    """Returns the history from a separate process."""
    history = Path(folder) / f"h{hash_seed}"
    subprocess.run(
        [sys.executable, "-c", RUN.format(path=sys.path), history], check=True, env={**os.environ, "PYTHONHASHSEED": hash_seed}
    )
    return history.read_text()


class Repeats(WithFolder):
    def test_an_hour_takes_no_time_and_repeats(self) -> None:
        began, found = time.monotonic(), []
        for seed in (1, 1, 2):
            with network("delay 40ms plr 0.05", seed=seed) as net:
                found.append((net.run(exchange(net, 3600, 1)).got, net.report()))
        self.assertEqual(found[0], found[1])
        self.assertNotEqual(found[0], found[2])
        self.assertLess(time.monotonic() - began, 3600)

    def test_histories_of_processes_are_equal_under_any_hash_seed(self) -> None:
        found = {text_of_run(self.folder, hash_seed) for hash_seed in ("0", "1", "2", "77")}
        self.assertEqual(len(found), 1)

    def test_sets_of_tasks_have_one_order(self) -> None:
        async def main() -> list[str]:
            tasks = [asyncio.get_running_loop().create_task(asyncio.sleep(1), name=str(n)) for n in range(60)]
            done, _ = await asyncio.wait(tasks)
            return [task.get_name() for task in done]

        self.assertEqual(*(aio.run(main()) for _ in range(2)))

    def test_one_direction_never_changes_the_losses_of_the_other(self) -> None:
        lost = []
        for back in ("plr 0", "plr 0.5"):
            with aio.Network(seed=3) as net:
                net.path(net.host("10.0.0.1"), net.host("10.0.0.2"), "plr 0.2", back)
                net.run(exchange(net, 100, 1))
                lost.append([it.moment for it in net.dropped if it.target[0] == "10.0.0.2"])
        self.assertEqual(lost[0], lost[1])
        self.assertGreater(len(lost[0]), 5)

    def test_words_are_those_of_hinge(self) -> None:
        try:
            from hinge.loss import Bernoulli
        except ImportError:
            self.skipTest("no hinge beside the module")
        for seed, pipe in ((1, 1), (7, 2), (2**40, 65535)):
            ours, theirs = Drawn(seed, pipe), Bernoulli(seed, pipe)
            self.assertEqual([ours.next() for _ in range(100)], [theirs.next() for _ in range(100)])

    def test_a_model_of_loss(self) -> None:
        class Third:
            count = 0

            def next(self) -> int:
                self.count += 1
                return 0 if self.count % 3 == 0 else 2**31 - 1

        for classes in ({}, {"classes": {"all": "weight 2"}, "classify": lambda it: "all"}):
            with aio.Network() as net:
                one, other = net.host("10.0.0.1"), net.host("10.0.0.2")
                net.link(one, other, "1ms", loss=Third(), **classes)
                net.link(other, one)
                net.run(exchange(net, 9, 1))
                self.assertEqual([it.data for it in net.dropped], [b"2", b"5", b"8"])

    def test_a_word_that_is_none(self) -> None:
        class Wide:
            def next(self) -> int:
                return 2**32

        with aio.Network() as net:
            one, other = net.host("10.0.0.1"), net.host("10.0.0.2")
            net.link(one, other, loss=Wide())
            net.link(other, one)
            with self.assertRaisesRegex(RangeError, "word 4294967296 isn't in 0 to 4294967295"):
                net.run(exchange(net, 1, 1))

    def test_a_model_without_a_seed_has_that_of_its_network(self) -> None:
        def lost(of_net: int, **own: int) -> list[list[int]]:
            with aio.Network(seed=of_net) as net:
                one, other = net.host("10.0.0.1"), net.host("10.0.0.2")
                models = [GilbertElliott(0.05, 0.3, **own) for _ in range(2)]
                for near, far, model in ((one, other, models[0]), (other, one, models[1])):
                    net.link(near, far, "8Mbit/s", loss=model)
                return [[model.next() for _ in range(200)] for model in models]

        patterns = [tuple(pattern) for seed in range(1, 11) for pattern in lost(seed)]
        self.assertEqual(len(set(patterns)), 20)
        self.assertEqual(lost(3), lost(3))
        self.assertEqual(lost(3, seed=7, direction=2)[0], lost(4, seed=7, direction=2)[1])

    def test_one_run_at_a_time(self) -> None:
        async def outer() -> str:
            found: list[str] = []

            def inner() -> None:
                sleep = asyncio.sleep(1)
                try:
                    aio.run(sleep)
                except RuntimeError as error:
                    found.append(str(error))
                    sleep.close()

            thread = threading.Thread(target=inner)
            thread.start()
            thread.join()
            return found[0]

        self.assertIn("another run of simulated time is under way", aio.run(outer()))
        self.assertLess(abs(time.time() - float(subprocess.check_output(["date", "+%s"]))), 1000)
        aio.run(asyncio.sleep(1))

    def test_names_long_datagrams_and_sockets_of_the_system(self) -> None:
        async def main(net: aio.Network) -> tuple[Ends, Ends, str]:
            one, other = net.hosts["10.0.0.1"], net.hosts["far"]
            sock = socket.socket(socket.AF_INET6, socket.SOCK_DGRAM)
            sock.bind(("::", 0))
            server = (await other.create_task(net.loop.create_datagram_endpoint(lambda: Ends(True), sock=sock)))[1]
            port = server.transport.get_extra_info("sockname")[1]
            asker = await one.create_task(opened())
            asker.transport.sendto(b"hi", ("far", port))
            asker.transport.sendto(b"x" * 65508, ("far", port))
            await asyncio.sleep(1)
            return server, asker, net.report()

        with aio.Network() as net:
            net.path(net.host("10.0.0.1"), net.host("10.0.0.2", name="far"), "8Mbit/s")
            server, asker, report = net.run(main(net))
        self.assertEqual(server.got[0][:2], (b"hi", ("::ffff:10.0.0.1", 49152, 0, 0)))
        self.assertEqual([data for data, _, _ in asker.got], [b"hi"])
        self.assertEqual(asker.faults[0].errno, errno.EMSGSIZE)
        self.assertIn("10.0.0.1: 65508 bytes, and a datagram has at most 65507: 1 refused", report)

    def test_a_host_that_crashes_and_comes_back(self) -> None:
        """Of a question a second, those of the 2 s without the server get no answer. What was under way to it is lost."""

        async def main(net: aio.Network) -> list[int]:
            one, other = net.hosts["10.0.0.1"], net.hosts["10.0.0.2"]
            await other.create_task(opened(True, ("0.0.0.0", 7)))
            waits = other.create_task(asyncio.Event().wait())
            asker = await one.create_task(opened(remote=("10.0.0.2", 7)))
            for number in range(6):
                asker.transport.sendto(b"%d" % number)
                await asyncio.sleep(0.5)
                if number == 1:
                    other.stop()
                if number == 3:
                    other.start()
                    await other.create_task(opened(True, ("0.0.0.0", 7)))
                await asyncio.sleep(0.5)
            self.assertTrue(waits.cancelled())
            return [int(data) for data, _, _ in asker.got]

        with network("20ms") as net:
            self.assertEqual([0, 1, 4, 5], net.run(main(net)))
            self.assertEqual({"10.0.0.2:7": 2}, net.unheard)

    def test_an_mtu(self) -> None:
        """1,473 bytes of data are 1,501 with their headers. The second link's is smaller, and nobody is told."""

        async def main(net: aio.Network) -> tuple[Ends, Ends]:
            hosts = list(net.hosts.values())
            server = await hosts[2].create_task(opened(local=("0.0.0.0", 7)))
            asker = await hosts[0].create_task(opened(remote=("10.0.0.3", 7)))
            for length in (1473, 1472, 1253, 1252):
                asker.transport.sendto(b"x" * length)
            await asyncio.sleep(1)
            return server, asker

        with aio.Network() as net:
            one, middle, other = (net.host(f"10.0.0.{n}") for n in (1, 2, 3))
            net.link(one, middle, mtu=1500)
            net.link(middle, other, mtu=1280)
            server, asker = net.run(main(net))
            self.assertIn("10.0.0.2 > 10.0.0.3: 1500 bytes, and the link's MTU is 1280: 1 refused", net.report())
        self.assertEqual([1252], [len(data) for data, _, _ in server.got])
        self.assertEqual([errno.EMSGSIZE], [fault.errno for fault in asker.faults])

    def test_what_is_real_is_refused(self) -> None:
        async def sleeps() -> None:
            time.sleep(0.001)

        async def asks() -> None:
            with socket.socket(socket.AF_INET, socket.SOCK_STREAM) as own:
                own.connect_ex(("127.0.0.1", 9))

        async def pairs() -> bytes:
            one, other = socket.socketpair()
            with one, other:
                one.sendmsg([b"hi"])
                return other.recv(2)

        before = time.sleep
        for main, text in ((sleeps, "await asyncio.sleep"), (asks, "hinge run --simulated")):
            with self.assertRaisesRegex(aio.RealTimeError, text):
                aio.run(main())
            with aio.Network() as net:
                net.real = True
                net.run(main())
        self.assertEqual(b"hi", aio.run(pairs()))
        self.assertIs(before, time.sleep)
        self.assertNotIn("__new__", vars(socket.socket))
