"""Effects that a run leaves in modules imported meanwhile, and real calls that are refused or reported."""

import asyncio
import faulthandler
import importlib
import os
import select
import socket
import subprocess
import sys
import threading
import time
import unittest
from textwrap import dedent
from typing import Any, Callable
from unittest import mock

import pytest

from hingetulip import aio
from hingetulip.aio import simulated
from hingetulip.aio.refusals import OF_C
from simulated_hosts import TOP


def run_alone(text: str) -> subprocess.CompletedProcess[str]:
    """A program in a process of its own, in which no module was imported before."""
    names = {**os.environ, "PYTHONPATH": str(TOP / "python")}
    return subprocess.run([sys.executable, "-c", dedent(text)], env=names, capture_output=True, text=True, timeout=60)


class Real(unittest.TestCase):
    def test_queues_of_the_loops_own_thread_are_refused(self) -> None:
        done = run_alone(
            """
            import asyncio
            from hingetulip import aio
            async def main():
                import queue
                await asyncio.sleep(5)
                try:
                    queue.Queue().get(timeout=0.01)
                except aio.RealTimeError:
                    print("refused in the run")
            aio.run(main())
            import queue
            try:
                queue.Queue().get(timeout=0.01)
            except queue.Empty:
                print("empty behind the run")
            """
        )
        assert ("refused in the run\nempty behind the run\n", "") == (done.stdout, done.stderr)

    def test_pools_of_processes_work_in_threads_and_end_with_the_interpreter(self) -> None:
        done = run_alone(
            """
            import asyncio, multiprocessing
            from concurrent.futures import ProcessPoolExecutor
            from hingetulip import aio
            def pooled():
                with multiprocessing.Pool(2) as pool:
                    return pool.map(abs, [-1, -2])
            def left_over():
                global executor
                executor = ProcessPoolExecutor(1)
                return executor.submit(abs, -3).result()
            async def main():
                both = await asyncio.to_thread(pooled), await asyncio.to_thread(left_over)
                try:
                    pooled()
                except aio.RealTimeError as error:
                    print(error)
                return both
            with aio.Network() as net:
                print(net.run(main()), dict(net.real_uses.all()))
            """
        )
        refusal, result = done.stdout.splitlines()
        assert (refusal.startswith("a call that waits stops"), result) == (True, "([1, 2], 3) {'os.fork': 5}"), done

    def test_threads_that_c_code_began_are_told(self) -> None:
        async def main() -> None:
            faulthandler.dump_traceback_later(99)

        with aio.Network() as net:
            net.run(main())
            faulthandler.cancel_dump_traceback_later()
            assert [OF_C] == net.real_uses.lines()

    def refused(self, call: Callable[[], object], text: str, fault: type[Exception] = aio.RealTimeError) -> None:
        async def main() -> None:
            call()

        with pytest.raises(fault, match=text):
            aio.run(main())

    def test_a_stream_socket_says_how_tcp_is_had(self) -> None:
        def connects() -> None:
            with socket.socket(socket.AF_INET, socket.SOCK_STREAM | socket.SOCK_NONBLOCK) as one:
                one.connect(("127.0.0.1", 9))

        def creates() -> None:
            aio.network().host("10.0.0.1", name="server")
            socket.create_connection(("server", "http"))

        def listens() -> None:
            with socket.socket() as one:
                one.bind(("127.0.0.1", 0))

        for call in (connects, creates, listens):
            self.refused(call, "hinge run --simulated")

    def test_names_of_services(self) -> None:
        async def main() -> list[object]:
            aio.network().host("10.0.0.1", name="server")
            found = [
                socket.getaddrinfo("server", port, type=kind)[0][1:]
                for port, kind in (("ntp", socket.SOCK_DGRAM), ("http", socket.SOCK_STREAM), (b"domain", 0), ("8080", 0))
            ]
            with pytest.raises(socket.gaierror):
                socket.getaddrinfo("server", "no-such-service")
            return [(int(kind), protocol, address) for kind, protocol, _, address in found]

        assert [
            (socket.SOCK_DGRAM, 17, ("10.0.0.1", 123)),
            (socket.SOCK_STREAM, 6, ("10.0.0.1", 80)),
            (socket.SOCK_DGRAM, 17, ("10.0.0.1", 53)),
            (socket.SOCK_DGRAM, 17, ("10.0.0.1", 8080)),
        ] == aio.run(main())

    def test_packets_of_a_card_and_other_loops_are_refused(self) -> None:
        def sends() -> None:
            with socket.socket(socket.AF_PACKET, socket.SOCK_RAW) as card:
                card.sendto(b"", ("lo", 0))

        with select.epoll() as epoll:
            self.refused(lambda: epoll.poll(9), "await asyncio.to_thread")
        try:
            socket.socket(socket.AF_PACKET, socket.SOCK_RAW).close()
        except PermissionError:
            return  # a user can't make one either
        self.refused(sends, "the real network")

    def test_a_descriptor_of_a_real_socket_is_refused_and_another_is_told(self) -> None:
        async def waits_for(descriptor: int) -> str:
            loop = asyncio.get_running_loop()
            loop.add_reader(descriptor, lambda: None)
            loop.remove_reader(descriptor)
            return aio.network().report()

        with socket.socket(socket.AF_INET, socket.SOCK_DGRAM) as own:
            with pytest.raises(aio.RealTimeError, match="the real network"):
                aio.run(waits_for(own.fileno()))
        one, other = socket.socketpair()
        with one, other:
            assert f"real: the loop waited for descriptors of the system ({one.fileno()})" in aio.run(waits_for(one.fileno()))

    def test_a_thread_that_reached_the_system_is_told(self) -> None:
        is_under_way, has_asked = threading.Event(), threading.Event()

        def asks() -> None:
            is_under_way.wait()
            with socket.socket(socket.AF_INET, socket.SOCK_STREAM) as own:
                own.connect_ex(("127.0.0.1", 9))
            has_asked.set()

        async def main() -> str:
            is_under_way.set()
            assert has_asked.wait(9)
            return aio.network().report()

        thread = threading.Thread(target=asks, name="asker")
        thread.start()
        assert "real: the thread asker used a socket of the system" in aio.run(main())
        thread.join()


class OfOneThread(unittest.TestCase):
    """A run replaces the system's functions in its thread, by whatever name, and only there."""

    def test_a_name_that_a_test_gives_another_function(self) -> None:
        """As by pytest's monkeypatch, which puts back what it found in the run when that has ended."""
        own = {name: getattr(time, name) for name in ("sleep", "time", "monotonic")}
        patches = mock.patch.multiple(time, **{name: lambda *_: 5 for name in own})

        async def main() -> None:
            patches.start()
            assert (5, 5) == (time.time(), time.sleep(9))

        aio.run(main())
        patches.stop()
        aio.run(asyncio.sleep(1))
        assert own == {name: getattr(time, name) for name in own}
        time.sleep(0)
        assert time.time() > 1_700_000_100

    def test_copies_of_modules(self) -> None:
        """As eventlet makes them, before the run and within it."""

        def copy(name: str) -> Any:
            with mock.patch.dict(sys.modules):
                del sys.modules[name]
                return importlib.import_module(name)

        def waits(other: Any) -> list[object]:
            lock = copy("_thread").allocate_lock()
            found = [other.time() - time.time(), other.monotonic()]
            other.sleep(2)
            found += [lock.acquire(), lock.acquire(timeout=1), copy("select").epoll().poll(1)]
            queues = copy("_queue")
            with pytest.raises(queues.Empty):
                queues.SimpleQueue().get(timeout=1)
            return [*found, time.monotonic(), other.monotonic()]

        async def main() -> list[object]:
            await asyncio.sleep(5)
            later.append(copy("time"))
            return [await asyncio.to_thread(waits, it) for it in (earlier, *later)]

        earlier, later = copy("time"), list[Any]()
        with aio.Network() as net:
            told = net.run(main())
            assert not net.real_uses.all()
        assert [[0, 5, True, False, [], 10, 10], [0, 10, True, False, [], 15, 15]] == told
        assert earlier.time() > 1_700_000_100 and later[0].time() > 1_700_000_100

    def test_a_loop_in_another_thread_goes_on(self) -> None:
        beats, is_over = [0.0], threading.Event()

        async def beat() -> None:
            while not is_over.is_set():
                await asyncio.sleep(0.01)
                beats.append(time.monotonic())

        async def main() -> int:
            await asyncio.sleep(1e6)
            count = len(beats)
            while len(beats) < count + 3:
                is_over.wait(0.01)
            thread = threading.Thread(target=lambda: beats.append(asyncio.run(asyncio.sleep(0.01, -1.0))))
            thread.start()
            await asyncio.to_thread(thread.join)
            return count

        other = threading.Thread(target=asyncio.run, args=(beat(),))
        other.start()
        try:
            aio.run(main())
            count = len(beats)
            while len(beats) < count + 3:
                is_over.wait(0.01)
        finally:
            is_over.set()
            other.join()
        assert -1.0 in beats
        assert max(beats) - min(beats[1:], key=abs) < 1e5

    def test_code_that_waits_for_a_clock_that_stands_still(self) -> None:
        async def main() -> None:
            until = time.monotonic() + 1
            while time.monotonic() < until:
                pass

        with mock.patch.object(simulated, "LONG", 0.01), pytest.raises(aio.RealTimeError, match="await asyncio.sleep"):
            aio.run(main())
