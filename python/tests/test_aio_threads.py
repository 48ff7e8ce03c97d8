"""Threads, selectors and long runs in simulated time, and what of the system a run uses beside."""

import _socket
import asyncio
import ctypes
import re
import select
import selectors
import socket
import socketserver
import sqlite3
import subprocess
import tempfile
import threading
import time
import unittest
from queue import Empty, Queue, SimpleQueue
from typing import Any, Callable
from unittest import mock

import pytest

from hingetulip import aio
from hingetulip.aio import baton
from hingetulip.aio.border import CLOCK_LIBRARY
from hingetulip.aio.extra import whole
from test_aio_real import run_alone


class Selecting(unittest.TestCase):
    def test_what_select_and_the_like_say_of_a_simulated_socket(self) -> None:
        async def opened() -> socket.socket:
            made = socket.socket(socket.AF_INET, socket.SOCK_DGRAM)
            made.bind(("10.0.0.1", 7))
            return made

        async def main() -> None:
            own = await aio.network().host("10.0.0.1").create_task(opened())
            with select.epoll() as epoll, selectors.PollSelector() as selector:
                poll = select.poll()
                poll.register(own, select.POLLIN), epoll.register(own, select.EPOLLIN), selector.register(own, selectors.EVENT_READ)
                asked: list[Callable[[float], Any]] = [
                    lambda wait: select.select([own], [], [], wait)[0],
                    lambda wait: poll.poll(wait * 1000),
                    lambda wait: epoll.poll(wait),
                    lambda wait: selector.select(wait),
                ]
                for _ in range(2):
                    assert [[]] * 4 == [ask(0) for ask in asked]
                    for ask in asked:
                        with pytest.raises(aio.RealTimeError):
                            ask(9)
                    await aio.network().host("10.0.0.1").create_task(sent())
                    assert [1] * 4 == [len(ask(9)) for ask in asked]
                    assert b"x" == own.recv(9)

        async def sent() -> None:
            socket.socket(socket.AF_INET, socket.SOCK_DGRAM).sendto(b"x", ("10.0.0.1", 7))

        aio.run(main())

    def test_a_first_select_for_a_socket_without_a_descriptor(self) -> None:
        def asked() -> tuple[int, float]:
            with socket.socket(socket.AF_INET, socket.SOCK_DGRAM) as own:
                return len(select.select([own], [], [], 0.5)[0]), time.monotonic()

        assert (0, 0.5) == aio.run(asyncio.to_thread(asked))

    def test_other_descriptors_wait_really(self) -> None:
        async def main(one: socket.socket) -> None:
            assert [one] == select.select([one], [], [], 9)[0]

        one, other = socket.socketpair()
        with one, other:
            thread = threading.Timer(0.05, other.send, [b"x"])
            thread.start()
            aio.run(main(one))
            thread.join()


class Threads(unittest.TestCase):
    """Threads that a run starts wait in simulated time. The moments are those of the calls' own lengths."""

    def log_of(self, *functions: Callable[[list[Any]], None]) -> list[Any]:
        log = list[Any]()

        async def main() -> None:
            await asyncio.gather(*(asyncio.to_thread(function, log) for function in functions))
            await asyncio.to_thread(lambda: [thread.join() for thread in self.threads])
            log.append(time.monotonic())

        self.threads = list[threading.Thread]()
        before = threading.active_count()
        aio.run(main())
        assert before == threading.active_count()
        return log

    def test_locks_queues_events_and_sleeps(self) -> None:
        queue = Queue[int]()
        simple = SimpleQueue[int]()
        event = threading.Event()
        lock = threading.RLock()

        def one(log: list[Any]) -> None:
            with lock, lock:
                time.sleep(1.5)
            queue.put(1)
            log.append((event.wait(9), time.monotonic()))
            simple.put(2)

        def two(log: list[Any]) -> None:
            self.threads.append(threading.Thread(target=lambda: (time.sleep(1), event.set())))
            log.append((queue.get(), time.monotonic()))
            self.threads[0].start()
            log.append((simple.get(timeout=30), time.monotonic()))
            with pytest.raises(Empty):
                queue.get(timeout=3)

        def three(log: list[Any]) -> None:
            log.append((lock.acquire(timeout=0.5), lock.acquire(), time.monotonic()))

        assert [(1, 1.5), (False, True, 1.5), (True, 2.5), (2, 2.5), 5.5] == self.log_of(one, two, three)

    def test_a_wait_for_less_than_a_nanosecond(self) -> None:
        """As trio's for what floats leave of its deadline: time has to pass, or it waits for ever."""
        waits = lambda log: (select.select([], [], [], 1e-11), log.append(time.monotonic()))  # noqa: E731
        assert [1e-9, 1e-9] == self.log_of(waits)

    def test_sockets_selectors_and_another_event_loop(self) -> None:
        class Upper(socketserver.BaseRequestHandler):
            def handle(self) -> None:
                self.request[1].sendto(self.request[0].upper(), self.client_address)

        def ask(log: list[Any]) -> None:
            with socket.socket(socket.AF_INET, socket.SOCK_DGRAM) as own:
                own.settimeout(3)
                own.sendto(b"x", ("10.0.0.2", 7))
                log.append((own.recv(9), time.monotonic()))
                with pytest.raises(socket.timeout):
                    own.recv(9)

        async def main(log: list[Any]) -> None:
            near, far = (aio.network().host(f"10.0.0.{number}") for number in (1, 2))
            aio.network().path(near, far, "20ms")
            serve = lambda: socketserver.UDPServer(("10.0.0.2", 7), Upper).serve_forever()  # noqa: E731
            far.create_task(asyncio.to_thread(serve))
            await near.create_task(asyncio.to_thread(ask, log))
            await asyncio.to_thread(lambda: asyncio.run(asyncio.sleep(2)))

        log = list[Any]()
        aio.run(main(log))
        assert [(b"X", 0.04)] == log

    def test_the_clock_stands_still_for_a_process(self) -> None:
        def ask(log: list[Any]) -> None:
            with subprocess.Popen(["sh", "-c", "sleep 0.1; echo late"], stdout=subprocess.PIPE) as process:
                log.append(process.communicate(timeout=5)[0])

        said, seconds = self.log_of(ask)
        assert b"late\n" == said and seconds < 1

    def test_what_is_left_over_ends_with_the_network(self) -> None:
        ends = list[str]()

        def waits() -> None:
            try:
                Queue[int]().get()
            finally:
                ends.append("ended")

        async def main() -> None:
            threading.Thread(target=waits).start()
            await asyncio.sleep(1)

        before = threading.active_count()
        aio.run(main())
        assert (["ended"], before) == (ends, threading.active_count())

    def test_a_thread_that_waits_for_something_real_ends_the_run(self) -> None:
        one, other = socket.socketpair()
        thread = threading.Thread(target=one.recv, args=(1,))

        async def main() -> None:
            thread.start()
            started.append(thread)  # what starts a thread may be a constructor in C, which an error would leave half done
            await asyncio.sleep(1)

        started = list[threading.Thread]()
        with one, other:
            with mock.patch.object(baton, "LONGEST", 1), pytest.raises(aio.RealTimeError, match="(?s)^a thread of the run .* run"):
                aio.run(main())
            other.send(b"x")
            thread.join()
        assert [thread] == started
        assert 3 == aio.run(asyncio.to_thread(lambda: 3))

    def test_an_interpreter_that_is_not_known_is_refused(self) -> None:
        done = run_alone("import ctypes; del ctypes.PyDLL; import hingetulip")  # as with PyPy
        assert "ImportError: hingetulip needs CPython, and this is cpython" in done.stderr

    @unittest.skipIf(CLOCK_LIBRARY is None, "no hinge-clock.so")
    def test_a_thread_in_c_draws_while_another_keeps_pythons_lock(self) -> None:
        done = run_alone(
            """
            import asyncio, ctypes, ssl
            from hingetulip import aio
            from hingetulip.aio.openssl import libcrypto
            crypto, of_c, thread = libcrypto(), ctypes.PyDLL(None), ctypes.c_void_p()
            crypto.EC_KEY_new_by_curve_name.restype = ctypes.c_void_p
            async def main():
                key = ctypes.c_void_p(crypto.EC_KEY_new_by_curve_name(415))
                of_c.pthread_create(ctypes.byref(thread), None, crypto.EC_KEY_generate_key, key)
                return of_c.pthread_join(thread, None), crypto.EC_KEY_check_key(key)
            print(aio.run(main()))
            """
        )
        assert ("(0, 1)\n", "") == (done.stdout, done.stderr)


class Told(unittest.TestCase):
    @unittest.skipIf(CLOCK_LIBRARY is None, "no hinge-clock.so")
    def test_a_connection_made_before_the_run_and_processes(self) -> None:
        async def main() -> str:
            assert b"x" == (near.send(b"x") and far.recv(1))
            subprocess.run(["true"])
            return aio.network().report()

        with socket.create_server(("127.0.0.1", 0)) as server, socket.create_connection(server.getsockname()) as near:
            far, _ = server.accept()
            with far:
                report = aio.run(main())
        for text in (r"real: \S+ send\n", r"real: \S+ recv\n", "real: subprocess.Popen\n"):
            assert re.search(text, report)

    @unittest.skipIf(CLOCK_LIBRARY is None, "no hinge-clock.so")
    def test_c_code_that_waits_in_a_thread_of_the_run(self) -> None:
        def wait() -> None:
            with tempfile.TemporaryDirectory() as folder:
                one, other = (sqlite3.connect(f"{folder}/data", timeout=0.01) for _ in range(2))
                one.execute("begin exclusive")
                with pytest.raises(sqlite3.OperationalError, match="locked"):
                    other.execute("begin exclusive")
                one.close(), other.close()

        with aio.Network() as net:
            net.run(asyncio.to_thread(wait))
            (called,) = net.real_uses.all()
        assert "sqlite3" in called and "sleep" in called

    @unittest.skipIf(CLOCK_LIBRARY is None, "no hinge-clock.so")
    def test_names_that_the_systems_resolver_is_asked_for(self) -> None:
        async def main() -> None:
            ctypes.CDLL(None).gethostbyname(b"localhost")
            with socket.socket() as own, pytest.raises(aio.RealTimeError):
                own.connect(("localhost", 9))

        with aio.Network() as net:
            net.run(main())
            assert {"gethostbyname", "getaddrinfo"} == {name.split()[-1] for name in net.real_uses.all()}

    def test_other_families_and_subclasses_are_refused(self) -> None:
        class Own(socket.socket):
            pass

        async def main() -> None:
            for made in (Own(socket.AF_INET, socket.SOCK_DGRAM), _socket.socket(socket.AF_INET, socket.SOCK_DGRAM)):
                with pytest.raises(aio.RealTimeError):
                    made.sendto(b"x", ("127.0.0.1", 9))
                made.close()

        with aio.Network() as net:
            net.run(main())
            (line,) = net.real_uses.lines()
            assert line.startswith("refused, 2 calls: a socket of the system reaches the real network")


def test_timers_of_years() -> None:
    async def main() -> list[float]:
        moments = []
        for days in (97, 98, 365, 20_000):
            await asyncio.sleep(days * 86_400.25)
            await asyncio.sleep(0.001)
            moments.append(asyncio.get_running_loop().time())
        return moments

    seconds = [97, 195, 560, 20_560]
    for moment, days in zip(aio.run(main()), seconds):
        assert days * 86_400.25 == pytest.approx(moment, abs=0.1)


def test_whole_milliseconds_alone() -> None:
    assert [0, 80, 3_600_000] == [whole(0), whole(80.0), whole(3_600_000)]
    for delay in (1.5, -1, 3_600_001):
        with pytest.raises(ValueError, match="jitter returned .* whole milliseconds"):
            whole(delay)
