"""The server of the control socket and its messages, in this process, without a run."""

import contextlib
import errno
import os
import socket
import threading
from unittest import mock

from linked import until
from with_folder import WithFolder

from hinge.border import serving
from hinge.border.asking import ask
from hinge.border.messages import Order, Reply, message_line, read_message
from hinge.border.serving import LEFT, MOST_CLIENTS, SHORT, Answer as Outcome, Server
from hinge.run.words import Wrong


def test_each_comes_back() -> None:
    for message in (Order(3, change="up 1ms"), Order(status=True), Order(end=True), Reply(3, refused="")):
        assert read_message(type(message), message_line(message)) == message
    told = read_message(Reply, b'{"told": [{"moment": 1, "line": "pipe 1 config"}]}').told
    assert [(one.moment, one.line, one.refused) for one in told or []] == [(1, "pipe 1 config", "")]


class OfServers(WithFolder):
    """A server in this process, without a run."""

    def setUp(self) -> None:
        super().setUp()
        self.path = str(self.folder / "socket")
        self.server = Server(self.path)
        self.server.serve(lambda order, client: Outcome(Reply(status={})))
        self.addCleanup(self.server.end)

    def is_answered(self) -> bool:
        try:
            return ask(self.path, 5, status=True).status == {}
        except Wrong:
            return False

    def test_no_refusal_of_the_system_ends_it(self) -> None:
        for call in ("accept", "recv", "send"):
            usual = getattr(socket.socket, call)
            for number in (*SHORT, *map(errno.__dict__.get, "ECONNABORTED EINTR EPERM EPROTO EPIPE EIO ECONNRESET".split())):
                left = [OSError(number, ""), MemoryError()]

                def refused(line: socket.socket, *rest: object) -> object:
                    if left:
                        raise left.pop()
                    return usual(line, *rest)

                with self.subTest(call=call, number=number), mock.patch.object(socket.socket, call, refused):
                    until(lambda: self.is_answered())
                    self.assertEqual(left, [])

    def test_of_runs_that_find_one_dead_socket_one_has_it(self) -> None:
        """The test also lets a socket that isn't a run's take the name after the old one was found dead."""
        usual = serving.reached
        finds = iter((True,))
        other = str(self.folder / "other")

        def reached(path: str) -> int:
            result = usual(path)
            if next(finds, False):
                os.rename(other, self.dead)
            return result

        self.leave_dead()
        with socket.socket(socket.AF_UNIX) as late:
            late.bind(other)
            late.listen()
            with mock.patch.object(serving, "reached", reached), self.assertRaises(FileExistsError):
                Server(self.dead)
            self.assertEqual(usual(self.dead), 0)
        os.unlink(self.dead)
        self.leave_dead()
        begin, made = threading.Barrier(8), list[Server]()

        def make() -> None:
            begin.wait()
            with contextlib.suppress(FileExistsError):
                made.append(Server(self.dead))

        threads = [threading.Thread(target=make) for _ in range(8)]
        for do in (threading.Thread.start, threading.Thread.join):
            for thread in threads:
                do(thread)
        self.assertEqual((len(made), usual(self.dead), os.listdir(self.folder)), (1, 0, ["dead", "socket"]))
        os.unlink(self.dead)
        other = Server(self.dead)
        made[0].end()  # whose name another one has now
        self.assertEqual(usual(self.dead), 0)
        other.end()
        self.assertEqual(os.listdir(self.folder), ["socket"])

    def leave_dead(self) -> None:
        """Leaves the socket of a killed run."""
        self.dead = str(self.folder / "dead")
        with socket.socket(socket.AF_UNIX) as line:
            line.bind(self.dead)

    def test_only_a_dead_socket_of_a_run_goes(self) -> None:
        path = str(self.folder / "log")
        with socket.socket(socket.AF_UNIX, socket.SOCK_DGRAM) as line:
            line.bind(path)
            with self.assertRaises(FileExistsError):
                Server(path)
        with socket.socket(socket.AF_UNIX) as line:  # of a run that is stopped, whom so many wait for
            line.bind(f"{path}2")
            line.listen(0)
            while serving.reached(f"{path}2") == 0:
                pass
            with self.assertRaises(FileExistsError):
                Server(f"{path}2")

    def test_idle_clients_make_room(self) -> None:
        with contextlib.ExitStack() as idle:
            for _ in range(2 * MOST_CLIENTS):
                line = idle.enter_context(socket.socket(socket.AF_UNIX))
                line.connect(self.path)
            self.assertTrue(self.is_answered())

    def test_idle_clients_leave_descriptors_to_the_run(self) -> None:
        self.assertTrue(self.is_answered())
        lines = [socket.socket(socket.AF_UNIX) for _ in range(MOST_CLIENTS - 4)]  # whose own descriptors are taken before
        held = [os.dup(0) for _ in range(4 * LEFT)]  # so that a quarter of the limit is no less than what is left
        self.addCleanup(lambda: [os.close(one) for one in held])
        os.close(free := held.pop())
        most = free + 8 + LEFT
        with contextlib.ExitStack() as idle, mock.patch("resource.getrlimit", return_value=(most, most)):
            for line in lines:
                idle.enter_context(line).connect(self.path)
            self.assertTrue(self.is_answered())
            self.assertLess(len(self.server.clients), 10)

    def test_it_has_two_threads_however_many_clients_there_are(self) -> None:
        count = threading.active_count()
        with contextlib.ExitStack() as idle, mock.patch("threading.Thread.start", side_effect=RuntimeError("no room")):
            for _ in range(20):
                idle.enter_context(socket.socket(socket.AF_UNIX)).connect(self.path)
            self.assertEqual((self.is_answered(), threading.active_count()), (True, count))
            with self.assertRaisesRegex(Wrong, "no room"):
                self.server.serve(lambda order, client: Outcome(Reply()))
