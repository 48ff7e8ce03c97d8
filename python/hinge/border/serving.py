"""The run's end of a control socket: a thread that serves all clients, and a thread that carries out changes, which wait for the
links. Both start before the run, so that a later lack of threads, descriptors or memory can't end them."""

from __future__ import annotations

import errno
import os
import resource
import select
import socket
import stat
import threading
import time
from collections import deque
from contextlib import suppress
from dataclasses import dataclass, field, replace
from typing import Callable

from hinge.border.asking import is_own, reached, short_path
from hinge.border.clients import LONGEST_ORDER, PATIENCE, Answer, Client
from hinge.border.messages import Order, Reply, Strange, read_message
from hinge.border.scratch import PREFIX, alone, held, undisturbed
from hinge.border.terminal import note_defect
from hinge.run.system import exchange
from hinge.run.words import Wrong

MOST_CLIENTS = 32
LEFT = 12  # descriptors that clients leave to the run; a quarter of the system's limit if that is less
SHORT = (errno.EMFILE, errno.ENFILE, errno.ENOMEM, errno.ENOBUFS)  # errors after which an idle client is dropped
PAUSE = 0.05  # s before another attempt if no client is idle


Obey = Callable[[Order, Client], Answer]


def inode_of(path: str) -> tuple[int, int]:
    """Returns the device and the inode that identify a file."""
    result = os.lstat(path)
    return result.st_dev, result.st_ino


def is_dead(path: str) -> bool:
    """Returns whether a path is a socket of this user at which no process listens, as a killed run leaves."""
    result = os.lstat(path)
    return stat.S_ISSOCK(result.st_mode) and result.st_uid == os.geteuid() and reached(path) == errno.ECONNREFUSED


def take(own: str, path: str) -> None:
    """Gives the socket at `own` the path `path`, even if a killed run left a socket there. A lock admits one run at a time, since
    three runs that exchange sockets at once could each lose the path. FileExistsError: a running run or a file has the path."""
    try:
        os.link(own, path)
    except FileExistsError:
        with alone(os.path.dirname(path) or ".", PATIENCE):
            if not is_dead(path):
                raise
            exchange(own, path)
            if not is_dead(own):  # another program replaced the dead socket before the exchange
                exchange(own, path)
                raise


@dataclass
class Server:
    """Listens at a control socket. Clients can connect as soon as the server exists, and get answers after `serve`."""

    path: str
    clients: list[Client] = field(default_factory=list)
    changes: deque[tuple[Order, Client]] = field(default_factory=deque)  # orders for the thread that carries out changes
    answers: deque[tuple[Client, Answer]] = field(
        default_factory=deque
    )  # that thread's answers, for the thread that serves clients

    def __post_init__(self) -> None:
        path = self.path
        self.listening = socket.socket(socket.AF_UNIX, socket.SOCK_STREAM | socket.SOCK_NONBLOCK)
        self.spare = held("/")  # a descriptor to close if no other is left for a client
        self.waiting = threading.Semaphore(0)  # counts `changes`
        self.woken, self.waking = socket.socketpair()
        for end in (self.woken, self.waking):
            end.setblocking(False)
        with undisturbed():  # the socket has another name until it listens, or other runs would believe that its run was killed
            own = os.path.join(os.path.dirname(path), f"{PREFIX}{os.urandom(6).hex()}")
            os.fchmod(self.listening.fileno(), 0o600)
            with short_path(own) as name:
                self.listening.bind(name)
            try:
                self.listening.listen()
                self.inode = inode_of(own)
                take(own, path)
            finally:
                os.unlink(own)

    def serve(self, obey: Obey) -> None:
        """Starts the two threads, which pass orders to `obey`. Wrong: the system can't start another thread."""
        try:
            for loop in (self.serve_clients, self.carry_out_changes):
                threading.Thread(target=loop, args=(obey,), daemon=True).start()
        except RuntimeError as error:
            raise Wrong(f"--control {self.path}: {error}") from None

    def end(self) -> None:
        """Removes the socket's path if that still belongs to this server, and then stops listening: no other run takes the path of
        a server that listens."""
        with suppress(OSError):
            if inode_of(self.path) == self.inode:
                os.unlink(self.path)
        self.listening.close()
        self.wake()

    def wake(self) -> None:
        """Wakes the thread that serves clients."""
        with suppress(OSError):  # the socket is full, so the thread wakes anyway
            self.waking.send(b"!")

    def carry_out_changes(self, obey: Obey) -> None:
        """Carries out changes in their order, one at a time."""
        while self.waiting.acquire():
            order, client = self.changes.popleft()
            self.answers.append((client, answered(order, client, obey)))
            self.wake()

    def serve_clients(self, obey: Obey) -> None:
        """Serves all clients until the server ends. An error with one client doesn't end the loop."""
        while self.listening.fileno() >= 0:
            try:
                self.turn(obey)
            except Exception:  # the server is ending, or the system lacks memory
                time.sleep(PAUSE)

    def turn(self, obey: Obey) -> None:
        """Waits for an event; then serves the clients with events, and drops clients that were idle for too long."""
        idle = [client for client in self.clients if not client.is_busy]
        ready = self.ready_descriptors(idle)
        for client in idle:
            try:
                is_kept = client.connection.fileno() not in ready or self.serve_client(client, obey)
            except Exception:
                note_defect()
                is_kept = False
            if not is_kept or not client.is_busy and client.until < time.monotonic():
                self.drop(client)
        if self.woken.fileno() in ready:
            self.woken.recv(MOST_CLIENTS)
        self.put_answers()
        if self.listening.fileno() in ready:
            self.accept()

    def ready_descriptors(self, idle: list[Client]) -> set[int]:
        """Waits for a new client, an answer to a change, or an event of an idle client, at most until a client was idle for too
        long. Returns the descriptors with events."""
        poll = select.poll()
        poll.register(self.listening, select.POLLIN)
        poll.register(self.woken, select.POLLIN)
        for client in idle:
            poll.register(client.connection, client.events())
        timeout = None
        if idle:
            until = min(client.until for client in idle)
            timeout = max(0.0, until - time.monotonic()) * 1000 + 1
        return {descriptor for descriptor, _ in poll.poll(timeout)}

    def put_answers(self) -> None:
        """Passes the answers to changes to their clients."""
        while self.answers:
            client, answer = self.answers.popleft()
            client.put(answer)

    def serve_client(self, client: Client, obey: Obey) -> bool:
        """Sends a client more of its answer or receives more of its orders, and carries out complete orders; changes are left to
        the other thread. Returns whether the client stays connected."""
        if client.answer:
            client.send()
            if client.is_last and not client.answer:
                return False
        elif not client.receive():
            return False
        while not client.is_busy and not client.answer:
            try:
                text = client.next()
                if text is None:
                    break
                order = read_message(Order, text)
            except Strange as strange:
                client.put(Answer(Reply(refused=str(strange))))
                client.is_last = b"\n" not in client.rest and len(client.rest) > LONGEST_ORDER
                break
            client.is_busy = True
            client.until = time.monotonic() + PATIENCE
            if order.change is None:
                client.put(answered(order, client, obey))
            else:
                self.changes.append((order, client))
                self.waiting.release()
        return True

    def drop(self, client: Client) -> None:
        """Ends a connection, and performs the action of an answer that the client hasn't received."""
        self.clients.remove(client)
        client.connection.close()
        client.finish_answer()

    def accept(self) -> None:
        """Accepts a new client, in the place of an idle one if there are too many. Refuses another user's client."""
        try:
            connection, _ = self.listening.accept()
        except OSError as error:
            if error.errno in SHORT:
                self.make_room()
            return
        most, _ = resource.getrlimit(resource.RLIMIT_NOFILE)
        is_crowded = len(self.clients) >= MOST_CLIENTS or connection.fileno() >= most - min(LEFT, most // 4)
        if not is_own(connection) or is_crowded and not self.drop_idle_client():
            connection.close()
            return
        if is_crowded:  # the copy gets the dropped client's descriptor number, or each new client's would be above the limit
            with connection as high:
                connection = high.dup()
        connection.setblocking(False)
        self.clients.append(Client(connection, time.monotonic() + PATIENCE))

    def drop_idle_client(self) -> bool:
        """Drops the client that was idle for the longest time; returns whether a client was idle."""
        idle = [client for client in self.clients if not client.is_busy and not client.answer]
        if idle:
            self.drop(min(idle, key=lambda client: client.until))
        return bool(idle)

    def make_room(self) -> None:
        """Makes room for a waiting client by dropping an idle client. If no client is idle, drops the waiting client, with the help
        of the spare descriptor."""
        if self.drop_idle_client():
            return
        if self.spare >= 0:
            os.close(self.spare)
            self.spare = -1
        with suppress(OSError):
            self.listening.accept()[0].close()
        time.sleep(PAUSE)
        with suppress(OSError):
            self.spare = held("/")


def answered(order: Order, client: Client, obey: Obey) -> Answer:
    """Obeys an order; returns the answer, which is a refusal if `obey` raises an exception."""
    try:
        result = obey(order, client)
        return result._replace(reply=replace(result.reply, number=order.number))
    except Wrong as wrong:
        return Answer(Reply(order.number, refused=str(wrong)))
    except Exception as error:
        note_defect()
        return Answer(Reply(order.number, refused=f"it can't be obeyed ({type(error).__name__}: {error})"))
