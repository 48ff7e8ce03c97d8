"""A client of a control socket, as the run sees it: a connection, with an order that arrives and an answer that leaves."""

from __future__ import annotations

import select
import socket
import time
from dataclasses import dataclass
from typing import Callable, NamedTuple, Optional, Sequence

from hinge.border.messages import Reply, Strange, message_line

PATIENCE = 10.0  # s for which a client may be idle, or the run may work on an order
LONGEST_ORDER = 1 << 16  # bytes


class Answer(NamedTuple):
    """A reply, the descriptors to send with the reply, and an action for the moment after that."""

    reply: Reply
    doors: Sequence[int] = ()
    behind: Optional[Callable[[], None]] = None


@dataclass(eq=False)
class Client:
    """A connection to a client, with the part of an order that has come and the part of an answer that hasn't gone."""

    connection: socket.socket
    until: float  # the moment before which the client has to send or receive something, or the run to obey the order
    rest: bytes = b""  # the received bytes after the last order
    out: bytes = b""  # the bytes of the answer that are still to send
    answer: Optional[Answer] = None  # the answer that is being sent
    is_busy: bool = False  # whether the run is working on the client's order
    is_last: bool = False  # whether the connection ends after the answer, since the client sent too long a line

    def is_there(self) -> bool:
        """Returns whether the client still waits for its reply."""
        departures = select.poll()
        departures.register(self.connection, 0)  # poll always reports a closed end, even without an event to wait for
        return not departures.poll(0)

    def events(self) -> int:
        """Returns the events for poll: the client can receive more of its answer, or has sent something."""
        return select.POLLOUT if self.answer else select.POLLIN

    def put(self, answer: Answer) -> None:
        """Sets the answer to send, which ends the work on the client's order."""
        self.is_busy = False
        self.answer = answer
        self.out = message_line(answer.reply)
        self.until = time.monotonic() + PATIENCE

    def send(self) -> None:
        """Sends as much of the answer as the client accepts, with the answer's descriptors before the rest."""
        assert self.answer
        doors = self.answer.doors
        count = socket.send_fds(self.connection, [self.out], doors) if doors else self.connection.send(self.out)
        self.out = self.out[count:]
        self.answer = self.answer._replace(doors=())
        if not self.out:
            self.finish_answer()

    def finish_answer(self) -> None:
        """Ends the current answer, if any, and performs its action. The action doesn't depend on whether the client has received
        it."""
        answer = self.answer
        self.answer = None
        self.until = time.monotonic() + PATIENCE
        if answer and answer.behind:
            answer.behind()

    def receive(self) -> bool:
        """Receives bytes of orders; returns whether the client is still connected."""
        more = self.connection.recv(LONGEST_ORDER)
        self.rest += more
        return bool(more)

    def next(self) -> Optional[bytes]:
        """Returns the next order's line; None if the line isn't complete yet. Strange: the line is too long."""
        if b"\n" not in self.rest:
            if len(self.rest) > LONGEST_ORDER:
                raise Strange(f"a line of more than {LONGEST_ORDER:,} bytes")
            return None
        text, _, self.rest = self.rest.partition(b"\n")
        return text
