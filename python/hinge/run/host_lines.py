"""Lines to the host program hinge-link during a run, and the program's replies (control.h)."""

from __future__ import annotations

import os
import socket
import threading
import time
from typing import Callable, NamedTuple, Optional

from hinge.border.programs import can_be_read
from hinge.run.words import Wrong

LINK_PATIENCE = 10.0  # s within which the host reads a line
LOOK = 0.05  # s between looks whether a client is still there
MOMENT = 1.0  # s for the reply to a line that the host read just before the end of its patience
LONGEST_REQUEST = 4000  # bytes
LONGEST_ANSWER = 8500  # bytes
UNTAKEN = f"not obeyed: the links took no line within {LINK_PATIENCE:g} s"
UNANSWERED = "the links took the line, and have not answered: it may be obeyed"


class LinkReply(NamedTuple):
    """Describes the host's reply to a line."""

    moment: int  # ns, on the links' clock
    wrong: str  # the reason for a refusal, or an empty text
    line: str  # the configuration line that a pipe has now, or an empty text


class HostLines:
    """Sends lines to the host, which replies to each in order.

    A line that the host hasn't read when the client leaves is withdrawn, so the host never applies a line too late."""

    def __init__(self) -> None:
        self.own, self.hosts = socket.socketpair(socket.AF_UNIX, socket.SOCK_SEQPACKET)
        self.lock = threading.Lock()  # so that a line's reply comes before the next line
        self.owed = 0  # how many replies are due for which nobody waits any more
        self.latest = 0  # the moment in the last reply

    def descriptor(self) -> int:
        """Returns the host's end of the socket."""
        return self.hosts.fileno()

    def line(self) -> str:
        """Returns the plan's line about the socket."""
        return f"control {self.descriptor()}\n"

    def ask(self, text: str, until: Optional[float] = None, is_wanted: Callable[[], bool] = lambda: True) -> LinkReply:
        """Sends a line and returns the host's reply. If the host hasn't read the line at the moment `until` of the monotonic clock,
        or before `is_wanted` returns false, the reply says so. Wrong: the line is too long."""
        if len(os.fsencode(text)) > LONGEST_REQUEST:
            raise Wrong("a line of more than 4,000 bytes")
        with self.lock:
            reply = self.answer(text, until or time.monotonic() + LINK_PATIENCE, is_wanted)
            head, _, line = reply.partition("\n")
            moment, _, wrong = head.partition(" ")
            self.latest = int(moment)
            return LinkReply(self.latest, wrong, line)

    def answer(self, text: str, until: float, is_wanted: Callable[[], bool]) -> str:
        """Sends a line and returns the text of the host's reply, or a text of the same form if there is no reply."""
        try:
            self.own.send(os.fsencode(text))
            while not self.wait_for_reply(LOOK):
                if (time.monotonic() > until or not is_wanted()) and self.withdraw():
                    return f"{self.latest} {UNTAKEN}"
                if time.monotonic() > until + MOMENT:
                    self.owed += 1
                    return f"{self.latest} {UNANSWERED}"
            return self.own.recv(LONGEST_ANSWER).decode() or f"{self.latest} the links don't answer"
        except OSError:
            return f"{self.latest} the links don't answer"

    def wait_for_reply(self, patience: float) -> bool:
        """Waits up to `patience` seconds; returns whether the reply to the latest line has arrived. Drops replies to earlier
        lines."""
        while can_be_read(self.own, patience):
            if not self.owed:
                return True
            self.own.recv(LONGEST_ANSWER)
            self.owed -= 1
        return False

    def withdraw(self) -> bool:
        """Withdraws the latest line, if the host hasn't read the line yet; returns whether that was so."""
        try:
            return bool(self.hosts.recv(2 * LONGEST_REQUEST, socket.MSG_DONTWAIT))
        except BlockingIOError:
            return False
