"""Publishes numbers with QoS 1 to mosquitto, and takes all of them at the end by the persistent session that subscribed before: each number
that was acknowledged has to come."""

from __future__ import annotations

import sys
from pathlib import Path

sys.path.insert(0, str(Path(__file__).parent.parent))
import operations as of
from operations import add_numbers, at_once, check_set, patiently

FOUND = set[int]()


class Connection(of.Connection):
    """Packets of MQTT 3.1.1 of less than 128 bytes, with a persistent session if it has a name."""

    def __init__(self, name: bytes = b"") -> None:
        super().__init__("n1", 1883)
        self.send(0x10, b"\0\4MQTT\4" + (b"\0" if name else b"\2") + b"\0\0" + bytes([0, len(name)]) + name)
        self.expect(0x20, b"\0\0", b"\1\0")

    def send(self, kind: int, body: bytes) -> None:
        self.socket.sendall(bytes([kind, len(body)]) + body)

    def receive(self) -> tuple[int, bytes]:
        head = self.file.read(2)
        if len(head) < 2:
            raise OSError("the broker closed the connection")
        return head[0], self.file.read(head[1])

    def expect(self, kind: int, *bodies: bytes) -> None:
        """One of these answers, or an error."""
        answer = self.receive()
        if answer not in [(kind, body) for body in bodies]:
            raise OSError(f"instead of {kind:#x} came {answer}")


def publish(client: int, number: int) -> None:
    connection = Connection()
    connection.send(0x32, b"\0\1s\0\1%d" % number)
    connection.expect(0x40, b"\0\1")


def subscribe() -> None:
    connection = Connection(b"reader")
    connection.send(0x82, b"\0\1\0\1s\1")
    connection.expect(0x90, b"\0\1\1")


def everything() -> list[int]:
    """All numbers that come until 5 s pass without one."""
    connection = Connection(b"reader")
    connection.socket.settimeout(5)
    try:
        while True:
            kind, body = connection.receive()
            if kind & 0xF0 == 0x30:
                FOUND.add(int(body[5:]))
                connection.send(0x40, body[3:5])
    except TimeoutError:
        return sorted(FOUND)


patiently(subscribe)
at_once(lambda client: add_numbers(client, publish), 3)
check_set(everything)
