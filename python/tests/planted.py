"""Three small protocols in which a bug is planted by its name, as tests of faults find them; without a name they are right."""

import asyncio
import struct
from typing import Optional

WINDOW, REPEATED_AFTER, TRIES = 8, 0.2, 60
FIRST = 244  # number of a packet: a byte wraps soon
TERM = 1.0  # s of a lease


def now() -> float:
    return asyncio.get_running_loop().time()


class Socket(asyncio.DatagramProtocol):
    def __init__(self, bug: str = "") -> None:
        self.bug = bug

    def connection_made(self, transport: asyncio.DatagramTransport) -> None:
        self.transport = transport


class Receiver(Socket):
    """Of a transfer: acknowledges how far it has all, by a byte."""

    def __init__(self, bug: str = "") -> None:
        super().__init__(bug)
        self.expected, self.held, self.got = FIRST, {}, []

    def datagram_received(self, data: bytes, source: object) -> None:
        ahead = data[0] - (self.expected & 255) if self.bug == "wraps wrongly" else data[0] - self.expected & 255
        if 0 <= ahead < WINDOW:
            self.held[self.expected + ahead] = data[1:]
        elif self.bug == "takes a packet twice":
            self.got.append(data[1:])
        elif self.bug == "acknowledges no old packet":
            return
        while self.expected in self.held:
            self.got.append(self.held.pop(self.expected))
            self.expected += 1
        self.transport.sendto(bytes([self.expected & 255]), source)


class Sender(Socket):
    """Of a transfer: sends its window again if nothing is acknowledged for a while."""

    def __init__(self, bodies: list[bytes], bug: str = "") -> None:
        super().__init__(bug)
        self.bodies = bodies
        self.base = FIRST
        self.next = FIRST
        self.end = FIRST + len(bodies)
        self.tries = 0
        self.timer: Optional[asyncio.TimerHandle] = None
        self.done = asyncio.get_running_loop().create_future()

    def put(self, numbers: range) -> None:
        for number in numbers:
            self.transport.sendto(bytes([number & 255]) + self.bodies[number - FIRST])

    def pump(self) -> None:
        last = min(self.end, self.base + WINDOW)
        self.put(range(self.next, last))
        self.next = last
        self.arm()

    def arm(self) -> None:
        if self.timer:
            self.timer.cancel()
        is_over = self.base == self.end
        self.timer = None if is_over else asyncio.get_running_loop().call_later(REPEATED_AFTER, self.repeat)
        if is_over and not self.done.done():
            self.done.set_result(now())

    def repeat(self) -> None:
        self.tries += 1
        if self.tries > (3 if self.bug == "gives up early" else TRIES):
            self.done.set_exception(ConnectionError("gave up"))
            return
        self.put(range(self.base, self.next)[: 1 if self.bug == "wraps wrongly" else WINDOW])  # a whole window would hide that bug
        if self.bug != "repeats once":
            self.arm()

    def datagram_received(self, data: bytes, source: object) -> None:
        step = data[0] - self.base & 255
        if 0 < step <= WINDOW:
            self.base, self.tries = self.base + step, 0
            self.pump()


class Adder(Socket):
    """A server that adds each request's number a single time."""

    def __init__(self, bug: str = "") -> None:
        super().__init__(bug)
        self.total, self.known = 0, {}

    def datagram_received(self, data: bytes, source: object) -> None:
        question, amount = struct.unpack("!II", data)
        if question not in self.known or self.bug == "executes twice":
            self.total += amount
            self.known[question] = self.total
        self.transport.sendto(struct.pack("!II", question, self.known[question]), source)


class Asker(Socket):
    """Its client."""

    question = 0

    def datagram_received(self, data: bytes, source: object) -> None:
        question, total = struct.unpack("!II", data)
        if (question == self.question or self.bug == "takes any reply") and not self.reply.done():
            self.reply.set_result(total)

    async def add(self, amount: int) -> int:
        self.question += 1
        self.reply: asyncio.Future[int] = asyncio.get_running_loop().create_future()
        for place in range(40):
            self.transport.sendto(struct.pack("!II", self.question, amount))
            await asyncio.wait({self.reply}, timeout=0.05 * 2 ** min(place, 5))
            if self.reply.done():
                return self.reply.result()
        raise TimeoutError


class Store(Socket):
    """Grants a lease."""

    owner, until = None, -1.0

    def datagram_received(self, data: bytes, source: object) -> None:
        if self.owner in (None, source) or now() >= self.until:
            self.owner, self.until = source, now() + TERM
            self.transport.sendto(data, source)


class Node(Socket):
    """Holds a lease from the moment at which it asked."""

    until = -1.0

    def datagram_received(self, data: bytes, source: object) -> None:
        self.until = (now() if self.bug == "counts from the receipt" else struct.unpack("!d", data)[0]) + TERM

    async def run(self) -> None:
        while True:
            self.transport.sendto(struct.pack("!d", now()))
            await asyncio.sleep(0.3)
