"""The transcript of a net of two hosts and a router between them, which does what a test says."""

import heapq
from typing import Callable, NamedTuple, Optional


MS = 1_000_000
HOSTS = (
    "#,host,a,10.8.0.1,fd08::1\n",
    "#,host,b,10.8.0.2,fd08::2\n",
    "#,host,r,10.8.0.3,fd08::3\n",
    *(f"#,pipe,{pipe},{ends}\n" for pipe, ends in enumerate(("a,r", "r,a", "r,b", "b,r"), 1)),
)
DELAYS = {1: 10 * MS, 2: 10 * MS, 3: 5 * MS, 4: 5 * MS}


class Packet(NamedTuple):
    content: int
    src: str = "10.8.0.1"
    dst: str = "10.8.0.2"
    length: int = 1500
    last: bool = False  # its time to live is 1

    def back(self) -> bool:
        return self.src != "10.8.0.1"


# the N-th packet that it gets: what it sends, and so many ns later
Router = Callable[[int, Packet], list[tuple[int, Packet]]]


def good(_: int, packet: Packet) -> list[tuple[int, Packet]]:
    return [(50_000, packet)]


class Net:
    """The transcript of a net whose router does what a function says."""

    def __init__(self, router: Router, packets: list[Packet], contents: bool = True, collects: bool = True) -> None:
        self.lines = ["dummynet-live,1\n", *HOSTS]
        self.entries = 0
        self.numbers = 0
        self.got = 0
        self.router, self.contents = router, contents
        self.queue: list[tuple[int, int, int, Packet, Optional[int]]] = []
        self.order = 0
        for pipe in DELAYS:
            self.entry(f"c,0,configure,pipe {pipe} config delay {DELAYS[pipe] // MS}", "r,configured")
        for place, packet in enumerate(packets):
            self.push(place * MS, 4 if packet.back() else 1, packet)
        while self.queue:
            moment, _, pipe, known, number = heapq.heappop(self.queue)
            self.submit(moment, pipe, known) if number is None else self.deliver(moment, pipe, known, number)
        self.text = "".join([*self.lines, f"end,{self.entries}\n"])

    def push(self, moment: int, pipe: int, packet: Packet, number: Optional[int] = None) -> None:
        self.order += 1
        heapq.heappush(self.queue, (moment, self.order, pipe, packet, number))

    def entry(self, *lines: str) -> None:
        self.lines += [line + "\n" for line in lines]
        self.entries += 1

    def submit(self, moment: int, pipe: int, packet: Packet) -> None:
        if self.contents:
            self.lines += ["#,last\n"] * packet.last + [f"#,content,{packet.content:016x}\n"]
        self.entry(
            f"c,0,submit,pipe,{pipe},{packet.src},{packet.dst},6,1000,80,{packet.length},7,{moment}",
            f"r,queued,{moment},0,{self.numbers}",
        )
        self.push(moment + DELAYS[pipe], pipe, packet, self.numbers)
        self.numbers += 1

    def deliver(self, moment: int, pipe: int, packet: Packet, number: int) -> None:
        self.entry(f"c,0,collect,{moment}", f"r,delivered,{moment},1", f"d,{number},0,{moment - DELAYS[pipe]},{moment}")
        if pipe in (1, 4):
            self.got += 1
            for later, sent in self.router(self.got, packet):
                self.push(moment + later, 3 if pipe == 1 else 2, sent)


def both_ways(count: int) -> list[Packet]:
    """With every third of the same content as one before, as a duplicate acknowledgement has, and every fourth back."""
    return [
        Packet(2**63 + (place - place % 3 // 2), *(("10.8.0.2", "10.8.0.1") if place % 4 == 3 else ())) for place in range(count)
    ]
