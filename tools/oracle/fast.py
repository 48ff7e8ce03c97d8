"""The replies of dummynet, from the rules in words: running clock and counts, two heaps, an epoch per busy period."""

import heapq
from collections import deque
from collections.abc import Iterable
from dataclasses import dataclass, field
from typing import Optional, Union

import model


@dataclass
class Waiting:
    packet: int
    len: int
    weight: int = 1
    s: int = 0
    f: int = 0


@dataclass
class Flow:
    number: int
    key: model.FlowKey
    queue: deque[Waiting] = field(default_factory=deque)
    bytes: int = 0
    lost: int = 0
    full: int = 0
    started: int = 0
    discarded: int = 0
    epoch: int = -1
    last_f: int = 0


class Sched:
    """The WF2Q+ scheduler of a shared link."""

    def __init__(self) -> None:
        self.v = 0
        self.epoch = 0
        self.weights = 0  # the sum over the heads
        self.eligible: list[tuple[int, int]] = []  # (F, flow)
        self.waiting: list[tuple[int, int]] = []  # (S, flow)
        self.heads: dict[int, Waiting] = {}

    def idle(self) -> bool:
        return not self.heads

    def begin_busy(self) -> None:
        self.v = 0
        self.epoch += 1

    def stamp(self, flow: Flow, w: Waiting) -> None:
        last = flow.last_f if flow.epoch == self.epoch else 0
        w.s = last if flow.queue else max(last, self.v)
        w.f = w.s + w.len * 65536 // w.weight
        flow.last_f, flow.epoch = w.f, self.epoch

    def arrive(self, flow: Flow, w: Waiting) -> None:
        self.stamp(flow, w)
        flow.queue.append(w)
        if len(flow.queue) == 1:
            self.place(flow.number, w)

    def place(self, number: int, w: Waiting) -> None:
        self.heads[number] = w
        self.weights += w.weight
        if w.s <= self.v:
            heapq.heappush(self.eligible, (w.f, number))
        else:
            heapq.heappush(self.waiting, (w.s, number))

    def promote(self) -> None:
        if not self.eligible:
            self.v = max(self.v, self.waiting[0][0])
        while self.waiting and self.waiting[0][0] <= self.v:
            _, number = heapq.heappop(self.waiting)
            heapq.heappush(self.eligible, (self.heads[number].f, number))

    def grow(self, w: Waiting) -> None:
        self.v += w.len * 65536 // self.weights

    def pick(self, flows: list[Flow]) -> tuple[Flow, Waiting]:
        self.promote()
        _, number = heapq.heappop(self.eligible)
        flow = flows[number]
        w = flow.queue.popleft()
        self.grow(w)
        self.weights -= w.weight
        del self.heads[number]
        if flow.queue:
            self.place(number, flow.queue[0])
        return flow, w

    def discard(self, flow: Flow) -> None:
        flow.last_f = 0
        w = self.heads.pop(flow.number, None)
        if w is None:
            return
        self.weights -= w.weight
        self.eligible = [x for x in self.eligible if x[1] != flow.number]
        self.waiting = [x for x in self.waiting if x[1] != flow.number]
        heapq.heapify(self.eligible)
        heapq.heapify(self.waiting)


@dataclass
class Link:
    pipe: int
    flow: Optional[Flow]  # None: shared
    sched: Optional[Sched]
    free: int = 0
    last_due: int = 0
    backlog: int = 0
    listed: bool = False  # stands in the heap of links to settle


class FastDummynet:
    """Sequential dummynet with running state."""

    def __init__(self, rule: str = model.ORDERED) -> None:
        self.rule = rule
        self.clock = 0
        self.pipes: dict[int, model.Pipe] = {}
        self.queues: dict[int, model.Queue] = {}
        self.flows: list[Flow] = []
        self.flow_of: dict[model.FlowKey, Flow] = {}
        self.links: list[Link] = []
        self.link_of_flow: dict[int, Link] = {}
        self.shared: dict[int, Link] = {}
        self.busy_links: list[tuple[int, int, Link]] = []  # (free, a tie breaker, link) of links with a backlog
        self.accepted = 0
        self.delay_line: list[model.Delivery] = []

    # ---- configuration ------------------------------------------------------------------------------------

    def configure(self, c: model.Command) -> model.Reply:
        if isinstance(c, model.Pipe):
            self.pipes[c.number] = c
            return model.Bare.CONFIGURED
        if isinstance(c, model.Queue):
            if c.pipe not in self.pipes:
                return model.Bare.NO_SUCH_PIPE
            self.queues[c.number] = c
            return model.Bare.CONFIGURED
        number = c.target.number
        if c.target.kind == "pipe":
            if number not in self.pipes:
                return model.Bare.NO_SUCH_PIPE
            if any(q.pipe == number for q in self.queues.values()):
                return model.Bare.PIPE_HAS_QUEUES
            del self.pipes[number]
            reached = [f for f in self.flows if f.key.pipe == number]
        else:
            if number not in self.queues:
                return model.Bare.NO_SUCH_QUEUE
            del self.queues[number]
            reached = [f for f in self.flows if f.key.target == c.target]
        for flow in reached:
            self.discard(flow)
        return model.Bare.DELETED

    def discard(self, flow: Flow) -> None:
        link = self.link_of_flow.get(flow.number)
        if link is None:
            return
        if link.sched is not None:
            link.sched.discard(flow)
        link.backlog -= len(flow.queue)
        flow.discarded += len(flow.queue)
        flow.queue.clear()
        flow.bytes = 0

    # ---- links --------------------------------------------------------------------------------------------

    def link(self, flow: Flow) -> Link:
        found = self.link_of_flow.get(flow.number)
        if found is None:
            if flow.key.target.kind == "pipe":
                found = Link(flow.key.pipe, flow, None)
                self.links.append(found)
            else:
                found = self.shared.get(flow.key.pipe)
                if found is None:
                    found = self.shared[flow.key.pipe] = Link(flow.key.pipe, None, Sched())
                    self.links.append(found)
            self.link_of_flow[flow.number] = found
        return found

    def list_link(self, link: Link) -> None:
        if link.backlog and not link.listed:
            link.listed = True
            heapq.heappush(self.busy_links, (link.free, id(link), link))

    def tx_time(self, length: int, bw: int) -> int:
        return -(-(length * 8 * 10**9) // bw) if bw else 0

    def start(self, link: Link, moment: int) -> None:
        if link.sched is not None:
            flow, w = link.sched.pick(self.flows)
        else:
            flow = link.flow
            w = flow.queue.popleft()
        link.backlog -= 1
        flow.bytes -= w.len
        flow.started += 1
        pipe = self.pipes[link.pipe]
        tx = self.tx_time(w.len, pipe.bw)
        link.free = moment + tx
        self.deliver(link, model.Delivery(moment + tx + pipe.delay * 10**6, w.packet, flow.number, moment))

    def deliver(self, link: Link, d: model.Delivery) -> None:
        if self.rule == model.ORDERED and d.due < link.last_due:
            d = model.Delivery(link.last_due, d.packet, d.flow, d.start)
        link.last_due = d.due
        heapq.heappush(self.delay_line, d)

    def settle(self) -> None:
        while self.busy_links and self.busy_links[0][0] <= self.clock:
            _, _, link = heapq.heappop(self.busy_links)
            link.listed = False
            while link.backlog and link.free <= self.clock:
                self.start(link, link.free)
            self.list_link(link)

    def next_moment(self) -> Optional[int]:
        """The first moment at which a packet leaves the emulator or a link with a backlog is free, if there is one."""
        dues = [self.delay_line[0].due] if self.delay_line else []
        return min(dues + [link.free for link in self.links if link.backlog], default=None)

    # ---- calls --------------------------------------------------------------------------------------------

    def apply(self, c: model.Call) -> model.Reply:
        if isinstance(c, model.Configure):
            return self.configure(c.command)
        if isinstance(c, model.Show):
            return model.Status(
                tuple(
                    model.FlowStatus(f.number, f.key, len(f.queue), f.bytes, f.lost, f.full, f.started, f.discarded)
                    for f in self.flows
                )
            )
        self.clock = max(self.clock, c.moment)
        self.settle()
        if isinstance(c, model.Advance):
            return model.Advanced(self.clock)
        if isinstance(c, model.Collect):
            return self.collect()
        return self.submit(c)

    def collect(self) -> model.Reply:
        found = []
        while self.delay_line and self.delay_line[0].due <= self.clock:
            found.append(heapq.heappop(self.delay_line))
        return model.Delivered(self.clock, tuple(found))

    def find_or_make(self, key: model.FlowKey) -> Flow:
        flow = self.flow_of.get(key)
        if flow is None:
            flow = self.flow_of[key] = Flow(len(self.flows), key)
            self.flows.append(flow)
        return flow

    def is_full(self, flow: Flow, conf: Union[model.Pipe, model.Queue]) -> bool:
        if conf.limit.kbytes is not None:
            return flow.bytes > conf.limit.kbytes * 1024
        return len(flow.queue) >= conf.limit.slots

    def submit(self, c: model.Submit) -> model.Reply:
        table = self.pipes if c.target.kind == "pipe" else self.queues
        conf = table.get(c.target.number)
        if conf is None:
            return model.NoTarget(self.clock)
        pipe = conf.number if isinstance(conf, model.Pipe) else conf.pipe
        flow = self.find_or_make(model.FlowKey(c.target, pipe, conf.mask, model.masked(conf.mask, c.packet.tuple)))
        if (c.packet.word & 0x7FFFFFFF) < conf.loss:
            flow.lost += 1
            return model.Lost(self.clock, flow.number)
        if self.is_full(flow, conf):
            flow.full += 1
            return model.Full(self.clock, flow.number)
        w = Waiting(self.accepted, c.packet.len)
        self.accepted += 1
        link = self.link(flow)
        if link.sched is None:
            flow.queue.append(w)
        else:
            if link.sched.idle() and link.free <= self.clock:
                link.sched.begin_busy()
            w.weight = conf.weight
            link.sched.arrive(flow, w)
        flow.bytes += w.len
        link.backlog += 1
        if link.free <= self.clock:
            self.start(link, self.clock)
        self.list_link(link)
        return model.Queued(self.clock, flow.number, w.packet)


def run(calls: Iterable[model.Call], rule: str = model.ORDERED) -> list[model.Reply]:
    net = FastDummynet(rule)
    return [net.apply(call) for call in calls]


def first_difference(entries: list[model.Entry], rule: str) -> Optional[int]:
    """Returns the first entry whose reply differs from sequential dummynet's, or None."""
    net = FastDummynet(rule)
    return next((place for place, entry in enumerate(entries) if net.apply(entry.call) != entry.reply), None)
