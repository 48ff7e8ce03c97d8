"""Random but meaningful lists of calls and rows of packet files.

All is a function of the random.Random that is handed in.
"""

from dataclasses import dataclass, replace
from random import Random
from typing import Optional

from model import ALL_BITS, DEFAULT_LIMIT, NO_BITS, FiveTuple, Limit, Packet, Pipe, Queue, Target
from model import Advance, Call, Collect, Command, Configure, Delete, Show, Submit

TX = 1_000_000  # 1,000 bytes at 8 Mbit/s


@dataclass(frozen=True)
class Style:
    """The subject of a scenario."""

    name: str
    bws: tuple[int, ...]
    delays: tuple[int, ...]
    weights: tuple[int, ...]
    lens: tuple[int, ...]
    limits: tuple[Limit, ...]
    losses: tuple[int, ...]
    masks: tuple[FiveTuple, ...]
    steps: tuple[int, ...]  # of the moment, from one call to the next
    pipes: int
    queues: int
    to_pipe: float = 0.15  # share of packets sent to a pipe directly
    to_unknown: float = 0.02
    deletes: float = 0.04  # share of calls that delete, where deletes are mixed in
    moves: bool = False  # changes of a queue are mostly of its pipe


LARGE = (DEFAULT_LIMIT, Limit(100, None), Limit(None, 1024))
EVEN = (0, 0, 0, 0, 0, TX // 2, TX, TX, 3 * TX)
LOW_BYTE = FiveTuple(dst=3)

# fmt: off
STYLES = (
    # Ties in F and in S, and heads that are not yet eligible.
    Style("ties", (8_000_000,), (0,), (1, 1, 1, 2), (1000, 1000, 1000, 2000, 500), LARGE, (0,), (NO_BITS,),
          EVEN, 1, 4, 0.03),
    # Eligibility: weights far apart.
    Style("weights", (8_000_000,), (0,), (1, 1, 2, 3, 7, 50, 100), (1000, 1000, 1500, 64, 1), LARGE, (0,), (NO_BITS,),
          (0, 0, 0, 0, 0, 0, TX // 3, TX), 1, 5, 0.03),
    # Busy periods that end and begin again, also at exactly the moment `free`.
    Style("periods", (8_000_000, 16_000_000), (0, 1), (1, 2, 3), (1000, 500), LARGE, (0,), (NO_BITS,),
          (0, 0, 0, TX // 2, TX, TX, 2 * TX, 5 * TX), 2, 4, 0.1),
    # Small limits in slots and bytes.
    Style("limits", (8_000_000, 1_000_000), (0,), (1, 3), (1, 512, 513, 1000, 1024, 1025), (Limit(1, None), Limit(2, None), Limit(3, None), Limit(None, 1), Limit(None, 2)),
          (0,), (NO_BITS, LOW_BYTE), (0, 0, 0, 0, TX // 2, TX), 2, 3, 0.4),
    # Masks and many flows.
    Style("masks", (8_000_000, 0), (0, 2), (1, 2), (1000, 100), LARGE, (0,),
          (NO_BITS, LOW_BYTE, FiveTuple(src=1, proto=16), FiveTuple(sport=1, dport=2), ALL_BITS), EVEN, 2, 3, 0.5),
    # Losses round the threshold.
    Style("loss", (8_000_000,), (0,), (1, 5), (1000,), (Limit(2, None), DEFAULT_LIMIT), (0, 1, 2**30, 2**31 - 1, 2**31, 214748364),
          (NO_BITS, LOW_BYTE), EVEN, 1, 2, 0.5),
    # Odd bandwidths: rounding up of the transmission time, unlimited, very slow.
    Style("odd", (0, 1, 7, 300_000, 999_983, 10**12), (0, 1, 50, 3_600_000), (1, 3, 100), (1, 1000, 65535, 77), LARGE,
          (0,), (NO_BITS,), (0, 0, 1, 1000, 26_666_667, 8_000_000_000), 3, 3, 0.3),
    # Moments near the last one.
    Style("late", (8_000_000, 0), (0, 1), (1, 2), (1000,), LARGE, (0,), (NO_BITS,), (0, 0, TX, 2**60, 2**61), 1, 3, 0.3),
    # Delays that go down: order of due moments.
    Style("delays", (8_000_000, 0, 80_000_000), (0, 1, 2, 5, 50), (1, 2), (1000, 100), LARGE, (0,), (NO_BITS, LOW_BYTE),
          (0, 0, TX // 2, TX, 10 * TX), 2, 2, 0.5),
    # Queues that run empty while the link still sends; V behind the least S.
    Style("tails", (8_000_000,), (0,), (1, 1, 3, 10, 100), (1000, 64, 1500, 9000, 3000), LARGE, (0,), (NO_BITS,),
          (0, 0, TX // 3, TX // 2, TX, TX, 2 * TX), 1, 3, 0.0),
    Style("raises", (8_000_000,), (0,), (1, 3, 3, 5), (1000, 1000, 2000), LARGE, (0,), (NO_BITS,),
          (0, 0, 0, TX // 2, TX, 3 * TX // 2), 1, 2, 0.0),
    # Very different lengths: a flow's last finish time stays above V when the link's queues run empty.
    Style("sizes", (8_000_000,), (0,), (1, 1, 100), (65535, 20000, 20000, 5000, 1000), LARGE, (0,), (NO_BITS,),
          (0, 0, 0, 0, 30 * TX, 60 * TX, 100 * TX), 1, 2, 0.0, deletes=0.02),
    # Bytes queued that meet a limit exactly, and loss before limit.
    Style("bytes", (1_000_000, 8_000_000), (0,), (1, 2), (512, 1024, 256, 1, 511), (Limit(None, 1), Limit(None, 1), Limit(None, 2), Limit(1, None)),
          (0, 0, 2**30), (NO_BITS,), (0, 0, 0, 0, TX), 1, 2, 0.5),
    # Queues that move from pipe to pipe, and deletes (where they are mixed in).
    Style("moves", (8_000_000, 800_000), (0, 1, 20), (1, 2, 5), (1000, 500), LARGE, (0,), (NO_BITS, NO_BITS, LOW_BYTE),
          (0, 0, 0, TX // 2, TX), 2, 3, 0.3, deletes=0.12, moves=True),
    # Everything.
    Style("mixed", (8_000_000, 16_000_000, 0, 300_000), (0, 0, 1, 50), (1, 1, 2, 3, 10, 100), (1000, 1000, 1500, 64, 1),
          LARGE + (Limit(2, None), Limit(None, 1)), (0, 0, 0, 2**30), (NO_BITS, NO_BITS, LOW_BYTE), EVEN, 3, 5, 0.2),
)
# fmt: on


# ---- Commands, packets, calls ---------------------------------------------------------------------------------


def random_pipe(rng: Random, style: Style, number: int) -> Pipe:
    bw, delay, limit, loss = (rng.choice(values) for values in (style.bws, style.delays, style.limits, style.losses))
    return Pipe(number, bw, delay, limit, loss, rng.choice((None, None, None, 64)), rng.choice(style.masks))


def random_queue(rng: Random, style: Style, number: int) -> Queue:
    pipe = rng.randint(1, style.pipes)
    weight, limit, loss, mask = (rng.choice(values) for values in (style.weights, style.limits, style.losses, style.masks))
    return Queue(number, pipe, weight, limit, loss, None, mask)


def first_commands(rng: Random, style: Style) -> list[Command]:
    commands: list[Command] = [random_pipe(rng, style, n) for n in range(1, style.pipes + 1)]
    commands += [random_queue(rng, style, n) for n in range(1, style.queues + 1)]
    return commands


def random_packet(rng: Random, style: Style) -> Packet:
    t = FiveTuple(
        0x0A000001 + rng.choice((0, 0, 1)),
        0x0A000002 + rng.choice((0, 0, 1, 2)),
        rng.choice((17, 17, 6)),
        1000 + rng.choice((0, 0, 1)),
        2000 + rng.choice((0, 0, 2)),
    )
    word = rng.choice((0, 0, 2**31, 2**30 - 1, 2**30, 2**31 - 1, 2**32 - 1, 214748363, 214748364, rng.randrange(2**32)))
    if style.losses == (0,):
        word = rng.randrange(2**32)
    return Packet(t, rng.choice(style.lens), word)


def random_target(rng: Random, style: Style) -> Target:
    if rng.random() < style.to_unknown:
        return Target(rng.choice(("pipe", "queue")), rng.choice((9, 65535)))
    if rng.random() < style.to_pipe:
        return Target("pipe", rng.randint(1, style.pipes))
    return Target("queue", rng.randint(1, style.queues))


class Moments:
    """Moments that mostly go on, and sometimes back."""

    def __init__(self, rng: Random, style: Style) -> None:
        self.rng, self.style, self.now = rng, style, rng.choice((0, 0, 0, 5, 7 * TX))
        self.longest = rng.choice((1, 1, 2, 4))

    def next(self) -> int:
        step = self.rng.choice(self.style.steps) * self.rng.randint(1, self.longest)
        if self.rng.random() < 0.03:
            step += self.rng.randint(1, 40) * TX  # a pause, after which a new busy period begins
        if self.rng.random() < 0.05:
            step += self.rng.randint(1, 3)
        self.now = min(self.now + step, 2**62)
        if self.rng.random() < 0.05:
            return self.rng.randint(0, self.now)
        return self.now


def changed(rng: Random, style: Style, c: Command) -> Command:
    """The same pipe or queue with one thing changed."""
    other = random_pipe(rng, style, c.number) if isinstance(c, Pipe) else random_queue(rng, style, c.number)
    names = ["limit", "loss", "mask"] + (["bw", "delay"] * 3 if isinstance(c, Pipe) else ["weight"] * 4 + ["pipe"])
    if style.moves:
        names += ["delay"] * 6 if isinstance(c, Pipe) else ["pipe"] * 12
    name = rng.choice(names)
    return replace(c, **{name: getattr(other, name)})


def random_calls(rng: Random, style: Style, count: int, callers: int, deletes: bool) -> list[tuple[int, Call]]:
    """Returns the configuration, followed by Submits mixed with other calls."""
    commands = {(type(c), c.number): c for c in first_commands(rng, style)}
    start = list(commands.values())
    if rng.random() < 0.1:
        rng.shuffle(start)  # some queue lines come before their pipe
    calls: list[Call] = [Configure(c) for c in start]
    moments = Moments(rng, style)
    target: Optional[Target] = None
    shift = style.deletes - 0.04 + (0.1 if style.moves else 0.0)
    while len(calls) < count:
        dice = rng.random()
        if dice < 0.66 - shift:
            if target is None or rng.random() < 0.5:
                target = random_target(rng, style)
            calls.append(Submit(target, random_packet(rng, style), moments.next()))
        elif dice < 0.72 - shift:
            calls.append(Advance(moments.next()))
        elif dice < 0.84 - shift:
            calls.append(Collect(moments.next()))
        elif dice < 0.88 - shift:
            calls.append(Show())
        elif dice < 1 - style.deletes or not deletes:
            key = rng.choice(list(commands))
            commands[key] = changed(rng, style, commands[key])
            calls.append(Configure(commands[key]))
        else:
            number = rng.randint(1, max(style.pipes, style.queues))
            if rng.random() < 0.7:
                calls.append(Configure(Delete(Target("queue", number))))
                back = commands.get((Queue, number))
            else:
                if rng.random() < 0.5:  # free the pipe of its queues first
                    queues = [q.number for q in commands.values() if isinstance(q, Queue) and q.pipe == number]
                    calls += [Configure(Delete(Target("queue", queue))) for queue in queues]
                calls.append(Configure(Delete(Target("pipe", number))))
                back = commands.get((Pipe, number))
            if rng.random() < 0.3:
                calls.append(Show())
            if back is not None and rng.random() < 0.8:
                if rng.random() < 0.4:
                    back = commands[(type(back), number)] = changed(rng, style, back)
                calls.append(Configure(back))
                if isinstance(back, Pipe):
                    calls += [
                        Configure(q) for q in commands.values() if isinstance(q, Queue) and q.pipe == number and rng.random() < 0.8
                    ]
    if rng.random() < 0.8:
        calls.append(Collect(rng.choice((2**62, min(moments.now + 100 * TX, 2**62), moments.now))))
    if rng.random() < 0.3:
        calls.append(Show())
    return [(rng.randrange(callers), c) for c in calls]


def random_rows(rng: Random, style: Style, count: int) -> list[Submit]:
    moments = Moments(rng, style)
    rows = []
    while len(rows) < count:
        target = random_target(rng, style)
        for _ in range(rng.choice((1, 1, 1, 2, 3, 5))):  # a burst to one target
            rows.append(Submit(moment=moments.next(), target=target, packet=random_packet(rng, style)))
    return rows[:count]
