"""Draws sessions: lines of calls that try the rules at their edges, with few pipes, queues, addresses and moments."""

from random import Random

LIMITS = ("", "", " queue 1", " queue 2", " queue 3", " queue 1Kbytes", " queue 2Kbytes", " queue 3Kbytes")
LOSSES = ("", "", "", " plr 0.25" + 16 * "0", " plr 0.5" + 17 * "0")  # a quarter and a half of 2^31
WORDS = (0, 2**29 - 1, 2**29, 2**30 - 1, 2**30, 2**31 - 1, 2**31, 2**31 + 2**29, 2**32 - 1)
MASKS = (
    "",
    "",
    " mask src-ip 0x00000001",
    " mask src-ip 0x00000003",
    " mask dst-ip 0x00000001",
    " mask dst-port 0x0001",
    " mask src-port 0x0001",
    " mask proto 0x01",
    " mask all",
)
BANDWIDTHS = ("", " bw 8000000bit/s", " bw 800000bit/s", " bw 300000bit/s", " bw 7777777bit/s", " bw 7bit/s")
LENGTHS = (1, 40, 512, 1000, 1024, 1500, 65535)
WEIGHTS = ("", " weight 2", " weight 3", " weight 7", " weight 100")
DELAYS = ("", "", " delay 1", " delay 5", " delay 50", " delay 60001")
LAST = 2**62


class Session:
    """The lines of a session, and its clock."""

    def __init__(self, rng: Random) -> None:
        self.rng, self.lines, self.now = rng, [], 0  # type: Random, list[str], int
        # Every other session is about shares: its packets wait, busy periods begin and end, and little else is drawn.
        self.shares = rng.random() < 0.5
        self.pipes, self.queues = rng.randint(1, 2), rng.randint(1 + self.shares, 4)
        self.masks = MASKS if not self.shares and rng.random() < 0.6 else ("",)
        self.bandwidths = [BANDWIDTHS[1]] if self.shares else [rng.choice(BANDWIDTHS) for _ in range(2)]
        self.limits, self.losses, self.delays = (("",), ("",), ("",)) if self.shares else (LIMITS, LOSSES, DELAYS)
        self.step = 1_000_000 if self.shares else rng.choice((1, 1000, 100_000, 1_000_000, 12_000_000))
        self.callers = rng.choice((1, 3))
        self.options = [self.queue_options() for _ in range(self.queues)]
        if self.shares:
            self.options = rng.sample(WEIGHTS, self.queues)

    def call(self, text: str) -> None:
        self.lines.append(f"c,{self.rng.randrange(self.callers)},{text}")

    def pipe(self, number: int) -> None:
        options = [self.rng.choice(of) for of in (self.bandwidths, self.delays, self.limits, self.losses, self.masks)]
        self.call(f"configure,pipe {number} config{''.join(options)}")

    def queue_options(self) -> str:
        return "".join(self.rng.choice(of) for of in (WEIGHTS, self.limits, self.losses, self.masks))

    def queue(self, number: int, pipe: int) -> None:
        """Configures a queue, mostly as before."""
        if self.rng.random() < 0.4:
            self.options[number - 1] = self.queue_options()
        self.call(f"configure,queue {number} config pipe {pipe}{self.options[number - 1]}")

    def any_queue(self) -> int:
        return self.rng.randint(1, self.queues)

    def any_pipe(self) -> int:
        return self.rng.randint(1, self.pipes)

    def moment(self) -> int:
        """Mostly a little later, now and then the same or an earlier one."""
        rng = self.rng
        if rng.random() < 0.6:
            self.now += rng.choice((0, self.step, 10 * self.step, rng.randint(1, 10 * self.step)))
        return max(0, self.now - (rng.random() < 0.1) * rng.randint(1, 5 * self.step))

    def packets(self) -> None:
        """Some packets at one moment."""
        at = self.moment()
        for _ in range(self.rng.choice((1, 1, 2, 4, 6))):
            to_pipe = self.rng.random() < (0.1 if self.shares else 0.3)
            self.packet("pipe" if to_pipe else "queue", self.any_pipe() if to_pipe else self.any_queue(), at)

    def burst(self) -> None:
        """Most queues get some short packets and one a long one, and more short ones come while that is sent."""
        rng, at, long = self.rng, self.moment(), self.any_queue()
        for number in range(1, self.queues + 1):
            for _ in range(rng.choice((0, 1, 1, 2, 3))):
                self.packet("queue", number, at, 40)
        self.packet("queue", long, at, 1500)
        if rng.random() < 0.3:
            self.queue(self.any_queue(), self.any_pipe())
        self.now = at + rng.randint(300_000, 1_400_000)
        for _ in range(rng.randint(1, 5)):
            self.packet("queue", self.any_queue(), self.now, rng.choice((40, 40, 100)))

    def idle_flow(self) -> None:
        """A flow is idle in a busy period, with a finish tag ahead of virtual time, while another link begins one."""
        begun = self.now + 20_000_000
        for number, pipe, weight in ((1, 1, ""), (2, 1, " weight 100"), (3, 2, ""), (4, 1, " weight 2")):
            self.call(f"configure,queue {number} config pipe {pipe}{weight}")
        for number, length in ((2, 1500), (1, 40), (2, 1500), (2, 1500)):
            self.packet("queue", number, begun, length)
        self.now = begun + 3_500_000
        for number, length in ((3, 40), (1, 40), (4, 1000)):
            self.packet("queue", number, self.now, length)

    def packet(self, kind: str, number: int, at: int, length: int = 0) -> None:
        rng = self.rng
        source, destination = f"10.0.0.{rng.randint(0, 3)}", f"10.0.1.{rng.randint(0, 1)}"
        ports = f"{rng.choice((6, 17))},{rng.randint(1, 2)},{rng.randint(1, 2)}"
        word = rng.choice(WORDS) if rng.random() < 0.5 else rng.getrandbits(32)
        length = length or rng.choice(LENGTHS[:-1] if self.shares else LENGTHS)
        self.call(f"submit,{kind},{number},{source},{destination},{ports},{length},{word},{at}")

    def queue_anew(self) -> None:
        """A queue is deleted and configured again while packets wait, and gets more."""
        number, at = self.any_queue(), self.moment()
        for _ in range(self.rng.randint(0, 2)):
            self.packet("queue", number, at)
        self.call(f"configure,queue delete {number}")
        self.queue(number, self.any_pipe())
        for _ in range(self.rng.randint(1, 2)):
            self.packet("queue", self.rng.choice((number, self.any_queue())), at)

    def pipe_anew(self) -> None:
        """Its queues leave a pipe for another or go, which makes it free to be deleted while packets wait for it."""
        pipe = self.any_pipe()
        for number in range(1, self.queues + 1):
            if self.pipes > 1 and self.rng.random() < 0.9:
                self.queue(number, 3 - pipe)
            elif self.rng.random() < 0.9:
                self.call(f"configure,queue delete {number}")
        self.call(f"configure,pipe delete {pipe}")
        self.call("show")
        if self.rng.random() < 0.5:
            self.queue(self.any_queue(), pipe)
        self.pipe(pipe)
        self.queue(self.any_queue(), pipe)

    def more(self) -> None:
        """Adds one or several calls of some kind."""
        rng, chance = self.rng, self.rng.random()
        if self.shares and chance < 0.1:
            self.burst()
            self.now += 20_000_000  # by then all of them have left
            self.burst()
        elif self.shares and self.pipes > 1 and chance < 0.13:
            self.idle_flow()
        elif chance < 0.56 + 0.14 * self.shares:
            self.packets()
        elif chance < 0.62 + 0.1 * self.shares:
            self.pipe(self.any_pipe())
        elif chance < 0.72 + 0.02 * self.shares:
            self.queue(self.any_queue(), self.any_pipe())
        elif chance < 0.75:
            self.call(f"configure,{rng.choice(('pipe', 'queue'))} delete {rng.randint(1, 3)}")
        elif chance < 0.80:
            self.queue_anew()
        elif chance < 0.83:
            self.pipe_anew()
        elif chance < 0.87:
            self.call(f"advance,{self.moment()}")
        elif chance < 0.95:
            self.call(f"collect,{self.moment()}")
        else:
            self.call("show")


def session(rng: Random, calls: int) -> list[str]:
    """The lines of so many calls, or a few more."""
    drawn = Session(rng)
    if rng.random() < 0.1:
        drawn.queue(1, 1)  # before its pipe
    for number in range(1, drawn.pipes + 1):
        drawn.pipe(number)
    for number in range(1, drawn.queues + 1):
        drawn.queue(number, drawn.any_pipe())
    while len(drawn.lines) < calls - 4:
        drawn.more()
    drawn.call("show")
    drawn.call(f"collect,{drawn.now}")
    drawn.call(f"collect,{LAST}")
    drawn.call("show")
    return drawn.lines
