"""A sender whose window grows by a packet a round trip and is halved at a loss, over a pipe, with a pipe back for acknowledgements.

    python3 examples/embed/aimd.py [PICTURE]     (a picture needs matplotlib, Debian's python3-matplotlib)
"""

from __future__ import annotations

import sys

from hingetulip import Shaper

MS, SECONDS = 1_000_000, 30
DATA, BACK = 1, 2
LINES = (f"pipe {DATA} config bw 10Mbit/s delay 20ms queue 50", f"pipe {BACK} config bw 1Mbit/s delay 20ms")


class Sender:
    """The window in packets, the moments at which the packets under way were sent, and what was seen: moment, window, round trip."""

    def __init__(self) -> None:
        self.window = 1.0
        self.next = 0
        self.halved_till = 0
        self.halvings = 0
        self.sent: dict[int, int] = {}
        self.seen: list[tuple[int, float, int]] = []

    def send(self, moment: int) -> int:
        self.sent[self.next], self.next = moment, self.next + 1
        return self.next - 1

    def acknowledged(self, number: int, moment: int) -> None:
        """Packets on a pipe keep their order, so what was sent before this one is lost. All losses among what was under way at a time
        halve the window once."""
        lost = [earlier for earlier in self.sent if earlier < number]
        for earlier in lost:
            del self.sent[earlier]
        if not lost:
            self.window += 1 / self.window
        elif lost[-1] >= self.halved_till:
            self.window = max(self.window / 2, 1.0)
            self.halved_till = self.next
            self.halvings = self.halvings + 1
        self.seen.append((moment, self.window, moment - self.sent.pop(number)))


def simulate(sender: Sender) -> int:
    """Goes from each moment at which something happens on a link to the next, and answers how many packets came."""
    carried: dict[int, tuple[int, int]] = {}  # the pipe, and the sender's number of the packet, by the number of the shaper
    moment, came = 0, 0
    with Shaper() as shaper:

        def submit(pipe: int, length: int, number: int) -> None:
            fate = shaper.submit(moment, length, pipe=pipe)
            if fate.packet is not None:
                carried[fate.packet] = pipe, number

        for line in LINES:
            shaper.configure(line)
        while moment < SECONDS * 1000 * MS:
            while len(sender.sent) < int(sender.window):
                submit(DATA, 1500, sender.send(moment))
            wake = shaper.wake()
            if wake is None:
                raise RuntimeError("all that was under way is lost, and this sender has no timeout")
            moment = wake
            for delivery in shaper.collect(moment):
                pipe, number = carried.pop(delivery.packet)
                if pipe == DATA:
                    came += 1
                    submit(BACK, 40, number)
                else:
                    sender.acknowledged(number, moment)
    return came


def draw(sender: Sender, file: str) -> None:
    from matplotlib import pyplot

    moments, windows, trips = zip(*sender.seen)
    seconds = [moment / 1000 / MS for moment in moments]
    figure, (above, below) = pyplot.subplots(2, sharex=True, figsize=(9, 5))
    above.plot(seconds, windows, color="#0072b2")
    above.set(ylabel="window, packets", ylim=0, title=f"A sender over a pipe with {LINES[0].split(maxsplit=3)[3]}")
    below.plot(seconds, [trip / MS for trip in trips], color="#d55e00", lw=1)
    below.set(ylabel="round trip, ms", xlabel="s", ylim=0, xlim=(0, SECONDS))
    figure.tight_layout()
    figure.savefig(file, dpi=100)


def main() -> None:
    sender = Sender()
    came = simulate(sender)
    trips = [trip / MS for _, _, trip in sender.seen]
    print(
        f"{came} packets came in {SECONDS} s, {came * 1500 * 8 / SECONDS / 10**6:.2f} Mbit/s. The window was halved {sender.halvings} times. "
        f"A round trip took {min(trips):.1f} to {max(trips):.1f} ms."
    )
    if len(sys.argv) > 1:
        draw(sender, sys.argv[1])


if __name__ == "__main__":
    main()
