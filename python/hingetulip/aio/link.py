"""A link, a single direction between two hosts: a pipe, and a queue on the pipe for each class of packets, if there are classes."""

from __future__ import annotations

from collections import Counter
from typing import TYPE_CHECKING, Callable, Mapping, Optional, Protocol

from hingetulip.aio.datagram import MOST_BYTES, Datagram
from hingetulip.aio.disturbances import CUT, HOLD, Disturbance
from hingetulip.aio.drawn import QUEUES, Drawn
from hingetulip.aio.extra import IS_LATE, DelayOf, IsTwice, LateOf, whole
from hingetulip.aio.options import Options, nonempty
from hingetulip.errors import LineError
from hingetulip.records import Outcome
from hingetulip_words.link import Place, refusal_of_change

if TYPE_CHECKING:
    from hingetulip.aio.emulator import Way
    from hingetulip.aio.host import Host
    from hingetulip.aio.network import Network


Classifier = Callable[[Datagram], str]


class Words(Protocol):
    """A loss model. For each packet on a link, it returns a random number, the packet's word: the packet is lost if the word is
    below the loss rate times 2^31."""

    def next(self) -> int:
        """Returns the next packet's word, 0 to 2^31 - 1."""


class Link:
    """A single direction between two hosts. Its configuration may change during a run.

    Each link draws separate random words, so its losses never depend on packets in the other direction. `copies` returns how often
    a datagram enters the link, and `jitter` returns additional ms of delay.
    """

    def __init__(
        self,
        net: Network,
        near: Host,
        far: Host,
        options: str,
        *,
        classes: Optional[Mapping[str, str]] = None,
        classify: Optional[Classifier] = None,
        loss: Optional[Words] = None,
        copies: Optional[Callable[[Datagram], int]] = None,
        jitter: Optional[DelayOf] = None,
        mtu: int = MOST_BYTES,
    ) -> None:
        if (classes is None) != (classify is None):
            raise TypeError("classes are given together with the function that classifies")
        self.net = net
        self.near = near
        self.far = far
        self.pipe = net.number_of("pipe")
        self.classify = classify
        self.outcomes = [0] * len(Outcome)  # the number of datagrams with each outcome, by the outcome's number
        self.came = 0  # the number of packets; a packet's copy by `duplicate` doesn't count
        self.mtu = mtu  # the bytes of the longest datagram with its headers
        self.delay = 0  # the least time in ns that a packet needs
        self.cuts: list[Disturbance] = []  # the current cuts
        self.holds: list[Disturbance] = []  # the current holds
        self.held: list[tuple[Way, Datagram]] = []  # the datagrams that wait for the end of a hold
        self.queues = {name: net.number_of("queue") for name in classes or {}}
        self.copies = copies
        self.jitter = jitter
        self.late: dict[int, int] = {}  # packets' extra ms, by their numbers
        self.pipes: dict[int, int] = {}  # second passes' pipes, by ms; each counts towards the network's limit of 65,535
        self.loss: Words = Drawn(net.seed, self.pipe) if loss is None else loss
        self.has_model = loss is not None
        self._bind_model()
        self.functions = {"loss": loss, "copies": copies, "jitter": jitter, "classes": classes}  # the arguments, for `idle`
        self.changes = list[
            tuple[float, int]
        ]()  # the changes after the first packet: each one's time, and the number of packets before
        self.options = self.begun = Options(options, has_model=self.has_model, place=Place.RUN)
        self.class_options = {name: Options(text, "queue", self.has_model) for name, text in (classes or {}).items()}
        self.class_words: dict[int, Words] = {number: self._words_of_class(number) for number in self.queues.values()}
        self.late_of: Optional[LateOf]
        self.is_twice: Optional[IsTwice]
        self.late_of, self.is_twice = net.drawn_of(self)
        self._configure(self.options)
        for name in self.queues:
            self._configure_class(name, self.class_options[name])

    def _bind_model(self) -> None:
        """Lets the loss model use the network's seed with the link's pipe as direction, and the network's clock, if the model needs
        them."""
        bind = getattr(self.loss, "bind", None)
        if bind is not None:
            bind(self.net.seed, self.pipe)
        if hasattr(self.loss, "clock"):
            setattr(self.loss, "clock", self.net.loop.time)

    def _words_of_class(self, queue: int) -> Words:
        """Returns the words for the packets of a class, with its queue's number: the loss model's, or separate words from
        the seed."""
        return self.loss if self.has_model else Drawn(self.net.seed, QUEUES + queue)

    def second_pipe(self, datagram: Datagram, number: int) -> int:
        """Returns the pipe that delays a datagram once more, by its extra ms; 0 if the datagram isn't late. `number` is the
        packet's. Other packets can overtake late packets."""
        if self.late_of is not None and number not in self.late:
            self.late[number] = self.late_of(number)
            if self.late[number]:
                self.net.happened.append((self, IS_LATE, number))
        late = self.late.get(number, 0)
        if self.jitter is not None:
            late += whole(self.jitter(datagram))
        if not late:
            return 0
        if late not in self.pipes:
            self.pipes[late] = self.net.number_of("pipe")
            self.net.obey(f"pipe {self.pipes[late]} config delay {late}")
        return self.pipes[late]

    def __repr__(self) -> str:
        return f"<Link {self.name}: {self.line}>"

    @property
    def name(self) -> str:
        """The hosts' names, as `client > server`."""
        return f"{self.near.name} > {self.far.name}"

    @property
    def counts(self) -> Counter[Outcome]:
        """The number of packets with each outcome."""
        return Counter({outcome: self.outcomes[outcome] for outcome in Outcome if self.outcomes[outcome]})

    @property
    def line(self) -> str:
        """The pipe's configuration line."""
        return self._line(self.options)

    def _line(self, options: Options) -> str:
        """Returns the pipe's configuration line with these options, and a loss rate of 1 during a cut."""
        return f"pipe {self.pipe} config {options.all_lost() if self.cuts else options}".strip()

    def cut(self, seconds: float) -> Disturbance:
        """Makes the link lose all arriving packets for this time. Packets on the link still arrive. ValueError: the time isn't
        above 0."""
        return self.net.disturb(CUT, seconds, self.name, [self])

    def hold(self, seconds: float) -> Disturbance:
        """Makes arriving packets wait before the link for this time, and then enter in order. ValueError: the time isn't
        above 0."""
        return self.net.disturb(HOLD, seconds, self.name, [self])

    def begin(self, disturbance: Disturbance) -> None:
        """Begins a cut or a hold, and schedules its end."""
        current = self.cuts if disturbance.kind == CUT else self.holds
        current.append(disturbance)
        self._apply(disturbance)
        self.net.loop.call_later(disturbance.seconds, self._end, disturbance, current)

    def _end(self, disturbance: Disturbance, current: list[Disturbance]) -> None:
        """Ends a cut or a hold, which is in the list `current`."""
        current.remove(disturbance)
        self._apply(disturbance)

    def _apply(self, disturbance: Disturbance) -> None:
        """Applies the begin or end of a disturbance: configures the pipe for a cut, and sends held datagrams after the last
        hold."""
        if disturbance.kind == CUT:
            self.net.obey(self.line)
        while self.held and not self.holds and not self.net.closing:
            self.net.take(*self.held.pop(0))

    def change(self, options: str) -> None:
        """Reconfigures the whole link, as in `link.change("2Mbit/s 20ms")`.

        LineError: a word is wrong, there are no words, or the words leave out an option that the link has at its beginning. Then
        the link stays unchanged.
        """
        changed = Options(nonempty(options), has_model=self.has_model, place=Place.CHANGE)
        if why := refusal_of_change(self.begun.settings, changed.settings):
            raise LineError(f"'{options}': {why}", 0)
        if self.came and changed.settings != self.begun.settings:
            self.changes.append((self.net.loop.time(), self.came))
        self._configure(changed)

    def idle(self) -> list[str]:
        """Returns the names of the link's functions and changes that no packet met."""
        names = []
        if not self.came:
            names += [f"the {name} of {self.name}" for name, function in self.functions.items() if function is not None]
        return names + [f"the change of {self.name} at {moment:g} s" for moment, count in self.changes if count == self.came]

    def change_class(self, name: str, options: str) -> None:
        """Reconfigures the queue of a class, as in `link.change_class("video", "weight 10")`. LineError: a word is wrong, or there
        are no words."""
        self._configure_class(name, Options(nonempty(options), "queue", self.has_model))

    def _configure(self, options: Options) -> None:
        self.net.obey(self._line(options))
        self.options = options
        self.delay = options.delay

    def _configure_class(self, name: str, options: Options) -> None:
        self.net.obey(f"queue {self.queues[name]} config pipe {self.pipe} {options}".strip())
        self.class_options[name] = options
