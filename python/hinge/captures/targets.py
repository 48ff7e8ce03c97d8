"""The rules of `--map`: which frames go to which pipe or queue. The first rule that matches counts."""

from __future__ import annotations

from array import array
from dataclasses import dataclass
from typing import Callable, Optional, Sequence

from hinge.captures.frames import MAPPED, PORTED, FrameColumns
from hinge.captures.random_words import direction_of
from hinge.captures.rule_words import BadRule, IpNetwork, PortSpan, RuleTarget, Short, address_net, parted, short_of

Mask = list[bool]  # whether each frame passes
Test = Callable[[FrameColumns], Mask]
UP, DOWN = 0, 1
PIPE_1 = RuleTarget("pipe", 1)
PIPE_2 = RuleTarget("pipe", 2)


@dataclass(frozen=True)
class MapRule:
    """The target of the frames that pass all tests; with `way`, only of those in that direction."""

    target: RuleTarget
    tests: tuple[Test, ...] = ()
    way: Optional[int] = None

    @property
    def fits_all(self) -> bool:
        """Returns whether the rule fits every frame."""
        return not self.tests and self.way is None


def is_within(name: str, network: IpNetwork) -> Test:
    """Returns a test whether the source, the destination, or either of them (`host`) is in a network."""
    base = int(network.network_address)
    if network.version == 4:
        base |= MAPPED
    shift = network.max_prefixlen - network.prefixlen

    def test(frames: FrameColumns) -> Mask:
        is_inside = [address >> shift == base >> shift for address in frames.addresses()]
        if name == "host":
            return [is_inside[src] or is_inside[dst] for src, dst in zip(frames.src, frames.dst)]
        return [is_inside[end] for end in (frames.src if name == "src" else frames.dst)]

    return test


def has_port(name: str, span: PortSpan) -> Test:
    """Returns a test whether the source port, the destination port, or either of them (`port`) is in a range."""
    in_span = range(span.low, span.high + 1)

    def is_in_span(protocols: Sequence[int], ports: Sequence[int]) -> Mask:
        return [proto in PORTED and port in in_span for proto, port in zip(protocols, ports)]

    def test(frames: FrameColumns) -> Mask:
        if name == "sport":
            return is_in_span(frames.proto, frames.sport)
        if name == "dport":
            return is_in_span(frames.proto, frames.dport)
        both = zip(is_in_span(frames.proto, frames.sport), is_in_span(frames.proto, frames.dport))
        return [source or destination for source, destination in both]

    return test


def tests_of(short: Short) -> tuple[Test, ...]:
    """Returns the tests for short words, without their direction."""
    tests = [is_within(name, network) for name, network in short.nets.items()]
    tests += [has_port(name, span) for name, span in short.ports.items()]
    if short.protocols:
        tests.append(lambda frames: [proto in short.protocols for proto in frames.proto])
    if short.dscp is not None:
        tests.append(lambda frames: [dscp == short.dscp for dscp in frames.dscp])
    return tuple(tests)


def first_of_two(frames: FrameColumns) -> Mask:
    """Returns whether each frame's sender sent the first packet between both hosts; frames are in time order."""
    firsts: dict[tuple[int, int], int] = {}
    return [firsts.setdefault((min(src, dst), max(src, dst)), src) == src for src, dst in zip(frames.src, frames.dst)]


def read_rule(text: str) -> MapRule:
    """Reads a rule `WORDS => pipe N` or `WORDS => queue N`; returns it."""
    words, target = parted(text)
    short = short_of(words)
    return MapRule(target, tests_of(short), short.way)


def directions(text: str) -> list[MapRule]:
    """Returns the two rules for `--from`: one direction goes to pipe 1, and the other direction to pipe 2.

    `text` is an address or a network of the senders, or `first` for whoever sends first."""
    test = first_of_two if text == "first" else is_within("src", address_net(text))
    return [MapRule(PIPE_1, (test,)), MapRule(PIPE_2)]


class Targets:
    """The target for each frame: from the rules in `--map`, otherwise `--from`, otherwise pipe 1. BadRule: a rule has a direction
    without `--from`."""

    def __init__(self, rules: list[MapRule], sender: list[MapRule]) -> None:
        if any(rule.way is not None for rule in rules) and not sender:
            raise BadRule("`up` and `down` are by --from, which names the senders")
        self.rules = [*rules, *sender] or [MapRule(PIPE_1)]
        self.up = sender[0] if sender else None

    def matching(self, rule: MapRule, frames: FrameColumns) -> Mask:
        """Returns whether each frame passes all tests of a rule, whatever the frame's direction."""
        if len(rule.tests) == 1:
            return rule.tests[0](frames)
        passes = [True] * len(frames.src)
        for test in rule.tests:
            passes = [before and passes_test for before, passes_test in zip(passes, test(frames))]
        return passes

    def of(self, frames: FrameColumns) -> array[int]:
        """Returns the target of each frame; 0 if no rule matches."""
        targets = array("I", [0]) * len(frames.src)
        is_up = self.matching(self.up, frames) if self.up else []
        for rule in reversed(self.rules):
            own = direction_of(rule.target.kind, rule.target.number)
            if rule.fits_all:
                targets = array("I", [own]) * len(frames.src)
                continue
            fits = self.matching(rule, frames)
            if rule.way == UP:
                fits = [passes and up for passes, up in zip(fits, is_up)]
            elif rule.way == DOWN:
                fits = [passes and not up for passes, up in zip(fits, is_up)]
            targets = array("I", [own if fit else later for fit, later in zip(fits, targets)])
        return targets
