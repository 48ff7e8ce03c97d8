"""How long a packet to a pipe waits at most: `laws_of_waiting` of dn_laws, with the numbers of a configuration."""

from __future__ import annotations

from typing import Iterator, Mapping, NamedTuple

from hinge.configurations.configured import InForce, Pipe, Queue
from hinge.replays.units import ms

LENGTH = 1500  # bytes of the longest packet for which messages give the bound


class Bound(NamedTuple):
    """A packet to the pipe starts within `start_ns` from its acceptance and is due within `due_ns`, if no packet exceeds `length`
    bytes."""

    pipe: int
    length: int
    start_ns: int
    due_ns: int


def transmission_ns(bw: int, length: int) -> int:
    """Returns the transmission time of `length` bytes at a bandwidth in bit/s; 0 means unlimited."""
    return -(-length * 8 * 10**9 // bw) if bw else 0


def longest_wait_ns(pipe: Pipe, length: int) -> int:
    """Returns the longest time from a packet's acceptance to its start, if no packet is longer: a full queue's time and the time
    for the packet in transmission. A queue of Kbytes contains at most as many packets as bytes, and each packet's time is rounded
    up."""
    longest = transmission_ns(pipe.bw, length)
    if pipe.limit.slots is not None:
        return pipe.limit.slots * longest
    room = (pipe.limit.kbytes or 0) * 1024
    rounding = room if pipe.bw else 0
    return transmission_ns(pipe.bw, room) + rounding + longest


def bound_of(pipe: Pipe, length: int) -> Bound:
    """Returns the bound of a pipe without queues."""
    wait = longest_wait_ns(pipe, length)
    return Bound(pipe.number, length, wait, wait + transmission_ns(pipe.bw, length) + pipe.delay * 10**6)


def with_bound(pipes: Mapping[int, Pipe], queues: Mapping[int, Queue]) -> list[Pipe]:
    """Returns the pipes with a bound: pipes without queues, since a queue's packets have no bound."""
    members = {queue.pipe for queue in queues.values()}
    return [pipe for number, pipe in sorted(pipes.items()) if number not in members]


def told_wait(in_force: InForce) -> Iterator[str]:
    """Yields the bound of each pipe without queues, as text."""
    for pipe in with_bound(in_force.pipes, in_force.queues):
        limit = bound_of(pipe, LENGTH)
        yield (
            f"pipe {pipe.number}: an accepted packet starts within {ms(limit.start_ns)} and is due within "
            f"{ms(limit.due_ns)}, where none is longer than {LENGTH:,} bytes"
        )
