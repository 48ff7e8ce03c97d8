"""The random words of a packet file: splitmix64 of a seed, a direction and the packet's number there, so that each word can be
computed independently.

dummynet uses 31 bits. A direction is a pipe or a queue; its words don't depend on other directions' packets."""

from __future__ import annotations

from typing import Union

MASK = (1 << 64) - 1  # of 64-bit arithmetic
QUEUES = 1 << 16  # a queue's direction is its number and this; a pipe's direction is its number


def direction_of(kind: str, number: Union[int, str]) -> int:
    """Returns the direction of a pipe or queue."""
    return int(number) + (QUEUES if kind == "queue" else 0)


def direction_name(direction: int) -> str:
    """Returns a name such as `pipe 1`."""
    return f"{'queue' if direction >= QUEUES else 'pipe'} {direction % QUEUES}"


def word(seed: int, number: int, way: int = 1) -> int:
    """Returns the word, from 0 to 2^31 - 1, for the packet with this number in a direction; `way` is that direction."""
    z = (seed * 0x9E3779B97F4A7C15 + number * 0xD1B54A32D192ED03 + (way - 1) * 0x8CB92BA72F3D8DD7) & MASK
    z = ((z ^ z >> 30) * 0xBF58476D1CE4E5B9) & MASK
    z = ((z ^ z >> 27) * 0x94D049BB133111EB) & MASK
    return (z ^ z >> 31) & 0x7FFFFFFF
