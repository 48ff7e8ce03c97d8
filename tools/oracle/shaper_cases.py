"""Random lists of calls with the reference's replies, which are those of tools/oracle/fast.py."""

from random import Random

from fast import run
from model import FREE, ORDERED
from scenarios import STYLES, random_calls


def histories(seed: int, count: int, size: int):
    """Yields for each history its rule (one in five is Free), some `size` calls with their callers, and the replies."""
    rng = Random(seed)
    for i in range(count):
        style = STYLES[i % len(STYLES)]
        rule = FREE if rng.random() < 0.2 else ORDERED
        calls = random_calls(rng, style, rng.randint(size // 2, size * 3 // 2), 16, rng.random() < 0.6)
        yield rule, calls, run([c for _, c in calls], rule)
