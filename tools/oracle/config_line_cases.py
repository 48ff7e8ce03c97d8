"""Random configuration lines, and some whose numbers, units or lengths are beyond all that a random line has."""

from random import Random

from broken import bad_line, random_words_line
from scenarios import STYLES
from spelling import any_command, spell

NINES = "9" * 10_000
EXTREMES = (
    f"pipe 1 config queue {NINES}",
    f"pipe 1 config queue {NINES}x",
    f"pipe 1 config bw {NINES}Gbit/s",
    f"pipe 1 config plr 0.{NINES}",
    f"pipe 1 config mask dst-ip 0x{'0' * 10_000}",
    "pipe 1 config bw 1\u212abit/s",
    "pipe 1 config queue 1\u212a",
)


def random_line(rng: Random, kind: int) -> str:
    if kind == 0:
        return bad_line(rng, rng.choice(STYLES))
    if kind == 1:
        return random_words_line(rng)
    return spell(rng, any_command(rng, [1, 2, 65535]))


def lines(seed: int, count: int) -> list[str]:
    """Returns good lines with a few words changed, options with values that may suit them, and good lines in many spellings, in turn."""
    rng = Random(seed)
    return [*(random_line(rng, i % 3) for i in range(count)), *EXTREMES]
