"""Configuration lines in dummynet's spelling, and the options that they set."""

from __future__ import annotations

import re
from fractions import Fraction
from functools import lru_cache
from typing import Optional

from hinge.program import asked_of_dummynet

OPTION_WORDS = ("bw", "delay", "queue", "plr", "weight", "buckets", "pipe", "mask")
Target = tuple[str, int]  # pipe or queue, and its number
LineOptions = Optional[dict[str, str]]  # the options that a line sets; None for a line that deletes


class Unread(ValueError):
    """Raised for lines that the check can't read, so that it doesn't judge the net."""


def dummynet_lines(lines: list[str]) -> list[str]:
    """Returns configuration lines in dummynet's spelling. Unread: dummynet refuses a line."""
    answer = asked_of_dummynet("live", data="".join(f" {line}\n" for line in lines).encode())
    spelled_lines = re.findall(r"^c,0,configure,(.*)$", answer.text, re.M)
    if len(spelled_lines) != len(lines):
        raise Unread("dummynet doesn't take a line of the file")
    return spelled_lines


@lru_cache(1 << 16)
def options_of(line: str) -> tuple[Target, LineOptions]:
    """Returns the target and the options of a line in dummynet's spelling."""
    words = line.split()
    if words[1] == "delete":
        return (words[0], int(words[2])), None
    options: dict[str, str] = {}
    for word in words[3:]:
        if word in OPTION_WORDS:
            last = word
            options[last] = ""
        else:
            options[last] = f"{options[last]} {word}".strip()
    if "plr" in options:
        options["plr"] = str(Fraction(options["plr"]))
    return (words[0], int(words[1])), options
