"""The text under a picture for reproducing it: configuration, files, seed and version."""

from __future__ import annotations

import re
from pathlib import Path
from typing import Optional, Sequence

from hinge.border.terminal import printable
from hinge.configurations.configured import setting_of
from hinge.lazy import np
from hinge.loss import KEPT, LOST
from hinge.replays.replay import Packets
from hinge.version import version

MOST_LINES = 12  # the most lines of a configuration in the text
LOSS_BY_MODEL = re.compile(r"\bplr 0?\.50*(?!\S)")  # the loss rate with which a model's words decide about losses


def provenance(lines: Sequence[str], files: Sequence[str], seed: Optional[str] = None) -> list[str]:
    """Returns the lines of the configuration, the files, the seed if known, and the version."""
    view = list(lines[:MOST_LINES])
    if len(lines) > MOST_LINES:
        view.append(f"and {len(lines) - MOST_LINES} lines more")
    names = printable(", ".join(Path(name).name for name in files))
    origin = [f"of {names}", f"hinge {version()}"]
    if seed:
        origin.insert(1, f"seed {seed}")
    product = "; ".join(origin)
    return ["; ".join(view), product] if view else [product]


def model_of(packets: Packets, target: tuple[str, int]) -> str:
    """Returns a loss model's effect on a target's packets; an empty text if random words decided."""
    number = packets.targets.index(target) if target in packets.targets else -1
    is_own = packets.target == number
    words = packets.word[is_own] & KEPT
    is_lost = words == LOST
    if not len(words) or not (is_lost | (words == KEPT)).all():
        return ""
    count = int(is_lost.sum())
    bursts = int(np.count_nonzero(np.diff(is_lost.astype(int), prepend=0) == 1))
    in_a_row = f", {count / bursts:.3g} in a row" if bursts else ""
    return f"losses by a model ({count / len(words) * 100:.3g} % of {len(words):,} packets{in_a_row})"


def with_models(lines: Sequence[str], packets: Packets) -> list[str]:
    """Returns the configuration's lines, with loss models in place of the rates that their words use."""
    return [
        LOSS_BY_MODEL.sub(lambda rate: model_of(packets, setting_of(line)[:2]) or rate[0], line)
        if LOSS_BY_MODEL.search(line)
        else line
        for line in lines
    ]
