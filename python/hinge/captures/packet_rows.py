"""The rows of a packet file made from a capture's frames."""

from __future__ import annotations

from typing import IO, Iterable, Iterator, NamedTuple, Optional, TextIO

from hinge.border.files import Input
from hinge.border.scratch import unnamed
from hinge.captures.addresses import StandIns
from hinge.captures.frames import FrameCounts, RowPlan, read_capture
from hinge.captures.random_words import direction_name, direction_of
from hinge.captures.targets import Targets
from hinge.loss import Maker, Words

HEADER = "moment,target,number,src,dst,proto,sport,dport,len,word"


def warnings(meetings: Iterable[tuple[int, str, str]]) -> Iterator[str]:
    """Yields a warning for each pipe or queue that both directions of two hosts use."""
    of_targets = dict[int, list[tuple[str, str]]]()
    for target, first, second in meetings:
        of_targets.setdefault(target, []).append((first, second))
    for target, pairs in of_targets.items():
        first, second = min(pairs)
        others = ""
        if len(pairs) > 1:
            others = f" and of {len(pairs) - 1:,} other pairs"
        yield (
            f"both directions of {first} and {second}{others} go to {direction_name(target)}, where they wait for each other; "
            f"--from {first} gives each direction a pipe"
        )


class ModelWords:
    """Writes packet rows whose words, the numbers that decide about losses, come from models and aren't random."""

    def __init__(self, seed: int, models: dict[str, Maker]) -> None:
        """`models` contains the models for targets such as `pipe,1`; an empty name stands for all other targets."""
        self.seed = seed
        self.models = models
        self.words: dict[str, Optional[Words]] = {}

    def of(self, target: str) -> Optional[Words]:
        """Returns the words from a target's model, or None if the target's words are random."""
        if target not in self.words:
            make = self.models.get(target) or self.models.get("")
            self.words[target] = None
            if make:
                kind, number = target.split(",")
                self.words[target] = make(self.seed, direction_of(kind, number))
        return self.words[target]

    def write(self, rows: IO[bytes], out: TextIO) -> int:
        """Writes the rows of a file; returns their number of bytes."""
        rows.seek(0)
        out.write(next(rows).decode("ascii"))
        size = 0
        for line in rows:
            row, _, word = line.decode("ascii").rpartition(",")
            words = self.of(",".join(row.split(",", 3)[1:3]))
            new_line = f"{row},{words.next()}\n" if words else f"{row},{word}"
            size += out.write(new_line)
        return size


class Product(NamedTuple):
    """The result of a conversion."""

    counts: FrameCounts
    frames: int
    packets: int
    long: int  # packets that are longer than on most links
    addresses: StandIns
    meetings: list[str]


def write_random(capture: Input, targets: Targets, plan: RowPlan, out: int, index: Optional[int]) -> Product:
    """Writes the rows with random words; returns the summary's content."""
    addresses = StandIns()
    with read_capture(capture, plan, out, index) as reader:
        counts, originals, meetings = reader.write(targets.of(reader.asked()))
    for address in originals:
        addresses.of(address)
    return Product(counts, reader.frame_count, reader.packet_count, reader.long, addresses, [*warnings(meetings)])


def write_rows(
    capture: Input, targets: Targets, plan: RowPlan, models: dict[str, Maker], out: TextIO, index: Optional[TextIO]
) -> Product:
    """Writes a row for each packet with a target, and its frame in the index. Returns the summary's content."""
    index_number = None if index is None else index.fileno()
    out.flush()
    if not models:
        return write_random(capture, targets, plan, out.fileno(), index_number)
    with unnamed() as (rows, _):
        product = write_random(capture, targets, plan, rows.fileno(), index_number)
        size = ModelWords(plan.seed, models).write(rows, out)
    return product._replace(counts=product.counts._replace(bytes=size))
