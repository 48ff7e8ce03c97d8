"""Recorded bandwidth, from two kinds of files: lines `seconds,bit/s`, or mahimahi's lines, each of which is a moment in
milliseconds at which 1,500 bytes may leave."""

from __future__ import annotations

import math
from array import array
from itertools import chain, groupby
from typing import Callable, Iterable, Iterator, NamedTuple, Optional, Sequence

from hinge.arguments import is_number
from hinge.border.files import MOST_LINES, untrusted
from hinge.run.words import LAST_MOMENT, SECOND, Wrong, read_lines

MAHIMAHI_BYTES = 1500  # that may leave at each of mahimahi's moments
MOST = 10**12  # bit/s of a pipe
MS = 10**6  # ns
MOST_MS = 2**32 - 1  # the latest moment
MOST_BINS = 10**6
PIECE = 1 << 12  # how many moments are joined at once
Row = tuple[int, list[str]]  # a line's number and fields
Moments = Sequence[int]  # ms


class Rate(NamedTuple):
    moment: int  # ns from the trace's beginning
    rate: int  # bit/s; 0 is an outage


class Rates:
    """Holds a trace's rates in arrays, since an object for each rate would need ten times the memory of the rate's line."""

    def __init__(self, rates: Iterable[Rate] = ()) -> None:
        self.moments = array("Q")
        self.rates = array("Q")
        for rate in rates:
            self.add(rate)

    def add(self, rate: Rate) -> None:
        """Adds a rate behind the others."""
        self.moments.append(rate.moment)
        self.rates.append(rate.rate)

    def __iter__(self) -> Iterator[Rate]:
        return map(Rate, self.moments, self.rates)


class Trace(NamedTuple):
    """Holds a trace: either rates, of which the last continues to the run's end, or mahimahi's moments in ms, of which the last is
    also the period."""

    rates: Rates
    moments: Moments


def number(text: str) -> Optional[float]:
    """Returns a text's number, or None if the text isn't a number."""
    try:
        return float(text)
    except ValueError:
        return None


def rows_of(lines: Iterable[str]) -> Iterator[Row]:
    """Yields the number and the fields of each line, except empty lines and a header without numbers."""
    may_be_header = True
    for line_number, line in enumerate(lines, 1):
        fields = line.split("#", 1)[0].strip().split(",")
        if fields == [""]:
            continue
        if not may_be_header or any(number(field) is not None for field in fields):
            yield line_number, fields
        may_be_header = False


def rate_of(fields: list[str]) -> Rate:
    """Returns the rate in a line's fields. ValueError: there are not two numbers, or a number is outside its range."""
    seconds, rate = (float(field) for field in fields)
    if not (math.isfinite(seconds) and 0 <= seconds * SECOND <= LAST_MOMENT and 0 <= rate <= MOST):
        raise ValueError
    return Rate(round(seconds * SECOND), round(rate))


def rates_of_rows(path: str, rows: Iterable[Row]) -> Rates:
    """Returns the rates in the rows of a file. Wrong: a row isn't a rate, is earlier than the row before, or there are too many
    rows."""
    rates = Rates()
    for line_number, fields in rows:
        if line_number > MOST_LINES:
            raise Wrong(f"{path}: it has more than {MOST_LINES:,} lines")
        try:
            rates.add(rate_of(fields))
        except ValueError:
            raise Wrong(f"{path} line {line_number}: not of the form seconds,bit/s, from 0 to 10^12") from None
        if len(rates.moments) > 1 and rates.moments[-1] < rates.moments[-2]:
            raise Wrong(f"{path} line {line_number}: earlier than the line before it")
    return rates


def read_moments(path: str, rows: Iterable[Row]) -> Moments:
    """Returns mahimahi's moments in ms from the rows of a file. The last moment is the period, which is at least 1 ms. Wrong: a row
    isn't a moment, or is earlier than the row before."""
    numbers = array("I")
    for line_number, fields in rows:
        if len(fields) > 1:
            raise Wrong(f"{path}: lines of seconds,bit/s and of milliseconds")
        if not (is_number(fields[0]) and int(fields[0]) <= MOST_MS):
            raise Wrong(f"{path} line {line_number}: not a number of milliseconds, up to {MOST_MS}")
        numbers.append(int(fields[0]))
        if len(numbers) > 1 and numbers[-1] < numbers[-2]:
            raise Wrong(f"{path} line {line_number}: earlier than the line before it")
    numbers[-1] = max(1, numbers[-1])
    return numbers


def spelled_moments(moments: Moments) -> str:
    """Returns the words for moments. Joins pieces of them, since all words as objects would need far more memory than their
    letters."""
    pieces = (moments[start : start + PIECE] for start in range(0, len(moments), PIECE))
    return " ".join(" ".join(map(str, piece)) for piece in pieces)


def equal_spans(counts: list[int]) -> Iterator[tuple[int, int]]:
    """Yields the start and end of each span of bins with equal counts. The last bin may be shorter, and is a span of its own."""
    start = 0
    for _, span in groupby(counts[:-1]):
        end = start + len(list(span))
        yield start, end
        start = end
    yield start, len(counts)


def counted(path: str, moments: Moments, bin_ns: int, longest: int) -> list[Rate]:
    """Returns the rates in bins of `bin_ns` from the number of moments in each bin. Consecutive bins with equally many moments have
    a single rate; the last bin ends with the period.

    Where bins contain no moment, the rate lets a packet of `longest` bytes leave during these bins. Wrong: the bins are longer than
    the period, or too many."""
    period = moments[-1] * MS
    if bin_ns > period:
        raise Wrong(f"{path}: the bin is longer than the trace, which begins anew after {moments[-1]} ms")
    bins = -(-period // bin_ns)  # rounded up
    if bins > MOST_BINS:
        raise Wrong(f"{path}: {bins} bins; take a longer --bin, of which there are {MOST_BINS} at most")
    counts = [0] * bins
    for moment in moments:
        counts[min(moment * MS // bin_ns, bins - 1)] += 1
    rates = []
    for start, end in equal_spans(counts):
        length = min(end * bin_ns, period) - start * bin_ns
        count = counts[start] * (end - start)
        if count:
            rate = count * MAHIMAHI_BYTES * 8 * SECOND // length
        else:
            rate = max(1, longest * 8 * SECOND // length)
        rates.append(Rate(start * bin_ns, rate))
    return rates


def read_trace(path: str, noted: Callable[[Iterable[str]], Iterable[str]]) -> Trace:
    """Returns a file's trace; passes the file's lines through `noted`. Wrong: the file contains no rows, or a wrong row."""
    with untrusted(path):
        rows = rows_of(noted(read_lines(path, None)))
        first = next(rows, None)
        if first is None:
            raise Wrong(f"{path}: no rows of a trace (examples: 0.5,1000000 and, of mahimahi, 500)")
        all_rows = chain([first], rows)
        if len(first[1]) > 1:
            return Trace(rates_of_rows(path, all_rows), [])
        return Trace(Rates(), read_moments(path, all_rows))
