"""A file's lines as records, or without quotes, and the checks of a record's fields."""

from __future__ import annotations

import csv
import io
import sys
from itertools import islice, tee
from typing import BinaryIO, Callable, Iterator, NamedTuple

from hinge.arguments import is_number
from hinge.border.files import MOST_TABLE, MOST_TEXT, Exceeded, lines_of, opened, read_front
from hinge.command import ROWS, Fault

csv.field_size_limit(sys.maxsize)  # a field may be as long as its file

BYTE_ORDER_MARK = b"\xef\xbb\xbf"
BEGINNINGS = (b"dummynet-history,", b"dummynet-live,")
FieldCheck = Callable[[str], bool]  # whether a field's text is valid


class Row(NamedTuple):
    """Holds a record: the number of the first line, the text with the line end, and the fields."""

    line: int
    text: str
    fields: list[str]


def rows_of(file: BinaryIO, line: int = 1, encoding: str = "utf-8-sig") -> Iterator[Row]:
    """Yields the records of a file from this line on. A quoted field may contain line ends, and empty lines don't count."""
    lines, copies = tee(lines_of(io.TextIOWrapper(file, encoding, "replace", newline="")))
    reader = csv.reader(lines)
    count = 0
    for fields in reader:
        text = "".join(islice(copies, reader.line_num - count))
        if fields:
            yield Row(line + count, text, fields)
        count = reader.line_num


def number_to(most: int, may_be_empty: bool = False) -> FieldCheck:
    """Returns a check for numbers from 0 to `most`."""

    def check(text: str) -> bool:
        if not text:
            return may_be_empty
        return is_number(text) and int(text) <= most

    return check


def is_address(text: str) -> bool:
    """Returns whether a text is an IPv4 address for the program, which reads an empty part as 0."""
    parts = text.split(".")
    if len(parts) != 4 or not 7 <= len(text) <= 15:
        return False
    return all(not part or (is_number(part) and int(part) < 256) for part in parts)


def wrong_row(name: str, path: str, fields: dict[str, FieldCheck], place: int) -> Fault:
    """Returns the fault for a malformed row, with the line and the first wrong field. `place` counts the rows below the header from
    0."""
    with opened(path, MOST_TABLE) as file:
        row = next(islice(rows_of(file), place + 1, None), None)
    if row is None:
        return Fault(f"{name}: can't be read", ROWS)
    if len(row.fields) != len(fields):
        return Fault(f"{name} line {row.line}: {len(row.fields)} fields in place of {len(fields)}", ROWS)
    for (field, is_valid), text in zip(fields.items(), row.fields):
        if not is_valid(text):
            return Fault(f"{name} line {row.line}: bad {field} {text!r}", ROWS)
    return Fault(f"{name}: can't be read", ROWS)


def without_quotes(path: str) -> Iterator[bytes]:
    """Yields a file's content without quotes. The part from the first quote on is a single item, since quotes can contain line
    ends. Exceeded: this part is too long."""
    with opened(path, MOST_TABLE) as file:
        line = file.readline(MOST_TEXT + 1).removeprefix(BYTE_ORDER_MARK)
        while line and b'"' not in line:
            yield line
            line = file.readline(MOST_TEXT + 1)
        text = line + file.read(MOST_TEXT + 1)
    if len(text) > MOST_TEXT:
        raise Exceeded(MOST_TEXT, "bytes behind a quote")
    plain = bytearray()  # in place of an object for each row
    for row in csv.reader(io.TextIOWrapper(io.BytesIO(text), "utf-8", "replace", newline="")):
        plain += ",".join(row).replace('"', "'").encode() + b"\n"
    if not text.endswith((b"\n", b"\r")):
        del plain[-1:]
    yield bytes(plain)


def is_history_file(path: str) -> bool:
    """Returns whether a file other than standard input begins like a history or a live session."""
    if path == "-":
        return False
    return read_front(path, max(map(len, BEGINNINGS))).startswith(BEGINNINGS)
