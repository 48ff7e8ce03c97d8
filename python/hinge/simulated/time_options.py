"""The options of simulated time. Each function that reads a value imports the necessary modules itself, so that a help loads no
other."""

from __future__ import annotations

import argparse
import re
import time

from hinge.command_line import add, Parser

BEGINNING = "2026-01-01"  # what the clock says where nothing else is asked for: the same in each run
LAST_YEAR = 2200
LEAST, MOST = 64 << 20, 64 << 30  # bytes of memory
CPUS = ("stable", "v2", "v3", "host")


def date(text: str) -> int:
    """Returns the seconds since 1970 for `now` or a date such as 2026-01-01 or 2026-01-01T12:00, which is in UTC unless it names a
    zone. ArgumentTypeError: the text is no date."""
    from datetime import datetime, timezone

    if text == "now":
        return int(time.time())
    try:
        result = datetime.fromisoformat(text)
    except ValueError:
        raise argparse.ArgumentTypeError(f"{text!r} isn't a date (examples: 2026-01-01, 2026-01-01T12:00, now)") from None
    if not 1971 <= result.year <= LAST_YEAR:
        raise argparse.ArgumentTypeError(f"{text!r} isn't of a year from 1971 to {LAST_YEAR}")
    return int((result if result.tzinfo else result.replace(tzinfo=timezone.utc)).timestamp())


def size(text: str) -> int:
    """Returns the bytes of a size such as 512M or 2G. ArgumentTypeError: the text is no size from 64M to 64G."""
    match = re.fullmatch(r"(\d{1,6})([MG])", text, re.ASCII)
    bytes_ = int(match[1]) << {"M": 20, "G": 30}[match[2]] if match else 0
    if not LEAST <= bytes_ <= MOST:
        raise argparse.ArgumentTypeError(f"{text!r} isn't a size from 64M to 64G")
    return bytes_


def pauses_word(text: str) -> str:
    """Checks and returns a value of --pauses. ArgumentTypeError: the value is neither `drawn` nor a list of pauses."""
    from hinge.run.words import Wrong
    from hinge.simulated.pauses import DRAWN, NO_PAUSES, given

    try:
        is_word = text == DRAWN or bool(given(text))
    except Wrong as wrong:
        raise argparse.ArgumentTypeError(str(wrong)) from None
    if not is_word:
        raise argparse.ArgumentTypeError(f"{text!r} is {NO_PAUSES}")
    return text


def add_simulated(parser: Parser) -> None:
    group = parser.add_argument_group("simulated time (hinge docs SIMULATED)")
    add(
        group,
        "--simulated",
        "in a machine whose time passes when all wait: an hour takes a moment, nothing is late, and a seed gives one run",
        action="store_true",
    )
    group.add_argument("--twice", action="store_true", help="two such runs at once, compared; what they write is lost")
    group.add_argument("--scratch", action="store_true", help="what is written is lost, but for transcript and summary")
    group.add_argument("--root", metavar="FOLDER", help="what programs find at /, of which nothing is written")
    group.add_argument("--at", metavar="DATE", type=date, help=f"what the clock says first, or `now` ({BEGINNING})")
    group.add_argument("--memory", metavar="SIZE", type=size, help="of the machine, taken as it is used (1G)")
    group.add_argument("--cpu", choices=CPUS, help="what programs learn of the processor (stable); v3: one for all")
    add(
        group,
        "--pauses PAUSES",
        "`drawn`: processes pause at calls that the seed draws, so that seeds try other schedules; or pauses one by one",
        type=pauses_word,
    )
    group.add_argument("--clean-env", action="store_true", help="no variables but HOME, LANG, PATH and USER")
    group.add_argument("--like", metavar="SUMMARY", help="says what of this run isn't as in an earlier one's --json")
    group.add_argument("--kept", help=argparse.SUPPRESS)  # a folder that is there as /run/kept
    group.add_argument("--limit", metavar="TIME", help="status 78 after so much simulated time")
    group.add_argument("--real-limit", metavar="TIME", help="status 124 after so much real time")
    parser.needs("--twice --scratch --root --at --memory --cpu --pauses --clean-env --like --limit --real-limit", "--simulated")
    parser.yields("--scratch", "--twice")
    parser.yields("--late --realtime --watch --shell", "--simulated")  # whose packets are never late, and which nobody watches
