"""The parser of a link's events in `hinge run` and in nets."""

from __future__ import annotations

from typing import Callable, Optional

from hinge.arguments import is_number
from hinge.events.forms import OUTAGE, PROTOCOLS
from hinge.events.kinds import Event, HoldingOutage, LossyOutage, NewLine, NewWords, Port
from hinge.run.words import WAYS, Wrong, bare, first_word, is_line, length_of, read_link_words
from hingetulip_words.link import NO_WORDS

TwoWays = Callable[[str], "tuple[str, str]"]


def read_port(words: "list[str]") -> Optional[Port]:
    """Returns the port from three words such as `tcp port 7001`; None without words. Wrong: the words describe no port."""
    if not words:
        return None
    protocol, port, number = words
    if protocol not in PROTOCOLS or port != "port" or not is_number(number) or not 1 <= int(number) <= 65535:
        raise Wrong(f"'{' '.join(words)}': no port from 1 to 65535 (example: tcp port 7001)")
    return Port(PROTOCOLS[protocol], int(number))


def alike(text: str) -> "tuple[str, str]":
    """Returns the words for both ways of a link, which are the same."""
    return text, text


def link_event(text: str, option: str, ends: str = "", link: int = 0, is_back: bool = False, both_ways: TwoWays = alike) -> Event:
    """Returns the event that a text describes: `[up|down] LINK`, `[up|down] outage LENGTH [lossy [tcp|udp port N]]` or a
    configuration line.

    `option` names the text's place in error messages. In a net, `ends` contains the words before the text, which name the ends of
    link number `link`; if `is_back`, these words name the link's second end first. `both_ways` splits a link's words into the
    words for each way. Wrong: the text describes no event for a link.
    """
    typed = bare(f"{ends} {text}")
    text = bare(text)
    first, behind = first_word(text)
    side, rest = (first, behind) if first in WAYS else ("", text)
    numbers = [WAYS[side]] if side else [0, 1]
    if is_back:
        numbers = [1 - number for number in numbers]
    ways = tuple(2 * link + number for number in numbers)  # the first way is from the end that is named first
    if rest in ("cut", "off"):
        raise Wrong(f"'{rest}': a cut has a length (example: outage 5s lossy)")
    if first_word(rest)[0] == "outage":
        words = rest.split()
        if len(words) == 1 or words[2:3] not in ([], ["lossy"]) or len(words) not in (2, 3, 6):
            raise Wrong(f"`{OUTAGE}`, LENGTH as 600ms")
        kind = LossyOutage if words[2:] else HoldingOutage
        return kind(ways, typed, read_port(words[3:]), length_of(words[1]))
    if is_line(rest) and not side:
        return NewLine(ways, typed, line=rest)
    if not rest:
        raise Wrong(NO_WORDS)
    links = tuple(read_link_words(words, option) for _, words in zip(ways, both_ways(rest)))
    return NewWords(ways, typed, links=links, ends=ends, side=side)
