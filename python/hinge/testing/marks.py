"""The marks of a test. A mark with an unknown word is refused, since the test would otherwise use another link than intended."""

from __future__ import annotations

import re
from dataclasses import dataclass, fields
from random import Random
from typing import Iterator, Mapping, NamedTuple, Optional

import pytest


TAKES = ("back", "preset")
FIXTURES = ("sim_net", "udp_path", "net", "simulated_net")
SAMPLE = '"10Mbit/s 20ms loss 1%"'
UNITS = {"ms": 1e-3, "s": 1.0}
SPAN = re.compile(r"(?:(?P<low>\d+(?:\.\d+)?)(?P<unit_of_low>ms|s)?\.\.)?(?P<high>\d+(?:\.\d+)?)(?P<unit>ms|s)")
OTHER_SPANS = {  # their forms, the sizes of their units, and samples
    "drift": (r"(\d+(?:\.\d+)?)ppm", 1e-6, "100ppm"),
    "skew": (r"(\d+(?:\.\d+)?)s", 1.0, "2s"),
    "duplicates": (r"(\d\d?(?:\.\d+)?|100)%", 1e-2, "1%"),
}


class WrongMark(ValueError):
    """Raised for a mark with wrong words; the message contains advice."""


class Ends(NamedTuple):
    """Holds the words of a link's two ways (directions). If `back` is None, both ways have the words of `there`."""

    there: str
    back: Optional[str]


def words_of(options: Mapping[str, object]) -> str:
    """Translates another tool's options, such as bw="10Mbit/s", into a link's words. Returns an empty text if an option or a value
    is unknown."""
    from hingetulip_words.advice import OPTIONS_OF, OTHER_NAMES
    from hingetulip_words.link import WordError, as_words, read_link

    words = []
    for key, value in options.items():
        name = OTHER_NAMES.get(key.lower(), key.lower())
        text = str(value)
        if name not in OPTIONS_OF["pipe"]:
            return ""
        words.append(as_words(name, text))
    try:
        read_link(" ".join(words))
    except WordError:
        return ""
    return " ".join(words)


def unknown_word(keywords: Mapping[str, object], there: object) -> WrongMark:
    """Returns the error for keywords that the mark `link` doesn't support."""
    import difflib

    name = next(iter(keywords))
    near = difflib.get_close_matches(name, TAKES, 1)
    words = words_of(keywords)
    if near:
        advice = f"write {near[0]}=.."
    elif not words:
        advice = f"write link({SAMPLE})"
    elif there:
        advice = f'write link("{there} {words}")'
    else:
        advice = f'write link("{words}")'
    return WrongMark(f"the mark link takes no {name!r}; {advice}")


def ends_of(mark: pytest.Mark) -> Ends:
    """Returns the words of a `link` mark. WrongMark: the mark's arguments aren't texts for the two ways or a preset. ValueError:
    there is no such preset."""
    if len(mark.args) > 2:
        raise WrongMark(
            f"the mark link has {len(mark.args)} texts, and takes one for the way there and one for the way back;"
            f" write all words of a way in one text, as link({SAMPLE})"
        )
    there, back = (*mark.args, None, None)[:2]
    others = {name: value for name, value in mark.kwargs.items() if name not in TAKES}
    if others:
        raise unknown_word(others, there)
    if "back" in mark.kwargs and back is not None:
        raise WrongMark("the mark link has the way back twice; leave one of them out")
    back = mark.kwargs.get("back", back)
    preset = mark.kwargs.get("preset")
    for argument in (there, back, preset):
        if argument is not None and not isinstance(argument, str):
            raise WrongMark(f"the mark link takes texts, and {argument!r} is none; write link({SAMPLE})")
    if preset is not None:
        from hingetulip_words.presets import either_way

        return Ends(*either_way(preset, there, back))
    if not any((words or "").strip() for words in (there, back)):
        raise WrongMark(f"the mark link has no words of a link; write link({SAMPLE})")
    return Ends(there or "", back)


def link_mark(item: pytest.Item) -> Ends:
    """Returns the words of a test's `link` mark; empty words without a mark."""
    mark = item.get_closest_marker("link")
    return Ends("", None) if mark is None else ends_of(mark)


@dataclass(frozen=True)
class Span:
    """Describes a range of numbers (mostly seconds) with its text in the mark."""

    low: float
    high: float
    text: str

    def __str__(self) -> str:
        return self.text

    def drawn(self, random: Random) -> float:
        """Draws a number from the range."""
        return random.uniform(self.low, self.high)

    def ms(self, random: Random) -> int:
        """Draws a time in whole milliseconds."""
        return random.randint(round(self.low * 1000), round(self.high * 1000))


@dataclass(frozen=True)
class Variation:
    """Holds the spans of a `vary` mark, from which the seed draws."""

    delay: Optional[Span] = None  # the delay of each link
    jitter: Optional[Span] = None  # each packet's further delay
    phase: Optional[Span] = None  # the delay of each host's task at its begin
    drift: Optional[Span] = None  # s that the clock of a host gains in a second
    duplicates: Optional[Span] = None  # the rate at which a packet comes twice
    skew: Optional[Span] = None  # s by which the clock of a host is ahead
    # Each act of these kinds begins after a time from the span, and lasts for another time from the span.
    cuts: Optional[Span] = None  # a cut of a host with links
    one_way_cuts: Optional[Span] = None  # a cut of a link
    holds: Optional[Span] = None  # a link that holds its packets
    crashes: Optional[Span] = None  # a crash of a host with a program of `host.boot`

    def __str__(self) -> str:
        """Returns the words of the mark."""
        return ", ".join(f"{name} {getattr(self, name)}" for name in NAMES if getattr(self, name) is not None)


NAMES = tuple(each.name for each in fields(Variation))


def span_of(name: str, text: object) -> Span:
    """Reads a span such as `5..100ms`; `80ms` begins at 0. A drift such as `100ppm` or a skew such as `2s` may also be negative,
    and a rate such as `1%` is exact. ValueError: the text is no span."""
    if name in OTHER_SPANS:
        form, scale, sample = OTHER_SPANS[name]
        match = re.fullmatch(form, str(text))
        if match:
            high = float(match[1]) * scale
            low = high if name == "duplicates" else -high
            return Span(low, high, str(text))
        raise ValueError(f"the mark vary: {name} {text!r} isn't a {name}; write {name}='{sample}'")
    match = SPAN.fullmatch(str(text))
    if match:
        unit = UNITS[match["unit"]]
        low = float(match["low"] or 0) * UNITS.get(match["unit_of_low"], unit)
        high = float(match["high"]) * unit
        if low <= high:
            return Span(low, high, str(text))
    raise ValueError(f"the mark vary: {name} {text!r} isn't a span of times; write {name}='5..100ms'")


def variation_of(words: Mapping[str, object]) -> Variation:
    """Reads the words of `vary` marks. ValueError: a word is unknown, or its value is no span."""
    for name in words:
        if name not in NAMES:
            import difflib

            near = (difflib.get_close_matches(name, NAMES, 1) or [", ".join(NAMES)])[0]
            raise ValueError(f"the mark vary takes no {name!r}; write {near}")
    return Variation(**{name: span_of(name, text) for name, text in words.items()})


def vary_of(item: pytest.Item) -> Variation:
    """Returns the variation of a test's `vary` marks; the nearest mark decides on a word. WrongMark: an argument has no name."""
    marks = list(item.iter_markers("vary"))
    if any(mark.args for mark in marks):
        raise WrongMark("the mark vary takes spans by their names alone, as vary(delay='5..100ms')")
    return variation_of({name: text for mark in reversed(marks) for name, text in mark.kwargs.items()})


def allowed_of(item: pytest.Item) -> tuple[str, ...]:
    """Returns the names in a test's `real` marks; a call may be real if its name contains one of them. WrongMark: a mark contains
    no name, or an argument that is no name."""
    marks = list(item.iter_markers("real"))
    for mark in marks:
        if mark.kwargs or not mark.args or not all(isinstance(name, str) and name for name in mark.args):
            raise WrongMark("the mark real takes names of what may be real, as real('libpq')")
    return tuple(name for mark in marks for name in mark.args)


def words_in(mark: pytest.Mark) -> list[str]:
    """Returns the names of a `vary` mark's spans, or `link` for a `link` mark."""
    if mark.name == "vary":
        return list(mark.kwargs)
    return ["link"] if mark.name == "link" else []


def own_words(item: pytest.Item) -> frozenset[str]:
    """Returns `link` and the words of `vary` from the test's marks, without those of its class or module."""
    return frozenset(word for mark in getattr(item, "own_markers", ()) for word in words_in(mark))


def shared_words(item: pytest.Item) -> dict[str, str]:
    """Returns the words (`link`, and the names in `vary`) that a test inherits from marks of its class or module and lacks in
    its own marks. Each word comes with the node id of the nearest such mark."""
    own = own_words(item)
    places = dict[str, str]()
    for node, mark in item.iter_markers_with_node():
        for word in words_in(mark):
            if node is not item and word not in own:
                places.setdefault(word, getattr(node, "nodeid"))
    return places


def fault_mark(item: pytest.Item) -> Optional[str]:
    """Returns the error in a test's marks, or None."""
    try:
        link_mark(item)
        vary_of(item)
        allowed_of(item)
    except ValueError as error:
        return str(error)
    in_simulated_time = item.get_closest_marker("simulated")
    if in_simulated_time is not None and in_simulated_time.args:
        return f'the mark simulated takes options by name alone, as server="COMMAND", and {in_simulated_time.args[0]!r} has none'
    return None


def unused(item: pytest.Item) -> Iterator[str]:
    """Yields a warning for each of the test's own marks without effect."""
    own = {mark.name for mark in getattr(item, "own_markers", ())}
    names = getattr(item, "fixturenames", ())
    takes_link = any(name in FIXTURES for name in names) or item.get_closest_marker("simulated") is not None
    if "link" in own and not takes_link:
        yield "the mark link is of no effect: no fixture of the test is sim_net, udp_path or net"
    if "vary" in own and "sim_net" not in names:
        yield "the mark vary is of no effect: no fixture of the test is sim_net"
