"""Reads other tools' words for links, with their units and ways, and notes the words that no link supports."""

from __future__ import annotations

import math
import re
from fractions import Fraction
from typing import Mapping, Optional, Sequence, Union

from hingetulip_words.foreign_table import TOOLS, Action, Kind
from hingetulip_words.values import MORE_SCALES, SHARES, TIMES, decimal, scaled

LISTS = ("toxiproxy", "mn")  # tools whose words are lists
WRAPPERS = ("mahimahi", "trickle")  # tools that run a command
STRICT = ("netem", "tbf", "htb", "cake")  # tools whose words contain no names of other things
NETEMS = {"rate", "limit", "netem"}  # words that netem has, and no link

NUMBER = r"(?a)(\d{0,99}\.?\d{1,99})([a-z%/]*)"  # at most 99 digits before and after the point, since Python refuses to convert thousands
SCALES = MORE_SCALES | {"ki": 2**10, "mi": 2**20, "gi": 2**30}


def rates(endings: Sequence[str], times: int = 1) -> dict[str, Fraction]:
    """Returns the bit/s of each unit that joins a letter such as `k` and an ending."""
    return {f"{letter}{ending}": Fraction(scale * times) for letter, scale in SCALES.items() for ending in endings}


BIT_UNITS = rates(("bit", "bps", "bit/s", "bits/s", "b/s", ""))
SIZES = {"": 1, "b": 1, "k": 1024, "kb": 1024, "m": 1024**2, "mb": 1024**2, "kbit": 128, "mbit": 128 * 1024}
# For each kind of unit in the table, the typed units and their factors to ms, bit/s, bytes or percent; "" stands for a number without
# a unit. In tc, `bps` means bytes.
UNIT_SCALES: dict[str, Mapping[str, Union[int, Fraction]]] = {
    "us": {**TIMES, "": Fraction(1, 1000)}, "ms": {**TIMES, "": 1}, "tc": {**BIT_UNITS, **rates(["bps"], 8)}, "bits": BIT_UNITS,
    "kbit": {**BIT_UNITS, "": 1000}, "mbit": {**BIT_UNITS, "": 10**6}, "KB": {"": 8000}, "KiB": {"": 8192}, "bytes": SIZES,
    "%": {"%": 1, "": 1}, "part": {"%": 1, "": 100}, "packets": {"": 1},
}  # fmt: skip


def amount(text: str, unit: str) -> Optional[Fraction]:
    """Returns the number in a text in ms, bit/s, bytes or percent; None for other texts. `unit` is a key of UNIT_SCALES."""
    parts = re.fullmatch(NUMBER, text.lower())
    if parts is None:
        return None
    scale = UNIT_SCALES[unit].get(parts[2])
    if scale is None:
        return None
    if unit == "bits" and re.search("B(/s|ps)$", text):
        scale = scale * 8
    return Fraction(parts[1]) * scale


def in_units(bits: Fraction) -> str:
    """Returns a bandwidth in bit/s, in the largest unit that leaves a whole number."""
    return f"{scaled(max(1, round(bits)))}bit/s"


class Meant:
    """The link that another tool's words describe. `left` lists the words that no link supports, and `rest` names and the
    command."""

    def __init__(self, tool: str, words: Sequence[str]) -> None:
        """Reads all words of a tool in the table."""
        self.tool = tool
        self.kinds = TOOLS[tool].kinds
        self.rest = list[str]()
        self.left = list[str]()
        self.ways: dict[str, dict[str, Fraction]] = {"both": {}, "up": {}, "down": {}}  # the properties of each way
        self.more = list[str]()  # options in addition to the link
        self.model = list[Fraction]()  # the rates of a loss model
        self.words = [part for word in words for part in self.parts(word)]
        self.way = self.first_way()
        while self.words:
            self.read()

    def parts(self, word: str) -> list[str]:
        """Returns the parts of a word: the name and the value in `--name=value`, or all names and values in a list."""
        if self.tool in LISTS:
            return re.split("[=,]", word)
        return word.split("=", 1) if word.startswith("-") else [word]

    def first_way(self) -> str:
        """Returns the way that the first words describe. A word that only turns to a way counts from the first word on."""
        way = TOOLS[self.tool].way
        for word in self.words:
            kinds = self.kinds.get(word.lstrip("-"), [])
            if len(kinds) == 1 and kinds[0].action is Action.TURN:
                way = kinds[0].name
        return way

    def read(self) -> None:
        """Reads the next word and its values."""
        word = self.words.pop(0)
        kinds = self.kinds.get(word.lstrip("-"))
        if kinds is not None:
            for kind in kinds:
                self.read_values(word.lstrip("-"), kind)
        elif self.tool in WRAPPERS and (word == "--" or not word.startswith("-")):
            self.rest = self.words if word == "--" else [word, *self.words]
            self.words = []
        elif word.startswith("-") or self.tool in STRICT:
            self.leave(word)
        else:
            self.rest.append(word)

    def is_value(self) -> bool:
        """Returns whether the next word is a value."""
        return bool(self.words) and not self.words[0].startswith("-") and self.words[0] not in self.kinds

    def read_values(self, word: str, kind: Kind) -> None:
        """Reads the values of this kind after a word."""
        if kind.action is Action.SET:
            self.read_numbers(kind)
        elif kind.action is Action.FILE:
            self.read_file(kind.name)
        elif kind.action is Action.TURN:
            self.way = kind.name
        elif kind.action is Action.LEAVE_ALL:
            self.leave(word)
            while self.is_value():
                self.words.pop(0)
        else:
            value = self.next_value(kind)
            if kind.action is Action.LEAVE_WORD:
                self.leave(word if value is None else f"{word} {value}")
            elif kind.action is Action.LEAVE and value is not None:
                self.leave(f"{kind.name} {value}")

    def next_value(self, kind: Kind) -> Optional[str]:
        """Reads the next word as an unsupported value, and returns the word; None if it isn't such a value. A correlation is a
        percentage."""
        if not self.is_value() or (kind.name == "correlation" and amount(self.words[0], "%") is None):
            return None
        return self.words.pop(0)

    def read_numbers(self, kind: Kind) -> None:
        """Reads a number, or all numbers of a loss model."""
        while self.is_value():
            value = amount(self.words[0], kind.unit)
            if value is None:
                return
            self.set_property(kind.name, value, self.words.pop(0))
            if kind.name != "model":
                return

    def read_file(self, option: str) -> None:
        """Reads options, and then the file of a way's trace, or the bandwidth that people also write there."""
        while self.words and self.words[0].startswith("--"):
            self.read()
        text = self.words.pop(0) if self.is_value() else ""
        bandwidth = None if text.isdigit() else amount(text, "bits")
        if bandwidth is not None:
            self.ways[option.removesuffix("-trace")]["bw"] = bandwidth
        elif text:
            self.more += [f"--{option}", text]

    def set_property(self, name: str, value: Fraction, text: str) -> None:
        """Sets a property of the way, or adds a rate to the loss model. Delays add up; of other properties the first counts."""
        properties = self.ways[self.way]
        if name == "model":
            self.model.append(value)
        elif name in properties and name != "delay":
            self.leave(f"a second {name}, {text}")
        else:
            properties[name] = properties.get(name, Fraction(0)) + value

    def leave(self, text: str) -> None:
        """Adds a text to `left`, unless the list contains the text."""
        if text not in self.left:
            self.left.append(text)

    def link_words(self, properties: dict[str, Fraction]) -> str:
        """Returns the words for a link with these properties, and notes those that no link supports."""
        spread = properties.get("spread", Fraction(0))  # the greatest deviation from the delay
        delay = properties.get("delay", Fraction(0)) + properties.get("rtt", Fraction(0)) / 2
        words = list[str]()
        if "bw" in properties:
            words.append(in_units(properties["bw"]))
        if spread > delay:
            self.leave(f"a jitter of {decimal(spread)}ms, which is above the delay")
            spread = Fraction(0)
        if delay > spread or "delay" in properties:
            words += self.time_words("", delay - spread)
        jitter = properties.get("jitter", 2 * spread)
        if jitter:
            words += self.time_words("jitter ", jitter)
        words += self.queue_words(properties)
        words += [f"{name} {decimal(properties[name])}%" for name in ("loss", *SHARES) if name in properties]
        return " ".join(words)

    def time_words(self, name: str, ms: Fraction) -> list[str]:
        """Returns the words for a delay or jitter in whole ms, or an empty list, after adding other times to `left`."""
        if ms.denominator == 1:
            return [f"{name}{ms}ms"]
        self.leave(f"{name or 'delay '}{decimal(ms)}ms, as a link has whole milliseconds")
        return []

    def queue_words(self, properties: dict[str, Fraction]) -> list[str]:
        """Returns the words for a queue limit in packets, in bytes, or in ms at the bandwidth (`lasting`)."""
        bandwidth = properties.get("bw")
        size = properties.get("size")
        if bandwidth is not None and "lasting" in properties:
            size = bandwidth / 8000 * properties["lasting"]
        if bandwidth is None and self.tool in STRICT and (size or "queue" in properties):
            self.leave("a queue, as nothing waits where there is no rate")
            return []
        if "queue" in properties:
            return [f"queue {properties['queue']}"]
        if size:
            return [f"queue {min(1024, max(1, math.ceil(size / 1024)))}Kbytes"]
        return []

    def options(self) -> list[str]:
        """Returns the options for `hinge run`; only a single way if the tool slows only that way."""
        up = {**self.ways["both"], **self.ways["up"]}
        if len(self.model) == 1:
            up["loss"] = self.model[0]
        up_words = self.link_words(up)
        down_words = self.link_words({**self.ways["both"], **self.ways["down"]})
        links = [("--link", up_words)] if up_words == down_words else [("--up", up_words), ("--down", down_words)]
        options = [part for link in links if link[1] for part in link]
        options += self.more
        if len(self.model) > 1:
            rates = ",".join(decimal(rate / 100) for rate in self.model[:4])
            options += ["--loss", f"{TOOLS[self.tool].way}:gilbert:{rates}"]
        return options


def netem_link(words: list[str]) -> Optional[str]:
    """Returns the link that netem's words describe; None if they aren't netem's, or if no link has their effects."""
    netem = Meant("netem", words[words.index("netem") + 1 :] if "netem" in words else words)
    options = netem.options()
    is_netem = bool(NETEMS & {*words}) or (words[:1] == ["delay"] and len(words) > 2)
    if is_netem and options[:1] == ["--up"] and not netem.left:
        return options[1]
    return None
