"""The short words of `--map` rules, for live links and captures: `up tcp src 10.0.0.0/8 dport 443 => queue 2`."""

from __future__ import annotations

import difflib
import ipaddress
import re
from dataclasses import dataclass, field
from typing import NamedTuple, Optional, Union

from hinge.arguments import RULE

IpNetwork = Union[ipaddress.IPv4Network, ipaddress.IPv6Network]
WAYS = {"up": 0, "down": 1}
PROTOCOLS = {"icmp": (1, 58), "icmp6": (58,), "tcp": (6,), "udp": (17,)}  # `icmp` means ICMP of IPv4 and of IPv6
PORTS = {"port": "port", "sport": "sport", "src-port": "sport", "dport": "dport", "dst-port": "dport"}
NETS = ("src", "dst", "host")
DSCP = {"be": 0, "le": 1, "ef": 46} | {f"cs{n}": 8 * n for n in range(8)}
DSCP |= {f"af{n}{m}": 8 * n + 2 * m for n in range(1, 5) for m in range(1, 4)}
SERVICES = {"http": "80", "https": "443", "ssh": "22", "dns": "53"}
WORDS = ("any", *WAYS, *PROTOCOLS, "proto", *NETS, *PORTS, "dscp")
HELP = RULE
FIELDS = {"addr": "host", "srcport": "sport", "dstport": "dport"}  # Wireshark's fields, each with the word of a rule
TARGET = re.compile(r"(pipe|queue)\s+([1-9]\d{0,4})\Z", re.ASCII)
MOST_NUMBER = 65535


class BadRule(ValueError):
    """Raised for a wrong rule, with the reason."""


class RuleTarget(NamedTuple):
    """The target of packets: `pipe` or `queue`, and its number."""

    kind: str
    number: int


class PortSpan(NamedTuple):
    """A range of ports, which includes both ends."""

    low: int
    high: int

    def both(self, other: PortSpan) -> Optional[PortSpan]:
        """Returns the ports that two spans share, or None."""
        low = max(self.low, other.low)
        high = min(self.high, other.high)
        return PortSpan(low, high) if low <= high else None


EVERY_PORT = PortSpan(0, MOST_NUMBER)


@dataclass
class Short:
    """The short words of a rule as conditions on packets. Properties without a condition are free.

    `nets` contains the networks in `src`, `dst` and `host`, and `ports` the ports in `sport`, `dport` and `port`; the last of each
    means either end."""

    way: Optional[int] = None
    protocols: tuple[int, ...] = ()
    dscp: Optional[int] = None
    nets: dict[str, IpNetwork] = field(default_factory=dict)
    ports: dict[str, PortSpan] = field(default_factory=dict)


def address_net(text: str) -> IpNetwork:
    try:
        return ipaddress.ip_network(text, strict=False)
    except ValueError as error:
        raise BadRule(str(error)) from None


def port_span_of(text: str) -> PortSpan:
    match = re.fullmatch(r"(\d{1,5})(?:-(\d{1,5}))?", text, re.ASCII)
    if match:
        span = PortSpan(int(match[1]), int(match[2] or match[1]))
        if span.low <= span.high <= MOST_NUMBER:
            return span
    raise BadRule(f"'{text}': no port from 0 to 65535 and no range of them, as 5201 or 5201-5210")


def number_of(text: str, most: int, what: str) -> int:
    match = re.fullmatch(r"0x[\da-f]+|\d+", text.lower(), re.ASCII)
    if match:
        number = int(match[0], 16 if match[0].startswith("0x") else 10)
        if number <= most:
            return number
    raise BadRule(f"'{text}': {what}")


def advice(words: list[str]) -> str:
    """Returns the right words in place of these last words of a rule, the first of which is unknown."""
    word = words[0]
    translation = of_filter(" ".join(words))
    if translation:
        return translation
    port = word if word.isdigit() else SERVICES.get(word.lower())
    if port:
        return f"port {port}"
    near = difflib.get_close_matches(word, WORDS, 1)
    return near[0] if near else HELP


class RuleReader:
    """Reads the words of a rule, from left to right, into the conditions `short`."""

    def __init__(self, words: list[str]) -> None:
        self.rest = list(words)
        self.short = Short()
        self.seen = dict[str, str]()

    def read(self) -> Short:
        while self.rest:
            self.read_one(self.rest.pop(0))
        return self.short

    def once(self, kind: str, word: str) -> None:
        """Refuses a second word of a kind. BadRule: the rule already contains a word of this kind."""
        if kind in self.seen:
            raise BadRule(f"'{word}' beside '{self.seen[kind]}': a rule has one of them")
        self.seen[kind] = word

    def value(self, word: str) -> str:
        if not self.rest:
            raise BadRule(f"'{word}': its value is missing")
        return self.rest.pop(0)

    def read_one(self, word: str) -> None:
        if word in WAYS:
            self.once("way", word)
            self.short.way = WAYS[word]
        elif word in PROTOCOLS or word == "proto":
            self.once("protocol", word)
            self.short.protocols = PROTOCOLS.get(word) or (number_of(self.value(word), 255, "no protocol from 0 to 255"),)
        elif word == "dscp":
            self.once(word, word)
            text = self.value(word)
            what = "no DSCP from 0 to 63, and no name of one, as ef or af41"
            self.short.dscp = DSCP[text.lower()] if text.lower() in DSCP else number_of(text, 63, what)
        elif word in NETS:
            if self.rest[:1] == ["port"] and word != "host":  # tcpdump's spelling
                raise BadRule(f"'{word} port': not a word of a rule; write {word[0]}port")
            self.once(word, word)
            self.short.nets[word] = address_net(self.value(word))
        elif word in PORTS:
            self.once(PORTS[word], word)
            self.short.ports[PORTS[word]] = port_span_of(self.value(word))
        elif word != "any":
            raise BadRule(f"'{word}': not a word of a rule; write {advice([word, *self.rest])}")


def of_filter(text: str) -> str:
    """Translates a display filter of Wireshark that compares addresses and ports into words of a rule; returns an empty text for
    any other text."""
    parts = filter(None, re.split(r"\s*(?:&&|\band\b)\s*", text))
    matches = [re.fullmatch(r"(ip|ipv6|tcp|udp)\.(addr|host|(?:src|dst|)(?:port)?) *(?:==|eq) *([\w.:/]+)", part) for part in parts]
    words = list[str]()
    for match in filter(None, matches):
        if match[1] in ("tcp", "udp") and match[1] not in words:
            words.append(match[1])
        words += [FIELDS.get(match[2], match[2]), match[3]]
    return " ".join(words) if all(matches) else ""


def parted(text: str) -> tuple[str, RuleTarget]:
    """Returns the words before a rule's arrow, and the rule's target. BadRule: there is no arrow or target."""
    rest, arrow, right = text.rpartition("=>")
    match = TARGET.match(right.strip())
    if not arrow or match is None or int(match[2]) > MOST_NUMBER:
        meant = re.fullmatch(r"(.*?) *(?:[-=]*>)? *(?:to )?(pipe|queue|) *(\d+)", text if ">" in text else "")
        right = ""
        if meant:
            right = f"; write {meant[1]} => {meant[2] or 'pipe'} {meant[3]}"
        raise BadRule(f"it doesn't end in `=> pipe N` or `=> queue N`{right}")
    return rest.strip(), RuleTarget(match[1], int(match[2]))


def short_of(text: str) -> Short:
    """Returns the conditions of short words. BadRule: a word or its value is wrong."""
    return RuleReader(text.split()).read()
