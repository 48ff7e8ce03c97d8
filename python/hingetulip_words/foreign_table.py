"""Lists other tools' words for links, with the kinds of their values."""

from __future__ import annotations

from enum import Enum
from typing import NamedTuple

from hingetulip_words.values import EXTRAS

# The words of effects that dummynet lacks, in the table's form.
EXTRA_WORDS = "; ".join(f"{word} = {word}:{example.lstrip('0123456789')}" for word, example in EXTRAS.items())
# Each row names a tool and the way (direction) of a link that the tool slows, and then the tool's words, each group before `=` and the
# kinds of its values in their order. A kind is PROPERTY:UNIT, `!NAME` for a value that no link has, `!value` for such a value of which
# the word is the name, a lone `!` for any number of such values, `-` for a value that doesn't matter, or `>WAY`, which lets the words
# behind it describe another way.
TABLE = f"""
netem up; delay latency = delay:us spread:us !correlation; loss drop random = loss:% !correlation; gemodel = model:%; seed = -;
 rate = bw:tc !overhead !cellsize !celloverhead; duplicate = duplicate:% !correlation; limit = queue:packets;
 corrupt = corrupt:% !correlation; reorder gap slot ecn distribution state = !
tbf up; rate = bw:tc; limit = size:bytes; latency = lasting:us; burst buffer maxburst peakrate minburst mtu mpu overhead = !
htb up; rate = bw:tc; ceil burst cburst prio quantum = !
cake up; bandwidth = bw:tc; rtt = -; besteffort diffserv4 nat wash ack-filter triple-isolate flows overhead = !
mahimahi both; mm-delay = >both delay:ms; mm-link = >both up-trace:file down-trace:file; uplink = >up loss:part;
 downlink = >down loss:part; mm-loss meter-all meter-uplink meter-uplink-delay meter-downlink meter-downlink-delay = ;
 uplink-queue downlink-queue uplink-queue-args downlink-queue-args uplink-log downlink-log once = !value
comcast up; latency = delay:ms; target-bw = bw:kbit; packet-loss = loss:%; device = -;
 default-bw target-addr target-port target-proto = !value
pumba up; time = delay:ms; jitter = spread:ms; rate = bw:tc; loss-percent = loss:%; duplicate-percent = duplicate:%; pg pb = model:%;
 corrupt-percent = corrupt:%; duration interface = -; correlation distribution target tc-image = !value; loss-state = !
toxiproxy down; u upstream = >up; d downstream = >down; latency = delay:ms; jitter = spread:ms; rate = bw:KB; toxicity = !value;
 slow_close timeout reset_peer slicer limit_data = !; bandwidth t type a attribute n toxicName =
trickle both; d = >down bw:KiB; u = >up bw:KiB; L = >both delay:ms; s v = ; w t l = !value
wondershaper both; a = -; d = >down bw:kbit; u = >up bw:kbit
tcset up; rate = bw:bits; delay = delay:ms; delay-distro = spread:ms; loss = loss:%; duplicate = duplicate:%; incoming = >down;
 corrupt = corrupt:%; direction outgoing add change overwrite = ; reordering network port src-network src-port exclude-dst-network = !value
mn both; bw = bw:mbit; delay = delay:us; jitter = spread:us; loss = loss:%; max_queue_size = queue:packets; link tc = ; use_htb = -
ours both; rate bandwidth bw speed = bw:bits; delay latency = delay:ms; rtt = rtt:ms; plr = loss:part; {EXTRA_WORDS};
 loss packet-loss drop = loss:%; limit queue = queue:packets; target-bw = bw:kbit
"""  # ours: what people try as options of `hinge run`


class Action(Enum):
    """The reader's action at another tool's word and its values."""

    SET = "set"  # sets a link's property to a number
    FILE = "file"  # reads the name of a trace
    TURN = "turn"  # lets the words behind it describe another way
    SKIP = "skip"  # skips one value
    LEAVE = "leave"  # skips one value, which no link has, and notes its name
    LEAVE_WORD = "leave word"  # notes the word and, if there is one, its value
    LEAVE_ALL = "leave all"  # notes the word, and skips all its values


class Kind(NamedTuple):
    """The meaning of a value after another tool's word."""

    action: Action
    name: str = ""  # the property, the value's name, or the way
    unit: str = ""  # the property's unit


class Tool(NamedTuple):
    """A tool in the table."""

    way: str  # the way of a link that the tool slows: `up`, `down` or `both`
    kinds: dict[str, list[Kind]]  # the kinds of values after each word


def kind_of(text: str) -> Kind:
    """Returns the kind that a text in the table stands for."""
    if text == "-":
        return Kind(Action.SKIP)
    if text == "!":
        return Kind(Action.LEAVE_ALL)
    if text == "!value":
        return Kind(Action.LEAVE_WORD)
    if text.startswith("!"):
        return Kind(Action.LEAVE, text[1:])
    if text.startswith(">"):
        return Kind(Action.TURN, text[1:])
    name, _, unit = text.partition(":")
    return Kind(Action.FILE if unit == "file" else Action.SET, name, unit)


TOOLS = dict[str, Tool]()
for row in TABLE.replace("\n ", " ").strip().splitlines():
    front, *entries = row.split(";")
    tool_name, slowed_way = front.split()
    TOOLS[tool_name] = Tool(slowed_way, {})
    for entry in entries:
        group, _, kind_texts = entry.partition("=")
        TOOLS[tool_name].kinds.update({word: [*map(kind_of, kind_texts.split())] for word in group.split()})
