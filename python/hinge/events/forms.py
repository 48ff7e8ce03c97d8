"""The words that name events in a net's file: their forms for the help, and corrections of lines that people often write instead."""

from __future__ import annotations

import re
from typing import NamedTuple, Sequence

from hingetulip_words.values import FACTOR, PER_SECOND


class Word(NamedTuple):
    """Describes a word that begins an event in an `at` line or in `hinge change`, such as cut or kill."""

    form: str  # the words of the whole event, as the help shows them
    effect: str  # the rest of the event's line in the help
    ending: str = ""  # the word that ends the event's fault
    within: "tuple[str, ...]" = ()  # other faults of a host, during which the event has no effect
    none: str = ""  # for a word that ends faults: the missing fault, for the refusal
    is_write: bool = False  # whether the links carry out the act on hosts with cgroups, by writing to a file
    is_simulated: bool = False  # whether the event needs simulated time


LINK_WORDS = {
    "cut": Word("cut A [from B ..] [up|down] [tcp|udp port N] [LENGTH]", "its links lose all; `up`: what it sends", "heal"),
    "heal": Word("heal A [from B ..] [up|down] [tcp|udp port N]", "no cut or lossy outage goes on", none="no cut of such a link"),
}
ACTS = {
    "kill": Word("kill HOST [LENGTH]", "all that runs there ends", "restart", ("crash",), is_write=True),
    "crash": Word("crash HOST [LENGTH]", "a kill that loses what isn't synced", "restart", is_simulated=True),
    "restart": Word("restart HOST", "its command begins again"),
    "stop": Word("stop HOST [LENGTH]", "all that runs there stands still", "cont", ("kill", "crash"), is_write=True),
    "cont": Word("cont HOST", "it goes on", none="no stop of such a host", is_write=True),
    "skew": Word("skew HOST +2s [100ppm]", "its clock, in simulated time", is_simulated=True),
}
WORDS = LINK_WORDS | ACTS
ENDS = {name: word.ending for name, word in ACTS.items() if word.ending}
EFFECT_COLUMN = 38  # of the help
OUTAGE = "[up|down] outage LENGTH [lossy [tcp|udp port N]]"
PROTOCOLS = {"tcp": 6, "udp": 17}  # the protocols by whose ports a cut chooses packets
HOST = r"([A-Za-z][\w-]*)"
ACT = "|".join(WORDS)
ALONE = "|".join(name for name in ACTS if name != "skew")
NET_LINES = (  # patterns of wrong lines that people write in a net's file, and the right lines
    (r"((?!nemesis).*) for (\d\S*)", r"\1 \2"),
    (r"(?:after|at) (\S+?)[:,]? (.*)", r"at \1 \2"),
    (r"(?:nodes|hosts|machines|servers|clients):? ([A-Za-z][\w-]*),? (.+)", r"host \1, and the others each in a line of its own"),
    (r"(?:node|machine|vertex|container|service|server|client) (.+)", r"host \1"),
    (r"(?:run|exec|command|cmd) ([A-Za-z].+)", r"host \1, in place of the line `host` that it has"),
    (rf"([A-Za-z]\w*) ([A-Za-z]\w*) (\d+(?:ms|(?i:{FACTOR}{PER_SECOND})).*)", r"link \1 \2 \3"),
    (r"(?:edge|connect|cable|wire|path) (.+)", r"link \1"),
    (r"(\w+) ?<?-+>? ?([A-Za-z]\w*)( .*)?", r"link \1 \2\3"),
    (r"link (\w[\w-]*?) ?(?:<?-+>?|,| and | to ) ?([A-Za-z][\w-]*)( .*)?", r"link \1 \2\3"),
    (rf"(\d\S*) ((?:{ACT}|partition|disconnect|isolate|link) .*)", r"at \1 \2"),
    (rf"((?:{ACT}|partition|disconnect|isolate) .*)", r"at 5s \1"),
    (r"(at \S+) (?:pause|freeze) (.*)", r"\1 stop \2"),
    (r"(at \S+) (?:resume|continue|unpause) (.*)", r"\1 cont \2"),
    (r"(at \S+) (?:start|reboot) (.*)", r"\1 restart \2"),
    (r"(at \S+) (?:reconnect|rejoin|restore) (.*)", r"\1 heal \2"),
    (rf"at \S+ ((?:{ACT}) .*) at (\d\S*)", r"at \2 \1"),
    (r"at (\S+) (?:link )?([\w -]*) down", r"at \1 cut \2"),
    (r"at (\S+) link (.*) up", r"at \1 heal \2"),
    (r"at (\S+) (?:partition|disconnect|isolate|split) ([\w ,<>|-]*)", r"at \1 cut \2"),
    (rf"at (\S+) cut {HOST} \| (.*)", r"at \1 cut \2 from \3"),
    (rf"at (\S+) (cut|heal) {HOST[:-1]}?) ?(?:<?-+>?|,| and | ) ?(?!from |until ){HOST}( \d\S*)?", r"at \1 \2 \3 from \4\5"),
    (rf"at (\S+) (?:set|change|delay|rate|bandwidth|link) {HOST} {HOST} (\d.*)", r"at \1 \2 \3 \4"),
    (rf"(at \S+ (?:{ALONE})) {HOST}(?: and |, ?| ){HOST}( \d\S*)?", r"\1 \2\4, and \1 \3\4 in a line of its own"),
    (rf"at (\S+) loss {HOST} {HOST} (\d.*)", r"at \1 \2 \3 loss \4"),
    (r"(?:\w+:|[-{[<]).*", "host NAME, and `link A B 20ms`, each in a line of its own, as a net is neither YAML nor JSON"),
)
CHANGES = (  # patterns of wrong lines in a timeline, and the right lines
    (r"(?:at|after) (.*)", r"\1"),
    (r"(\d\S*?)[:,]? (?:link|change|set|to|->|=>) (.*)", r"\1 \2"),
    (r"(\d\S*?)[:,] (.*)", r"\1 \2"),
    (r"(\S+) lossy outage (\S+)", r"\1 outage \2 lossy"),
    (r"(\S+) ((?:up |down )?outage) for (.*)", r"\1 \2 \3"),
    (r"(\S+) ((?:up |down )?)(?:down|off|cut|disconnect|outage)", r"\1 \2outage 5s lossy"),
    (r"(\S+) ((?:up |down )?)(?:off|cut|disconnect) (?:for )?(\d\S*)", r"\1 \2outage \3 lossy"),
)


def line_meant(text: str, forms: "Sequence[tuple[str, str]]" = NET_LINES) -> str:
    """Returns the right line for a net's file (for a timeline with the forms CHANGES) in place of a line that people write by
    mistake. Returns an empty text if no form fits."""
    line = text
    for pattern, form in forms:
        match = re.fullmatch(pattern, line)
        line = match.expand(form) if match else line
    return line if line != text else ""


def help_lines() -> str:
    """Returns the help's text about `at` lines: the form of each event, followed by the event's effect."""
    text = ""
    for word in WORDS.values():
        form = f"  at TIME {word.form}"
        if len(form) >= EFFECT_COLUMN:
            text += f"{form}\n"
            form = ""
        text += f"{form:{EFFECT_COLUMN}}{word.effect}\n"
    return text
