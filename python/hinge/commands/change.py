"""The command `hinge change`, which changes a running link."""

from __future__ import annotations

import sys

from hinge.border.asking import ask
from hinge.border.terminal import show
from hinge.command import CONFIGURATION, new_parser
from hinge.events.forms import WORDS
from hingetulip_words.explained import explained

WORDS_OF_NETS = ", ".join(word.form for word in WORDS.values() if not word.is_simulated)
WHAT = f"""\
Changes a link of hinge run, hinge udp or hinge net, at once. SOCKET is what --control names there, or a name of hinge up. WORDS are those of a
timeline without the moment: a configuration line, [up|down] LINK or [up|down] outage LENGTH lossy. In a net they begin with two hosts, or
are {WORDS_OF_NETS}. It prints the lines that are obeyed, with their moments."""


def main() -> None:
    parser = new_parser(
        WHAT,
        "hinge run --control link.socket --up 10Mbit/s -- bash\n  hinge change link.socket up 1Mbit/s 50ms\n"
        "  hinge change net.socket cut n1 from n2 n3 5s",
        "0 done, 2 a wrong word or no such run, 3 a line that the links refuse, 6 the system refuses something",
    )
    parser.add_argument("socket", metavar="SOCKET")
    parser.add_argument("words", nargs="+", metavar="WORDS")
    arguments = parser.parse_args()
    replies = ask(arguments.socket, change=" ".join(arguments.words)).told or []
    for reply in replies:
        refusal = f": {explained(reply.line, reply.refused)}" if reply.refused else ""
        show(f"{reply.moment / 1e9:.6f} s: {reply.line}{refusal}")
    if any(reply.refused for reply in replies):
        sys.stdout.flush()
        sys.exit(CONFIGURATION)
