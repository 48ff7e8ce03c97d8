"""The words that users try first after `hinge`, and their replacements."""

from __future__ import annotations

from typing import NamedTuple, Sequence

from hingetulip_words.presets import PRESETS

EXAMPLE = "an example, as nothing in this line is of a link"
# Each row: the line to write, the page about it (if any), and the words that get this answer if the rest of the line says no more.
TABLE = """
hinge run --link '10Mbit/s 20ms loss 1%' -- COMMAND | LINKS | tc netem qdisc tbf htb comcast delay loss link latency limit
 bandwidth mm-delay mm-loss trickle wondershaper tcset clumsy
hinge run --link 20ms --up-trace up.trace --down-trace down.trace -- COMMAND | LINKS | mm-link mm-onoff mm-webreplay trace mahimahi
hinge run --outside --down 100ms -- COMMAND | LIVE | toxic toxiproxy toxiproxy-cli toxiproxy-server proxy cli
sudo hinge run --container NAME --up 100ms | LIVE | pumba
hinge udp 5000 HOST:PORT 'pipe 1 config delay 20' | LIVE | udp-proxy
hinge net FILE | NET | mn mininet containernet topo topology create host hosts pingall cluster nodes
hinge up FILE | NET | start launch daemon
hinge down NAME; a run ends with its COMMAND | NET | stop kill end quit delete remove rm flush toggle clean tcdel
hinge status NAME | NET | list ls ps info inspect
hinge change NAME cut HOST 5s | NET | cut partition isolate outage
hinge change NAME heal HOST | NET | heal
hinge change NAME restart HOST | NET | restart
hinge change NAME WORDS | LIVE | set
hinge look --diff HISTORY HISTORY | CAPTURE | diff compare
hinge exec NAME HOST -- COMMAND | NET | sh bash shell enter attach ssh xterm h1 h2
hinge net FILE, with a line `nemesis partition-halves every 10s for 3s` | NET | nemesis chaos jepsen
hinge run --line 'pipe 1 config bw 10Mbit/s' -- COMMAND | LINKS | pipe queue dnctl pfctl sched add
dummynet replay CONFIG PACKETS, or dummynet audit HISTORY | FILES | replay live
dummynet audit HISTORY | FILES | audit
hinge docs CAPTURE, which shows a loop over configurations and seeds | | sweep
hinge look PACKETS REPORT --capture CAPTURE --index INDEX -o FILE.pcap | CAPTURE | through
LD_PRELOAD=$(hinge kernel --clock) COMMAND | TESTING | with-clock
dummynet replay CONFIG PACKETS --most-packets 1099511627776 > REPORT | FILES | shard
hinge run --list-presets | | presets profiles profile preset conditions
hinge --version | | version -v
hinge docs | | man doc manual pages readme info-page
hinge try | | example examples tutorial demo hello quickstart
hinge docs TESTING | | test pytest fixture
hinge look HISTORY -o picture.png | CAPTURE | stats picture plot graph mm-throughput-graph draw chart png report analyze analyse log logs
 history view open paths show web gui dashboard
hinge why ROW HISTORY | CAPTURE | explain
hinge packets CAPTURE -o packets.csv | CAPTURE | capture pcap tcpdump wireshark import convert mm-webrecord
hinge run --simulated --seed 1 --link '10Mbit/s 20ms' -- COMMAND | SIMULATED | simulate sim simulation --simulated deterministic
hinge run --link 20ms --server SERVER -- COMMAND | LIVE | server client serve
hinge run --preset lte -- COMMAND | LIVE | emulate emulator exec-link throttle slow shape limit-rate with wrap ping curl wget iperf iperf3
hinge status NAME | | monitor watch top stat metrics mm-meter
hinge check FILE | | validate lint verify
hinge search FILE.net | SIMULATED | fuzz explore seeds shrink
./install in a clone | LIVE | install setup update upgrade
"""


class Answer(NamedTuple):
    """Describes the replacement for a user's words: the line, the page that describes the line, and notes, such as words that no
    link supports. The line and the page may be empty."""

    write: str
    page: str = ""
    notes: tuple[str, ...] = ()

    def text(self) -> str:
        """Returns the answer as the end of a message: the line to write, the notes, and the command that shows the page."""
        parts = [f"write {self.write}", *self.notes] if self.write else self.notes
        page = f" (hinge docs {self.page})" if self.page else ""
        return "; ".join(parts) + page


def answers_of_table() -> dict[str, Answer]:
    """Returns the answers of TABLE, by the words that get them."""
    answers = dict[str, Answer]()
    for row in TABLE.replace("\n ", " ").strip().splitlines():
        line, page, words = (part.strip() for part in row.split("|"))
        answers.update(dict.fromkeys(words.split(), Answer(line, page)))
    return answers


WORDS = answers_of_table()
# The words whose line is only an example if other words follow.
EXAMPLES = {word for word, answer in WORDS.items() if answer.write.startswith(("hinge run --", "sudo hinge run"))}
EXAMPLES -= {*PRESETS, "presets"}


def lacking(what: Sequence[str], page: str = "LINKS") -> Answer:
    """Returns the answer that no link supports these words."""
    return Answer("", page, (f"no link does: {', '.join(what)}",))
