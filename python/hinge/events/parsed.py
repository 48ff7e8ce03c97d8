"""The parser of a net's events: the words after the moment in an `at` line, or in `hinge change`."""

from __future__ import annotations

from typing import TYPE_CHECKING, Container

from hinge.events.forms import ACTS, ENDS, LINK_WORDS, OUTAGE, PROTOCOLS, WORDS
from hinge.events.kinds import Cut, Event, Heal, HostAct
from hinge.events.link_words import link_event, read_port
from hinge.net.clocks import MOST_CLOCKS, clock_number, read_skew
from hinge.net.disks import DISK
from hinge.net.statements import UNKNOWN_HOST, Statement
from hinge.run.words import LAST_MOMENT, WAYS, bare, placed

if TYPE_CHECKING:
    from hinge.net.description import Description

OF_LINK = f"A B [N] {OUTAGE}, or LINK, or a line"


def parse(words: str, net: Description) -> Event:
    """Returns the event that words outside a file describe, such as the words after `hinge change`. Wrong: the words describe no
    event for the net."""
    return read_event(Statement(f"'{words}'", 0, f"at {words}"), net)


def read_event(statement: Statement, net: Description) -> Event:
    """Reads a statement's words after the moment; returns the event. Wrong: the words describe no event for the net."""
    word = statement.peek()
    if word in ACTS:
        return read_act(statement, net)
    if word in LINK_WORDS:
        return read_cut(statement, net)
    if word and word not in net.hosts:
        raise statement.unknown(word, [*net.hosts, *WORDS], UNKNOWN_HOST)
    whole = statement.rest
    link, is_back = net.between(statement, f"at TIME {OF_LINK}")
    text = statement.rest
    ends = " ".join(whole.removesuffix(text).split())
    statement.rest = ""
    return link_event(text, statement.place, ends, link, is_back, statement.both_ways)


def read_length(statement: Statement, form: str) -> int:
    """Reads a fault's length; returns the length in ns. If the word is missing, returns the last moment, because the fault
    doesn't end by itself."""
    return statement.take_time(form) if statement.peek() else LAST_MOMENT


def read_act(statement: Statement, net: Description) -> Event:
    """Reads an event on a host, such as `kill HOST 5s`; returns the event. Wrong: the words describe no such event."""
    word = statement.peek()
    typed = bare(statement.rest)
    skew = ""
    form = f"at TIME {WORDS[word].form}"
    statement.take(form)
    host = net.room(statement, form)
    if word == "skew":
        if not clock_number(host, net.hosts):
            raise statement.wrong(host, f"the first {MOST_CLOCKS} hosts have clocks of their own")
        skew = read_skew(statement)
    length = length_of_act(statement, word, form)
    statement.done(form)
    if word != "skew":
        is_restart = word == "restart" or (ENDS.get(word) == "restart" and length < LAST_MOMENT)
        refuse_act(statement, net, word, host, is_restart)
    return HostAct((host,), typed, None, word, length, skew)


def length_of_act(statement: Statement, word: str, form: str) -> int:
    """Reads the length of an act; returns the length in ns. Without a length, a crash ends at once."""
    if word not in ENDS:
        return LAST_MOMENT
    if word == "crash" and not statement.peek():
        return 0
    return read_length(statement, form)


def refuse_act(statement: Statement, net: Description, word: str, host: str, begins_again: bool) -> None:
    """Checks that a host can have a fault or a restart. `begins_again` tells whether the host's command starts again: at the end
    of a fault, or for a restart. Wrong: the host runs the main command, has no command that could start again, or has no disk
    for a crash."""
    if host == net.main:
        raise statement.wrong(host, "it has the main command, whose end is the end")
    if begins_again and not net.hosts[host].command:
        raise statement.wrong(host, "it has no command that could begin again")
    if word == "crash" and not net.hosts[host].disks:
        raise statement.wrong(host, f"it has no disk: {DISK}")


def is_word(statement: Statement, words: Container[str], net: Description) -> bool:
    """Returns whether the next word is one of these words, and isn't a host's name."""
    return statement.peek() in words and statement.peek() not in net.hosts


def read_cut(statement: Statement, net: Description) -> Event:
    """Reads a cut or a heal, such as `cut A from B up 5s`; returns the event. Wrong: the words describe no such event."""
    word = statement.peek()
    typed = bare(statement.rest)
    form = f"at TIME {WORDS[word].form}"
    statement.take(form)
    host = net.host(statement, form)
    others = read_others(statement, net, host, form) if statement.peek() == "from" else ()
    side = statement.take(form) if is_word(statement, WAYS, net) else ""
    ways = net.ways_between(host, others, side)
    if not ways:
        raise statement.wrong(host, "it has no such link")
    if statement.peek() in net.hosts:
        raise statement.wrong(statement.peek(), f"write `from {statement.peek()}`: {form}")
    port_words = [statement.take(form) for _ in range(3)] if is_word(statement, PROTOCOLS, net) else []
    with placed(statement.place):
        port = read_port(port_words)
    if word == "heal":
        statement.done(form)
        return Heal(ways, typed, port)
    length = read_length(statement, form)
    statement.done(form)
    return Cut(ways, typed, port, length)


def read_others(statement: Statement, net: Description, host: str, form: str) -> tuple[str, ...]:
    """Reads `from B ..`; returns the hosts. Wrong: no link leads from the cut's host to one of these hosts."""
    statement.take(form)
    others = [net.host(statement, form)]
    while statement.peek() in net.hosts:
        others.append(statement.take(form))
    statement.refuse_twice(others)
    for other in others:
        if not net.ways_between(host, (other,)):
            raise statement.wrong(other, f"{host} has no link to it")
    return tuple(others)
