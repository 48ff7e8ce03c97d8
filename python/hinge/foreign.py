"""Replacements for other tools' lines and options, and for words that users try first."""

from __future__ import annotations

import errno
import io
import os
import shlex
from contextlib import redirect_stderr
from functools import lru_cache
from typing import Callable, Optional, Sequence

from hinge.command import Fault
from hinge.foreign_options import LINK_OPTIONS
from hinge.foreign_words import EXAMPLE, EXAMPLES, WORDS, Answer, lacking
from hingetulip_words.foreign import STRICT, Meant, amount
from hingetulip_words.link import LEFT_OUT, Place, corrected, in_full, link_before, read_link
from hingetulip_words.presets import PRESETS
from hingetulip_words.values import SHARES, decimal

BOTH = ("--up", "--down")
ONE_WAY = "it is one way, as in the original; --link is both"
PUMBA_ACTS = {"kill": "kill", "stop": "kill", "pause": "stop"}  # pumba's acts on a container, and ours on a host


def is_one_way(options: Sequence[str]) -> bool:
    """Returns whether options for `hinge run` describe a link in one direction only."""
    return options[0] in BOTH and not {*BOTH} <= {*options}


def of_link(
    tool: str, words: Sequence[str], more: str = "", before: str = "hinge run", behind: str = " -- COMMAND"
) -> Optional[Answer]:
    """Returns the line that replaces another tool's words, with a note on words that no link supports; None if the words don't
    concern a link. The line consists of `before`, the link's options, `more` and `behind`."""
    meant = Meant(tool, words)
    options = meant.options()
    if not options:
        return lacking(meant.left) if meant.left else None
    notes = []
    if is_one_way(options):
        notes.append(ONE_WAY)
    if meant.left:
        notes.append(f"no link does: {', '.join(meant.left)}")
    if tool in ("mahimahi", "trickle") and meant.rest:
        behind = f" -- {shlex.join(meant.rest)}"
    return Answer(f"{before} {shlex.join(options)}{more}{behind}", "LINKS", tuple(notes))


def of_tc(words: Sequence[str]) -> Optional[Answer]:
    """Answers a line of tc that adds, changes, shows or deletes a qdisc."""
    for tool in STRICT:
        if tool in words:
            return of_link(tool, words[list(words).index(tool) + 1 :])
    left_out = [word for word in words if word in LEFT_OUT]
    if left_out:
        return lacking(left_out)
    if "show" in words or "ls" in words:
        return WORDS["list"]
    return WORDS["stop"] if "del" in words else None


def of_ipfw(words: Sequence[str]) -> Optional[Answer]:
    """Answers a line of ipfw or dnctl that configures a pipe or queue, loses packets, or lists or deletes entries. Words with a
    hyphen don't count."""
    own = [word for word in words if word not in ("ipfw", "dnctl") and not word.startswith("-")]
    if len(own) > 2 and own[0] in ("pipe", "queue") and "config" in own[1:3]:
        return of_ipfw_setting(own)
    if own[:1] == ["sched"]:
        return lacking(own[:1])
    if "prob" in own[:-1]:
        percentage = amount(own[own.index("prob") + 1], "part")
        if percentage is not None:
            return Answer(f"hinge run --link 'loss {decimal(percentage)}%' -- COMMAND", "LINKS")
    return of_ipfw_verb(own)


def of_ipfw_setting(words: Sequence[str]) -> Answer:
    """Answers `pipe N config ..` or `queue N config ..`, in which `config` may also be before the number."""
    kind = words[0]
    number = words[1] if words[2] == "config" else words[2]
    options = words[3:]
    pipe = options[:2] if kind == "queue" and options[:1] == ["pipe"] and options[1:] else []
    text = " ".join(options[len(pipe) :])
    link = corrected(text, Place.DUMMYNET, kind) if text else ""
    if link is None:
        return lacking([text])
    lines = []
    if kind == "queue":
        lines.append(f"{' '.join(pipe or ['pipe', '1'])} config bw 10Mbit/s")
    elif number not in ("1", "2"):
        number = "1"  # a run has the pipes 1 and 2
    lines.append(" ".join([kind, number, "config", *pipe, in_full(read_link(link, kind))]).strip())
    line_options = " ".join(f"--line {shlex.quote(line)}" for line in lines)
    return Answer(f"hinge run {line_options} -- COMMAND", "LINKS")


def of_ipfw_verb(words: Sequence[str]) -> Optional[Answer]:
    """Answers any other line of ipfw by the last known word among the first three; None if the line doesn't begin like ipfw's
    lines."""
    if not words or words[0] not in ("pipe", "queue", "sched", "add", "show", "list", "delete", "flush"):
        return None
    for word in reversed(words[:3]):
        answer = WORDS.get("list" if word == "show" else word)
        if answer is not None:
            return answer._replace(notes=(EXAMPLE,)) if answer is WORDS["add"] else answer
    return None


def of_pumba(words: Sequence[str]) -> Optional[Answer]:
    """Answers a line of pumba. A fault of netem becomes a container's link, an act on a container becomes an act on a net's
    host."""
    fault = next((kind for kind in ("loss-gemodel", "loss", *SHARES, "delay", "rate") if kind in words), None)
    if fault is not None:
        return of_pumba_fault(words, fault)
    act = next((act for word, act in PUMBA_ACTS.items() if word in words), None)
    if act is None:
        return None
    length = dict(zip(words, words[1:])).get("--duration", "")
    return Answer(f"hinge change NAME {act} HOST {length}".rstrip(), "NET")


def of_pumba_fault(words: Sequence[str], fault: str) -> Optional[Answer]:
    """Answers a pumba line with a netem fault by a link for the line's first container."""
    options = [f"--{fault}-percent" if word == "--percent" else word for word in words[1:] if word not in ("netem", fault)]
    container, *others = Meant("pumba", options).rest or ["NAME"]
    if fault == "delay" and "--time" not in words:
        options += ["--time", "100"]  # pumba's default
    name = "NAME" if ":" in container else shlex.quote(container)  # a pattern such as re2:^web is no name
    answer = of_link("pumba", options, before=f"sudo hinge run --container {name}", behind="")
    if answer is None or not others:
        return answer
    return answer._replace(notes=(*answer.notes, f"the same for {', '.join(others)}, as a run has one container"))


def of_toxiproxy(words: Sequence[str]) -> Optional[Answer]:
    """Answers a line of toxiproxy that adds or updates a toxic, or that lists, inspects, removes, deletes or toggles a proxy."""
    if "add" in words or "update" in words:
        return of_link("toxiproxy", words, " --outside")
    return next((WORDS[word] for word in words[1:] if word in ("list", "inspect", "remove", "delete", "toggle")), None)


def of_net(words: Sequence[str]) -> Optional[Answer]:
    """Answers Mininet's `link A B down`, `link A B up`, and `mn --link tc,bw=10,delay=10ms`."""
    if words[0] == "mn":
        link = " ".join(Meant("mn", words).options()[1:2])
        lines = f"FILE has the lines `host h1`, `host h2` and `link h1 h2 {link}`"
        return Answer("hinge net FILE", "NET", (lines,) if link else ())
    act = {"down": "cut", "up": "heal"}.get(words[-1]) if len(words) == 4 else None
    return Answer(f"hinge change NAME {act} {words[1]} from {words[2]}", "NET") if act else None


def of_shaper(words: Sequence[str]) -> Optional[Answer]:
    """Answers wondershaper's options, or an interface with the download and upload rates in Kbit/s."""
    rates = [word for word in words if word.isdigit()]
    if len(rates) == 2 and "-d" not in words:
        return of_link("wondershaper", ["-d", rates[0], "-u", rates[1]])
    return of_link("wondershaper", words[1:])


def of_run(words: Sequence[str]) -> Optional[Answer]:
    """Answers a word such as `start` or `simulate` before link words, before a net's file, or before options of `hinge run`, `--`
    and a command."""
    first = words[0]
    others = words[2:] if words[1:2] == ["run"] else words[1:]
    time = ["--simulated", "--seed", "1"] if first.startswith("sim") else []
    link, command = link_before(others)
    if link:
        return Answer(shlex.join(["hinge", "run", *time, "--link", link, "--", *(command or ["COMMAND"])]), "LINKS")
    if "simul" in first and others and others[0].endswith(".net"):
        return Answer(f"hinge net {others[0]} --simulated --seed 1", "SIMULATED")
    if "--" not in others:
        return None
    end = list(others).index("--")
    return Answer(shlex.join(["hinge", "run", *time, *with_link(others[:end]), *others[end:]]), "LIVE")


def with_link(options: Sequence[str]) -> list[str]:
    """Returns options for `hinge run`, in which a link replaces options such as --delay."""
    places = [place for place, word in enumerate(options[:-1]) if word in LINK_OPTIONS]
    meant = Meant("ours", [word for place in places for word in options[place : place + 2]])
    others = [word for place, word in enumerate(options) if place not in places and place - 1 not in places]
    return [*others, *meant.options()]


def of_command(words: Sequence[str]) -> Optional[Answer]:
    """Answers a program's name and arguments in the place of a `hinge` command; None for a name without arguments."""
    server = " --server 'iperf3 -s -1'" if "server" in words and words[0] == "iperf3" else ""
    return Answer(f"hinge run --preset lte{server} -- {shlex.join(words)}", "LIVE") if words[1:] else None


OF_TOOLS: dict[str, Callable[[Sequence[str]], Optional[Answer]]] = {
    "tc qdisc netem tbf": of_tc,
    "mm-delay mm-link mm-loss": lambda words: of_link("mahimahi", words, " --outside"),
    "ipfw dnctl pipe queue": of_ipfw,
    "toxic toxiproxy-cli": of_toxiproxy,
    "comcast": lambda words: WORDS["stop"] if "--stop" in words else of_link("comcast", words),
    "pumba": of_pumba,
    "link mn": of_net,
    "trickle tcset": lambda words: of_link(words[0], words[1:]),
    "wondershaper": of_shaper,
    "ping curl wget iperf3": of_command,
    "start launch emulate emulator throttle slow limit delay latency bandwidth shape with wrap simulate sim simulation": of_run,
    " ".join(PRESETS): lambda words: Answer(f"hinge run --preset {words[0]} -- COMMAND", "LINKS"),
}
TOOLS = {tool: answer for tools, answer in OF_TOOLS.items() for tool in tools.split()}


@lru_cache
def refusal(line: str) -> str:
    """Returns why `hinge run` refuses an advised line, or an empty text. A missing file is no reason."""
    from hinge.commands.run import options, options_and_command  # only a wrong word needs these modules
    from hinge.run.plan_of_options import plan_of
    from hinge.run.settings import RunOptions

    messages = io.StringIO()
    words = shlex.split(line.removeprefix("sudo "))
    try:
        with redirect_stderr(messages):
            if words[:2] == ["hinge", "run"]:
                run = options_and_command(options(), words[2:])
                plan_of(RunOptions(**vars(run), more_files=()), run.mtu)
    except SystemExit:
        return messages.getvalue().partition("error: ")[2].strip()
    except Fault as fault:
        return "" if str(fault).endswith(os.strerror(errno.ENOENT)) else str(fault)
    return ""


def replacement_of(words: Sequence[str]) -> Optional[Answer]:
    """Returns the replacement for these words after `hinge`, or why `hinge run` refuses the replacement; None if the words are
    unknown."""
    answer = replacement(words)
    wrong = refusal(answer.write) if answer is not None else ""
    return Answer("", answer.page, (wrong,)) if answer is not None and wrong else answer


def replacement(words: Sequence[str]) -> Optional[Answer]:
    """Returns the replacement for these words after `hinge`; None if the words are unknown."""
    word, *others = words[1:] if words[0] == "sudo" and len(words) > 1 else words
    first = (word.rpartition("/")[2] or word).lower()
    answer = answer_to_line(word, [first, *others])
    if answer is not None:
        return answer
    answer = WORDS.get(first)
    return answer._replace(notes=(EXAMPLE,)) if answer is not None and others and first in EXAMPLES else answer


def answer_to_line(word: str, words: Sequence[str]) -> Optional[Answer]:
    """Returns the replacement for another tool's line, for options or for link words; None if the line is unknown. `word` is the
    first word in the user's spelling, which may be a path."""
    first = words[0]
    if first.startswith("--"):
        answer = of_link("comcast", words)
        if answer is not None and answer.write:
            return answer
    if first.startswith("-") and "--" in words:
        return Answer(shlex.join(["hinge", "run", *words]), "LIVE")
    if first not in WORDS and corrected(word):
        return of_run(["", word, *words[1:]])
    return TOOLS[first](words) if first in TOOLS else None
