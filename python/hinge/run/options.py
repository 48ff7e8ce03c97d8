"""The options that `hinge run` and `hinge udp` share. The modules that a help doesn't need are imported only when an option is
used."""

from __future__ import annotations

import argparse
from typing import Any, Mapping, NoReturn, Optional

from hinge.arguments import RULE, is_number
from hinge.border.terminal import show
from hinge.command_line import add, Joined, Parser
from hinge.foreign_options import LINK_OPTIONS, FOREIGN_OPTIONS
from hingetulip_words.values import EXAMPLES

MOST = 250_000_000  # bytes of a part of a transcript, since an audit reads at most 268,435,456


def mtu(text: str) -> int:
    """Returns the bytes of an MTU. ArgumentTypeError: the text isn't a number in the range."""
    from hinge.run.words import Wrong, bytes_of_mtu

    try:
        return bytes_of_mtu(text)
    except Wrong as wrong:
        raise argparse.ArgumentTypeError(str(wrong)) from None


def seed(text: str) -> int:
    """Returns a seed. ArgumentTypeError: the text isn't a number below 2^62."""
    if not (is_number(text) and int(text) < 2**62):
        raise argparse.ArgumentTypeError(f"{text!r} isn't a number below 2^62")
    return int(text)


def preset_name(text: str) -> str:
    """Returns a preset's name unchanged. ArgumentTypeError: there is no such preset; if the text is a link, the message advises
    --link."""
    from hingetulip_words.link import corrected
    from hingetulip_words.presets import preset

    try:
        preset(text)
        return text
    except ValueError as wrong:
        link = corrected(text)
        message = f"{text!r}: not a preset; write --link {link!r}" if link else str(wrong)
        raise argparse.ArgumentTypeError(message) from None


class ListPresets(argparse.Action):
    """Prints the presets and exits, for --list-presets."""

    def __call__(
        self, parser: argparse.ArgumentParser, namespace: argparse.Namespace, values: object, option: Optional[str] = None
    ) -> NoReturn:
        from hingetulip_words.presets import preset_table

        show(preset_table())
        parser.exit()


class BothWays(Joined):
    """Sets the link for each way (one direction of the link) that has no --up or --down of its own, for --link."""

    def __call__(self, parser: argparse.ArgumentParser, namespace: argparse.Namespace, values: object, option: Any = None) -> None:
        from hinge.run.plan_of_options import own_link

        own_link(str(values), "--link")  # so that the message about a wrong word names --link, not --up
        for way in ("up", "down"):
            if not (isinstance(parser, Parser) and f"--{way}" in parser.given):
                setattr(namespace, way, values)


class Foreign(argparse.Action):
    """Refuses an option of another tool. With the command's own advice, the refusal is immediate; otherwise the parser collects
    such options and refuses them together."""

    def __call__(self, parser: argparse.ArgumentParser, namespace: argparse.Namespace, values: Any, option: Any = None) -> None:
        if self.const:
            from hingetulip_words.link import corrected

            value = (corrected(values) or values) if values else values
            parser.error(f"{option}: write {self.const.format(value)}")
        elif isinstance(parser, Parser):
            parser.foreign.append((option, values or ""))


class Model(argparse._AppendAction):
    """Adds a loss model to the models from --loss. A loss rate belongs to a link's words, and is refused like another tool's
    option."""

    def __call__(self, parser: argparse.ArgumentParser, namespace: argparse.Namespace, values: Any, option: Any = None) -> None:
        from hinge.loss import percentage_of

        rate = percentage_of(values)
        if isinstance(parser, Parser) and rate:
            parser.foreign.append(("--loss", rate))
        else:
            super().__call__(parser, namespace, values, option)


def add_foreign(parser: Parser, table: Mapping[str, str]) -> None:
    """Adds hidden options that the command refuses: other tools' options, and the options in `table`, each with the command's own
    advice."""
    for option in dict.fromkeys((*table, *LINK_OPTIONS, *FOREIGN_OPTIONS)):
        hidden = argparse.SUPPRESS
        action = parser.add_argument(option, action=Foreign, const=table.get(option), default=hidden, help=hidden)
        _, has_value = FOREIGN_OPTIONS.get(option, ("", True))
        action.nargs = None if has_value else 0


def add_link(parser: Parser, table: Optional[Mapping[str, str]] = None) -> None:
    """Adds the options for the link and its changes, and the hidden options that the command refuses."""
    add_foreign(parser, table or {})
    link = parser.add_argument_group("the link")
    example = " ".join(EXAMPLES).replace("%", "%%")
    add(link, "--up LINK", f"towards the server, as '{example}': pipe 1", action=Joined)
    link.add_argument("--down", metavar="LINK", action=Joined, help="from the server: pipe 2")
    link.add_argument("--link", metavar="LINK", action=BothWays, default=argparse.SUPPRESS, help="both ways")
    add(link, "--preset NAME", "the link of a name, as lte, in each direction of which nothing else is said", type=preset_name)
    add(link, "--list-presets", "print the presets and their figures", action=ListPresets, nargs=0, default=argparse.SUPPRESS)
    link.add_argument("--config", metavar="FILE", help="configuration lines, of any pipes and queues (hinge docs LINKS)")
    link.add_argument("--line", metavar="LINE", action="append", default=[], help="one more configuration line; may be repeated")
    rule = f"'{RULE} => queue N' or '=> pipe N': where a packet goes, by the first rule that fits; else pipe 1 up, pipe 2 down"
    add(link, "--map RULE", rule, action="append", default=[])
    add_changes(parser.add_argument_group("changes"))
    parser.needs("--bin --trace-for", "--up-trace", "--down-trace")
    parser.yields("--link --preset", "--up", "--down")
    parser.yields("--preset", "--link")
    parser.yields("--loss", "--faults")


def add_changes(changes: argparse._ArgumentGroup) -> None:
    """Adds the options for changes during a run, and for losses."""
    add(changes, "--timeline FILE", "lines as '5s pipe 1 config bw 1Mbit/s' and '8s [up|down] outage 600ms [lossy]'")
    changes.add_argument("--up-trace", metavar="FILE", help="bandwidth by time: seconds,bit/s or mahimahi's milliseconds")
    changes.add_argument("--down-trace", metavar="FILE")
    counted = "count mahimahi's milliseconds over this, and don't obey each (100ms for a pipe with queues or masks)"
    add(changes, "--bin TIME", counted)
    changes.add_argument("--trace-for", metavar="TIME", help="how long counted traces are begun anew (1h)")
    model = "[up:|down:]gilbert:P,R[,B[,G]] (to bad, to good, lost in bad 1, in good 0) or list:3,10-20 (packets, from 1)"
    add(changes, "--loss MODEL", model, action=Model, default=[])
    add(changes, "--faults FILE", "`client > server packet 3 lost`, `twice` or `late 80ms`, in the place of --loss")
    changes.add_argument("--seed", metavar="N", type=seed, help="of what is drawn, for each direction by itself (drawn, and told)")


def add_run(group: argparse._ArgumentGroup) -> None:
    """Adds the options for a run's outputs, limit and control socket."""
    add(group, "--transcript FILE", "the link's history, for `dummynet audit`; FILE.1 and so on where it is long")
    group.add_argument("--most", metavar="BYTES", type=seed, default=MOST, help=argparse.SUPPRESS)
    add(group, "--late TIME", "status 75 where more than 1 of 100 packets was late or unread by more, or the system dropped any")
    group.add_argument("--json", metavar="FILE", help="the summary for a program")
    group.add_argument("--control", metavar="SOCKET", help="where `hinge change`, `status` and `exec` find it")
    group.add_argument("--watch", action="store_true", help="rates, queues and losses each second, on standard error")
    group.add_argument("--quiet", action="store_true", help="no summary")
    group.add_argument("--realtime", action="store_true", help="the link before all other programs, where the system allows")
