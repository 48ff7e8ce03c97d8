"""Replacements for other tools' options, for all options in a command line at once."""

from __future__ import annotations

import re
import shlex
from typing import Collection, Mapping, Sequence

from hinge.foreign_options import FOREIGN_OPTIONS, filled, one_way
from hingetulip_words.foreign import Meant
from hingetulip_words.link import corrected
from hingetulip_words.presets import either_way

OPTION = re.compile(r"(?<!\S)--[\w-]+")


def links_of_line(values: Mapping[str, Sequence[str]], preset: str) -> list[str]:
    """Returns the link words up and down from a command line's options, or else from a preset; empty texts without both."""
    up, down = either_way(preset) if preset else ("", "")
    both = values.get("--link", ())
    return [" ".join(values.get("--up", both)) or up, " ".join(values.get("--down", both)) or down]


def is_idle(link: str) -> bool:
    """Returns whether link words contain a queue without a bandwidth, so that no packet ever waits."""
    return "queue" in link.split() and not re.search(r"/s\b|\bbw\b", link)


def link_options(links: Sequence[str]) -> str:
    """Returns the options for the links up and down."""
    up, down = (shlex.quote(corrected(link) or link) for link in links)
    return f"--link {up}" if up == down else f"--up {up} --down {down}"


def option_in_place(option: str, value: str, names: Collection[str]) -> str:
    """Returns the replacement for another tool's option, if a command accepts the options `names`; an empty text if no option does
    the same."""
    forms, value = one_way(option, value)
    if forms[0].startswith(("--link", "--up ", "--down ")):
        value = corrected(value) or value
    usable = [form for form in forms if {*OPTION.findall(form.partition("hinge ")[0])} <= {*names}]
    return filled(", or ".join(usable), shlex.quote(value))


def of_options(options: Sequence[tuple[str, str]], values: Mapping[str, Sequence[str]], names: Collection[str]) -> str:
    """Returns the message that refuses other tools' `options`, each with its value: the replacement for them all, and the options
    without a replacement. `values` contains the values of the command line's known options, and `names` the command's options."""
    meant = Meant("ours", [word for option, value in options if option not in FOREIGN_OPTIONS for word in (option, value)])
    new_words = [*meant.options()[1:], *filter(None, map(corrected, meant.rest))]
    unknown = [f"{words!r} isn't such a value" for words in meant.rest if not corrected(words)]
    preset = " ".join(values.get("--preset", ())) if new_words else ""
    old_links = links_of_line(values, preset)
    links = [" ".join([link, *new_words]).strip() for link in old_links]
    option_names = ", ".join(dict(options))
    for old, link in zip(old_links, links):
        if corrected(old) and not corrected(link):
            return f"{option_names}: leave this out, as the link says {old!r}"
    lacks_bandwidth = any(map(is_idle, links))
    parts = []
    if new_words:
        parts.append(link_options([f"10Mbit/s {link}" for link in links] if lacks_bandwidth else links))
    if preset:
        parts.append(f"in place of --preset {preset}")
    for option, value in options:
        if option in FOREIGN_OPTIONS:
            add_part(parts, meant.left, option, option_in_place(option, value, names))
    notes = [f"write {' '.join(parts)}".replace(" ; ", "; ")] if parts else []
    if lacks_bandwidth:
        notes.append("10Mbit/s is an example, as no packet waits without a bandwidth")
    return f"{option_names}: {'; '.join([*notes, *(f'no link does: {what}' for what in meant.left), *unknown])}"


def add_part(parts: list[str], unsupported: list[str], option: str, text: str) -> None:
    """Adds an option's replacement to a line's parts, or, if the text is empty, adds the option to the options without a
    replacement."""
    if not text:
        unsupported.append(f"{option} here")
    elif parts and not text.startswith("-"):
        parts.append(f"; write {text}")
    else:
        parts.append(text)
