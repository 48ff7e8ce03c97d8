"""Advises on the words that the program refuses in a configuration line."""

from __future__ import annotations

import re
from typing import Optional, Sequence

from hingetulip_words.values import EXAMPLES, EXTRAS, FACTOR, FIELD_BITS, FORMS, PER_SECOND
from hingetulip_words.values import Advice, value_fault, mask_advice, mask_bits, wrong_form

OPTIONS_OF = {  # the options of a pipe and a queue
    "pipe": ["bw", "delay", "queue", "plr", "buckets", "mask"],
    "queue": ["pipe", "weight", "queue", "plr", "buckets", "mask"],
}
OTHER_NAMES = {  # the options that other words may mean
    **dict.fromkeys(("loss", "drop", "packet-loss", "losses"), "plr"),
    **dict.fromkeys(("bandwidth", "rate", "speed"), "bw"),
    **dict.fromkeys(("latency", "lat"), "delay"),
    **dict.fromkeys(("limit", "qlen", "slots", "buffer", "backlog"), "queue"),
    **{"prio": "weight", "netmask": "mask"},
}
UNIT = rf"(?i:{FACTOR}{PER_SECOND}|{FACTOR})|ms|KB|Kbytes?"
OPEN = ("none", "off", "no", "nothing", "unlimited", "infinite", "perfect", "open", "unshaped")  # words for a link without limits
NEAR = 0.65  # the least similarity, from 0 to 1, of a word that the user may mean
SHOWS_NOTHING = Advice("it shows nothing here", "leave this line out")


def words_before_comment(line: str) -> list[str]:
    """Returns a line's words, without the comment."""
    return re.findall(r"[^ \t\r]+", line.split("#", 1)[0])


def first_word_advice(text: str) -> Advice:
    """Returns advice on a word in the place of `pipe` or `queue`."""
    if text.lower() in ("pipe", "queue"):
        return Advice("keywords are lower case", f"write {text.lower()}", text.lower())
    if parts := re.fullmatch(r"(pipe|queue)(\d+)", text):
        separated = " ".join(parts.groups())
        return Advice("no blank before the number", f"write {separated}", separated)
    if text in ("add", "-q", "-f") or text.isdigit():
        return Advice(
            "a rule of the firewall; here each packet names its pipe or queue itself",
            "leave this line out (`hinge ipfw` takes the lines out of such a file)",
        )
    if text == "sched":
        return Advice("schedulers other than WF2Q+ are left out", "leave this line out; queues on a pipe share it by weight")
    return Advice("no line begins so", "write pipe N config .. or queue N config pipe P ..")


def number_word(kind: str, text: str) -> Advice:
    """Returns advice on a word in the place of a pipe's or queue's number."""
    if text in ("show", "list"):
        return SHOWS_NOTHING
    if parts := re.fullmatch(r"(\d+)([a-z]+)", text):
        separated = " ".join(parts.groups())
        return Advice("no blank behind the number", f"write {separated}", separated)
    if text == "config":
        return Advice(f"the number of the {kind} is missing before it", "write 1 config", "1 config")
    return Advice(f"not the number of a {kind}", "write 1 to 65535")


def config_word(kind: str, number: str, text: str) -> Advice:
    """Returns advice on a word in the place of `config`."""
    if text in ("show", "list"):
        return SHOWS_NOTHING
    if len(text) > 1 and "config".startswith(text.lower()):
        return Advice("a word in full", f"write {kind} {number} config", "config")
    return Advice("`config` is missing before it", f"write {kind} {number} config {text}", f"config {text}")


def missing_value(text: str, following: str = "") -> Advice:
    """Returns advice on an option without a value. `following` is the word after `mask`, which may be a netmask."""
    if text != "mask":
        return Advice("its value is missing", FORMS.get(text, "write a number behind it"))
    bits = mask_bits(following) or "0xffffffff"
    return Advice(
        "a mask names the fields that tell flows apart", f"write mask src-ip {bits}, or dst-ip, src-port, dst-port, proto, all"
    )


def left_out(before: str, text: str) -> Advice:
    """Returns advice on a word of ipfw(8) that the program doesn't support; `before` is the word before it."""
    if before == "bw":
        return Advice("the name of a device, which this program doesn't have", FORMS["bw"])
    if text.startswith("/"):
        return mask_advice(before, text)
    if text in ("src-ip6", "dst-ip6", "flow-id"):
        return Advice("IPv6 is left out", "write src-ip, dst-ip, src-port, dst-port or proto")
    return Advice("ipfw(8) has it, and this program leaves it out", "leave it and its values out")


def option_word(kind: str, before: str, text: str, more: Sequence[str] = ()) -> Advice:
    """Returns advice on a word in the place of an option. `before` is the word before it, and `more` lists further words with
    values."""
    options = OPTIONS_OF.get(kind, [])
    names = [*options, *more]
    if "=" in text:
        if advice := equation(text, names):
            return advice
    if text in (";", ","):
        right = "begin a new line" if text == ";" else "leave it out"
        return Advice("blanks alone part the words, and a line one command from the next", right)
    if re.fullmatch(UNIT, text) and before.isdigit():
        return Advice("a number and its unit are one word", f"write {before}{text}")
    accepted = f"a {kind} takes {', '.join(options)}"
    if "jitter" in more:
        accepted = f"write {', '.join(EXAMPLES[:-1])} or {EXAMPLES[-1]}"
    other = "queue" if kind == "pipe" else "pipe"
    if text in OPTIONS_OF[other]:
        return Advice(f"an option of {other}s, and this line is of a {kind}", f"write it in the line of the {other}; {accepted}")
    if text.lower() in options:
        return Advice("keywords are lower case", f"write {text.lower()}", text.lower())
    if text in (*EXTRAS, "reorder"):
        return Advice("dummynet has no such option", "leave it and its value out")
    if text.lower() in OPEN:
        return Advice("no word of a link", "write bw 0, which slows nothing", "bw 0")
    name = near_option(text, names)
    if name and before not in (*FIELD_BITS, "all"):
        return Advice("not an option", f"write {name}", name)
    return Advice("not an option", accepted)


def equation(text: str, names: Sequence[str]) -> Optional[Advice]:
    """Returns advice on an option and its value with `=` between them; None if the option is unknown."""
    typed, _, value = text.partition("=")
    name = typed if typed in names else OTHER_NAMES.get(typed.lower(), typed)
    if name in ("bw", "loss") and re.fullmatch(r"[\d.]+", value):
        right = f"{name} {value}{'Mbit/s' if name == 'bw' else '%'}"
        return Advice("a blank parts an option from its value, which has a unit", f"write {right}", right)
    if name in names:
        return Advice("a blank parts an option from its value", f"write {name} {value}", f"{name} {value}")
    return None


def near_option(text: str, names: Sequence[str]) -> Optional[str]:
    """Returns the option that a wrong word means: by another name, by the option's first letters, or misspelt. Returns None if no
    option resembles the word."""
    import difflib  # only a wrong word needs this module

    name = OTHER_NAMES.get(text.lower())
    if name is None:
        beginnings = [name for name in names if len(text) > 2 and name.startswith(text.lower())]
        name = next(iter(beginnings or difflib.get_close_matches(text, names, 1, NEAR)), None)
    if name == "plr" and "loss" in names:
        name = "loss"
    return name if name in names else None


def advice(words: list[str], number: int, cause: str) -> Advice:
    """Returns advice on a word, counted from 1, from the program's cause, such as `bad number`."""
    place = number - 1
    text = words[place]
    before = words[place - 1] if place else ""
    following = words[place + 1] if place + 1 < len(words) else ""
    start = 1 if words[0] == "ipfw" else 0  # the place of `pipe` or `queue`
    kind = words[start] if len(words) > start else ""
    if place == start and text == "queue" and following:
        return Advice("the queue's line names no pipe", f"write {text} {following} config pipe 1 ..")
    if cause == "missing value":
        return missing_value(text, following)
    if place >= start + 2 and "delete" in words[start + 1 : start + 3]:
        return Advice("nothing stands behind a delete", "delete each in a line of its own")
    if place == start:
        return first_word_advice(text)
    if place == start + 1:
        return number_word(kind, text)
    if place == start + 2:
        return config_word(kind, before, text)
    if cause == "left out":
        return left_out(before, text)
    if cause in ("bad number", "out of range"):
        return value_fault(before, text) or wrong_form(before, text)
    return option_word(kind, before, text)
