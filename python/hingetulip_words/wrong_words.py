"""Advice on words that aren't a link's: numbers without units, other tools' forms, presets' names, and words for another place."""

from __future__ import annotations

import re
from typing import NamedTuple, Optional, Sequence

from hingetulip_words.advice import option_word
from hingetulip_words.presets import NEAREST, PRESETS
from hingetulip_words.values import DELAY as DELAY_WORD
from hingetulip_words.values import EXTRAS, FACTOR, PER_SECOND, PERCENT, SHARES, TIMES, Advice, wrong_form

WHOLE_RATE = re.compile(rf"\d+{FACTOR}{PER_SECOND}", re.ASCII | re.IGNORECASE)
WHOLE_DELAY = re.compile(r"\d+ms", re.ASCII)
LIKE_A_DELAY = f"(?ai){DELAY_WORD}"
LIKE_ROOM = r"(?ai)\d+(pkts?|packets?|p|slots?|[km]?bytes?|kb|kib|mib)"
AROUND = r"(\d+)ms(?: ?(?:±|\+/?-) ?| )(\d+)ms"  # a delay and its deviation, in netem's form `20ms 5ms`
SPAN = r"(\d+)(?:ms)?(?:-|\.\.+)(\d+)ms"
UNIT = rf"(?ai){FACTOR}(bits?|bytes?|bps|b)(/s|ps)?|{'|'.join(TIMES)}|%"
MOST_JITTER = 1000  # ms: each millisecond has a separate pipe
JITTER = "write jitter 5ms, a whole number from 1ms to 1000ms"
MISSING = {"loss": "write loss 1%"} | {word: f"write {word} {example}" for word, example in EXTRAS.items()} | {"jitter": JITTER}
NAMES = {"bw": "bandwidth", "queue": "queue limit", "plr": "loss rate", "buckets": "number of buckets"}

REORDER = Advice("no link reorders by a share", "write jitter 5ms, by which packets overtake each other")
ONE_WAY = Advice("one way of a link", "write --up LINK --down LINK, or LINK / LINK in a net's line")
ONE_WORD = Advice("a number and its unit are one word", "")
OF_RUNS = Advice("of a whole run", "write it in --up, --down or a line `link`, from the beginning on")


class Wrong(NamedTuple):
    """The wrong words as typed, and the advice on them."""

    typed: str
    advice: Advice


class Context(NamedTuple):
    """The words around a wrong word, and the kind of text that contains them."""

    kind: str  # `pipe` or `queue`
    previous: str  # the last word of the option before, or an empty text
    following: str  # the next word, or an empty text
    is_change: bool  # whether the text is a change of a link during a run
    further: Sequence[str]  # the permitted words with values that aren't dummynet's options


def wrong_word(word: str, context: Context) -> Wrong:
    """Returns the advice on a word that a link doesn't have."""
    following = context.following
    if word.partition("=")[0] in ("up", "down", "/"):
        return Wrong(word, in_place(ONE_WAY, context))
    if word.isdigit():
        return number_alone(word, following.rstrip(",;"))
    if names_preset(word, following):
        return preset_word(word, context)
    if word in ("rtt", "±", "+-", "+/-") or PERCENT.fullmatch(word):
        return misplaced(word, context)
    if word[:1].isdigit() or re.match(r"[-.]\d", word):
        return Wrong(word, in_place(wrong_value(word), context))
    return Wrong(word, option_word(context.kind, context.previous, word, context.further))


def in_place(advice: Advice, context: Context) -> Advice:
    """Returns the advice. The advice for a single way (direction) of a link has other words if the text is a change of a link."""
    if advice is ONE_WAY and context.is_change:
        return advice._replace(right="write up LINK, and down LINK in a line of its own")
    return advice


def number_alone(word: str, following: str) -> Wrong:
    """Returns the advice on a number without a unit. If the next word is a unit, the advice is to join the two words."""
    if not re.fullmatch(UNIT, following):
        return Wrong(
            word, Advice("a number without a unit", f"write {word}ms for a delay, {word}Mbit/s for a bandwidth or queue {word}")
        )
    joined = word + following
    if not (WHOLE_RATE.fullmatch(joined) or WHOLE_DELAY.fullmatch(joined)):
        joined = wrong_value(joined).word or joined
    return Wrong(f"{word} {following}", ONE_WORD._replace(right=f"write {joined}"))


def wrong_value(word: str) -> Advice:
    """Returns the advice on a word that begins with a digit, but is neither a bandwidth nor a delay in a link's form."""
    parts = [part for part in re.split("[,;]|/(?!s|$)", word) if part]
    if len(parts) > 1:
        are_ways = any(all(map(form.fullmatch, parts)) for form in (WHOLE_RATE, WHOLE_DELAY))
        return ONE_WAY if are_ways else Advice("blanks alone part the words", f"write {' '.join(parts)}")
    if spread := re.fullmatch(AROUND, word):
        return Advice("a jitter adds to the delay", f"write {around(spread)}")
    if span := re.fullmatch(SPAN, word):
        jitter = int(span[2]) - int(span[1])
        if 0 < jitter <= MOST_JITTER:
            return Advice("a jitter adds to the delay", f"write {span[1]}ms jitter {jitter}ms")
    if PERCENT.fullmatch(word):
        return Advice("a percentage of what", f"write loss {word}")
    if re.fullmatch(LIKE_A_DELAY, word):
        return wrong_form("delay", word)
    if re.fullmatch(LIKE_ROOM, word):
        limit = wrong_form("queue", word.lower())
        right = f"queue {limit.word}"
        return Advice("a queue limit has its word before it", f"write {right}", right) if limit.word else limit
    return wrong_form("bw", word)


def misplaced(word: str, context: Context) -> Wrong:
    """Returns the advice on a word that belongs to its neighbours: `rtt`, a sign before a deviation, or a percentage."""
    following = context.following
    if word == "rtt":
        half = re.fullmatch(r"(\d*[02468])ms", following)
        right = f"write {int(half[1]) // 2}ms" if half else "write half of it, as 20ms"
        return Wrong(f"{word} {following}".strip(), Advice("a link has the delay of one way", right))
    if spread := re.fullmatch(AROUND, f"{context.previous} {word} {following}"):
        return Wrong(spread[0], Advice("a jitter adds to the delay", f"write {around(spread)}"))
    if PERCENT.fullmatch(word) and following in ("loss", *SHARES):
        return Wrong(f"{word} {following}", Advice("the name stands before its value", f"write {following} {word}"))
    if word[0].isdigit():
        return Wrong(word, wrong_value(word))
    return Wrong(word, Advice("not an option", f"write jitter {following or '5ms'}"))


def preset_of(typed: str) -> Optional[str]:
    """Returns the preset with this name, or nearest to it; None for other texts."""
    name = "-".join(typed.lower().split())
    return name if name in PRESETS else NEAREST.get(name)


def names_preset(word: str, following: str) -> bool:
    """Returns whether the word, alone or with the next word, is the name of a preset."""
    return preset_of(word) is not None or preset_of(f"{word} {following}") is not None


def preset_word(word: str, context: Context) -> Wrong:
    """Returns the advice on a preset's name, which may be two words."""
    typed = f"{word} {context.following}".strip()
    if preset_of(typed) is None:
        typed = word
    name = preset_of(typed) or ""
    if context.is_change:
        right = f"write {PRESETS[name].up}"
    else:
        right = f"write --preset {name}, or preset {name} in a net's line"
    return Wrong(typed, Advice("the name of a preset, and no word of a link", right))


def second_word(name: str, first: str, second: str) -> Advice:
    """Returns the advice on an option's second word: to write only one of them, or both as a delay with jitter."""
    right = "write one of them"
    if spread := re.fullmatch(AROUND, f"{first} {second}"):
        delay_and_jitter = around(spread)
        if "jitter" in delay_and_jitter:
            right = f"{right}, or {delay_and_jitter}"
    return Advice(f"a second {NAMES.get(name, name)} beside '{first}'", right)


def wrong_loss(text: str) -> Advice:
    """Returns the advice on a loss that isn't a percentage."""
    right = "write it as loss 1%"
    if re.fullmatch(r"\d*\.?\d+", text, re.ASCII):
        right = f"write loss {text}%"
        if float(text) <= 1:
            right = f"{right}, or plr {text} for a part of one"
    return Advice("a loss is a percentage here", right)


def around(spread: re.Match[str]) -> str:
    """Returns a link's words for a delay with a symmetric deviation."""
    delay_ms, deviation_ms = int(spread[1]), int(spread[2])
    if 0 < deviation_ms < delay_ms:
        return f"{delay_ms - deviation_ms}ms jitter {2 * deviation_ms}ms"
    return f"{delay_ms}ms"
