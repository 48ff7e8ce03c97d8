"""Reads the words of links, such as `10Mbit/s 20ms queue 100 loss 1%`, or ipfw's options in full."""

from __future__ import annotations

import re
from enum import Enum
from fractions import Fraction
from typing import NamedTuple, Optional, Sequence

from hingetulip_words.advice import OPTIONS_OF, OTHER_NAMES, left_out, missing_value
from hingetulip_words.foreign import netem_link
from hingetulip_words.values import EXTRAS, FIELD_BITS, LONGEST_WORD, PERCENT, Advice, value_fault, decimal
from hingetulip_words.wrong_words import WHOLE_DELAY, JITTER, MISSING, MOST_JITTER, OF_RUNS, ONE_WORD, WHOLE_RATE, REORDER, UNIT
from hingetulip_words.wrong_words import Context, second_word, wrong_loss, wrong_word

LINE = ("ipfw", "pipe", "config")  # words of a configuration line in front of a link's words
# Options of ipfw(8) that dummynet here leaves out.
LEFT_OUT = ("red", "gred", "ecn", "codel", "pie", "fq_codel", "fq_pie", "sched", "burst", "profile", "noerror", "droptail")
LIKE_A_LINE = Advice("a link has the options alone", "leave out all before them, or give the whole line by --line")
REPLACEMENT = r"write ([^,;()]+)"  # advice that contains a single replacement
MOST_CORRECTIONS = 12  # the most words that are replaced in a text
NO_WORDS = "no words of a link (example: 10Mbit/s 20ms)"
CERTAIN = 2**31  # the number for the chance 1
ENDED = {"bw": "bw 0", "delay": "delay 0", "queue": "queue 50", "plr": "loss 0%"}  # the words by which a change ends an option


class Place(Enum):
    """The kind of text that contains a link's words. Dummynet has neither jitter nor duplicates nor flipped bits: a run adds these
    effects, from its start."""

    DUMMYNET = "dummynet"
    RUN = "run"
    KERNELS = "kernels"  # a run with checksums, which discard a packet with a flipped bit
    CHANGE = "change"


class WordError(ValueError):
    """Raised for a word that isn't a link's. The text contains the word as typed, and advice."""

    def __init__(self, word: str, advice: Advice) -> None:
        super().__init__(f"'{word}': {advice.wrong}; {advice.right}")
        self.word = word
        self.advice = advice

    def right(self) -> Optional[str]:
        """Returns the word's replacement, or None if the advice leaves a choice."""
        replacement = re.fullmatch(REPLACEMENT, self.advice.right)
        return replacement[1] if replacement else self.advice.word


class Extra(NamedTuple):
    """The effects that a run adds to dummynet's."""

    jitter: int = 0  # the maximum random delay in ms
    duplicate: int = 0  # the chance, of 2^31, that a packet is doubled
    corrupt: int = 0  # the chance, of 2^31, that one of a packet's bits is flipped

    @property
    def pipes(self) -> int:
        """Returns the number of pipes through which delayed packets pass a second time."""
        return self.jitter + 1 if self.jitter else 0


class LinkWords(NamedTuple):
    """The content of a link's words."""

    options: dict[str, str]  # the values by ipfw's names, in the order of the text
    extra: Extra

    def line(self, pipe: int) -> str:
        """Returns the configuration line that gives a pipe these options."""
        return f"pipe {pipe} config {in_full(self.options)}".strip()


class LinkParser:
    """Reads a link's words from left to right: dummynet's options into `options`, by their full names, and other effects into
    `extra`."""

    def __init__(self, text: str, kind: str, place: Place) -> None:
        """Prepares the words before a comment. `kind` is `pipe` or `queue`, and `place` decides which effects may be added."""
        self.kind = kind
        self.place = place
        self.option_names = [name for name in OPTIONS_OF[kind] if name != "pipe"]
        self.remaining = text.partition("#")[0].split()
        self.options: dict[str, str] = {}
        self.extra = Extra()
        self.typed: dict[str, str] = {}  # each option's words as the user typed them
        self.previous = ""  # the last word of the option before

    def read(self) -> LinkWords:
        """Returns the link. WordError: a word isn't a link's, or its value is wrong."""
        while self.remaining:
            self.read_option(self.remaining.pop(0))
        return LinkWords(self.options, self.extra)

    def record(self, name: str, typed: str) -> None:
        """Records an option as read. WordError: the text has this option already."""
        if name in self.typed:
            raise WordError(typed, second_word(name, self.typed[name], typed))
        self.typed[name] = typed
        self.previous = typed.split()[-1]

    def set_option(self, name: str, text: str, typed: str) -> None:
        """Sets an option to a value; `typed` is the user's text. WordError: the text has this option already."""
        self.record(name, typed)
        self.options[name] = text

    def check(self, name: str, text: str, typed: str) -> None:
        """Checks an option's value. WordError: the value is wrong; the error quotes `typed`, the user's text for the option."""
        if fault := value_fault(name, text):
            raise WordError(typed, fault)

    def following(self) -> str:
        """Returns the next word, which stays unread; an empty text at the end."""
        return self.remaining[0] if self.remaining else ""

    def value_of(self, word: str) -> str:
        """Reads the value after an option's word, and returns it. WordError: no word follows, or a blank separates the value from
        its unit."""
        if not self.remaining:
            advice = missing_value(word)
            raise WordError(word, advice._replace(right=MISSING.get(word, advice.right)))
        text = self.remaining.pop(0)
        unit = self.following()
        if text.replace(".", "", 1).isdigit() and re.fullmatch(UNIT, unit):
            raise WordError(f"{text} {unit}", ONE_WORD._replace(right=f"write {text}{unit}"))
        return text

    def read_option(self, word: str) -> None:
        """Reads the option that begins with this word. WordError: the word isn't a link's, or its value is wrong."""
        if word == "mask":
            fields = self.fields()
            self.set_option(word, fields, f"{word} {fields}")
        elif word in self.option_names:
            text = self.value_of(word)
            self.check(word, text, f"{word} {text}")
            self.set_option(word, text, f"{word} {text}")
        elif WHOLE_RATE.fullmatch(word) and "bw" in self.option_names:
            self.check("bw", word, word)
            self.set_option("bw", word, word)
        elif WHOLE_DELAY.fullmatch(word) and "delay" in self.option_names:
            self.check("delay", word, word)
            self.set_option("delay", word, word)
        elif word == "loss":
            text = self.value_of(word)
            self.set_option("plr", self.loss_rate(text), f"{word} {text}")
        elif word in (*EXTRAS, "reorder") and self.place is not Place.DUMMYNET:
            self.read_extra(word)
        else:
            raise self.refusal_of(word)

    def read_extra(self, word: str) -> None:
        """Reads an effect that a run adds to dummynet's. WordError: this text can't add the effect, or its value is wrong."""
        if word == "reorder" or self.place is Place.CHANGE:
            raise WordError(word, REORDER if word == "reorder" else OF_RUNS)
        text = self.value_of(word)
        typed = f"{word} {text}"
        if word == "corrupt" and self.place is Place.RUN:
            raise WordError(typed, Advice("no packet has a checksum here, which would discard it", f"write loss {text}"))
        self.record(word, typed)
        if word == "jitter":
            if not WHOLE_DELAY.fullmatch(text) or not 1 <= int(text[:-2]) <= MOST_JITTER:
                raise WordError(typed, Advice("not a jitter", JITTER))
            self.extra = self.extra._replace(jitter=int(text[:-2]))
        else:
            share = PERCENT.fullmatch(text)
            if not share or float(share[1]) > 100:
                raise WordError(typed, Advice("not a share of the packets", MISSING[word]))
            self.extra = self.extra._replace(**{word: round(float(share[1]) * CERTAIN / 100)})

    def loss_rate(self, text: str) -> str:
        """Returns a percentage as the fraction that `plr` expects. WordError: the text isn't a percentage, or is above 100%."""
        share = PERCENT.fullmatch(text)
        if not share:
            raise WordError(f"loss {text}", wrong_loss(text))
        rate = Fraction(share[1]) / 100
        if rate > 1:
            raise WordError(f"loss {text}", Advice("out of range", "a loss is 0% to 100%"))
        return decimal(rate)

    def fields(self) -> str:
        """Reads the fields of a mask, each with its value, and returns their text. WordError: there is no field, or a value is
        wrong."""
        fields: list[str] = []
        while self.following() == "all" or self.following() in FIELD_BITS:
            field = self.remaining.pop(0)
            fields.append(field)
            if field != "all":
                text = self.value_of(field)
                self.check(field, text, f"{field} {text}")
                fields.append(text)
        if not fields:
            raise WordError(f"mask {self.following()}".strip(), missing_value("mask", self.following()))
        return " ".join(fields)

    def refusal_of(self, word: str) -> WordError:
        """Returns the error for a word that isn't a link's."""
        if word in LINE:
            return WordError(word, LIKE_A_LINE)
        if word in LEFT_OUT:
            return WordError(word, left_out("", word))
        bare = word.rstrip(",;")
        if word != bare:
            return WordError(word, Advice(f"ends in {word[len(bare):]!r}, and blanks alone part the words", f"write {bare}"))
        name = OTHER_NAMES.get(word.lower(), "")
        if name and self.typed.get(name) == self.previous:
            return WordError(f"{self.previous} {word}", Advice("the unit says this already", f"write {self.previous}"))
        further = ["loss"] if self.place is Place.DUMMYNET else [*MISSING]
        context = Context(self.kind, self.previous, self.following(), self.place is Place.CHANGE, further)
        return WordError(*wrong_word(word, context))


def read_words(text: str, place: Place, kind: str = "pipe") -> LinkWords:
    """Returns the content of a link's words, of a `pipe` or a `queue`, in a text of the kind `place`.

    WordError: a word isn't a link's in such a text, or repeats another.
    """
    for word in text.split():
        if len(word) > LONGEST_WORD:
            raise WordError(f"{word[:20]} ..", Advice(f"a word of {len(word):,} letters", f"at most {LONGEST_WORD} are taken"))
    return LinkParser(text, kind, place).read()


def read_link(text: str, kind: str = "pipe") -> dict[str, str]:
    """Returns the options of a pipe or queue in order: `8Mbit/s loss 5%` becomes `bw` 8Mbit/s and `plr` 0.05.

    WordError: a word isn't a link's, or repeats another.
    """
    return read_words(text, Place.DUMMYNET, kind).options


def corrected(text: str, place: Place = Place.KERNELS, kind: str = "pipe") -> Optional[str]:
    """Returns the words that the user probably meant: netem's words converted, or each wrong word replaced as advised. Returns None
    if some advice leaves a choice."""
    words = [word.rstrip(",;") for word in text.partition("#")[0].split()]
    text = netem_link(words) or " ".join(words)
    for _ in range(MOST_CORRECTIONS):
        try:
            read_words(text, place, kind)
            return text
        except WordError as error:
            replacement = error.right()
            if replacement is None or replacement == error.word or f" {error.word} " not in f" {text} ":
                return None
            text = f" {text} ".replace(f" {error.word} ", f" {replacement} ", 1).strip()
    return None


def link_before(words: Sequence[str]) -> tuple[str, list[str]]:
    """Returns the link in the first words before a `--` or an option, or an empty text, and the words after the link."""
    most = next((place for place, word in enumerate(words) if word.startswith("--")), len(words))
    for count in range(most, 0, -1):
        if link := corrected(" ".join(words[:count])):
            return link, [word for word in words[count:] if word != "--"]
    return "", [*words]


def refusal_of_change(begun: dict[str, str], changed: dict[str, str], place: str = "{}") -> str:
    """Returns why a change to the options `changed` is refused, with the right words; an empty text for a permitted change.

    A change is refused if it leaves out an option that the link has at its beginning (`begun`). `place` is the text around the
    link's words, which replace `{}`.
    """
    ended = {name: begun[name] for name in ENDED if name not in changed and re.search("[1-9]", begun.get(name, ""))}
    if not ended:
        return ""
    whole = place.format(in_short({**ended, **changed}))
    ends = " ".join(ENDED[name] for name in ended)
    return f"a change replaces the whole link, and this one leaves out {in_short(ended)}; write {whole}, or {ends} to end it"


def in_short(options: dict[str, str]) -> str:
    """Returns options as short words: `10Mbit/s 20ms loss 1%`."""
    words = []
    for name, text in options.items():
        if name == "plr":
            words.append(f"loss {decimal(Fraction(text) * 100)}%")
        elif name == "delay" and text.isdigit():
            words.append(f"{text}ms")
        else:
            words.append(as_words(name, text))
    return " ".join(words)


def as_words(name: str, text: str) -> str:
    """Returns an option and its value as a link's words."""
    if WHOLE_RATE.fullmatch(text) or WHOLE_DELAY.fullmatch(text):
        return text
    return f"{'loss' if PERCENT.fullmatch(text) else name} {text}"


def in_full(options: dict[str, str]) -> str:
    """Returns the options as the words of a configuration line."""
    return " ".join(f"{name} {text}" for name, text in options.items())
