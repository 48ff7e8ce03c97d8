"""Reads the options of a link's pipe or queue."""

from __future__ import annotations

from hingetulip.errors import LineError
from hingetulip_words.link import NO_WORDS, Place, WordError, in_full, read_words

MS = 10**6  # ns
BY_MODEL = "0.5"  # the loss rate for a loss model, whose words are 0 for a lost packet and 2^31 - 1 for others


def nonempty(words: str) -> str:
    """Returns the words of a link's change. LineError: there are no words."""
    if not words.partition("#")[0].strip():
        raise LineError(NO_WORDS, 0)
    return words


class Options:
    """The options of a pipe or queue. `settings` contains the values by full names, and `extra` the random effects that dummynet
    lacks, such as jitter and duplicates."""

    def __init__(self, text: str = "", kind: str = "pipe", has_model: bool = False, place: Place = Place.DUMMYNET) -> None:
        """Reads the words. `has_model` adds the loss rate for a loss model, if the words have none. LineError: a word is wrong in a
        text of the kind `place`."""
        try:
            self.settings, self.extra = read_words(text, place, kind)
        except WordError as wrong:
            raise LineError(str(wrong), 0) from None
        if has_model:
            self.settings.setdefault("plr", BY_MODEL)

    @property
    def delay(self) -> int:
        """The delay in ns."""
        return int(self.settings.get("delay", "0").rstrip("ms")) * MS

    def without(self, name: str) -> str:
        """Returns all options except the option with this name, as the words of a configuration line."""
        return in_full({key: text for key, text in self.settings.items() if key != name})

    def all_lost(self) -> str:
        """Returns the options with a loss rate of 1, as the words of a configuration line."""
        return f"{self.without('plr')} plr 1".strip()

    def __str__(self) -> str:
        return in_full(self.settings)
