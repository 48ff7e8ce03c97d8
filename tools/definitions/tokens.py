"""The tokens of specs."""

import re
from typing import NamedTuple

# A field stands at once behind what it is a field of: the dot of `λ p. p.len` before a space is a sign. `kind.Pipe` is one name.
TOKEN = re.compile(
    r'(?P<number>\d+)|(?P<name>[^\W\d][\w\']*(?:\.[A-Z]\w*)?)|(?P<field>\.\w+)|(?P<text>"[^"]*")'
    r"|(?P<sign>\+\+|&&|\|\||>>=|==|[][(){};=λ↦|∷+*/%^.,<≤≡×⊎→⊤⊥:-])"
)


class NotUnderstood(Exception):
    """A text that isn't in the part of the language that is read here."""


class Token(NamedTuple):
    """A kind (number, name, field, text, sign or end) and the text, a field's without its dot."""

    kind: str
    text: str


def tokens(text: str) -> list[Token]:
    """Returns the tokens of a text without comments, followed by one of kind `end`."""
    found, place = [], 0
    while text[place:].strip():
        if text[place].isspace():
            place += 1
            continue
        token = TOKEN.match(text, place)
        if token is None or token.lastgroup is None:
            raise NotUnderstood(f"no token: {text[place:place + 40]}")
        found.append(Token(token.lastgroup, token.group()[token.lastgroup == "field" :]))
        place = token.end()
    return [*found, Token("end", "")]
