"""Reads equations: recursive descent, with a table of how tightly the signs bind."""

import syntax
from tokens import NotUnderstood, Token, tokens

SIGNS = ">>= →", "⊎", "×", "≡ ≤ <", "||", "&&", "==", "++", "∷", "+ -", "* / %", "^"  # from the loosest to the tightest
BINDING = {sign: place for place, group in enumerate(SIGNS) for sign in group.split()}
TO_THE_RIGHT = {"→", "⊎", "×", "++", "∷", "^"}
KEYWORDS = {"let", "in", "elim", "record"}


class Parser:
    """The parser of a text. Each method reads the construct in its name."""

    def __init__(self, text: str) -> None:
        self.tokens, self.place = tokens(text), 0

    @property
    def next(self) -> Token:
        return self.tokens[self.place]

    def take(self, text: str = "") -> str:
        """Returns the next token's text, which must equal `text` if that is given."""
        token = self.next
        if text and token.text != text or token.kind == "end":
            near = " ".join(token.text for token in self.tokens[max(0, self.place - 6) : self.place + 6])
            raise NotUnderstood(f"{text or 'more'} wanted near: {near}")
        self.place += 1
        return token.text

    def take_if(self, text: str) -> bool:
        taken = self.next.text == text and self.next.kind != "end"
        self.place += taken
        return taken

    def equation(self) -> syntax.Equation:
        name, patterns = self.take(), []
        while self.next.text != "=":
            patterns.append(self.pattern_atom())
        self.take("=")
        body = self.expression()
        if self.next.kind != "end":
            raise NotUnderstood(f"the equation of {name} goes on: {self.next.text}")
        return syntax.Equation(name, tuple(patterns), body)

    def expression(self, least: int = 0) -> syntax.Expression:
        left = self.application()
        while self.next.kind == "sign" and BINDING.get(self.next.text, -1) >= least:
            sign = self.take()
            left = syntax.Infix(sign, left, self.expression(BINDING[sign] + (sign not in TO_THE_RIGHT)))
        return left

    def application(self) -> syntax.Expression:
        if self.take_if("let"):
            return self.let()
        if self.take_if("λ"):
            return self.function()
        if self.take_if("elim"):
            return self.elim()
        head, arguments = self.atom(), []
        while self.begins_an_atom():
            arguments.append(self.atom())
        return syntax.Apply(head, tuple(arguments)) if arguments else head

    def let(self) -> syntax.Let:
        name = self.take()
        self.take("=")
        value = self.expression()
        self.take("in")
        return syntax.Let(name, value, self.expression())

    def function(self) -> syntax.Lambda:
        names = [self.take()]
        while not self.take_if("."):
            names.append(self.take())
        return syntax.Lambda(tuple(names), self.expression())

    def elim(self) -> syntax.Elim:
        value = self.atom()
        cases = list[tuple[syntax.Pattern, syntax.Expression]]()
        self.take("[")
        while not cases or self.take_if("|"):
            pattern = self.pattern()
            self.take("↦")
            cases.append((pattern, self.expression()))
        self.take("]")
        return syntax.Elim(value, tuple(cases))

    def begins_an_atom(self) -> bool:
        kind, text = self.next
        is_name = kind == "name" and (text == "record" or text not in KEYWORDS)
        return is_name or kind in ("number", "text") or kind == "sign" and text in "([⊤⊥"

    def atom(self) -> syntax.Expression:
        kind, text = self.next
        found: syntax.Expression
        if kind == "number":
            found = syntax.Number(int(self.take()))
        elif kind == "text":
            found = syntax.EmptyList()
            for byte in reversed(self.take()[1:-1].encode()):
                found = syntax.Infix("∷", syntax.Number(byte), found)
        elif self.take_if("record"):
            found = self.record()
        elif kind == "name" and text not in KEYWORDS or text in ("⊤", "⊥"):
            found = syntax.Name(self.take())
        elif self.take_if("["):
            self.take("]")
            found = syntax.EmptyList()
        else:
            self.take("(")
            found = self.expression()
            if self.take_if(","):  # a pair is a record of the fields 0 and 1
                found = syntax.Record(None, (("0", found), ("1", self.expression())))
            self.take(")")
        while self.next.kind == "field":
            found = syntax.Field(found, self.take())
        return found

    def record(self) -> syntax.Record:
        base = None if self.next.text == "{" else self.atom()
        fields = []
        self.take("{")
        while not self.take_if("}"):
            name = self.take()
            self.take("=")
            fields.append((name, self.expression()))
            if self.next.text != "}":
                self.take(";")
        return syntax.Record(base, tuple(fields))

    def pattern(self) -> syntax.Pattern:
        if self.next.kind == "name":
            name, parts = self.take(), []
            while self.next.kind in ("name", "number") or self.next.text in ("(", "["):
                parts.append(self.pattern_atom())
            head: syntax.Pattern = syntax.NamePattern(name, tuple(parts))
        else:
            head = self.pattern_atom()
        return syntax.ConsPattern(head, self.pattern()) if self.take_if("∷") else head

    def pattern_atom(self) -> syntax.Pattern:
        if self.take_if("("):
            inner = self.pattern()
            self.take(")")
            return inner
        if self.take_if("["):
            self.take("]")
            return syntax.NilPattern()
        if self.next.kind not in ("number", "name"):
            raise NotUnderstood(f"a pattern wanted: {self.next.text}")
        return syntax.NumberPattern(int(self.take())) if self.next.kind == "number" else syntax.NamePattern(self.take(), ())
