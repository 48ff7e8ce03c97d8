"""Runs definitions: each equation becomes nested functions of Python, over the values of its variables.

`cond`, `&&` and `||` evaluate what they need alone. All else is evaluated before it is used, which ends, as every
definition of specs ends for all arguments. What a definition gives for kept values is computed once.
"""

from collections.abc import Callable
from typing import Optional

import syntax
from prelude import SIGNS, WORDS
from source import Constructor, Spec
from tokens import NotUnderstood
from values import KEPT, NIL, Data, Function, Value, apply, are_kept, data, record

Variables = tuple[Value, ...]
Code = Callable[[Variables], Value]
Scope = tuple[str, ...]  # the names of the variables
Match = Callable[[Value, Variables], Optional[Variables]]  # the variables with those of a pattern, if it fits


class Definitions:
    """The definitions of some files."""

    def __init__(self, specs: dict[str, Spec]) -> None:
        self.specs = specs
        self.values: dict[tuple[str, str], Value] = {}
        self.memories: list[dict[Variables, Value]] = []

    def forget(self) -> None:
        """Drops all computed values. Older values must not be used any more."""
        KEPT.clear()
        for memory in self.memories:
            memory.clear()

    def value(self, file: str, name: str) -> Value:
        spec = self.specs[file]
        if name in spec.constructors:
            return constructed(spec.constructors[name])
        if name in spec.texts:
            if (file, name) not in self.values:
                self.values[file, name] = Compiler(self, file).definition(spec.equations(name))
            return self.values[file, name]
        if name in spec.imports:
            return self.value(spec.imports[name], name)
        if name in WORDS and (name in spec.words or name in ("⊤", "⊥")):
            return WORDS[name]
        raise NotUnderstood(f"{file} has no {name}")

    def constructor(self, file: str, name: str) -> Optional[Constructor]:
        """Returns the constructor that a name denotes in a file, possibly imported."""
        spec = self.specs[file]
        if name in spec.constructors:
            return spec.constructors[name]
        return self.constructor(spec.imports[name], name) if name in spec.imports else None


def all_match(matches: list[Match], values: Variables, variables: Variables) -> Optional[Variables]:
    """Returns the variables with those of all patterns, if each pattern matches its value."""
    for match, value in zip(matches, values):
        found = match(value, variables)
        if found is None:
            return None
        variables = found
    return variables


def bound(result: Value, then: Value) -> Value:
    assert isinstance(result, Data)
    return apply(then, result.parts[0]) if result.constructor == "Ok" else result


def constructed(constructor: Constructor) -> Value:
    if not constructor.arity:
        return data(constructor.name)
    return Function(constructor.arity, lambda *parts: data(constructor.name, *parts))


class Compiler:
    def __init__(self, definitions: Definitions, file: str) -> None:
        self.definitions, self.file = definitions, file

    def definition(self, equations: list[syntax.Equation]) -> Value:
        """Returns a definition, which uses the first equation whose patterns match."""
        name, arity = equations[0].name, len(equations[0].patterns)
        ways = [self.equation(equation) for equation in equations]
        memory: dict[Variables, Value] = {}

        def run(*arguments: Value) -> Value:
            is_kept = are_kept(arguments)
            if is_kept and arguments in memory:
                return memory[arguments]
            for matches, body in ways:
                variables = all_match(matches, arguments, ())
                if variables is not None:
                    result = body(variables)
                    if is_kept:
                        memory[arguments] = result
                    return result
            raise NotUnderstood(f"no equation of {name} fits")

        if not arity:
            return run()
        self.definitions.memories.append(memory)
        return Function(arity, run)

    def equation(self, equation: syntax.Equation) -> tuple[list[Match], Code]:
        scope: Scope = ()
        matches = []
        for pattern in equation.patterns:
            match, scope = self.pattern(pattern, scope)
            matches.append(match)
        return matches, self.code(equation.body, scope)

    def pattern(self, pattern: syntax.Pattern, scope: Scope) -> tuple[Match, Scope]:
        """Returns code that matches a pattern, and the scope after it."""
        if isinstance(pattern, syntax.NilPattern):
            return lambda value, variables: variables if value is NIL else None, scope
        if isinstance(pattern, syntax.ConsPattern):
            return self.parts("∷", (pattern.head, pattern.tail), scope)
        if not isinstance(pattern, syntax.NamePattern):
            number = pattern.value
            return lambda value, variables: variables if value == number else None, scope
        return self.named(pattern, scope)

    def named(self, pattern: syntax.NamePattern, scope: Scope) -> tuple[Match, Scope]:
        name = pattern.name
        constructor = self.definitions.constructor(self.file, name)
        if constructor is not None:
            if len(pattern.parts) != constructor.arity:
                raise NotUnderstood(f"{name} has {constructor.arity} parts")
            return self.parts(constructor.name, pattern.parts, scope)
        if name in ("None", "Some", "Ok", "Err"):
            return self.parts(name, pattern.parts, scope)
        if name in ("zero", "true", "false"):
            plain = WORDS[name]
            return lambda value, variables: variables if value == plain else None, scope
        if name == "suc":
            inner, scope = self.pattern(pattern.parts[0], scope)

            def successor(value: Value, variables: Variables) -> Optional[Variables]:
                return inner(value - 1, variables) if isinstance(value, int) and value > 0 else None

            return successor, scope
        if pattern.parts:
            raise NotUnderstood(f"{name} is no constructor in {self.file}")
        if name == "_":
            return lambda value, variables: variables, scope
        return lambda value, variables: (*variables, value), (*scope, name)

    def parts(self, constructor: str, patterns: tuple[syntax.Pattern, ...], scope: Scope) -> tuple[Match, Scope]:
        matches = []
        for pattern in patterns:
            match, scope = self.pattern(pattern, scope)
            matches.append(match)

        def whole(value: Value, variables: Variables) -> Optional[Variables]:
            if not isinstance(value, Data) or value.constructor != constructor:
                return None
            return all_match(matches, value.parts, variables)

        return whole, scope

    def code(self, expression: syntax.Expression, scope: Scope) -> Code:
        if isinstance(expression, syntax.Number):
            number = expression.value
            return lambda variables: number
        if isinstance(expression, syntax.EmptyList):
            return lambda variables: NIL
        if isinstance(expression, syntax.Name):
            return self.name(expression.text, scope)
        if isinstance(expression, syntax.Field):
            inner = self.code(expression.record, scope)
            name = expression.name
            return lambda variables: inner(variables)[name]  # type: ignore[index]
        if isinstance(expression, syntax.Infix):
            return self.infix(expression, scope)
        if isinstance(expression, syntax.Apply):
            return self.apply(expression, scope)
        if isinstance(expression, syntax.Let):
            value, body = self.code(expression.value, scope), self.code(expression.body, (*scope, expression.name))
            return lambda variables: body((*variables, value(variables)))
        if isinstance(expression, syntax.Lambda):
            return self.function(expression, scope)
        return self.record(expression, scope) if isinstance(expression, syntax.Record) else self.elim(expression, scope)

    def name(self, name: str, scope: Scope) -> Code:
        if name in scope:
            place = len(scope) - 1 - scope[::-1].index(name)
            return lambda variables: variables[place]
        known: list[Value] = []

        def look_up(variables: Variables) -> Value:
            if not known:
                known.append(self.definitions.value(self.file, name))
            return known[0]

        return look_up

    def infix(self, expression: syntax.Infix, scope: Scope) -> Code:
        left, right = self.code(expression.left, scope), self.code(expression.right, scope)
        if expression.sign in ("&&", "×"):
            return lambda variables: left(variables) and right(variables)
        if expression.sign in ("||", "⊎"):
            return lambda variables: left(variables) or right(variables)
        if expression.sign == ">>=":
            return lambda variables: bound(left(variables), right(variables))
        if expression.sign == "→":
            return lambda variables: not left(variables) or right(variables)
        if expression.sign == "∷":
            return lambda variables: data("∷", left(variables), right(variables))
        run: Callable[..., Value] = SIGNS[expression.sign]
        return lambda variables: run(left(variables), right(variables))

    def apply(self, expression: syntax.Apply, scope: Scope) -> Code:
        arguments = [self.code(argument, scope) for argument in expression.arguments]
        if expression.function == syntax.Name("cond") and len(arguments) == 3:
            condition, yes, no = arguments
            return lambda variables: (yes if condition(variables) else no)(variables)
        function = self.code(expression.function, scope)
        return lambda variables: apply(function(variables), *[argument(variables) for argument in arguments])

    def function(self, expression: syntax.Lambda, scope: Scope) -> Code:
        body = self.code(expression.body, (*scope, *expression.names))
        arity = len(expression.names)
        return lambda variables: Function(arity, lambda *values: body((*variables, *values)), (), False)

    def record(self, expression: syntax.Record, scope: Scope) -> Code:
        fields = [(name, self.code(value, scope)) for name, value in expression.fields]
        base = self.code(expression.base, scope) if expression.base else None

        def make(variables: Variables) -> Value:
            known: dict[str, Value] = {}
            if base is not None:
                old = base(variables)
                assert isinstance(old, Data) and isinstance(old.constructor, tuple)
                known.update(zip(old.constructor, old.parts))
            return record({**known, **{name: value(variables) for name, value in fields}})

        return make

    def elim(self, expression: syntax.Elim, scope: Scope) -> Code:
        value = self.code(expression.value, scope)
        cases = []
        for pattern, body in expression.cases:
            match, inside = self.pattern(pattern, scope)
            cases.append((match, self.code(body, inside)))

        def choose(variables: Variables) -> Value:
            given = value(variables)
            for match, body in cases:
                found = match(given, variables)
                if found is not None:
                    return body(found)
            raise NotUnderstood("no case fits")

        return choose
