"""A strict parser of command lines, built on argparse."""

from __future__ import annotations

import argparse
import re
import sys
from itertools import takewhile
from typing import Any, Callable, NamedTuple, NoReturn

NEAR = 0.82  # the least likeness, for difflib, of an unknown option to the option that may be meant
OUTPUT = ("--out", "--output")  # unknown options that mean -o


def add(parser: argparse._ActionsContainer, words: str, text: str, **more: Any) -> None:
    """Adds an option or an argument. `words` contain its name and its value's name, as in `--late TIME`; `text` is its help."""
    option, _, value = words.partition(" ")
    settings_of_value: dict[str, Any] = {"metavar": value} if value else {}
    parser.add_argument(option, help=text, **settings_of_value, **more)


class Joined(argparse.Action):
    """Continues an option's value when the option occurs again, as in `--link 10Mbit/s --link 20ms`."""

    def __call__(self, parser: argparse.ArgumentParser, namespace: argparse.Namespace, values: object, option: Any = None) -> None:
        setattr(namespace, self.dest, values)


def refuse_repetition(action: argparse.Action, before: list[str], texts: list[str]) -> None:
    """Checks an option that occurs again. ArgumentError: a list contains a value twice, or the option's value differs."""
    if isinstance(action, argparse._AppendAction):
        if {*texts} & {*before}:
            raise argparse.ArgumentError(action, f"{' '.join(texts)!r} is given twice; write one of them")
    elif before != texts or isinstance(action, argparse.BooleanOptionalAction):
        behind = f"{' '.join(texts)!r} comes behind {' '.join(before)!r}; " if texts else ""
        raise argparse.ArgumentError(action, f"{behind}write one of them")


class Rule(NamedTuple):
    """Describes when an option is refused because it does nothing."""

    option: str
    is_idle: Callable[[], bool]  # called after parsing
    where: str  # the end of the message


class Parser(argparse.ArgumentParser):
    """Parses a command line strictly. Each option must be written in full and do something, its value mustn't be empty, and only
    options for repetition may occur twice. The refusal names the option that the user may mean."""

    def __init__(self, **settings: Any) -> None:
        super().__init__(**settings, allow_abbrev=False)
        self.given = dict[str, list[str]]()  # the values that were typed, by the names of their options
        self.foreign = list[tuple[str, str]]()  # options of other tools, with their values
        self.rules = list[Rule]()

    def needs(self, options: str, *others: str) -> None:
        """Refuses these options if a command line lacks all `others`, because then they do nothing."""
        for option in options.split():
            self.rule(option, lambda: not self.given.keys() & {*others}, f"without {' or '.join(others)}")

    def yields(self, options: str, *others: str) -> None:
        """Refuses these options if a command line contains all `others`, because then they do nothing."""
        for option in options.split():
            self.rule(option, lambda: self.given.keys() >= {*others}, f"beside {' and '.join(others)}")

    def rule(self, option: str, is_idle: Callable[[], bool], where: str) -> None:
        """Refuses an option if `is_idle` returns True after parsing; `where` ends the message."""
        self.rules.append(Rule(option, is_idle, where))

    def _parse_known_args(self, *words: Any, **how: Any) -> Any:
        self.given.clear()
        self.foreign.clear()
        result = super()._parse_known_args(*words, **how)
        if self.foreign:
            from hinge.option_advice import of_options

            self.error(of_options(self.foreign, self.given, self.options()))
        for rule in self.rules:
            if rule.option in self.given and rule.is_idle():
                self.error(f"{rule.option} does nothing {rule.where}")
        return result

    def parse_intermixed_args(self, args: Any = None, namespace: Any = None) -> Any:
        """Returns a command line's options and files, in any order. Behind `--` only files follow, which may begin with a
        hyphen."""
        words = sys.argv[1:] if args is None else args
        end = words.index("--") if "--" in words else len(words)
        files = [f"./{word}" if word.startswith("-") else word for word in words[end + 1 :]]
        return super().parse_intermixed_args([*words[:end], *files], namespace)

    def options(self) -> list[str]:
        """Returns the names of the options that a help lists."""
        return [name for name, action in self._option_string_actions.items() if action.help is not argparse.SUPPRESS]

    def _get_values(self, action: argparse.Action, texts: list[str]) -> Any:
        """Returns an option's values, each time that the option occurs. ArgumentError: a value is empty, or repeats an option that
        can't be repeated."""
        if not action.option_strings:
            return super()._get_values(action, texts)
        option = action.option_strings[0]
        if not all(text.strip() for text in texts):
            raise argparse.ArgumentError(action, "its value is empty; is a variable unset?")
        before = self.given.get(option, [])
        if before and isinstance(action, Joined):
            texts = [" ".join([*before, *texts])]
        elif option in self.given:
            refuse_repetition(action, before, texts)
        self.given[option] = [*before, *texts] if isinstance(action, argparse._AppendAction) else texts
        return super()._get_values(action, texts)

    def value_fault(self, fault: re.Match[str]) -> str:
        """Returns a better message than argparse's if an option lacks its value, or if a flag is followed by a value."""
        option = fault[1].rpartition("/")[2]
        if fault[2]:
            return f"argument {option}: it has no value; leave out {fault[2]}"
        message = f"argument {option}: a value is missing"
        for before, word in zip(sys.argv, sys.argv[1:]):
            if before == option and re.match(r"-\d", word):
                return f"{message}; write {option}={word} if it is this one"
        return message

    def error(self, message: str) -> NoReturn:
        """Prints the reason for a refusal, with advice, and ends the process."""
        from hinge.command import advised

        unknown = self.unknown_options()
        if unknown and "arguments are required" in message:
            message = f"unrecognized arguments: {unknown[0]}"  # the unknown option may be the reason
        message = re.sub("argument (.*): (?:expected one argument|ignored explicit argument (.*))", self.value_fault, message)
        refusal = advised(message)
        missing = message.partition("arguments are required: ")[2]
        words = message.partition("unrecognized arguments: ")[2]
        if missing:
            refusal = refusal.replace(message, self.message_of_missing(missing))
            if missing.startswith("SOCKET"):
                from hinge.run.names import running

                refusal += running()
        elif words and refusal == message:
            refusal += self.advice_on_unknown(words)
        super().error(refusal)

    def unknown_options(self) -> list[str]:
        """Returns the options before `--` that the command doesn't know."""
        options = [word for word in takewhile(lambda word: word != "--", sys.argv[1:]) if re.match("-.", word)]
        return [word for word in options if word.partition("=")[0] not in self._option_string_actions]

    def message_of_missing(self, names: str) -> str:
        """Returns the message for missing arguments, with the help's first example."""
        examples = [line.strip() for line in (self.epilog or "").splitlines() if line.strip().startswith(self.prog)]
        return f"{names} is missing, as in `{examples[0]}`"

    def advice_on_unknown(self, words: str) -> str:
        """Returns advice on unknown words, which ends the message. Only the first word counts."""
        option = words.partition(" ")[0].partition("=")[0]
        if not option.startswith("-") and "[-- COMMAND" in (self.usage or ""):
            import shutil

            command = words if shutil.which(option) else "COMMAND"
            return f"; a command comes after --, on the host of a line `main NAME` in FILE: write -- {command}"
        near = self.near_options(option) if option.startswith("--") else []
        if near:
            return f"; did you mean {' or '.join(near[:3])}?"
        return f"; `hinge help {self.prog.removeprefix('hinge ')}` lists the options"

    def near_options(self, option: str) -> list[str]:
        """Returns the options that the user may mean by an unknown option: options with the same beginning, or with the same end,
        or the most similar option."""
        import difflib  # a help must not load this slow module

        names = self.options()
        if option in OUTPUT and "-o" in names:
            return ["-o"]
        if option == "--":
            return []
        starts = [name for name in names if name.startswith(option)]
        ends = [name for name in names if name.endswith(option[1:])]
        return starts or ends or difflib.get_close_matches(option, names, 1, NEAR)
