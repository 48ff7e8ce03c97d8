"""The command line of every command: no option is abbreviated, thrown away for a second one, empty, unread or without effect. The
options are those that the parsers have, so that a new one is tried too."""

import argparse
import ast
import contextlib
import io
import re
import shlex
import sys
import unittest
from functools import lru_cache
from pathlib import Path
from typing import Any, Iterator, Optional
from unittest import mock

from hinge.__main__ import COMMANDS, run_module
from hinge.border.terminal import lines
from hinge.command import Fault
from hinge.command_line import Joined, Parser
from hinge.run.options import Foreign
from kit import TOP
from with_folder import WithFolder

# What is typed beside the options of a command, and its options that do something in every line.
BASE = {
    "try": ("", "--preset --transcript"),
    "packets": ("C", "-o --from --map --mtu --l2 --seed --loss --index"),
    "ipfw": ("", "-o"),
    "why": ("1 H", "--config"),
    "check": ("F", "--model"),
    "run": (
        "true",
        "--up --down --config --line --map --timeline --up-trace --down-trace --faults --seed --mtu --net --container --server"
        " --outside-loopback --to --transcript --most --json --control --quiet --simulated --kept",
    ),
    "udp": (
        "1 2",
        "--up --down --config --line --map --timeline --up-trace --down-trace --faults --seed --transcript --most --late --json"
        " --control --watch --quiet --realtime",
    ),
    "net": (
        "F",
        "--transcript --transcripts --json --logs --seed --mtu --end-wait --control --outside-loopback --while-open"
        " --quiet --dry-run --simulated --kept",
    ),
    "search": ("F", "--seeds --pauses --limit --real-limit --runs -o -P"),
    "up": ("F", "--name --transcripts"),
    "down": ("S", ""),
    "kernel": ("", "--clock"),
    "change": ("S 1ms", ""),
    "status": ("S", "--openmetrics"),
    "exec": ("S H", ""),
    "look": ("S", "-o"),
    "doctor": ("", ""),
    "docs": ("", ""),
}
TEXTS = """list:1 list:2;3 5;600 700;1s 2s;1-2 3-4;a.png b.png;a=1 b=2;10.0.0.1 10.0.0.2;1Gbit/s 2Gbit/s;1G 2G;1+1s 2+1s
2026-01-01 2026-01-02;lte dsl"""
GARBAGE = "/nowhere/such\x01thing"
FREE = {"--server", "--kept", "--transcripts", "--logs"}  # a command of the shell, and folders that are made
# Commands, the text of FILE, and what is said of it; nothing where it does something.
WITHOUT_EFFECT = (
    ("run --link '20ms queue 5'", "", "--up: queue 5 does nothing"),
    ("run --link '20ms queue 5' --up-trace FILE --down-trace FILE", "1;2", ""),
    ("run --link '20ms queue 5' --timeline FILE", "1s outage 2s", ""),
    ("run --link '20ms queue 5' --control FILE.socket", "", ""),
    ("run --link 'loss 1%' --loss down:list:3", "", "--down: the loss rate 0.01 does nothing, as list decides"),
    ("run --link 'loss 100%' --loss list:3", "", ""),
    (
        "run --link 'loss 1%' --faults FILE",
        "client > server packet 1 lost",
        "the loss rate 0.01 does nothing, as the faults decide",
    ),
    ("run --up 20ms --up-trace FILE --bin 1s", "0,1000;1,2000", "--bin does nothing"),
    ("run --up 20ms --up-trace FILE --trace-for 9s", "0,1000;1,2000", "--trace-for does nothing"),
    ("run --up 20ms --up-trace FILE --trace-for 9s", "1;2", "--trace-for does nothing"),
    ("run --up 20ms --up-trace FILE --bin 2ms --trace-for 9s", "1;2", ""),
    ("run --link 20ms --seed 3", "", "--seed does nothing"),
    ("run --link 'jitter 2ms' --seed 3", "", ""),
    ("run --simulated --late 2ms", "", "--late does nothing beside --simulated"),
    ("run --config FILE", "# nothing", "--config: no line of a configuration"),
    ("run --config FILE", "pipe 1 config bw 1Mbit/s bw 2Mbit/s", "bw stands twice"),
    ("run --line '# nothing'", "", "--line: no line of a configuration"),
    ("run --map 'tcp => pipe 1' --map 'tcp  => pipe 1'", "", "the same rule stands before it"),
    ("run --to 80 --to 80", "", "'80' is given twice"),
    ("run --timeline FILE", "# nothing", "no line of a change"),
    ("run --timeline FILE", "1s up 5ms;1s 6ms", "line 2: a line before changes pipe 1 at this moment too"),
    ("run --timeline FILE", "1s outage 0s", "line 1: 0s: nothing happens in no time"),
    ("run --faults FILE", "client > server packet 3 late 1ms;client > server packet 3 late 2ms", "line 2: "),
    ("run --faults FILE", "client > server packet 3 late 0ms", "not a fault"),
    ("net", "link a b 20ms queue 5", "line 3: queue 5 does nothing"),
    ("net", "link a b loss 1%;loss a b list:3", "line 3: the loss rate 0.01 does nothing"),
    ("net FILE --seed 3", "link a b 1ms", "--seed does nothing"),
    ("net", "link a b 1ms;mtu a b 1400;mtu a b 1300", "line 5: 'mtu a b': line 4 says this already"),
    ("net", "link a b 1ms;link a b 1ms", ""),
    ("net", "link a b 1ms;at 1s cut a;at 1s cut a", "line 5: 'at 1s cut a': line 4 says this already"),
    ("net", "link a b 1ms;at 1s a b 2ms;at 1s a b 3ms", "line 5: a line before changes pipe 1 at this moment too"),
    ("net", "link a b 1ms;at 1s cut a 0s", "line 4: 0s: nothing happens in no time"),
    ("net", "link a b 1ms;line a b pipe 1 config delay 1 delay 2", "line 4: delay stands twice"),
    ("net", "link a b 1ms;wait a port 80", "wait a: no command waits"),
)


@lru_cache(None)
def parsers() -> dict[str, Parser]:
    """All parsers of the kit, as a help makes them."""
    made = list[Parser]()
    own = Parser.__init__

    def noted(self: Parser, **settings: Any) -> None:
        made.append(self)
        own(self, **settings)

    with mock.patch.object(Parser, "__init__", noted):
        for word in COMMANDS:
            with mock.patch("hinge.command.NAME", [f"hinge {word}"]), mock.patch.object(sys, "argv", ["hinge", "--help"]):
                with contextlib.redirect_stdout(io.StringIO()), contextlib.suppress(SystemExit):
                    run_module(word)
    return {parser.prog.removeprefix("hinge "): parser for parser in made}


def options() -> Iterator[tuple[str, Parser, argparse.Action]]:
    for name, parser in parsers().items():
        for action in parser._actions:
            if action.option_strings and not isinstance(action, argparse._HelpAction):
                yield name, parser, action


def is_foreign(action: argparse.Action) -> bool:
    """Whether it is an option of another tool, which is answered by what to write."""
    return isinstance(action, Foreign)


def values(action: argparse.Action) -> list[str]:
    """Two values that the option takes."""
    if isinstance(action, Joined):
        return ["10Mbit/s", "20ms"]
    if action.dest == "map":
        return ["=> pipe 1", "=> pipe 2"]
    found = list[str]()
    for text in [*map(str, action.choices)] if action.choices else re.split("[; \n]", TEXTS):
        with contextlib.suppress(argparse.ArgumentTypeError, ValueError):
            if callable(action.type):
                action.type(text)
            found.append(text)
    return found[:2]


def parsed(name: str, parser: Parser, words: list[str]) -> tuple[str, Optional[argparse.Namespace], list[str]]:
    """Returns the parser's result for words after the required words: its complaint, or the values and the unknown words."""
    said = io.StringIO()
    base = BASE[name][0].split()
    with contextlib.redirect_stderr(said), contextlib.suppress(SystemExit):
        return "", *parser.parse_known_args([*words, *base])
    return said.getvalue(), None, []


class Strict(unittest.TestCase):
    def test_every_command_is_here(self) -> None:
        self.assertEqual({*parsers()}, {*BASE})

    def test_an_option_given_twice_counts_twice_or_is_refused(self) -> None:
        for name, parser, action in options():
            option = action.option_strings[0]
            if action.nargs == 0 or option == "--while-open" or is_foreign(action):  # whose value is an open descriptor
                continue
            with self.subTest(name, option=option):
                one, two = values(action)
                said, read, _ = parsed(name, parser, [option, one, option, two])
                value = getattr(read, "up" if option == "--link" else action.dest, None)
                if isinstance(action, Joined):
                    self.assertEqual(value, f"{one} {two}")
                elif isinstance(action, argparse._AppendAction):
                    self.assertTrue(len(value or ()) == 2 or "does nothing" in said, (value, said))
                else:
                    self.assertIn(f"{two!r} comes behind {one!r}; write one of them", said)

    def test_no_option_is_abbreviated(self) -> None:
        for name, parser, action in options():
            for option in action.option_strings:
                short = option[:-1]
                if short.startswith("--") and short not in parser._option_string_actions:
                    said, _, more = parsed(name, parser, [short, *values(action)[: action.nargs != 0]])
                    self.assertTrue(said or short in more, (name, option))

    def test_no_value_is_empty(self) -> None:
        for name, parser, action in options():
            if action.nargs != 0:
                said = parsed(name, parser, [action.option_strings[0], " "])[0]
                self.assertIn("its value is empty; is a variable unset?", said, (name, action.dest))

    def test_no_value_of_a_form_is_garbage(self) -> None:
        for name, parser, action in options():
            if action.nargs != 0 and (action.choices or action.type not in (None, Path, lines)):
                self.assertIn("error: argument", parsed(name, parser, [action.option_strings[0], GARBAGE])[0], (name, action.dest))

    def test_each_has_a_rule_or_does_something_in_every_line(self) -> None:
        for name, parser, action in options():
            option = action.option_strings[0]
            with self.subTest(name, option=option):
                has_rule = option in [rule[0] for rule in parser.rules]
                if action.help != argparse.SUPPRESS and option not in ("--list-presets", "--version"):
                    self.assertNotEqual(option in BASE[name][1].split(), has_rule)


ADVICE = re.compile(r"(?:`|write )((?:hinge|dummynet) [a-z][^`;,()|]*)")
OF_DUMMYNET = ("replay", "audit", "live")


class Advised(unittest.TestCase):
    def test_each_command_of_a_message_is_there_with_its_options(self) -> None:
        """Each `hinge` or `dummynet` command that a message of the kit recommends exists, and each `hinge` command accepts the
        options in the message. An X stands for each value that a message inserts."""
        lines = set[str]()
        for path in (TOP / "python").glob("hinge*/**/*.py"):
            for node in ast.walk(ast.parse(path.read_text())):
                parts = node.values if isinstance(node, ast.JoinedStr) else [node]
                texts = [str(part.value) if isinstance(part, ast.Constant) else "X" for part in parts if isinstance(part, ast.expr)]
                lines |= {*ADVICE.findall("".join(texts))}
        self.assertGreater(len(lines), 30)
        for line in lines:
            program, command, *words = line.replace("'", " ").split()
            with self.subTest(line):
                if program == "dummynet" or command in ("help", "X"):
                    self.assertTrue(command in (*OF_DUMMYNET, "help", "X"))
                    continue
                self.assertIn(command, COMMANDS)
                known = {
                    option
                    for name, parser in parsers().items()
                    if name.split()[0] == command
                    for option in parser._option_string_actions
                }
                own = words[: words.index("--")] if "--" in words else words
                self.assertEqual([word for word in own if word.startswith("--") and word.partition("=")[0] not in known], [])


class Began(Exception):
    """A run that nothing refused."""


class Garbage(WithFolder):
    """Texts without a form of their own are read before a run begins, whether they have an effect or not."""

    def refusal(self, name: str, words: list[str]) -> Optional[str]:
        """Why a command doesn't begin; None where it does."""
        said = io.StringIO()
        with contextlib.ExitStack() as stack:
            for place in (
                "hinge.run.rooms.leave_the_system",
                "hinge.net.begun.leave_the_system",
                "hinge.commands.udp.forward_datagrams",
            ):
                stack.enter_context(mock.patch(place, side_effect=Began))
            stack.enter_context(mock.patch("signal.pthread_sigmask"))
            stack.enter_context(mock.patch.object(sys, "argv", ["hinge", *words]))
            stack.enter_context(contextlib.redirect_stderr(said))
            try:
                run_module(name)
            except Began:
                return None
            except (SystemExit, Fault, OSError) as refused:
                return f"{said.getvalue()}{refused}"
        return "it ended"

    def test_no_text_is_garbage(self) -> None:
        net = self.folder / "a.net"
        net.write_text("host a true\nhost b true\nlink a b 1ms\n")
        nets = {"run": ([], ["--", "true"]), "udp": ([], ["0", "9"]), "net": ([str(net)], [])}
        for name, (before, behind) in nets.items():
            self.assertIsNone(self.refusal(name, [*before, *behind]), name)
            for own, parser, action in options():
                if own == name and action.nargs != 0 and action.type in (None, Path) and action.option_strings[0] not in FREE:
                    with self.subTest(name, option=action.option_strings[0]):
                        self.assertIsNotNone(self.refusal(name, [*before, action.option_strings[0], GARBAGE, *behind]))

    def test_nothing_that_is_said_of_a_link_does_nothing(self) -> None:
        """Each command with a file of this text in the place of FILE; a net's text stands behind two hosts."""
        path = self.folder / "file"
        for command, text, wanted in WITHOUT_EFFECT:
            name, *words = shlex.split(command)
            with self.subTest(command, text=text):
                path.write_text(("host a true\nhost b true\n" if name == "net" else "") + text.replace(";", "\n"))
                words = [word.replace("FILE", str(path)) for word in words] or [str(path)]
                said = self.refusal(name, words if name == "net" else [*words, "--", "true"])
                self.assertTrue(wanted in (said or "it began") if wanted else said is None, said)
