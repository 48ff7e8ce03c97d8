"""The command line `hinge COMMAND ..`. Each command is a module of `hinge.commands`."""

from __future__ import annotations

import _signal  # type: ignore[import]  # which Python has loaded, unlike signal
import gc
import os
import sys

# This file is run by its path, because `python -m hinge` would look for modules in the current folder first.
if not __package__:
    sys.path[0] = os.path.dirname(os.path.dirname(os.path.realpath(__file__)))

COMMANDS = {
    "try": "a first look, by Python alone: a download over a link, as a picture of text",
    "packets": "a capture as a packet file",
    "ipfw": "configuration lines from files of ipfw and dnctl",
    "why": "what happened to a packet of a replay",
    "check": "what is wrong with configurations, packet files and histories, and what to write",
    "run": "a command behind an emulated link, in real or simulated time",
    "net": "many hosts on any links, as a file describes them",
    "search": "a net by many seeds in simulated time, and the least of one that fails",
    "up": "a net in the background",
    "down": "the end of a net or a run",
    "kernel": "the kernel of simulated time, from the sources of Linux",
    "change": "a change of a link that runs",
    "status": "how a link that runs is doing",
    "exec": "a command on a host of a run that goes on",
    "look": "tables and pictures of a live session, a replay or a net",
    "udp": "a UDP path between two programs through emulated links",
    "doctor": "what works on this machine, why not, and what to install",
    "docs": "the pages of the documentation",
}
USAGE = 2  # the exit status
NOT_OF_DUMMYNET = "--not-of-dummynet"  # the option with which ./dummynet asks what to write in place of unknown words
HELP = ("help", "-h", "--help")
VERSION = ("--version", "-V")


def list_of_commands() -> str:
    """Returns the output of `hinge help`: the commands, and where to read more."""
    rows = "".join(f"  {name:<12}{what}\n" for name, what in COMMANDS.items())
    return (
        f"usage: hinge COMMAND ..\n\nThe kit round dummynet: captures, pictures, tables and live links.\n\n{rows}"
        "\n`hinge help COMMAND` tells more, with an example, and `hinge docs` names the pages; `hinge --version` "
        "prints the version.\n"
    )


def refuse(words: list[str], program: str = "hinge") -> None:
    """Refuses an unknown first word with advice, and ends the process."""
    from hinge.border import terminal  # only a wrong word needs these modules
    from hinge.border.programs import become
    from hinge.misplaced import advised
    from hinge.program import dummynet

    if program == "dummynet" and words[0] in ("audit", "replay"):
        wrong = advised(words[0], words[1:], "")
        if not wrong:
            sys.exit(become([dummynet(), *words]))
        terminal.tell(f"{program}{wrong.replace(';', ':', 1)}")
        sys.exit(USAGE)
    terminal.tell(f"{program}: no command {words[0]!r}; {advice_on(words, program)}")
    sys.exit(USAGE)


def advice_on(words: list[str], program: str) -> str:
    """Returns advice on words that don't begin with a command."""
    import difflib
    import shlex

    from hinge.foreign import replacement_of
    from hinge.misplaced import advised, filled, kind_of, line_for

    files = [word for word in words if os.path.exists(word) and kind_of(word)]
    if program == "dummynet" and len(files) == 2 and files == words[-2:]:
        return advised("replay", files, "").lstrip("; ") or f"write dummynet replay {shlex.join(files)}"
    place = next((place for place, word in enumerate(words) if word.lower() in COMMANDS), -1)
    if place == 0 or (place > 0 and words[0].startswith("-")):
        return f"write hinge {shlex.join([words[place].lower(), *words[place + 1 :]])}"
    answer = replacement_of(words)
    if answer is not None:
        answer = answer._replace(write=filled(answer.write, words))
        if all(file in answer.write for file in files):
            return answer.text()
    if files:
        return f"{files[0]} is {filled(line_for(program, kind_of(files[0]), files[0]), words)}"
    near = difflib.get_close_matches(words[0], COMMANDS, 1)
    return f"did you mean `hinge {near[0]}`?" if near else "`hinge help` lists the commands."


def run_module(word: str) -> None:
    """Runs the module of a command, which reads its words from sys.argv."""
    import importlib

    importlib.import_module(f"hinge.commands.{word.replace('-', '_')}").main()


def inherit_nothing() -> None:
    """Replaces settings that the parent process may have changed. Restores SIGCHLD and blocked signals, since ends of processes go
    unnoticed while SIGCHLD is ignored; SIGINT and SIGHUP stay ignored, as by `&` and nohup. Lets this user read and write all new
    files, whatever the umask. Keeps modules on PYTHONPATH from replacing the standard library's, and warnings from the output."""
    _signal.signal(_signal.SIGCHLD, _signal.SIG_DFL)
    _signal.pthread_sigmask(_signal.SIG_SETMASK, ())
    os.umask(os.umask(0o077) & 0o077)
    standard = os.path.dirname(os.__file__)
    sys.path.sort(key=lambda place: place not in (standard, f"{standard}/lib-dynload"))
    if sys.warnoptions:
        import warnings

        warnings.simplefilter("ignore")


def obey(words: list[str]) -> None:
    """Carries out a command line."""
    from hinge import command
    from hinge.border import terminal
    from hinge.version import version

    if words[:1] == ["help"] and len(words) > 1:
        words = [words[1], "--help"] if words[1] in COMMANDS else [words[1]]
    if not words:
        terminal.tell(list_of_commands(), "")
        sys.exit(USAGE)
    if words[0] in HELP:
        terminal.show(list_of_commands(), "")
    elif words[0] in VERSION:
        terminal.show(f"hinge {version()}")
    elif words[0] == NOT_OF_DUMMYNET and len(words) > 1:
        refuse(words[1:], "dummynet")
    elif words[0] not in COMMANDS:
        refuse(words)
    else:
        sys.argv[1:] = words[1:]
        command.NAME[0] = f"hinge {words[0]}"
        run_module(words[0])


def main() -> None:
    inherit_nothing()
    gc.set_threshold(20_000)  # loading modules creates many objects that stay, so that collections would find nothing
    if _signal.getsignal(_signal.SIGINT) is _signal.default_int_handler:
        _signal.signal(_signal.SIGINT, _signal.SIG_DFL)  # ends the process without a message, until `command.run` handles SIGINT
    from hinge import command

    command.open_closed_streams()
    command.run(lambda: obey(sys.argv[1:]))


if __name__ == "__main__":
    main()
