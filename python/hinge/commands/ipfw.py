"""The command `hinge ipfw`, which converts files of ipfw and dnctl into configuration lines."""

from __future__ import annotations

import os
import sys
from typing import Iterator

from hinge.border.files import lines_in, told_name, untrusted
from hinge.command import CONFIGURATION, Fault, new_parser, say
from hinge.command_line import add
from hinge.configurations.ipfw_lines import Conversion
from hinge.foreign import replacement_of
from hinge.outputs import refuse_inputs, writing

WHAT = """\
Reads shell scripts, rc files and rule files with lines of ipfw(8) or dnctl(8), and writes the pipes and queues in them
as configuration lines that dummynet takes. Variables that the files set count; loops and functions don't: run such a
script with a function that prints in the place of ipfw. What is left out is told on standard error with file and line;
the exit status is 3 where that was a pipe or queue, or where there is none."""


def text_lines(name: str) -> Iterator[str]:
    """Yields the lines of a file. Fault: the file contains a zero byte, and so isn't text."""
    for line in lines_in(name, errors="replace"):
        if "\0" in line:
            raise Fault(f"{told_name(name)}: it isn't text", CONFIGURATION)
        yield line


def main() -> None:
    parser = new_parser(
        WHAT, "(ipfw() { echo ipfw $*; }; . ./shape.sh) | hinge ipfw > link.config\n  hinge ipfw rc.firewall > link.config"
    )
    add(parser, "files file", "files in the order in which they are run (default: standard input)", nargs="*", default=["-"])
    parser.add_argument("-o", metavar="FILE", help="the configuration (default: standard output)")
    if not any(map(os.path.exists, sys.argv[1:])):
        answer = replacement_of(["ipfw", *sys.argv[1:]])
        if answer is not None:
            parser.error(f"it reads files, and this is a line of ipfw; {answer.text()}")
    arguments = parser.parse_args()
    refuse_inputs((arguments.o,), arguments.files)
    conversion = Conversion()
    for name in arguments.files:
        with untrusted(name, CONFIGURATION):
            conversion.read(told_name(name), text_lines(name))
    conversion.settle()
    with writing(arguments.o) as out:
        out.writelines(f"{text}\n" for text in conversion.lines)
    for note in conversion.notes:
        say(note)
    if conversion.left_out:
        raise Fault(f"{conversion.left_out} commands for pipes and queues were left out", CONFIGURATION)
    if not conversion.lines and not conversion.emptied:
        raise Fault("no line configures a pipe or queue", CONFIGURATION)
