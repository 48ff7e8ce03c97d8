"""The options of commands with running links, each option with its type. Commands create these objects from argparse's namespaces,
and each field bears its option's name. Dataclasses would load too slowly for a help."""

from __future__ import annotations

from types import SimpleNamespace
from typing import Any, Optional, Sequence, TypeVar

Some = TypeVar("Some", bound="Options")


class Options(SimpleNamespace):
    """Holds the options of a command line."""

    def but(self: Some, **others: Any) -> Some:
        """Returns a copy with some options replaced."""
        return type(self)(**vars(self) | others)


class LinkOptions(Options):
    """Holds the options for the link, and for the link's changes during the run."""

    up: Optional[str]
    down: Optional[str]
    preset: Optional[str]
    config: Optional[str]
    line: Sequence[str]
    map: Sequence[str]
    timeline: Optional[str]
    faults: Optional[str]
    up_trace: Optional[str]
    down_trace: Optional[str]
    bin: Optional[str]
    trace_for: Optional[str]
    loss: Sequence[str]
    more_files: Sequence[str]  # other files that contained some of the lines

    def files(self) -> Sequence[Optional[str]]:
        """Returns the paths of all input files; None stands for an option without a file."""
        return self.config, self.timeline, self.faults, self.up_trace, self.down_trace, *self.more_files

    def has_link(self) -> bool:
        """Returns whether any option describes the link."""
        values = (self.up, self.down, self.preset, *self.files(), *self.line, *self.map, *self.loss)
        return any(value is not None for value in values)


class RecordOptions(Options):
    """Holds the options for the random seed, the outputs, and the control socket."""

    seed: Optional[int]
    transcript: Optional[str]
    late: Optional[str]
    json: Optional[str]
    control: Optional[str]
    quiet: bool
    realtime: bool


class LiveOptions(RecordOptions, LinkOptions):
    """Holds the options of both `hinge run` and `hinge udp`."""

    most: int  # bytes of a part of the transcript
    watch: bool


class SimulatedOptions(RecordOptions):
    """Holds the options of commands that can run in simulated time."""

    simulated: bool
    twice: bool  # whether two runs are compared
    scratch: bool  # whether written files are lost, except the transcript and the summary
    at: Optional[int]  # the clock's first reading, in s since 1970
    memory: Optional[int]  # bytes
    cpu: Optional[str]
    kept: Optional[str]  # the folder that is /run/kept in the machine
    real_limit: Optional[str]  # the most real time
    limit: Optional[str]  # the most simulated time
    root: Optional[str]  # the folder that programs find at /
    pauses: Optional[str]
    clean_env: bool  # whether programs get only a few variables
    like: Optional[str]  # an earlier run's summary
    mtu: int  # bytes
    command: list[str]

    def leads_outside(self) -> bool:
        """Returns whether an option connects a host to the system's network."""
        return False


class RunOptions(SimulatedOptions, LiveOptions):
    """Holds the options of `hinge run`."""

    net: Optional[str]  # the network of both hosts
    netns: Optional[str]  # a process in an existing network, or the network's path
    container: Optional[str]
    server: Optional[str]  # the server's command
    server_wait: str  # how long the command waits until the server listens
    server_end: str  # how long the server has to end after SIGTERM
    outside: bool
    outside_loopback: bool
    to: Sequence[int]  # ports of this system

    def leads_outside(self) -> bool:
        """Returns whether an option connects a host to the system's network."""
        return self.outside or self.outside_loopback or bool(self.to)


class NetOptions(SimulatedOptions):
    """Holds the options of `hinge net`."""

    file: str
    transcripts: Optional[str]
    logs: Optional[str]
    end_wait: str
    outside: Optional[str]  # the host that leads there
    outside_loopback: Optional[str]
    shell: Optional[str]
    stay: bool
    while_open: Optional[int]
    dry_run: bool

    def leads_outside(self) -> bool:
        """Returns whether an option connects a host to the system's network."""
        return bool(self.outside or self.outside_loopback)
