"""Finds a net's transcript, in a folder that `hinge net --transcripts` wrote or as a single file, and reads the summary's drops."""

from __future__ import annotations

import os
from typing import NamedTuple, Optional

from hinge.border.files import is_beside, read_object, untrusted
from hinge.command import ROWS, Fault
from hinge.paths.passages import Topology
from hinge.run.transcripts import files_of

HISTORY, SUMMARY, NET = "net.history", "net.json", "net.net"
NO_SUMMARY = "no summary of hinge net"


class Session(NamedTuple):
    """The names of the files that a net's run wrote."""

    files: list[str]  # the histories of the transcript, in order
    summary: Optional[str]


def session_of(path: str, summary: Optional[str] = None) -> Session:
    """Returns the session in a folder, or the session of a history. `summary` names the summary if it isn't in the folder. Fault:
    the folder contains no transcript."""
    if not os.path.isdir(path):
        return Session(files_of(path), summary)
    history = os.path.join(path, HISTORY)
    usual_summary = os.path.join(path, SUMMARY)
    if not is_beside(history):
        raise Fault(f"{path}: there is no {HISTORY} in it, as hinge net --transcripts makes it", ROWS)
    if not summary and is_beside(usual_summary):
        summary = usual_summary
    return Session(files_of(history), summary or None)


def told_drops(path: Optional[str], topology: Topology) -> dict[int, int]:
    """Returns for each host's number how many packets the system dropped before the links or for lack of a route, according to the
    summary at `path`."""
    table: dict[int, int] = {}
    if path is None:
        return table
    with untrusted(path, what=NO_SUMMARY):
        summary = read_object(path, NO_SUMMARY)
        drops = [(way["from"], way["system_drops"]) for way in summary["ways"]]
        for host, counts in summary.get("unforwarded", {}).items():
            drops += [(host, count) for count in counts.values()]
        for name, count in drops:
            number = topology.number(str(name))
            table[number] = table.get(number, 0) + int(count)
    return table
