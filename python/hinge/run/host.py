"""The host program hinge-link, which emulates the links: its path and its start."""

from __future__ import annotations

import math
import os
import signal
import sys
from pathlib import Path
from typing import TYPE_CHECKING, Iterable, Optional, Sequence

from hinge.border.programs import become, forked
from hinge.run.host_lines import HostLines
from hinge.run.page import STARTING, Page
from hinge.run.processes import SIGNALLED, Mask, Processes
from hinge.run.system import Missing

if TYPE_CHECKING:
    from hinge.run.control import Control

NAME = "hinge-link"
HERE = Path(__file__).resolve().parent
POLL = 0.0005  # s between looks at the page
PIECE = 1 << 16  # letters of a plan that are written at once


def program() -> str:
    """Returns the path to hinge-link: the path in the variable HINGE_LINK, the program beside this module in an installation, or
    the program in the repository.

    In a repository, the program that tools/release/hosts built precedes the released program. Missing: there is no hinge-link, or
    this isn't Linux."""
    if sys.platform != "linux":
        raise Missing("the host is a program of Linux")
    repository = HERE.parents[2]
    for place in (os.environ.get("HINGE_LINK"), HERE / NAME, repository / "built" / NAME, repository / "release" / NAME):
        if place and os.access(place, os.X_OK):
            return os.path.abspath(place)
    raise Missing(
        f"there is no host {NAME}: in a clone tools/release/hosts builds it, with a C compiler; the variable HINGE_LINK can name it"
    )


def plan_file(text: str) -> int:
    """Returns a descriptor from which hinge-link can read the plan."""
    descriptor = os.memfd_create("plan")
    # Names of files in a plan may contain any bytes. Each call of `write` copies its text, so a long text is written in pieces.
    with os.fdopen(os.dup(descriptor), "w", encoding="utf-8", errors="surrogateescape") as file:
        for start in range(0, len(text), PIECE):
            file.write(text[start : start + PIECE])
    os.lseek(descriptor, 0, os.SEEK_SET)
    return descriptor


class LinkProcess:
    """Holds a running hinge-link, its page of counts and the control socket. The constructor starts the process."""

    def __init__(
        self,
        processes: Processes,
        page: Page,
        words: Sequence[str],
        descriptors: Iterable[int],
        plan: str,
        mask: Mask,
        control: Optional[Control] = None,
        lines: Optional[HostLines] = None,
    ) -> None:
        """Starts hinge-link with the arguments `words`; the program inherits `descriptors`. `lines` sends lines to the program
        during the run; a control socket has its own object for this."""
        self.processes = processes
        self.page = page
        self.control = control
        descriptors_to_keep = [*descriptors, page.descriptor]
        if control:
            lines = control.lines
        if lines:
            plan += lines.line()
            descriptors_to_keep.append(lines.descriptor())
        plan_descriptor = plan_file(plan)
        command = [program(), *words, str(page.descriptor)]

        def begin() -> int:
            os.dup2(plan_descriptor, 0)
            for descriptor in descriptors_to_keep:
                os.set_inheritable(descriptor, True)
            signal.pthread_sigmask(signal.SIG_SETMASK, mask)
            return become(command)

        self.process = forked(begin)

    def failed(self) -> Optional[int]:
        """Waits until the link is ready, and returns None. If hinge-link ends early, after it printed the reason, returns its
        status. If a signal arrives, ends hinge-link and returns the signal's status."""
        statuses = self.processes.ended
        number = self.processes.poll(lambda: self.page.head("state") != STARTING or self.process in statuses, math.inf, POLL)
        status = SIGNALLED + number if number else statuses.get(self.process)
        if status is not None:
            self.end()
        return status

    def end(self) -> None:
        """Ends hinge-link and closes the control socket."""
        self.processes.end(self.process, 5)
        if self.control:
            self.control.end()
