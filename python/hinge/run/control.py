"""The control socket of a running link, which `hinge change`, `hinge status` and `hinge exec` use."""

from __future__ import annotations

import errno
import os
import signal
import time
from typing import Any, Callable, NamedTuple, Optional, Union

from hinge.border.clients import PATIENCE, Answer, Client
from hinge.border.messages import ObeyedLine, Order, Reply
from hinge.border.serving import Server
from hinge.events.forms import LINK_WORDS
from hinge.run.changes import Change, Happening
from hinge.run.host_lines import LONGEST_REQUEST, HostLines
from hinge.run.page import Page
from hinge.run.plan import Plan
from hinge.run.system import Missing
from hinge.run.words import Wrong

Record = dict[str, Any]


class HostRoom(NamedTuple):
    """Describes a host's room for another process that enters the room."""

    doors: list[int]  # descriptors, as in doors.py
    variables: dict[str, str]  # the environment of commands there


Enter = Callable[[str], HostRoom]
Effect = Union[ObeyedLine, "list[Happening]"]
Obey = Callable[[str, int], Effect]


def nobody(host: str) -> HostRoom:
    """Refuses to open a host's room (network namespace), in a run without hosts of its own. Wrong: every call raises it."""
    raise Wrong(f"{host!r}: it has no hosts of its own")


class Control:
    """Answers `hinge change`, `hinge status` and `hinge exec` on a run's control socket. Create this object before the links, and
    call `serve` to answer clients.

    After that, only this object may use the plan. Requests that change the plan wait for each other."""

    def __init__(
        self,
        path: str,
        plan: Plan,
        page: Page,
        obey: Obey,
        status: Callable[[], Record],
        enter: Enter = nobody,
        lines: Optional[HostLines] = None,
    ) -> None:
        """Creates the socket at `path`. `obey` receives the words of a change and a moment in ns, carries out words about hosts,
        and returns what the links do; `status` returns the run's counts; `enter` opens a host's room. Missing: the socket can't be
        created."""
        self.plan = plan
        self.page = page
        self.obey = obey
        self.status = status
        self.enter = enter
        self.lines = lines or HostLines()
        self.until = 0.0  # how long the current client waits
        self.is_wanted = lambda: True  # whether the current client is still there
        try:
            self.server = Server(path)
        except OSError as error:
            reason = "a run or a file has this name" if error.errno == errno.EEXIST else error.strerror or error
            raise Missing(f"--control {path}: {reason}") from None

    def serve(self) -> None:
        """Starts to answer clients."""
        self.server.serve(self.obeyed_order)

    def end(self) -> None:
        """Closes the socket."""
        self.server.end()

    def obeyed_order(self, order: Order, client: Client) -> Answer:
        """Carries out a client's order; returns the answer. Wrong: the order contains no request, or the client has gone."""
        if order.enter is not None:
            room = self.enter(order.enter)
            return Answer(Reply(entered=room.variables), room.doors)
        if order.end:
            if not client.is_there():
                raise Wrong("not obeyed: its client has gone")
            return Answer(Reply(ended=True), behind=lambda: os.kill(os.getpid(), signal.SIGTERM))
        if order.change is not None:
            return Answer(Reply(told=self.change_by(order.change, client)))
        if not order.status:
            raise Wrong("no order: change, enter, status and end are some")
        return Answer(Reply(status=self.status()))

    def change_by(self, words: str, client: Client) -> list[ObeyedLine]:
        """Changes links for a client, after earlier requests; returns the applied and the refused lines. Wrong: the words are too
        long, earlier requests took too long, or the client has gone."""
        if len(words) > LONGEST_REQUEST:
            raise Wrong(f"words of more than {LONGEST_REQUEST:,} letters")
        if time.monotonic() > client.until:
            raise Wrong(f"not obeyed: another order is under way since {PATIENCE:g} s")
        if not client.is_there():
            raise Wrong("not obeyed: its client has gone")
        self.until = client.until
        self.is_wanted = client.is_there
        return self.change(words)

    def change(self, words: str) -> list[ObeyedLine]:
        """Makes the host hinge-link apply the words of a change from now on; returns each line with the line's moment in ns, and
        with the reason if the host refused the line. Wrong: the words describe an outage without `lossy`."""
        moment = self.moment()
        effect = self.obey(words, moment)
        if isinstance(effect, ObeyedLine):
            return [effect]
        changes = [happening for happening in effect if isinstance(happening, Change)]
        if len(changes) < len(effect):
            raise Wrong("an outage from now on loses packets: write `outage LENGTH lossy`")
        self.add_remark(f"change,{words}")
        if words.split()[0] in LINK_WORDS:
            self.add_remark(f"act,{words}")
        return self.apply(changes, moment)

    def add_remark(self, text: str) -> None:
        """Adds a remark to the transcript."""
        self.lines.ask(f"line remark {text}", self.until, self.is_wanted)

    def apply(self, changes: list[Change], moment: int) -> list[ObeyedLine]:
        """Sends changes to the host, and returns the host's answers, without those to heals that ended no cut. A cut and its end
        form a single line, so that no cut stays without an end. Wrong: all changes are heals, and none ended a cut."""
        end_of_cut = {change.line.partition(" ")[2]: change.moment for change in changes if change.line.startswith("open ")}
        replies = list[ObeyedLine]()
        for change in changes:
            words = change.line.split(" ", 3)
            cut = " ".join(words[1:3])  # the cut's pipe and number
            if words[0] == "cut" and cut in end_of_cut:
                replies += self.cut_for(change.line, end_of_cut[cut] - moment)
            elif words[0] != "open":
                replies.append(self.apply_line(self.plan.lossy(change.line), change.moment - moment))
        useful = [reply for reply in replies if reply.refused or not reply.line.startswith("heal ")]
        if changes and not useful and all(change.line.startswith("heal ") for change in changes):
            raise Wrong("heal: no cut of such a link goes on")
        return useful

    def cut_for(self, line: str, length: int) -> list[ObeyedLine]:
        """Starts a cut that ends after `length` ns; returns the lines of the cut's start and end, or the line that the host
        refused."""
        answer = self.lines.ask(f"outage {length} {line}", self.until, self.is_wanted)
        if answer.wrong:
            return [ObeyedLine(answer.moment, line, answer.wrong)]
        moments = (answer.moment, answer.moment + length)
        return [ObeyedLine(moment, text) for moment, text in zip(moments, answer.line.split("\n"))]

    def moment(self) -> int:
        """Returns the present moment in ns on the links' clock. Wrong: the links don't reply."""
        answer = self.lines.ask("moment", self.until, self.is_wanted)
        if answer.wrong:
            raise Wrong(answer.wrong)
        return answer.moment

    def apply_line(self, line: str, later: int = 0) -> ObeyedLine:
        """Makes the host apply a line after `later` ns. Returns the line that the pipe then has, unless another change comes first,
        or the reason for the host's refusal."""
        request = f"at {later} {line}" if later else f"line {line}"
        answer = self.lines.ask(request, self.until, self.is_wanted)
        return ObeyedLine(answer.moment + later, answer.line or line, answer.wrong)
