"""Random plans of cuts, lossy outages and heals that overlap, judged by hinge.plans, which reads the words without the links' code.

All moments are within the first 100 ns of the links, or of the main command. So the host obeys them in one turn, each
at its moment, and no clock decides anything."""

import random
import re
from unittest import mock

from linked import needs_host, until, with_lines
from with_folder import WithFolder

from hinge.border.messages import ObeyedLine, Reply
from hinge.net import Net
from hinge.events.parsed import parse
from hinge.net.description import read_description
from hinge.net.net_plan import NetPlan
from hinge.plans.judged import Judge
from hinge.plans.meaning import Meaning
from hinge.run.changes import Happening
from hinge.run.control import Control
from hinge.run.host_lines import LinkReply, HostLines
from hinge.run.page import Page
from hinge.run.words import Wrong

PLANS, AT_ONCE = 200, 10  # plans, and how many one net has, each of hosts of its own
LINES, LAST = 12, 60  # lines of a plan, and their last moment, in ns
END = 100  # ns: all cuts that end have ended


class OfNets(WithFolder):
    def made(self, lines: list[str]) -> NetPlan:
        file = self.folder / "x.net"
        file.write_text("".join(f"{line}\n" for line in lines))
        return NetPlan(read_description(str(file)), 1500)

    def drawn(self, number: int) -> tuple[list[str], list[str]]:
        """Draws the hosts and links of a plan, and its lines `at`, without heals of links that aren't cut."""
        draw = random.Random(number)
        hosts = [f"{letter}{number}" for letter in "abcd"]
        net = [f"host {name}" for name in hosts]
        net += [f"link {one} {two} 3ms" for place, one in enumerate(hosts) for two in hosts[place + 1 :]]
        lines = list[str]()
        for place in range(LINES):
            (one, two, *others), side, length = draw.sample(hosts, 4), draw.choice(("", "up", "down")), draw.randint(1, 40)
            of = " ".join([one, *["from", two, *others[:1]][: draw.choice((0, 2, 3))], side])
            words = {
                "cut": f"cut {of} {length}ns" if draw.random() < 0.8 else f"cut {of}",
                "heal": f"heal {of}",
                "outage": f"{one} {two} {side} outage {length}ns lossy",
                "link": f"{one} {two} {side} {4 + place}ms loss 25%",
            }[draw.choice(("cut", "cut", "cut", "heal", "outage", "link"))]
            lines.append(f"at {draw.randint(1, LAST)}ns {' '.join(words.split())}")
        while True:
            try:
                self.made(net + lines)
                return net, lines
            except Wrong as wrong:
                refused = re.search(r"line (\d+): 'heal'", str(wrong))
                assert refused, wrong
                del lines[int(refused[1]) - len(net) - 1]


@needs_host
class ByTheHost(OfNets):
    def obeyed(self, made: NetPlan, has_main: bool) -> Judge:
        """Returns what hinge.plans says of the host's response to its plan."""
        link, lines = with_lines(made.plan.text(1), len(made.net.links))
        base = lines.ask("main").moment if has_main else 0
        until(lambda: link.page.read()["moment"] >= base + END)
        ended = link.end()
        self.assertEqual((ended.status, ended.said), (0, ""))
        judge = Judge(Meaning(str(self.folder / "x.net"), base or None).read(), 0)
        judge.read(ended.history.splitlines())
        return judge

    def test_random_plans(self) -> None:
        together = 0
        for first in range(0, PLANS, AT_ONCE):
            plans = [line for number in range(first, first + AT_ONCE) for part in self.drawn(number) for line in part]
            has_main = first % (2 * AT_ONCE) == 0
            judge = self.obeyed(self.made(plans + ([f"main a{first} true"] if has_main else [])), has_main)
            self.assertEqual((judge.faults, judge.now >= LAST), ([], True), "\n".join(plans))
            for cuts in (course.cuts for course in judge.of.values()):
                together += any(one.moment < two.moment < one.end for one in cuts for two in cuts if two.kind == "cut")
        self.assertGreater(together, PLANS)


class ByOtherWays(OfNets):
    """The same words by the control socket and from Python."""

    def taken(self, made: NetPlan, plan: list[str]) -> list[tuple[int, str]]:
        """Returns the host's input if the plan's lines arrive through the socket, each at its moment."""
        moment, taken = 0, list[tuple[int, str]]()

        class Lines(HostLines):
            def ask(self, text: str, *_: object) -> LinkReply:
                kind, _, line = text.partition(" ")
                later, _, behind = line.partition(" ") if kind in ("at", "outage") else ("0", "", line)
                if kind == "outage":
                    taken.extend([(moment, behind), (moment + int(later), behind.replace("cut", "open", 1))])
                elif kind != "moment" and not line.startswith("remark "):
                    taken.append((moment + int(later), behind))
                return LinkReply(moment, "", "the line\nand that behind the end")

        def obey(words: str, moment: int) -> "list[Happening]":
            return made.happenings(parse(words, made.net), moment, made.plan.changes)

        control = Control(str(self.folder / "control"), made.plan, Page(made.plan.ways), obey, dict, lines=Lines())
        for _, time, words in (line.split(" ", 2) for line in plan):
            moment = int(time.removesuffix("ns"))
            control.change(words)
        control.end()
        return sorted(taken, key=lambda one: one[0])

    def test_the_control_socket(self) -> None:
        for number in range(20):
            net, plan = self.drawn(number)
            lines = self.made(net + plan).plan.text(1).splitlines()
            planned = [(int(line.split()[1]), line.split(" ", 2)[2]) for line in lines if line.startswith("at ")]
            self.assertEqual(self.taken(self.made(net), plan), planned)

    def test_python(self) -> None:
        def acts(net: Net, **at: str) -> None:
            net.cut("a", 2, off=["b", "c"], **at), net.cut("a", way="up", **at), net.heal("a", off=["b"], **at)
            net.kill("b", 1, **at), net.kill("b", **at), net.restart("b", **at)
            net.stop("b", "5ms", **at), net.cont("b", **at)
            net.change("a", "b", "5ms", **at), net.obey("a b outage 1s lossy", **at)

        net, asked = Net(self.folder / "net"), list[str]()
        acts(net, at="5s")
        with mock.patch.object(Net, "start"), mock.patch.object(
            Net, "asked", lambda _, change: asked.append(change) or Reply(told=[ObeyedLine(0, change)])
        ):
            acts(net)
        self.assertEqual(net.lines, [f"at 5s {words}" for words in asked])
        self.assertEqual(asked[:3], ["cut a from b c 2s", "cut a up", "heal a from b"])
