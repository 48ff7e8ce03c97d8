"""A change that leaves out a link's word, in each of the five forms of a change. LINKS.md states the rule."""


from linked import plan_of
from with_folder import WithFolder

from hinge.configurations.configured import spelled_lines
from hinge.net.described import Described
from hinge.net.description import read_description
from hinge.net.net_plan import NetPlan
from hinge.net.running import Net
from hinge.run.control import Control
from hinge.run.host_lines import LinkReply
from hinge.run.page import Page
from hinge.run.plan import Plan
from hinge.run.words import Wrong
from hingetulip import LineError, aio

BEGUN, MODEL = "2Mbit/s 20ms queue 5", "up:gilbert:0.01,0.3"
CHANGES = (  # words that change such a link, and the whole line of its pipe from then on
    ("1Mbit/s 20ms queue 5", "bw 1000000bit/s delay 20 queue 5"),
    ("30ms bw 0 queue 50", "delay 30"),
    ("queue 7 1Mbit/s delay 0", "bw 1000000bit/s queue 7"),
    (f"{BEGUN} loss 1%", "bw 2000000bit/s delay 20 queue 5 plr 0.01"),
)
LACKING = (  # words that leave out some of it, and what is to be written
    ("loss 50%", "2Mbit/s 20ms queue 5 loss 50%, or bw 0 delay 0 queue 50 to end it"),
    ("plr 0.5", "2Mbit/s 20ms queue 5 loss 50%, or bw 0 delay 0 queue 50 to end it"),
    ("delay 10ms", "2Mbit/s queue 5 10ms, or bw 0 queue 50 to end it"),
    ("bw 1Mbit/s queue 7", "20ms 1Mbit/s queue 7, or delay 0 to end it"),
    ("1Mbit/s 20ms", "queue 5 1Mbit/s 20ms, or queue 50 to end it"),
)


def options_of(lines: list[str]) -> str:
    """Returns the options of the only line for pipe 1, as the program reads it."""
    [line] = [line for line in lines if line.startswith("pipe 1 config ")]
    return spelled_lines(line.encode())[0].removeprefix("pipe 1 config ")


def begun() -> Plan:
    return plan_of("pipe 1 config bw 2Mbit/s delay 20 queue 5", "pipe 2 config")


class OneRule(WithFolder):
    def by_change(self, words: str) -> str:
        taken, plan = list[str](), begun()
        control = Control(str(self.folder / "s"), plan, Page(), plan.read, dict)

        def ask(text: str, until: object = None, is_wanted: object = None) -> LinkReply:
            taken.append(text.removeprefix("line "))
            return LinkReply(5, "", "")

        control.lines.ask = ask  # type: ignore[method-assign, assignment]
        try:
            control.change(f"up {words}")
        finally:
            control.end()
        return options_of(taken)

    def by_timeline(self, words: str) -> str:
        plan = begun()
        (self.folder / "timeline").write_text(f"5s up {words}\n")
        plan.timeline(str(self.folder / "timeline"))
        return options_of([change.line for change in plan.changes.all()])

    def planned(self, text: str) -> str:
        (self.folder / "x.net").write_text(text)
        made = NetPlan(read_description(str(self.folder / "x.net")), 1500)
        return options_of([change.line for change in made.plan.changes.all()])

    def by_plan(self, words: str) -> str:
        return self.planned(f"host a\nhost b\nlink a b {BEGUN}\nat 5s a b up {words}\n")

    def by_net(self, words: str) -> str:
        net = Net(self.folder / "net")
        Described.host(net, "a"), Described.host(net, "b")
        net.link("a", "b", BEGUN)
        net.change("a", "b", words, at=5)
        return self.planned("\n".join([*net.lines, ""]))

    def by_aio(self, words: str) -> str:
        with aio.Network() as net:
            link = net.link(net.host("10.0.0.1"), net.host("10.0.0.2"), BEGUN)
            link.change(words)
            return options_of([link.line])

    def test_what_is_left_out_is_named_in_each_way(self) -> None:
        for words, wanted in LACKING:
            for way in (self.by_change, self.by_timeline, self.by_plan, self.by_net, self.by_aio):
                with self.subTest(way.__name__, words=words), self.assertRaises((Wrong, LineError)) as refused:
                    way(words)
                self.assertTrue(str(refused.exception).endswith(wanted), refused.exception)

    def test_words_replace_the_whole_link_in_each_way(self) -> None:
        for words, wanted in CHANGES:
            for way in (self.by_change, self.by_timeline, self.by_plan, self.by_net, self.by_aio):
                with self.subTest(way.__name__, words=words):
                    self.assertEqual(way(words), options_of([f"pipe 1 config {wanted}"]))

    def test_a_change_without_words_is_refused_in_each_way(self) -> None:
        for way in (self.by_change, self.by_timeline, self.by_plan, self.by_net, self.by_aio):
            with self.subTest(way.__name__), self.assertRaisesRegex((Wrong, LineError), "no words of a link"):
                way("")

    def test_a_model_of_losses_goes_on(self) -> None:
        plan = begun()
        plan.loss(MODEL)
        plan.changes.add(plan.read(f"up {CHANGES[0][0]}", 5 * 10**9))
        self.assertIn("at 5000000000 pipe 1 config bw 1Mbit/s delay 20ms queue 5 plr 0.5", plan.text(1).splitlines())
        with aio.Network() as net:

            class Losses:
                def next(self) -> int:
                    return 0

            link = net.link(net.host("10.0.0.1"), net.host("10.0.0.2"), BEGUN, loss=Losses())
            link.change(CHANGES[0][0])
            self.assertEqual(options_of([link.line]), options_of(["pipe 1 config bw 1Mbit/s delay 20ms queue 5 plr 0.5"]))
