"""The content of a `hinge net` file: hosts, links, ways, and faults in the file."""


import pytest

from linked import hinge
from hinge.events.parsed import parse
from hinge.net.net_plan import NetPlan
from hinge.net.statements import Unobeyed
from hinge.net.ways import Hop, first_hops, links_by_host
from net_files import TWO, OfFiles

MEANT = {  # lines behind `host a sleep 9`, `host b` and `link a b 1ms`, and what is advised
    "node c": "host c",
    "edge a b 10Mbit/s": "link a b 10Mbit/s",
    "link a - b 2ms": "link a b 2ms",
    "link a->b": "link a b",
    "1s cut a 2s": "at 1s cut a 2s",
    "cut a": "at 5s cut a",
    "partition a b": "at 5s cut a from b",
    "at 1s partition a b 2s": "at 1s cut a from b 2s",
    "at 1s cut a-b 2s": "at 1s cut a from b 2s",
    "at 1s cut a for 2s": "at 1s cut a 2s",
    "at 1s kill a for 2s": "at 1s kill a 2s",
    "at 1s link a b down": "at 1s cut a from b",
}
AB = TWO + "link a b\n"
WRONG = (  # a net's file, and what is said of it
    ("hots a\n", "line 1: 'hots': not a word of a net; did you mean 'host'?"),
    ("host\n", "line 1: a word is missing: host NAME [COMMAND]"),
    ("host 1st\n", "line 1: '1st': a name has letters, digits and hyphens, begins with a letter and has at most 63"),
    ("host heal\n", "line 1: 'heal': a word with a meaning of its own; take another name"),
    ("host a\n\nhost a\n", "line 3: 'a': a second host of this name"),
    ("host alpha\nhost b\nlink alhpa b\n", "line 3: 'alhpa': no host of this net; did you mean 'alpha'?"),
    (TWO + "link a\n", "line 3: a word is missing: link A B LINK [/ LINK]"),
    (TWO + "link a a\n", "line 3: 'a': a link has two ends"),
    (TWO, "x.net: no link: link A B LINK [/ LINK]"),
    (TWO + "host c\nlink a b\nloss a c list:1\n", "line 5: 'a c': there is no link between them"),
    (AB + "loss a b 2 list:1\n", "line 4: 'a b': there is no link 2 between them"),
    (AB + "loss a b lots\n", "line 4: lots: "),
    (AB + "at soon a b outage 1s\n", "line 4: soon: not a duration (example: 600ms)"),
    (AB + "at 1s a b outage\n", "line 4: `[up|down] outage LENGTH [lossy [tcp|udp port N]]`, LENGTH as 600ms"),
    (AB + "at 1s cut a from a 2s\n", "line 4: 'a': a has no link to it"),
    (AB + "at 1s cut a from b b 2s\n", "line 4: 'b': it stands twice; write at 1s cut a from b 2s"),
    (TWO + "host c\nlink a b\nat 1s heal a from b c b\n", "line 5: 'b': it stands twice; write at 1s heal a from b c"),
    (TWO + "host c\nlink a b\nat 1s cut a from b c\n", "line 5: 'c': a has no link to it"),
    (TWO + "switch s a b a 1ms\n", "line 3: 'a': it stands twice; write switch s a b 1ms"),
    (AB + "nemesis stop-one every 5s for 1s of a a\n", "'a': it stands twice; write nemesis stop-one every 5s for 1s of a"),
    (AB + "nemesis stop-one every 5s for 1s of a of b\n", "line 4: 'of': no host of this net"),
    (AB + "loss a b up:list:2-4,3\n", "line 4: up:list:2-4,3: 2-4,3 names a packet twice"),
    (AB + "at 1s cut a 2s 3s\n", "line 4: '3s': nothing belongs behind it: at TIME cut A [from B ..] [up|down]"),
    (AB + "at 1s heal a\nat 2s cut a\n", "line 4: 'heal': no cut of such a link goes on then"),
    (AB + "at 1s cut a 1s\nat 3s heal a\n", "line 5: 'heal': no cut of such a link goes on then"),
    (AB + "at 1s cut a 9s\nat 2s heal a\nat 3s heal b\n", "line 6: 'heal': no cut of such a link goes on then"),
    (AB + "at 1s stop b 1s\nat 3s cont b\n", "line 5: 'cont': no stop of such a host goes on then"),
    (AB + "at 1s stop b\nat 2s cont b\nat 3s cont b\n", "line 6: 'cont': no stop of such a host goes on then"),
    (AB + "at 1s cut a up\nat 2s heal a down\n", "line 5: 'heal': no cut of such a link goes on then"),
    (AB + "at main+1s cut a\n", "line 4: main+1s: the net has no main command"),
    (AB + "at 1s kill c\n", "line 4: 'c': no host of this net"),
    (AB + "at 1s kil a\n", "line 4: 'kil': no host of this net; did you mean 'kill'?"),
    (AB + "at 1s cut a b\n", "line 4: 'b': write `from b`: at TIME cut A [from B ..] [up|down] [tcp|udp port N] [LENGTH]"),
    (AB + "faults none\n", "none: No such file or directory"),
    (AB + "at 1s restart a\n", "line 4: 'a': it has no command that could begin again"),
    (AB + "at 1s skew a 2s\n", "line 4: '2s': how far the clock is ahead, as +2s, or behind, as -2s"),
    (AB + "at 1s skew a +2s 9\n", "line 4: '9': what the clock gains, as 100ppm or -50.5ppm"),
    (AB + "at 1s skew a +soon\n", "line 4: soon: not a duration (example: 600ms)"),
    (TWO + "main c true\nlink a b\nat 1s stop c\n", "line 5: 'c': it has the main command, whose end is the end"),
    (AB + "nemesis kill-all every 1s for 1s\n", "line 4: 'kill-all': not a nemesis; did you mean 'kill-one'"),
    (AB + "nemesis isolate-one every 1s for 2s\n", "line 4: '2s': write more than 0s, and at most 1s, the least time"),
    (AB + "nemesis stop-one every 1s for 1s\n", "line 4: 'stop-one': it takes 1 host or more"),
    (AB + "nemesis isolate-one every 9s for 1s until 8s\n", "line 4: 'isolate-one': no fault: the first would start at 9s"),
    (AB + "nemesis isolate-one every 1s for 1s from 9s until 8s\n", "line 4: 'isolate-one': no fault: the first would start"),
    (AB + "nemesis isolate-one every 1s for 1s until 8s from 2s\n", "line 4: 'from'"),
    (TWO + "main c x\nlink a c\nnemesis stop-one every 1s for 1s of c\n", "line 5: 'c': it has the main command, whose end"),
    (AB + "nemesis kill-one every 1s for 1s of a\n", "line 4: 'a': it has no command that could begin again"),
    ("host a x\nhost b\nlink a b\nnemesis crash-one every 1s for 1s of a\n", "line 4: 'a': it has no disk: disk HOST PATH"),
    (TWO + "host c\nlink a b\nnemesis isolate-one every 1s for 1s\n", "line 5: 'c': it has no link"),
    (TWO + "switch s a b\nnemesis partition-one every 1s for 1s\n", "line 4: 'partition-one': no link leads from one of"),
    (AB + "at 1s heal a 2s\n", "line 4: '2s': nothing belongs behind it: at TIME heal A [from B ..]"),
    (AB + "wait a port 0\n", "line 4: 'port 0': no port from 1 to 65535: wait NAME port N [TIME] [optional]"),
    (AB + "line a b pipe 3 config\n", "line 4: 'pipe 3': a link has the pipes 1, from its first host, and 2"),
    (AB + "map a b tcp => queue 1\n", "line 4: tcp => queue 1: queue 1 isn't configured"),
    (
        TWO + "link a b loss 20%\nline a b queue 1 config pipe 1\nmap a b up tcp => queue 1\n",
        "line 5: the link's loss isn't that of a queue, to which a rule sends packets: write `plr 0.2`, or `plr 0`, in the",
    ),
    (
        AB + "line a b queue 1 config pipe 1\nmap a b up tcp => queue 1\nat 1s a b up loss 5%\n",
        "line 6: the link's loss isn't that of a queue, to which a rule sends packets: write `plr 0.05`, or `plr 0`",
    ),
    *(
        (
            TWO + f"link a b loss 5%\nline a b queue 1 config pipe 1 plr 0\nmap a b up tcp => queue 1\n{lines}",
            f"line {wrong}: the link's",
        )
        for lines, wrong in (
            ("at 2s a b queue 1 config pipe 1\nat 3s a b 5ms loss 0%\n", 6),
            ("at 2s a b up 5ms loss 0%\nat 1s a b queue 1 config pipe 1\n", 7),
        )
    ),
    (
        AB + "line a b queue 1 config pipe 1\nmap a b up tcp => queue 1\nat 1s a b up outage 1s\n",
        "line 6: rules send packets to queue 1, which an outage doesn't hold: write `outage LENGTH lossy`",
    ),
    *(
        (TWO + f"link a b{lines}\n", f"line {wrong}: a mask parts its packets, which an outage doesn't hold: write `outage")
        for lines, wrong in (
            ("\nline a b pipe 2 config mask src-ip 0xff\nat 1s a b outage 1s", 5),
            ("\nat 1s a b outage 1s\nat 2s a b pipe 1 config mask src-ip 0xff", 5),
            (" mask src-ip 0xff\nat 1s a b down outage 1s", 4),
        )
    ),
    (TWO + "main a true\nmain b true\nlink a b\n", "line 4: 'main': a second one; the first is of a"),
    (TWO + "link a b 10Mbit/s 20sm\n", "line 3: '20sm': "),
    (TWO + "link a b 5ms / 10mbit\n", "line 3: '10mbit': not a bandwidth; write 10Mbit/s"),
    (TWO + "link a b preset slow3g\n", "line 3: 'preset': 'slow3g': not a preset; write slow-3g"),
    (TWO + "switch s c\n", "line 3: 'c': no host of this net: switch NAME A B .. LINK [/ LINK]"),
    (TWO + "switch s a\nswitch t b\nswitch u a\nlink s t\nlink t u\nlink u s\n", "line 8: 's': switches in a circle, in which a"),
    (TWO + "switch s a\nswitch t b\nlink s t\nlink t s\n", "line 6: 's': switches in a circle, in which a broadcast"),
    ("host a\nswitch s a\n" + "link a s\n" * 254, "line 256: 'a': switches that are joined have 254 hosts at most"),
    *(
        (TWO + f"switch s a b\n{line}\n", "line 4: 's': a switch, on which nothing runs")
        for line in ("wait s port 1", "main s true", "at 1s kill s", "at 1s skew s +1s", "nemesis stop-one every 2s for 1s of a s")
    ),
)


class OfDescriptions(OfFiles):
    def test_hosts_and_commands(self) -> None:
        net = self.net(
            "# a comment\nhost  a   printf '#  %s' \"$1\" # the shell's\nrouter r\nmain b\nlink a r \\\n  5ms #"
            " here\nlink r b\nhost c  one \\\n two\nwait a port 80 2s\n"
        )
        assert {name: (host.command, host.forwards) for name, host in net.hosts.items()} == {
            "a": ("printf '#  %s' \"$1\" # the shell's", False),
            "r": ("", True),
            "b": ("", False),
            "c": ("one two", False),
        }
        assert net.main == "b"
        assert [(link.ends, link.ways) for link in net.links] == [(("a", "r"), ("5ms", "5ms")), (("r", "b"), ("", ""))]
        assert [tuple(wait) for wait in map(lambda one: (one.host, one.port, one.lasting), net.waits)] == [("a", 80, 2.0)]

    def test_a_line_may_name_what_a_later_one_describes(self) -> None:
        net = self.net("at 1s cut a 2s\nlink a b\nmain a true\nhost b\nhost a\n")
        assert (net.main, net.hosts["a"].command) == ("a", "true")

    def test_words_end_at_any_blank(self) -> None:
        text = (
            "host a sleep 9\nmain b true\nlink a b 5ms\nwait a port 80 2s\nmtu a b 1 900\nat 1s cut a from b 2s\nat 2s kill a 1s\n"
        )
        plain, planned = self.net(text), self.plan(text)
        for blank in ("\t", "\x1f", "\xa0", "\u2003", "\u3000", " \x1f "):
            spaced = self.net(text.replace(" ", blank))
            for name in ("waits", "main"):
                assert getattr(spaced, name) == getattr(plain, name), repr(blank)
            assert [host.command.split() for host in spaced.hosts.values()] == [["sleep", "9"], ["true"]]
            assert self.plan(text.replace(" ", blank)) == planned, repr(blank)

    def test_what_newcomers_write_is_answered_by_a_line_that_is_taken(self) -> None:
        net = "host a sleep 9\nhost b\nlink a b 1ms\n"
        for text, line in MEANT.items():
            with self.subTest(text):
                assert self.wrong(f"{net}{text}\n").endswith(f"; write {line}"), self.wrong(f"{net}{text}\n")
                NetPlan(self.net(f"{net}{line}\n"), 1500)

    def test_what_is_wrong_has_its_line_and_word(self) -> None:
        for text, wanted in WRONG:
            assert wanted in self.wrong(text)

    def test_each_event_is_the_words_that_it_prints(self) -> None:
        net = self.net("host a true\nhost b\nhost c\nlink a b\nlink a b\nlink a c\ndisk a data\n")
        for words, of in (
            ("cut a", (0, 1, 2, 3, 4, 5)),
            ("cut a from b c 1.5s", (0, 1, 2, 3, 4, 5)),
            ("cut b up 2s", (1, 3)),
            ("heal c from a", (4, 5)),
            ("cut a from b udp port 53 2s", (0, 1, 2, 3)),
            ("cut b up tcp port 7001", (1, 3)),
            ("heal b up tcp port 7001", (1, 3)),
            ("a b up outage 1s lossy tcp port 7001", (0,)),
            ("heal c from a down", (4,)),
            ("a b outage 1min", (0, 1)),
            ("b a 2 up outage 5ms lossy", (3,)),
            ("c a 5ms / 6ms loss 1%", (5, 4)),
            ("a c preset dsl", (4, 5)),
            ("c a queue 3 config pipe 1 weight 2", (5, 4)),
            ("kill a 2s", ("a",)),
            ("crash a", ("a",)),
            ("restart a", ("a",)),
            ("stop b", ("b",)),
            ("skew c +2s 100ppm", ("c",)),
        ):
            event = parse(words, net)
            assert (event.words, event.of) == (words, of)
            assert parse(event.words.replace(" ", "\t"), net) == event

    def test_a_configuration_line_that_cannot_be_obeyed(self) -> None:
        for text, wanted in (
            ("link a b\nline a b queue 1 config pipe 2 weight 0\n", "line 4: '0': "),
            ("link a b\nline a b queue 1 config pipe 2 wight 3\n", "line 4: 'wight': "),
            ("link a b\nat 1s a b pipe 1 config bw 5mbit\n", "line 4: '5mbit': "),
            ("link a b\nat 1s a b queue delete 2\n", "line 4: at 1s a b queue delete 2: no such queue"),
        ):
            assert wanted in self.wrong(TWO + text)
            pytest.raises(Unobeyed, lambda: NetPlan(self.net(TWO + text), 1500))

    def test_statuses_of_files(self) -> None:
        for text, status in (
            (TWO + "lnk a b\n", 2),
            (TWO + "link a b 5mss\n", 2),
            (TWO + "link a b\nline a b queue 1 config\n", 3),
            (TWO + "link a b 5ms\n", 0),
        ):
            self.path.write_text(text)
            assert hinge("net", self.path, "--dry-run").returncode == status


class OfWays(OfFiles):
    def ways(self, start: str, text: str) -> dict[str, int]:
        net = self.net(text)
        return {name: hop.link for name, hop in first_hops(start, net, links_by_host(net)).items()}

    def test_only_routers_hand_packets_on(self) -> None:
        text = "{} r\nhost a\nhost b\nhost c\nlink a r\nlink r b\nlink b c\n"
        assert self.ways("a", text.format("router")) == {"r": 0, "b": 0}
        assert self.ways("a", text.format("host")) == {"r": 0}

    def test_a_switch_hands_on_to_a_host_or_a_router_there(self) -> None:
        net = self.net("host a\nrouter r\nhost far\nswitch s a\nswitch t r\nlink s t\nlink r far\n")
        hops = first_hops("a", net, links_by_host(net))
        assert {name: hops[name] for name in ("r", "far")} == {name: Hop(0, "r", 1) for name in ("r", "far")}
        assert first_hops("far", net, links_by_host(net))["a"] == Hop(3, "r", 3)

    def test_the_shortest_by_the_first_link(self) -> None:
        assert self.ways(
            "a", "host a\nhost b\nrouter r\nrouter s\nlink a r\nlink a s\nlink s b\nlink r b\nlink r s\nlink a s\n"
        ) == {"r": 0, "s": 1, "b": 0}
