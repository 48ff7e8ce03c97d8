"""The meaning of a net's file in its second reading, and transcripts that match and don't match it."""

import json
from itertools import islice

from with_folder import WithFolder

from hinge.plans.draws import Draws, word
from hinge.events.forms import ACTS as ACTS_OF_HOSTS, WORDS
from hinge.plans.judged import Judge
from hinge.plans.meaning import Meaning, ns_of
from hinge.plans.sessions import judged, judged_run
from hinge.command import Fault
from hinge.run.words import SCALE, duration

NET = """\
host a exec a
main b exec b
host c
link a b 5ms
link b c 10Mbit/s 1ms loss 1% / 2ms
line a b queue 1 config pipe 1 weight 3
map a b up => queue 1
at 1s cut a from b 2s
at 2s c b 7ms / 9ms
at 3s stop c 1s
at 4s kill a 500ms
"""
ENDS = "#,format,2\n#,host,a,10.8.0.1\n#,host,b,10.8.0.2\n#,host,c,10.8.0.3\n#,main,100\n"
FIRST = (
    "pipe 1 config delay 5",
    "pipe 2 config delay 5",
    "pipe 3 config bw 10000000bit/s delay 1 plr 0.009999999776482583",
    "pipe 4 config delay 2",
)
S = 10**9


def lines(*texts: str) -> str:
    return "".join(f"c,0,configure,{text}\nr,configured\n" for text in texts)


def at(moment: int, text: str = "") -> str:
    return f"c,0,advance,{moment}\nr,advanced,{moment}\n{text}"


def packet(moment: int, target: str, outcome: str = "queued", ends: str = "10.8.0.1,10.8.0.2,17") -> str:
    return f"c,0,submit,{target},{ends},1,2,36,7,{moment}\nr,{outcome},{moment},0,0\n"


BEGUN = ENDS + lines(*FIRST, "queue 1 config pipe 1 weight 3") + packet(50, "queue,1")
CUT = at(S + 100, "#,act,cut a from b 2s\n" + lines(*(f"pipe {one} config delay 5 plr 1" for one in (1, 2)))) + packet(
    S + 200, "pipe,1", "lost"
)
CHANGED = at(2 * S + 100, lines("pipe 4 config delay 7", "pipe 3 config delay 9"))
OPEN = at(3 * S + 100, lines(*FIRST[:2])) + at(3 * S + 5000, "#,act,stop c\n") + packet(3 * S + 5100, "queue,1")
ACTS = at(4 * S + 9000, "#,act,cont c\n") + at(4 * S + 10000, "#,act,kill a\n") + at(4 * S + S // 2 + 9000, "#,act,restart a\n")
HONEST = BEGUN + CUT + CHANGED + OPEN + ACTS + at(6 * S)


class OfTranscripts(WithFolder):
    def judge(self, history: str, net: str = NET) -> Judge:
        (self.folder / "net.net").write_text(net)
        (self.folder / "net.history").write_text("dummynet-live,1\n" + history)
        (self.folder / "net.json").write_text(json.dumps({"late_limit_ms": 20}))
        return judged(str(self.folder))

    def broken(self, history: str, net: str = NET) -> str:
        """The first line that isn't done, as it is told."""
        faults = self.judge(history, net).faults
        return faults[0].text if faults else ""

    def test_one_that_is_as_its_file_says(self) -> None:
        judge = self.judge(HONEST)
        assert (judge.faults, judge.remarks, judge.packets) == ([], [], 3)
        self.assertRegex([*judge.lines_told()][-1], "^as .*net.net says: 7 lines, 4 acts, 3 packets$")

    def test_each_word_and_unit_is_read(self) -> None:
        """Each event is of its host or its ways, and each unit of a time is the one that runs read."""
        for name in WORDS:
            (self.folder / "net.net").write_text(f"{NET}at 1.5s {name} a\n")
            *_, event = Meaning(str(self.folder / "net.net"), 0).read().events
            assert (event.moment, bool(event.host)) == (3 * S // 2, name in ACTS_OF_HOSTS), name
        assert [ns_of(f"1.5{unit}") for unit in SCALE] == [duration(f"1.5{unit}") for unit in SCALE]

    def test_what_isnt_done(self) -> None:
        late = HONEST.replace(at(4 * S + 10000, "#,act,kill"), at(4 * S + S // 20, "#,act,kill"))
        for history, wanted in (
            (HONEST.replace(lines(*FIRST[:1]), ""), "line 4: `link a b 5ms` wasn't done: a > b is `deleted`"),
            (HONEST.replace(FIRST[3], "pipe 4 config delay 3"), "`pipe 4 config delay 3` isn't what the file has for c > b then"),
            (HONEST.replace(CUT, packet(S + 200, "pipe,2", "lost")), "line 8: `at 1s cut a from b 2s` wasn't done: a > b is"),
            (
                HONEST.replace("pipe,1,", "queue,1,").replace("lost,", "queued,"),
                "line 8: `at 1s cut a from b 2s` didn't lose all packets",
            ),
            (HONEST.replace(CHANGED, ""), "line 9: `at 2s c b 7ms / 9ms` wasn't done: b > c is"),
            (HONEST.replace(CHANGED, CHANGED.replace("delay 9", "delay 8")), "`pipe 3 config delay 8` isn't what the file has"),
            (HONEST.replace(CHANGED, at(2 * S + 101, CHANGED)), "line 9: `at 2s c b 7ms / 9ms` wasn't done"),
            (
                HONEST.replace(OPEN, OPEN.replace(lines(*FIRST[:2]), "")),
                "line 8: `at 1s cut a from b 2s` wasn't done: a > b is `delay 5 plr 1` at 3.0",
            ),
            (HONEST + lines("pipe 2 config delay 50"), "`pipe 2 config delay 50` isn't what the file has for b > a then"),
            (HONEST.replace("#,act,stop c\n", ""), "line 10: `at 3s stop c 1s`: `stop c` at 3.000000 s wasn't done"),
            (late, "line 11: `at 4s kill a 500ms`: `kill a` came 50.000 ms late"),
            (
                HONEST.replace("cont c", "kill x").replace("kill a", "cont c").replace("kill x", "kill a"),
                "`at 4s kill a 500ms`: `kill a` came before `cont c` of line 10",
            ),
            (
                HONEST.replace(ACTS, packet(3 * S + S // 2, "pipe,4", ends="10.8.0.3,10.8.0.2,17") + ACTS),
                "line 10: `at 3s stop c 1s` doesn't hold",
            ),
        ):
            assert wanted in self.broken(history)

    def test_acts_of_one_moment_and_behind_the_end(self) -> None:
        """As in a real-time run: a fault's end and another fault's beginning follow the order of their lines, and stopped processes
        continue after the end, which no line requests."""
        net = """\
host a exec a
main b exec b
link a b 5ms
at 300ms stop a 300ms
at 350ms stop a 350ms
at 600ms cont a
at 700ms stop a 100ms
at 800ms stop a 100ms
at 1100ms stop a 100ms
at 1050ms stop a 50ms
at 1300ms stop a 5s
"""
        told = "300 stop 350 stop 600 cont 700 stop 800 cont 800 stop 900 cont 1050 stop 1100 stop 1200 cont 1300 stop".split()
        acts = [at(int(ms) * S // 1000 + 100, f"#,late-act,37000\n#,act,{word} a\n") for ms, word in zip(told[::2], told[1::2])]
        begun = ENDS + lines(*FIRST[:2])
        end = at(2 * S, "#,ending\n#,late-act,24450\n#,act,cont a\n")
        assert self.broken(begun + "".join(acts) + end, net) == ""
        for history, wanted in (
            ([*acts[:5], *acts[6:], end], "line 8: `at 800ms stop a 100ms`: `stop a` came 250.037 ms late"),
            ([*acts[:4], *acts[5:], end], "`stop a` came before `cont a` of line 7: `at 700ms stop a 100ms`"),
            ([*acts, end, at(2 * S, "#,act,cont a\n")], "`cont a` at 2.000000 s isn't the file's"),
            ([*acts, at(2 * S, "#,act,cont a\n")], "`cont a` at 2.000000 s isn't the file's"),
            ([*acts, at(2 * S, "#,ending\n#,act,kill a\n")], "`kill a` at 2.000000 s isn't the file's"),
            ([*acts[:-1], end], "line 11: `at 1300ms stop a 5s`: `stop a` at 1.300000 s wasn't done"),
        ):
            assert wanted in self.broken(begun + "".join(history) + at(4 * S), net)

    def test_an_act_may_come_before_another_hosts_restart_of_its_moment(self) -> None:
        """A restart takes longer than a stop, which the links carry out; an act of a later moment comes behind both."""
        net = "host a exec a\nhost b exec b\nmain c exec c\nlink a c 5ms\nlink b c 5ms\nat 1s restart a\nat 1s stop b\nat 1001ms cont b\n"
        begun = ENDS + lines(*FIRST[:2], "pipe 3 config delay 5", "pipe 4 config delay 5")
        stop, restart, cont = (
            at(S + 100 + late, f"#,act,{word}\n") for late, word in ((5000, "stop b"), (9000, "restart a"), (1001000, "cont b"))
        )
        assert self.broken(begun + stop + restart + cont + at(3 * S), net) == ""
        late = at(S + 2000000, "#,act,restart a\n")
        assert "`cont b` came before `restart a` of line 6" in self.broken(begun + stop + cont + late + at(3 * S), net)

    def test_each_flipped_bit_is_the_seeds(self) -> None:
        """At 100 % each packet that leaves has one, and none without the word."""
        net = "host a exec a\nmain b exec b\nlink a b 5ms corrupt 100% / 5ms\n"
        draws = Draws(7, 0, "corrupt 100%".split(), "", None)
        sent = f"c,0,submit,pipe,1,10.8.0.1,10.8.0.2,17,1,2,36,{word(7, 0, 1)},50\nr,queued,50,0,0\n"
        left = sent + "c,0,collect,5000050\nd,0,0,50,5000050\nr,collected,5000050,1\n"
        bit = draws.bit(draws.flipped(), 128)
        begun = ENDS + "#,seed,7\n" + lines(*FIRST[:2])
        for history, wanted in (
            (f"{left}#,corrupt,0,{bit},128,0\n", ""),
            (left, "packet 0 left whole: the seed flips one of its bits"),
            (f"{left}#,corrupt,0,{bit ^ 1},128,0\n", f"bit {bit ^ 1} of packet 0 was flipped: the seed draws {bit} of 128"),
            (f"{left}#,corrupt,1,{bit},128,0\n", "a bit of packet 1 was flipped, for which no line asks"),
        ):
            assert self.broken(begun + history, net) == wanted
        assert "for which no line asks" in self.broken(f"{begun}{left}#,corrupt,0,{bit},128,0\n", net.replace(" corrupt 100%", ""))

    def test_a_killed_host_sends_nothing(self) -> None:
        """But for what `hinge exec` began there, as transcripts of format 3 tell; and its kernel ends connections."""
        sent = at(4 * S + 100_000_000, packet(4 * S + 100_000_000, "pipe,1"))
        history = HONEST.replace("format,2", "format,3").replace("#,act,kill a\n", "#,act,kill a\n" + sent)
        assert "line 11: `at 4s kill a 500ms` doesn't hold: at 4.100000 s a sends to 10.8.0.2" in self.broken(history)
        for honest in (
            history.replace("#,act,kill a\n", "#,act,kill a\n#,exec,a\n"),
            history.replace("format,3", "format,2"),
            history.replace(sent, sent.replace(",17,", ",6,")),
            history.replace(sent, sent.replace("4100000000", "4020000000")),
        ):
            assert self.broken(honest) == "", honest

    def test_a_change_that_the_links_refuse(self) -> None:
        line = lines("queue delete 2").replace("r,configured", "r,no-such-queue")
        history = HONEST + "#,change,a b queue 2 delete\n" + line + at(7 * S)
        judge = self.judge(history)
        assert (judge.faults, len(judge.remarks)) == ([], 2)
        assert (
            "`a b queue 2 delete` by the control socket at 6.000000 s: the links refused `queue delete 2`: no" in judge.remarks[1]
        )
        assert "the links refused `queue delete 2`: no-such-queue" in self.broken(HONEST + line)

    def test_a_loss_that_a_queue_goes_past(self) -> None:
        net = NET.replace("b 5ms", "b 5ms loss 50%")
        history = HONEST.replace("delay 5", "delay 5 plr 0.5").replace("plr 0.5 plr", "plr")
        self.assertRegex(self.broken(history, net), "line 4: `link a b 5ms loss 50%`: its loss isn't that of packets which")
        assert self.broken(history, net.replace("weight 3", "weight 3 plr 0")) == ""

    def test_a_cut_of_one_way(self) -> None:
        for words, wanted in (
            ("cut a from b up 2s", ""),
            ("cut b from a down 2s", ""),
            ("cut a up 2s", ""),
            ("cut a from b down 2s", "`pipe 1 config delay 5 plr 1` isn't what the file has for a > b then"),
            ("cut b up 2s", "`pipe 1 config delay 5 plr 1` isn't what the file has for a > b then"),
            ("cut a from b 2s", "line 8: `at 1s cut a from b 2s` wasn't done: b > a is `delay 5` at 1.0"),
        ):
            one_way = HONEST.replace("pipe 2 config delay 5 plr 1", "pipe 2 config delay 5")
            net, history = (text.replace("cut a from b 2s", words) for text in (NET, one_way))
            assert self.broken(history, net)[: len(wanted) or 999] == wanted

    def test_a_cut_of_a_port(self) -> None:
        """The port's packets get the word for a loss, and other packets keep their words; the pipe has the least loss for that."""
        least = "pipe 1 config delay 5 plr 0.000000000465661288"
        net = "host a\nmain b exec b\nlink a b 5ms\nat 1s cut a from b up udp port 53 2s\nat 2s cut a from b up 500ms\n"
        words = [*islice((word for _, word in Draws(7, 0, [], "", None).packets), 8)]

        def sent(ms: int, word: int, ports: str, outcome: str = "queued", protocol: int = 17) -> str:
            ends = f"10.8.0.1,10.8.0.2,{protocol},{ports},36,{word}"
            return f"c,0,submit,pipe,1,{ends},{ms * S // 1000}\nr,{outcome},{ms * S // 1000},0,0\n"

        begun = ENDS.replace("#,host", "#,seed,7\n#,host", 1) + lines(*FIRST[:2]) + sent(500, words[0], "53,9")
        in_cut = at(S + 100, lines(least)) + sent(1200, 0, "53,9", "lost") + sent(1300, words[2], "5,9")
        whole = at(2 * S + 100, lines("pipe 1 config delay 5 plr 1")) + sent(2200, words[3], "53,9", "lost")
        behind = at(S * 5 // 2 + 100, lines(least)) + sent(2600, words[4], "9,53", protocol=6) + sent(2700, 0, "9,53", "lost")
        end = at(3 * S + 100, lines(FIRST[0])) + sent(3500, words[6], "53,9") + at(4 * S)
        honest = begun + in_cut + whole + behind + end
        assert self.broken(honest, net) == ""
        for old, new, wanted in (
            (f"c,0,configure,{least}\nr,configured\n", "", "line 4: `at 1s cut a from b up udp port 53 2s` wasn't done"),
            (sent(1200, 0, "53,9", "lost"), sent(1200, 0, "53,9"), "udp port 53 2s` didn't lose all packets"),
            (sent(1200, 0, "53,9", "lost"), sent(1200, words[1], "53,9", "lost"), f"the random word {words[1]}: the seed draws 0"),
            (sent(1300, words[2], "5,9"), sent(1300, 0, "5,9", "lost"), "has the random word 0: the seed draws"),
            (sent(2200, words[3], "53,9", "lost"), sent(2200, 0, "53,9", "lost"), "has the random word 0: the seed draws"),
            (sent(3500, words[6], "53,9"), sent(3500, 0, "53,9"), "has the random word 0: the seed draws"),
        ):
            assert wanted in self.broken(honest.replace(old, new), net), (old, new)

    def test_a_hold_holds_what_a_queue_sends(self) -> None:
        """An outage slowed such packets down in older versions, and they left before its end."""
        net = NET.replace("cut a from b 2s", "a b up outage 2s")
        sent = f"c,0,submit,queue,1,10.8.0.1,10.8.0.2,17,1,2,36,7,{S + 200}\nr,queued,{S + 200},0,1\nc,0,collect,{{0}}\nd,1,0,{S + 200},{{0}}\n"
        for left, wanted in ((2 * S, "line 8: `at 1s a b up outage 2s` didn't hold: a packet left"), (3 * S + 5_000_100, "")):
            broken = self.broken(BEGUN + at(S + 100) + sent.format(left), net)
            self.assertEqual(broken[: len(wanted)], wanted) if wanted else self.assertNotIn("didn't hold", broken)
        cut = at(S + 100, lines("pipe 2 config delay 5 plr 1")) + at(S + 300, lines(FIRST[1]))
        assert "isn't what the file has for b > a" in self.broken(BEGUN + cut, net.replace("a b up outage", "b a up outage"))

    def test_an_older_transcript_without_the_main_commands_beginning(self) -> None:
        older = HONEST.replace("#,format,2\n", "").replace("#,main,100\n", "")
        self.assertRaisesRegex(Fault, "neither the transcript nor a summary says when the main command began", self.judge, older)

    def test_the_control_socket(self) -> None:
        now = ("pipe 3 config delay 9", "pipe 4 config delay 7")
        asked = "#,change,cut b from c 100ms\n" + at(4 * S + 11000, lines(*(f"{one} plr 1" for one in now)))
        ended = at(4 * S + 11000 + S // 10, lines(*now))
        begun = HONEST.replace("#,act,kill a\n", "#,act,kill a\n" + asked + ended)
        judge = self.judge(begun)
        assert (judge.faults, judge.remarks) == ([], ["at 4.000010 s by the control socket: cut b from c 100ms"])
        assert "isn't what the file has" in self.broken(begun.replace("#,change,cut b from c 100ms\n", ""))
        for extra in ("cut b from c 1s", "kill c"):
            unasked = HONEST + at(6 * S, f"#,act,{extra}\n")
            assert f"`{extra}` at 6.000000 s isn't the file's" in self.broken(unasked)
            assert self.broken(unasked.replace("#,format,2\n", "")) == ""
        assert "`cut b from c 100ms` by the control socket wasn't done" in self.broken(begun.replace(ended, ""))

    def test_draws_of_a_seed(self) -> None:
        net = NET.replace("at 2s c", "at 1s..3s c") + "nemesis stop-one every 10s for 1s until 15s of c\n"
        drawn = HONEST.replace("#,main", "#,drawn,at 2s c b 7ms / 9ms\n#,drawn,at 10s stop c 1s\n#,main")
        assert self.broken(drawn, net) == ""
        late = net.replace("every 10s for 1s", "every 4s for 1s from 10s")
        assert self.broken(drawn, late) == ""
        self.assertRaisesRegex(Fault, "no line of the file asks for", self.judge, drawn, late.replace("from 10s", "from 9s"))
        for wrong, wanted in (
            ("at 4s c", "the seed's line is another one"),
            ("at 9s stop", "no line of the file asks for"),
            ("stop a", "no line"),
        ):
            text = (
                drawn.replace("at 2s c", wrong)
                if wrong.endswith(" c")
                else drawn.replace(
                    "at 10s stop" if "at" in wrong else "stop c 1s\n#,m", wrong if "at" in wrong else "stop a 1s\n#,m"
                )
            )
            self.assertRaisesRegex(Fault, wanted, self.judge, text, net)


RUN = """\
#,seed,3
#,asked,--up,0,10Mbit/s 20ms jitter 3ms
#,asked,--timeline,1,1s outage 500ms lossy
#,asked,--timeline,3,2s up 30ms
#,asked,--line,0,pipe 3 config delay 7
#,asked,--loss,0,down:list:2
#,asked,--up-trace,1,3,2000000
"""
UP = "pipe 1 config bw 10000000bit/s delay 20"


def of_run(pipe: int, moment: int, word: int, outcome: str = "queued", number: int = 0) -> str:
    ends = "10.8.0.1,10.8.0.2" if pipe != 2 else "10.8.0.2,10.8.0.1"
    return f"c,0,submit,pipe,{pipe},{ends},17,1,2,36,{word},{moment}\nr,{outcome},{moment},0,{number}\n"


def again(moment: int, number: int, pipe: int, at: str = "r,delivered\n") -> str:
    """A packet leaves its first pass for a second one."""
    return f"{at}d,{number},0,{moment},{moment}\n" + of_run(pipe, moment, 2**31 - 1, number=900 + number)


RAN = (
    RUN
    + lines(UP, "pipe 2 config plr 0.5", "pipe 3 config delay 7", *(f"pipe {65532 + ms} config delay {ms}" for ms in range(4)))
    + of_run(1, 50, 1935234479, number=1)  # words of hinge-link by seed 3
    + again(25_000_000, 1, 65532)
    + of_run(2, 60, 2**31 - 1, number=2)
    + of_run(2, 70, 0, "lost")
    + at(S, lines(f"{UP} plr 1", "pipe 2 config plr 1"))
    + of_run(1, S + 9, 448668961, "lost")
    + at(S + S // 2, lines(UP, "pipe 2 config plr 0.5"))
    + at(2 * S, lines("pipe 1 config delay 30"))
    + of_run(1, 2 * S + 9, 634715155, number=3)
    + again(2 * S + 30_000_000, 3, 65533)
    + at(3 * S, lines("pipe 1 config bw 2000000bit/s delay 20"))
    + at(4 * S)
)


class OfTheWordsOfRuns(WithFolder):
    def broken(self, history: str) -> str:
        (self.folder / "a.history").write_text("dummynet-live,1\n" + history)
        judge = judged_run(str(self.folder / "a.history"))
        return judge.faults[0].text if judge and judge.faults else "" if judge else "no words"

    def test_what_is_done_and_what_isnt(self) -> None:
        for old, new, wanted in (
            ("", "", ""),
            (RUN[9:], "", "no words"),
            (lines(f"{UP} plr 1"), lines(UP), "--timeline line 1: `1s outage 500ms lossy` wasn't done: client > server is"),
            (f"advance,{S + S // 2}", f"advance,{S + S // 4}", f"`{UP}` isn't what the command line has for client > server then"),
            (lines("pipe 1 config delay 30"), "", "--timeline line 3: `2s up 30ms` wasn't done"),
            (lines("pipe 3 config delay 7"), "", "--line `pipe 3 config delay 7` wasn't done: pipe 3 is `deleted`"),
            ("bw 2000000bit", "bw 3000000bit", "--up-trace `3,2000000` wasn't done: client > server is `bw 3000000bit/s"),
            (at(3 * S), at(3 * S + 1), "--up-trace `3,2000000` wasn't done"),
            ("1935234479", "1935234478", "packet 1 of client > server has the random word 1935234478: the seed draws 1935234479"),
            ("36,0,70", f"36,{2**31 - 1},70", "packet 2 of server > client has the random word 2147483647: list:2 draws 0"),
            ("pipe,65533", "pipe,65534", "packet 3 of client > server is late by 2 ms: 1 ms were drawn or chosen"),
            (of_run(1, S + 9, 448668961, "lost"), of_run(1, S + 9, 448668961, number=9), "didn't lose all packets"),
        ):
            assert old in RAN
            found = self.broken(RAN.replace(old, new) if old else RAN)
            assert wanted in found and bool(wanted) == bool(found), found

    def test_chosen_packets_and_the_control_socket(self) -> None:
        asked = "#,asked,--faults,1,client > server packet 1 twice\n#,asked,--faults,2,client > server packet 2 late 30ms\n"
        kept = 2**31 - 1
        history = asked + lines("pipe 1 config plr 0.5", "pipe 2 config plr 0.5", "pipe 8 config", "pipe 9 config delay 30")
        history += of_run(1, 50, kept, number=1) + of_run(1, 50, kept, number=2) + of_run(1, 60, kept, number=3)
        history += again(70, 1, 8) + again(70, 2, 8, "") + again(70, 3, 9, "") + "#,change,up 9ms\n"
        history = "#,seed,1\n" + history + lines("pipe 1 config delay 9 plr 0.5") + at(S)
        for old, new, wanted in (
            ("", "", ""),
            ("pipe,9,", "pipe,8,", "packet 2 of client > server is late by 0 ms: 30 ms were drawn or chosen"),
            (of_run(1, 50, kept, number=2), "", "a packet is late by 0 ms, for which no line asks"),
            ("packet 2 late 30ms", "packet 3 lost", "a packet is late by 0 ms, for which no line asks"),
            ("#,change,up 9ms\n", "", "`pipe 1 config delay 9 plr 0.5` isn't what"),
            ("config delay 9 plr", "config delay 8 plr", "`pipe 1 config delay 8 plr 0.5` isn't what"),
        ):
            found = self.broken(history.replace(old, new) if old else history)
            assert wanted in found
            assert bool(wanted) == bool(found), found
