"""A link's plan from its files: traces and timelines."""

import time

from hinge.run.plan import Plan
from hinge.run.traces import Rate, read_trace
from hinge.run.words import Wrong, with_plan_pipes
from net_files import OfFiles

BIN = 100_000_000  # ns


class Traces(OfFiles):
    def rates(self, data: "str | bytes") -> list[Rate]:
        return [*read_trace(self.file(data), iter).rates]

    def test_seconds_with_and_without_a_header(self) -> None:
        found = [Rate(0, 100), Rate(1_500_000_000, 200)]
        for text in (
            "seconds,bit/s\n0,100\n1.5,200\n",
            "0,100\n1.5,200\n",
            " 0 , 100\n\n# a comment\n1.5,200 # another\n",
            "\ufeff0,100\r\n1.5,200\r\n",
        ):
            assert self.rates(text) == found

    def test_what_is_no_trace_is_told_by_its_line(self) -> None:
        texts = "-,5|inf,5|-1,5|0,inf|0,nan|0,1e300|1e300,5|0,-1|0,5,6|0,5\nx,y|2,1\n1,1|1\n2,3|a\nb"
        for text in texts.split("|"):
            self.assertRaises(Wrong, self.rates, f"{text}\n")
        self.assertRaisesRegex(Wrong, "line 2: not of the form", self.rates, "0,5\nx,y\n")
        self.assertRaisesRegex(Wrong, "isn't UTF-8", self.rates, b"0,5\n\xff,5\n")
        self.assertRaisesRegex(Wrong, "no rows of a trace", self.rates, "# nothing\n")

    def plan(self, data: str, bin_ns: "int | None" = None, lasting: int = 10**9, more: str = "") -> list[str]:
        """Returns the lines of a pipe's trace, without seeds."""
        plan = Plan()
        plan.link(f"pipe 1 config delay 5{more}")
        plan.trace(0, self.file(data), bin_ns, lasting)
        return [line for line in plan.text(1).splitlines() if not line.startswith(("seed", "line"))]

    def test_a_rate_of_0_is_an_outage(self) -> None:
        text = "0,1000000\n10,0\n12,2000000\n"
        first, last = (f"at {moment}000000000 pipe 1 config bw {rate}000000bit/s delay 5" for moment, rate in ((0, 1), (12, 2)))
        assert self.plan(text) == [
            "hold 1 10000000000 12000000000",
            first.replace("0000000000", "0"),
            "outage 10000000000 1 1500",
            last,
        ]
        why = "a mask parts its packets, which an outage doesn't hold: write a rate above 0, as 1000"
        self.assertRaisesRegex(Wrong, why, self.plan, text, more=" mask src-port 0xffff")

    def test_mahimahi(self) -> None:
        """The plan contains each moment of the trace, or, if requested, counts over bins, of which the last ends with the
        period."""
        assert self.plan("1\n1\n2\n350\n") == ["slots 1 1 1 2 350"]
        rates = ((0, 360_000), (100, 60_000), (300, 240_000))
        begins = [
            f"at {(350 * turn + moment) * 10**6} pipe 1 config bw {rate}bit/s delay 5"
            for turn in range(2)
            for moment, rate in rates
        ]
        assert self.plan("1\n1\n2\n350\n", BIN, 700_000_000) == begins
        assert self.plan("1\n1\n2\n350\n", None, 700_000_000, " mask src-port 0xffff") == [
            f"{line} mask src-port 0xffff" for line in begins
        ]

    def test_a_trace_of_one_rate_is_one_line(self) -> None:
        """12 Mbit/s and 1.2 Mbit/s: mahimahi's traces with one moment per slot, however often they repeat."""
        for text, rate in (("1\n", 12), ("10\n", 1.2), ("0\n", 12)):
            assert self.plan(text, None, 3600 * 10**9, " mask src-port 0xffff") == [
                f"at 0 pipe 1 config bw {round(rate * 10**6)}bit/s delay 5 mask src-port 0xffff"
            ]

    def test_bins_that_cannot_be(self) -> None:
        for words, wanted in (
            (("10\n", 10**8), "the bin is longer than the trace, which begins anew after 10 ms"),
            (("1\n4000000000\n", 10**6), "4000000000 bins; take a longer --bin"),
            (("1\n1\n7\n", 10**6, 3600 * 10**9), "would begin 514285 times; take a longer --bin, or a shorter --trace-for"),
            (("4294967296\n",), "up to 4294967295"),
        ):
            self.assertRaisesRegex(Wrong, wanted, self.plan, *words)


class Timelines(OfFiles):
    def lines(self, text: str, *links: str) -> list[str]:
        plan = Plan()
        for line in links:
            plan.link(line)
        plan.timeline(self.file(text))
        return [change.line for change in plan.changes.all()]

    def test_an_outage_that_holds(self) -> None:
        """Adjacent outages become one, and each begins with a packet that nobody sent."""
        plan = Plan()
        plan.link("pipe 1 config bw 1Mbit/s"), plan.link("pipe 2 config"), plan.link("queue 1 config pipe 2")
        plan.timeline(self.file("1s up outage 2s\n3s up outage 1s\n2s up outage 1s\n9s outage 1s\n"))
        told = [line for line in plan.text(1).splitlines() if line.startswith(("hold", "outage"))]
        assert told == [
            "hold 1 1000000000 4000000000",
            *(f"hold {pipe} 9000000000 10000000000" for pipe in (1, 2)),
            *(f"outage {moment}000000000 {pipe} 1500" for moment, pipe in ((1, 1), (9, 1), (9, 2))),
        ]

    def test_many_outages_in_a_long_trace(self) -> None:
        """36,000 lines and 2,000 outages take a second, and not their product."""
        text = "".join(f"{n / 10} pipe 1 config bw {n + 1}\n" for n in range(36000)) + "".join(
            f"{n} up outage 200ms\n" for n in range(2000)
        )
        begun = time.process_time()
        assert len(self.lines(text, "pipe 1 config")) == 36000 + 2000
        assert time.process_time() - begun < 20

    def test_a_lossy_outage(self) -> None:
        assert self.lines("1s down outage 2s lossy\n", "pipe 2 config delay 3") == ["cut 2 1", "open 2 1"]

    def test_a_link_names_its_own_pipes(self) -> None:
        for text, wanted in (
            ("pipe 1 config delay 1", "pipe 7 config delay 1"),
            ("ipfw pipe delete 2", "pipe delete 8"),
            ("pipe 2 delete", "pipe 8 delete"),
            ("queue 1 config pipe 2 weight 3", "queue 1 config pipe 8 weight 3"),
            ("pipe 9 config", "pipe 9 config"),
            ("pipe", "pipe"),
        ):
            assert (with_plan_pipes(text, 3), with_plan_pipes(text, 0)) == (wanted, text)

    def test_lines_that_are_wrong(self) -> None:
        for text in ("soon pipe 1 config\n", "1s outage\n", "1s outage 2s gently\n", "1s up outage 2s\n"):
            self.assertRaisesRegex(Wrong, "line 1: ", self.lines, text)
