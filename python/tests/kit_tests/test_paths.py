"""`hinge look` of a net between its links: one in which nothing happened between the links but what a router should do, and what is planted
there."""

import json
import re
import unittest
from random import Random
from typing import Optional

from kit import folder, run

from hinge.paths.matching import match
from hinge.paths.passages import read_transcript
from routed import DELAYS, MS, Net, Packet, Router, both_ways, good


def faults_of(text: str) -> dict[str, int]:
    (folder() / "net.history").write_text(text)
    found = match(read_transcript([str(folder() / "net.history")]).passages, 0, {})
    return {kind: len(rows) for kind, rows in found.faults.items() if len(rows)}


class Paths(unittest.TestCase):
    def told(self, text: str, *words: object) -> tuple[int, list[str]]:
        (folder() / "lone").mkdir(exist_ok=True)
        for name in ("net.history", "lone/net.history"):
            (folder() / name).write_text(text)
        done = run("look", *(("net.history", *words) if words else ("lone",)), "--end", 0)
        assert done.stderr == ""
        return done.returncode, done.stdout.splitlines()

    def kinds(self, router: Router, count: int = 40, packets: Optional[list[Packet]] = None) -> dict[str, int]:
        """How many faults of each kind are told."""
        status, lines = self.told(Net(router, packets or [Packet(place) for place in range(count)]).text)
        kinds = {line.rpartition(": ")[0]: int(line.rpartition(": ")[2]) for line in lines if re.fullmatch(r"[a-z ]+: \d+", line)}
        assert (status, lines[-1]) == (int(bool(kinds)), "unlawful between links" if kinds else "lawful between links")
        return kinds

    def test_nothing_is_wrong_with_a_good_router(self) -> None:
        status, lines = self.told(Net(good, both_ways(40)).text)
        assert (status, lines[-2:]) == (0, ["80 packets on links, 40 handed on by hosts, 40 arrived", "lawful between links"])
        assert lines[1].split() == "a > r 30 0 0 9.474 10.000 10.000".split()
        assert "a - r - b: 30 packets, 15.050 ms: links 10.000 + 5.000, hosts 0.050, at most 0.050" in lines
        assert "b - r - a: 10 packets, 15.050 ms: links 5.000 + 10.000, hosts 0.050, at most 0.050" in lines

    def test_a_packet_is_followed_over_links_and_hosts(self) -> None:
        """Of the second packet, which is sent at 1 ms: 10 ms to r, 0.05 ms there, 5 ms to b; and of one that r loses."""
        self.told(Net(lambda number, packet: [] if number == 3 else good(number, packet), both_ways(3)).text)
        (first, *others), lost = (run("why", number, "lone").stdout.splitlines() for number in (2, 3))
        assert (
            first.split(". ")[0]
            == "a > r: Row 2 (tcp 10.8.0.1:1000 > 10.8.0.2:80, 1,500 bytes) was sent to pipe 1 at 0.001000000 s"
        )
        assert "10.000000 ms delay, and it left at 0.011000000 s." in first
        assert (others[0], others[-1]) == ("r: had it for 0.050000 ms, and sent it on as row 5.", "b: it ends here.")
        assert "r > b: Row 5 (tcp 10.8.0.1:1000 > 10.8.0.2:80, 1,500 bytes) was sent to pipe 3 at 0.011050000 s." in others[1]
        assert run("why", 5, "lone").stdout.splitlines() == [first, *others]
        assert (
            lost[-1] == "r: the packet wasn't sent on: the run ended, the system dropped it as it told, or its time to live ended."
        )
        assert "lone has 5 packets, and no packet 6" in run("why", 6, "lone").stderr

    def test_a_rate_that_is_set_between_a_content_and_its_packet(self) -> None:
        """As behind an outage that held packets: the content is still that of the packet."""
        text = Net(good, both_ways(8)).text
        record = "c,0,configure,pipe 1 config delay 10\nr,configured\n"
        first, mark, rest = text.partition("c,0,submit,pipe,1,10.8.0.1,10.8.0.2,6,1000,80,1500,7,2000000\n")
        assert mark and first.endswith("#,content,8000000000000001\n"), first
        whole = re.sub(r"end,(\d+)", lambda end: f"end,{int(end[1]) + 1}", f"{first}{record}{mark}{rest}")
        assert self.told(whole)[1][-2:] == ["16 packets on links, 8 handed on by hosts, 8 arrived", "lawful between links"]

    def test_what_is_planted_is_found(self) -> None:
        def every_fifth(planted: Router) -> Router:
            return lambda number, packet: planted(number, packet) if number % 5 == 0 else good(number, packet)

        replaced = {"came from nowhere": 8, "lost in a host": 8}
        plants: tuple[tuple[Router, dict[str, int]], ...] = (
            (every_fifth(lambda _, packet: []), {"lost in a host": 8}),
            (every_fifth(lambda _, packet: [(50_000, packet)] * 2), {"came twice": 8}),
            (every_fifth(lambda _, packet: [(50_000, packet._replace(content=packet.content ^ 1 << 40))]), replaced),
            (every_fifth(lambda _, packet: [(50_000, packet._replace(length=1499))]), replaced),
            (every_fifth(lambda number, packet: [(50_000, packet), (60_000, Packet(10**9 + number))]), {"came from nowhere": 8}),
            (lambda number, packet: [(2_500_000 if number % 5 == 0 and number < 40 else 50_000, packet)], {"out of order": 7}),
            (
                lambda number, packet: [] if number % 5 == 0 else [(50_000, packet)] * (1 + (number % 5 == 1)),
                {"came twice": 8, "lost in a host": 8},
            ),
        )
        for router, wanted in plants:
            assert self.kinds(router) == wanted

    def test_duplicates_of_senders_are_no_fault_and_those_of_a_router_are(self) -> None:
        assert self.kinds(good, packets=both_ways(60)) == {}
        assert self.kinds(lambda number, packet: [(50_000, packet)] * (2 if number == 11 else 1), packets=both_ways(60)) == {
            "came twice": 1
        }

    def test_duplicates_of_a_link_are_no_fault(self) -> None:
        text = Net(lambda number, packet: [(50_000, packet)] * (2 if number == 11 else 1), both_ways(60)).text
        assert self.told(text)[0] == 1
        assert [self.told(text.replace("#,pipe,1", f"#,copies,{pipe}\n#,pipe,1", 1))[0] for pipe in (1, 2, 3)] == [1, 1, 0]

    def test_copies_of_packets_that_are_alike_are_in_order(self) -> None:
        """The router hands on at once what came before: of two that are alike, the first twice, and one between them."""
        holds = {1: [2_500_000, 2_500_000], 2: [1_500_000], 3: [500_000]}
        text = Net(lambda number, packet: [(hold, packet) for hold in holds[number]], [Packet(1), Packet(2), Packet(1)]).text
        assert faults_of(text) == {"came twice": 1}
        assert faults_of(text.replace("#,pipe,1", "#,copies,3\n#,pipe,1", 1)) == {}
        holds[2] = [3_500_000]
        text = Net(lambda number, packet: [(hold, packet) for hold in holds[number]], [Packet(place) for place in range(3)]).text
        assert faults_of(text) == {"came twice": 1, "out of order": 1}

    def test_pipes_of_a_second_pass_are_told_together(self) -> None:
        """Those of r > b, from where the jitter begins."""
        text = Net(good, [Packet(place) for place in range(10)]).text.replace(
            "#,pipe,3,r,b", "#,pipe,3,r~b,b\n#,pipe,9,r~b,b\n#,pipe,5,r,r~b", 1
        )
        text = text.replace("c,0,submit,pipe,1,", "c,0,submit,pipe,5,").replace("#,pipe,5,r,", "#,pipe,5,a,")
        first, second = text.split("c,0,submit,pipe,3,", 1)
        status, lines = self.told(first + "c,0,submit,pipe,9," + second)
        assert (status, [line.split()[:4] for line in lines[1:3]]) == (0, [["r~b", ">", "b", "10"], ["a", ">", "r~b", "10"]]), lines

    def test_a_moment_before_its_arrival_is_told(self) -> None:
        text = Net(good, [Packet(place) for place in range(5)]).text
        moment = 2 * MS + DELAYS[1] + 50_000
        status, lines = self.told(
            text.replace(f",7,{moment}\n", f",7,{moment - 60_000}\n").replace(f"r,queued,{moment},", f"r,queued,{moment - 60_000},")
        )
        assert (status, "too early: 1" in lines) == (1, True), lines

    def test_what_the_system_told_of_is_no_fault(self) -> None:
        def router(number: int, packet: Packet) -> list[tuple[int, Packet]]:
            return [] if number in (3, 9) else good(number, packet)

        text = Net(router, [Packet(place) for place in range(20)]).text
        for drops, unforwarded, status in ((2, {}, 0), (1, {}, 1), (1, {"IpInNoRoutes": 1}, 0), (0, {"IpFragFails": 1}, 1)):
            way = {"from": "r", "to": "b", "system_drops": drops}
            (folder() / "net.json").write_text(
                json.dumps({"ways": [way], "unforwarded": {"a": {"IpFragFails": 9}, "r": unforwarded}})
            )
            assert self.told(text, "net.json")[0] == status
        refused = re.sub(r"(d,2,0,.*\n)", r"\1#,refused,2\n", re.sub(r"(d,8,0,.*\n)", r"\1#,refused,8\n", text))
        assert [self.told(text)[0], len(refused) - len(text)] == [1, 24]
        numbers = [int(found) for found in re.findall(r"c,0,submit,pipe,1,.*\nr,queued,\d+,0,(\d+)", text)]
        for place in (2, 8):
            text = re.sub(rf"(d,{numbers[place]},0,.*\n)", rf"\1#,refused,{numbers[place]}\n", text)
        assert self.told(text)[0] == 0

    def test_a_packet_with_a_flipped_bit_goes_on_as_another(self) -> None:
        """The router hands on what the first link's remark describes; of a packet without a remark that is a fault."""
        packets = [Packet(place) for place in range(5)]
        text = Net(
            lambda number, packet: good(number, packet._replace(content=77 if number == 3 else packet.content)), packets
        ).text
        assert faults_of(text) == {"came from nowhere": 1, "lost in a host": 1}
        number = re.findall(r"c,0,submit,pipe,1,.*\nr,queued,\d+,0,(\d+)", text)[2]
        remark = f"#,corrupt,{number},5,640,{77:016x}\n"
        assert faults_of(re.sub(rf"(d,{number},0,.*\n)", rf"\1{remark}", text)) == {}

    def test_what_a_router_told_its_sender_of(self) -> None:
        """It forwards no packet from the third to the twelfth, and tells of the fourth. 10.8.0.3 as a number is 168296451."""

        def router(number: int, packet: Packet) -> list[tuple[int, Packet]]:
            return [] if 3 <= number <= 12 else good(number, packet)

        text = Net(router, [Packet(place) for place in range(20)]).text
        for moment, pipe, teller, to, status in (
            (12_900_000, 2, 168296451, 168296450, 0),
            (12_900_000, 2, 168296452, 168296450, 1),  # another host's message, which the router hands on
            (12_900_000, 2, 168296451, 168296452, 1),  # of packets to another host
            (12_900_000, 3, 168296450, 168296450, 1),
            (11_000_000, 2, 168296451, 168296450, 1),  # before the second, which it hands on
        ):
            remark = f"#,rejected,{moment},{pipe},{teller},168296449,{to}\n"
            assert self.told(text.replace("end,", remark + "end,"))[0] == status, remark

    def test_what_came_at_the_end_may_be_there_still(self) -> None:
        text = Net(lambda number, packet: [] if number == 20 else good(number, packet), [Packet(place) for place in range(20)]).text
        assert self.told(text)[0] == 1
        (folder() / "net.history").write_text(text)
        (folder() / "lone" / "net.history").write_text((folder() / "net.history").read_text())
        done = run("look", "lone", "--end", 100)
        assert (done.returncode, "1 at hosts at the end" in done.stdout) == (0, True)

    def test_parts_of_a_transcript_in_a_folder(self) -> None:
        text = Net(good, [Packet(place) for place in range(20)]).text
        place = folder() / "parts"
        place.mkdir(exist_ok=True)
        first = text
        second = Net(good, [Packet(100 + place) for place in range(10)]).text
        (place / "net.history").write_text(first)
        (place / "net.history.1").write_text(
            "".join(line for line in second.splitlines(True) if not line.startswith(("#,host", "#,pipe")))
        )
        done = run("look", "parts")
        assert done.returncode == 0, done.stderr
        assert done.stdout.splitlines()[-2] == "60 packets on links, 30 handed on by hosts, 30 arrived", done.stderr

    def test_what_ends_at_the_next_host(self) -> None:
        """A packet ends at the next host because of its group, as in OSPF and mDNS, a broadcast, a source limited to the link, or
        its time to live."""
        groups = "224.0.0.5 224.0.0.251 255.255.255.255 10.8.0.255 240.0.0.1 240.0.0.2 240.0.0.3".split()
        ones = [Packet(number, dst=address) for number, address in enumerate(groups)]
        ones += [Packet(100, last=True), Packet(101, "0.0.0.0", "255.255.255.255"), Packet(102, dst="239.9.9.9", last=True)]
        names = "".join(
            f"#,address,240.0.0.{place},{address}\n" for place, address in enumerate(("ff02::fb", "ff12::99", "fe80::1"), 1)
        )

        def kinds(router: Router) -> list[str]:
            text = Net(router, ones).text.replace("#,pipe,1,", names + "#,pipe,1,", 1)
            return self.told(text)[1]

        def ended(_: int, packet: Packet) -> list[tuple[int, Packet]]:
            return []

        def handed_on(_: int, packet: Packet) -> list[tuple[int, Packet]]:
            return [(50_000, packet._replace(src="10.8.0.1"))]

        assert kinds(ended)[-2:] == [
            "10 packets on links, 0 handed on by hosts, 9 arrived, 1 with an expired time to live",
            "lawful between links",
        ]
        assert "came from nowhere: 10" in kinds(handed_on)

    def test_a_packet_that_came_back_to_its_sender(self) -> None:
        """Its sender drops it, so that it is as good as lost."""
        text = Net(lambda _, packet: [(50_000, packet)], [Packet(1)]).text.replace("c,0,submit,pipe,3", "c,0,submit,pipe,2")
        status, lines = self.told(text)
        assert status == 1
        assert lines[-4] == "sent back to its sender: 1"
        assert lines[-2:] == ["2 packets on links, 1 handed on by hosts, 0 arrived", "unlawful between links"]
        status, lines = self.told(text.replace("#,pipe,1", "#,routes,none\n#,pipe,1", 1))
        assert (status, lines[-2].split(", ", 3)[3]) == (0, "1 back at their senders, as while routes change")

    def test_groups_that_routers_may_hand_on(self) -> None:
        """None, or one on each other link, but for a faulty one."""
        groups = [Packet(number, dst="239.1.2.3") for number in range(10)]
        for router, wanted in (
            (lambda number, packet: [], {}),
            (good, {}),
            (lambda number, packet: good(number, packet)[: number % 2], {}),
            (lambda number, packet: [(50_000, packet)] * (1 + (number == 4)), {"came twice": 1}),
            (
                lambda number, packet: [(50_000, packet._replace(content=packet.content + (number == 4) * 99))],
                {"came from nowhere": 1},
            ),
        ):
            assert self.kinds(router, packets=groups) == wanted

    def test_each_fault_among_other_packets_is_found(self) -> None:
        """One in each of 120 transcripts, beside packets that routers rightly don't hand on."""

        def is_handed_on(packet: Packet) -> bool:
            return not packet.last and packet.dst == "10.8.0.2"

        def router(number: int, packet: Packet) -> list[tuple[int, Packet]]:
            return good(number, packet) if is_handed_on(packet) else []

        chosen = Random(6)
        faults = ("lost", "changed", "twice", "forged", "swapped")
        packets = [
            Packet(1 + place, dst=chosen.choice(("10.8.0.2",) * 3 + ("224.0.0.5", "239.1.1.1")), last=chosen.random() < 0.2)
            for place in range(80)
        ]
        assert faults_of(Net(router, packets).text) == {}
        there = [number for number, packet in enumerate(packets, 1) if is_handed_on(packet)]
        for trial in range(120):
            fault, at, other = faults[trial % len(faults)], chosen.choice(there[:-1]), chosen.getrandbits(63)

            def faulty(number: int, packet: Packet) -> list[tuple[int, Packet]]:
                if number != at:
                    return router(number, packet)
                return {
                    "lost": [],
                    "changed": [(50_000, packet._replace(content=packet.content ^ 1 << other % 63))],
                    "twice": [(50_000, packet)] * 2,
                    "forged": [(50_000, packet), (60_000, packet._replace(content=other))],
                    "swapped": [((there[there.index(at) + 1] - at) * MS + 60_000, packet)],
                }[fault]

            assert faults_of(Net(faulty, packets).text) != {}, (fault, at)

    def test_ipv6_by_its_stand_ins(self) -> None:
        stand_ins = "".join(f"#,address,240.0.0.{host},fd08:0000:0000:0000:0000:0000:0000:000{host}\n" for host in (1, 2))
        packets = [Packet(place, "240.0.0.1", "240.0.0.2") for place in range(5)]
        text = Net(good, [packet._replace(src="10.8.0.1") for packet in packets]).text.replace(",10.8.0.1,240", ",240.0.0.1,240")
        status, lines = self.told(text.replace("#,pipe,1,", stand_ins + "#,pipe,1,", 1))
        assert (status, lines[-2]) == (0, "10 packets on links, 5 handed on by hosts, 5 arrived")

    def test_what_a_host_leads_outside(self) -> None:
        """The router gets packets for 192.0.2.1 and sends on answers of it, which is no fault where it leads outside."""

        def router(number: int, packet: Packet) -> list[tuple[int, Packet]]:
            return [(0, packet._replace(src=packet.dst, dst=packet.src, content=packet.content + 1))]

        text = Net(router, [Packet(1, dst="192.0.2.1")]).text.replace("c,0,submit,pipe,3", "c,0,submit,pipe,2")
        status, lines = self.told(text)
        assert (status, "lost in a host: 1" in lines, "came from nowhere: 1" in lines) == (1, True, True)
        status, lines = self.told(text.replace("#,pipe,1", "#,outside,r\n#,pipe,1", 1))
        assert (status, lines[-2:]) == (0, ["2 packets on links, 0 handed on by hosts, 2 arrived", "lawful between links"])
        assert self.told(text.replace("#,pipe,1", "#,outside,b\n#,pipe,1", 1))[0] == 1

    def test_files_that_are_none(self) -> None:
        for text, wanted in (
            ("x\n", "net.history line 1: no history of dummynet, and no live session"),
            (
                "dummynet-live,1\nc,0,submit,pipe,1,10.0.0.1,10.0.0.2,17,1,2,1000,0,0\nr,queued,0,0,0\nend,1\n",
                "net.history: no remark says between which hosts pipe 1 is: hinge net writes them",
            ),
            (
                Net(good, [Packet(1)]).text.replace("r,queued,0,0,0", "r,queued,x,0,0"),
                "net.history line 19: not as a history has it",
            ),
        ):
            (folder() / "lone").mkdir(exist_ok=True)
            (folder() / "lone" / "net.history").write_text(text)
            done = run("look", "lone")
            assert (done.returncode, done.stdout, done.stderr) == (4, "", f"hinge look: lone/{wanted}\n")
        head = "way  packets  lost  full  Mbit/s  mean ms  p99 ms"
        nothing = [head, "", "0 packets on links, 0 handed on by hosts, 0 arrived", "lawful between links"]
        assert self.told("dummynet-live,1\nend,0\n") == (0, nothing)
