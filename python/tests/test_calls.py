"""Calls of the module beyond those that test_scenarios.py compares with the reference, against values worked out by hand.

A packet of 1,000 bytes takes 1 ms at 8 Mbit/s.
"""

import unittest
from array import array
from concurrent.futures import ThreadPoolExecutor
from typing import Callable

from hingetulip import Deliveries, Delivery, Fate, FlowStatus, InUseError, Outcome, Packets, RangeError, Shaper

MS = 1_000_000
LINE = "pipe 1 config bw 8Mbit/s delay 20ms queue 1"


class Calls(unittest.TestCase):
    def setUp(self) -> None:
        self.shaper = Shaper()
        self.addCleanup(self.shaper.close)
        self.shaper.configure(LINE)

    def test_reserve(self) -> None:
        self.shaper.configure("queue 3 config pipe 1 mask dst-port 0xffff")
        assert not self.shaper.reserve(pipe=1)
        assert self.shaper.reserve(pipe=9), "nothing is configured, so no room is needed"
        self.shaper.submit(0, 1000, pipe=1)
        self.shaper.submit(0, 1000, queue=3, dport=5)
        assert [True, True, False] == [
            self.shaper.reserve(pipe=1, src=7),
            self.shaper.reserve(queue=3, dport=5),
            self.shaper.reserve(queue=3, dport=6),
        ]
        assert [
            FlowStatus(0, None, 1, 0, 0, 0, 0, 0, 0, 0, 0, 0, 1, 0),
            FlowStatus(1, 3, 1, 0, 0, 0, 0, 5, 0, 0, 0, 0, 1, 0),
        ] == self.shaper.show()
        for given, error in (
            ({}, TypeError),
            ({"pipe": 1, "queue": 1}, TypeError),
            ({"pipe": 0}, RangeError),
            ({"pipe": 2**16}, RangeError),
            ({"queue": 1, "src": -1}, RangeError),
            ({"queue": 1, "dport": "1"}, TypeError),
        ):
            with self.assertRaises(error):
                self.shaper.reserve(**given)  # type: ignore[arg-type]

    def test_show(self) -> None:
        self.shaper.configure("queue 3 config pipe 1 mask src-ip 0xff dst-port 1 proto 0xff")
        for _ in range(3):
            self.shaper.submit(0, 1000, queue=3, src=0x0A000001, dst=2, proto=17, sport=4, dport=5)
        self.shaper.submit(0, 500, pipe=1)
        assert [
            FlowStatus(0, 3, 1, 1, 0, 17, 0, 1, 2, 2000, 0, 0, 1, 0),
            FlowStatus(1, None, 1, 0, 0, 0, 0, 0, 0, 0, 0, 0, 1, 0),
        ] == self.shaper.show()
        self.shaper.configure("queue 3 delete")
        assert (0, 0, 1, 2) == self.shaper.show()[0][-6:-4] + self.shaper.show()[0][-2:]

    def test_lists_that_outgrow_their_room(self) -> None:
        self.shaper.configure("pipe 1 config mask src-ip 0xffff")
        for count in (64, 65, 1000):
            fates = self.shaper.submit_many(Packets(count, moment=0, length=1, pipe=1, src=range(count)))
            assert list(range(count)) == list(fates.flow)
            assert count == len(self.shaper.show())
            assert list(fates.packet) == [delivery.packet for delivery in self.shaper.collect(0)]

    def test_words_follow_from_the_seed(self) -> None:
        told = []
        for seed in (1, 1, 2):
            with Shaper(seed=seed) as shaper:
                shaper.configure("pipe 1 config plr 0.5")
                told.append(
                    (
                        [shaper.submit(0, 1, pipe=1).outcome for _ in range(100)],
                        list(shaper.submit_many(Packets(100, moment=0, length=1, pipe=1)).outcome),
                    )
                )
        assert told[0] == told[1]
        assert told[0] != told[2]
        for outcomes in told[0]:
            assert 25 < outcomes.count(Outcome.LOST) < 75

    def test_a_shaper_for_each_thread(self) -> None:
        def told(number: int) -> list[Delivery]:
            with Shaper() as shaper:
                shaper.configure("pipe 1 config bw 8Mbit/s queue 1000")
                for moment in range(500):
                    shaper.submit(moment, 1000 + number, pipe=1)
                return shaper.collect(2**62)

        with ThreadPoolExecutor(4) as pool:
            assert [told(number) for number in range(4)] == list(pool.map(told, range(4)))

    def test_a_call_in_the_midst_of_another_raises(self) -> None:
        class Meddling:
            """A number that makes a call of the shaper while another call reads it, as a signal handler may."""

            def __init__(self, call: Callable[[], object]) -> None:
                self.call = call

            def __index__(self) -> int:
                self.call()
                return 7

        shaper = self.shaper
        for call in (
            shaper.wake,
            shaper.show,
            shaper.close,
            lambda: shaper.submit(0, 1000, pipe=1),
            lambda: shaper.configure("pipe 2 config"),
            lambda: shaper.collect(0),
            lambda: shaper.submit_many(Packets(1, moment=0, length=1, pipe=1)),
        ):
            with self.assertRaises(InUseError):
                shaper.submit(Meddling(call), 1000, pipe=1)  # type: ignore[arg-type]
            with self.assertRaises(InUseError):
                shaper.advance(Meddling(call))  # type: ignore[arg-type]
        assert Fate(Outcome.QUEUED, 3, 0, 0) == shaper.submit(3, 1000, pipe=1)

    def test_threads_that_share_a_shaper_get_true_answers_or_an_error(self) -> None:
        shaper, refused = self.shaper, []

        def submitted(number: int) -> list[int]:
            packets = []
            for _ in range(2000):
                try:
                    packets.append(shaper.submit(0, 1000, pipe=number, word=1).packet)
                except InUseError:
                    refused.append(number)
            return packets

        for number in range(1, 5):
            shaper.configure(f"pipe {number} config")
        with ThreadPoolExecutor(4) as pool:
            told = sorted(packet for packets in pool.map(submitted, range(1, 5)) for packet in packets)
        assert list(range(8000 - len(refused))) == told

    def test_no_rule_and_a_second_beginning(self) -> None:
        for rule in (2, 2**32, -1):
            with self.assertRaises(RangeError):
                Shaper(rule=rule)  # type: ignore[arg-type]
        self.shaper.submit(5, 1000, pipe=1)
        self.shaper.__init__()  # type: ignore[misc]
        assert [] == self.shaper.show()

    def test_a_line_in_bytes_of_any_kind(self) -> None:
        for line in (b"pipe 2 config", bytearray(b"pipe 3 config"), memoryview(b"pipe 4 config")):
            self.shaper.configure(line)
        assert [Outcome.QUEUED] * 3 == [self.shaper.submit(0, 1, pipe=pipe).outcome for pipe in (2, 3, 4)]

    def test_columns(self) -> None:
        packets = Packets(3, moment=array("Q", [0, 0, MS]), length=1000, pipe=1, word=0)
        fates = self.shaper.submit_many(packets)
        assert ([0, 0, MS], [0, 0, 0], [0, 1, 2], [0, 0, 0]) == tuple(
            map(list, (fates.at, fates.flow, fates.packet, fates.outcome))
        )
        taken = self.shaper.collect_many(22 * MS)
        assert ([21 * MS, 22 * MS], [0, 1], [0, 0], [0, MS]) == tuple(map(list, (taken.due, taken.packet, taken.flow, taken.start)))
        assert ["<Packets: 3>", "<Fates: 3>", "<Deliveries: 2>"] == list(map(repr, (packets, fates, taken)))
        packets.moment[:] = array("Q", [30 * MS] * 3)
        packets.length[2] = 500
        assert [0, 0, 2] == list(self.shaper.submit_many(packets).outcome)

    def test_a_sequence(self) -> None:
        fates = self.shaper.submit_many(Packets(3, moment=0, length=1000, pipe=1))
        assert [Fate(Outcome.QUEUED, 0, 0, 1), Fate(Outcome.FULL, 0, 0, None)] == fates[1:]
        assert (fates[2], fates[0]) == (fates[-1], fates[-3])
        assert list(fates) == [fates[0], *fates[1:]]
        for place in (3, -4):
            self.assertRaises(IndexError, fates.__getitem__, place)
        taken = self.shaper.collect_many(21 * MS)
        assert isinstance(taken, Deliveries)
        assert [Delivery(21 * MS, 0, 0, 0)] == list(taken)

    def test_nothing(self) -> None:
        assert [] == list(self.shaper.submit_many(Packets(0, moment=0, length=1, pipe=1)))
        assert [] == list(self.shaper.collect_many(0))

    def test_a_packet_that_is_not_answered(self) -> None:
        packets = Packets(3, moment=0, length=[1000, 0, 1000], pipe=1)
        with self.assertRaises(RangeError) as raised:
            self.shaper.submit_many(packets)
        assert [Fate(Outcome.QUEUED, 0, 0, 0)] == list(raised.exception.fates or ())
        assert 1 == self.shaper.show()[0].started + self.shaper.show()[0].queued

    def test_values_that_do_not_fit(self) -> None:
        for values in (dict(moment=-1), dict(length=65536), dict(src=[0, 2**32, 0]), dict(proto=256)):
            self.assertRaises(RangeError, Packets, 3, **{"moment": 0, "length": 1, "pipe": 1, **values})
        for values, error in (
            (dict(moment=[1, 2]), ValueError),
            (dict(length=1.5), TypeError),
            (dict(sport=["x"] * 3), TypeError),
            (dict(queue=1), TypeError),
            (dict(pipe=None), TypeError),
        ):
            self.assertRaises(error, Packets, 3, **{"moment": 0, "length": 1, "pipe": 1, **values})
