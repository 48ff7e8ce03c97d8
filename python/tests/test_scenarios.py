"""The module against the reference: random scenarios, each reply compared."""

import unittest
from itertools import groupby
from random import Random

import hingetulip
from reference import STYLES, FastDummynet, LineFault, answer, bad_line, deliveries, model
from reference import packets_of, parse_line, reply_of, scenarios


class Scenarios(unittest.TestCase):
    def test_one_call_after_the_other(self) -> None:
        for number, (rule, calls, replies) in enumerate(scenarios()):
            with self.subTest(number), hingetulip.Shaper(rule) as shaper:
                for call, wanted in zip(calls, replies):
                    self.assertEqual(wanted, answer(shaper, call, wanted))

    def test_two_shapers_by_turns(self) -> None:
        for (rule, calls, replies), (other_rule, other_calls, other_replies) in zip(scenarios()[::2], scenarios()[1::2]):
            with hingetulip.Shaper(rule) as shaper, hingetulip.Shaper(other_rule) as other:
                for call, wanted, other_call, other_wanted in zip(calls, replies, other_calls, other_replies):
                    self.assertEqual(wanted, answer(shaper, call, wanted))
                    self.assertEqual(other_wanted, answer(other, other_call, other_wanted))

    def test_packets_at_once(self) -> None:
        """Submits that follow one another are one `submit_many`, and a collect is by columns."""
        most = 0
        for number, (rule, calls, replies) in enumerate(scenarios()):
            wanted = iter(replies)
            with self.subTest(number), hingetulip.Shaper(rule) as shaper:
                for kind, group in groupby(calls, type):
                    found = list(group)
                    if kind is model.Submit:
                        self.assertEqual([next(wanted) for _ in found], list(map(reply_of, shaper.submit_many(packets_of(found)))))
                        most = max(most, len(found))
                        continue
                    for call in found:
                        reply = next(wanted)
                        if kind is model.Collect:
                            self.assertEqual(reply.list, deliveries(shaper.collect_many(call.moment)))
                        else:
                            self.assertEqual(reply, answer(shaper, call, reply))
        self.assertGreater(most, 5)

    def test_wake(self) -> None:
        """After each call `wake` tells when the reference starts or delivers a packet next; a collect before it gives nothing."""
        told = 0
        for number, (rule, calls, _) in enumerate(scenarios()):
            net = FastDummynet(rule.name.lower())
            with self.subTest(number), hingetulip.Shaper(rule) as shaper:
                for call in calls:
                    answer(shaper, call, net.apply(call))
                    wake = shaper.wake()
                    self.assertEqual(net.next_moment(), wake)
                    if wake is not None and shaper.advance(0) < wake:
                        before = min(wake - 1, hingetulip.LAST_MOMENT)
                        self.assertEqual([], shaper.collect(before))
                        net.apply(model.Collect(before))
                        told += 1
        self.assertGreater(told, 1000)

    def test_a_scenario_by_waking(self) -> None:
        """Collected at each `wake`, a scenario's packets come as they do in one collect at the end, each at its due moment."""
        for number, (rule, calls, _) in enumerate(scenarios()):
            arrivals = [call for call in calls if isinstance(call, (model.Submit, model.Configure))]
            net, found, last = FastDummynet(rule.name.lower()), [], 0
            with self.subTest(number), hingetulip.Shaper(rule) as shaper:
                for call in [*arrivals, model.Advance(model.MAX_MOMENT)]:
                    moment = getattr(call, "moment", 0)
                    while (wake := shaper.wake()) is not None and wake <= moment:
                        for delivery in shaper.collect(wake):
                            self.assertEqual(max(wake, last), max(delivery.due, last))
                            found.append(delivery)
                    last = max(last, moment)
                    net.apply(call)
                    answer(shaper, call, model.Status(()))
                self.assertEqual(net.apply(model.Collect(model.MAX_MOMENT)).list, deliveries(found))


class Lines(unittest.TestCase):
    def test_the_first_fault_of_a_line(self) -> None:
        rng, kinds = Random(35), set()
        for _ in range(3000):
            line = bad_line(rng, rng.choice(STYLES))
            with self.subTest(line), hingetulip.Shaper() as shaper:
                shaper.configure("pipe 1 config")
                try:
                    parse_line(line)
                except LineFault as fault:
                    with self.assertRaises(hingetulip.LineError) as raised:
                        shaper.configure(line)
                    self.assertEqual((fault.kind, fault.word), (raised.exception.kind, raised.exception.word))
                    self.assertTrue(str(raised.exception).startswith(f"word {fault.word} "), raised.exception)
                    self.assertIn(repr(line), str(raised.exception))
                    kinds.add(fault.kind)
                else:
                    try:
                        shaper.configure(line)
                    except hingetulip.RefusedError:
                        kinds.add("refused")
        self.assertEqual(7, len(kinds), kinds)
