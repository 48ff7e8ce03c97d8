"""Link words: short and in full, and whether the emulator accepts every text that the reader accepts. run/test_link_ways.py tests
the answers to wrong words."""

import random
import re
import unittest

from hingetulip import LineError, Shaper, aio
from hingetulip_words.foreign import amount
from hingetulip_words.link import WordError, in_full, read_link
from hingetulip_words.presets import PRESETS, preset, preset_table
from hingetulip_words.values import EXTRAS
from simulated_hosts import TOP

WORDS = (
    "bw delay queue plr buckets weight mask src-ip dst-ip src-port dst-port proto all 0 1 7 50 100 10000 10001 65536"
    " 3600001 8Mbit/s 0Kbit/s 8mBYTES/S 1000001Mbit/s 20ms 020ms 64K 64kBytes 1025KB .5 1. . 0.01 1.000000000000000001"
    " 0xff 0X1FFFFFFFF 255 ² loss % 1e3 +1 red sched /24"
).split()


class Words(unittest.TestCase):
    def test_words_of_a_queue(self) -> None:
        assert read_link("weight 3 loss 0.5%", "queue") == {"weight": "3", "plr": "0.005"}

    def test_no_number_of_another_tool_has_thousands_of_digits(self) -> None:
        """Python converts at most 4,300."""
        assert [amount("9" * count + "ms", "ms") for count in (3, 5000)] == [999, None]

    def test_the_emulator_takes_what_the_reader_takes_and_no_more(self) -> None:
        """The library decides on random words in full: the reader accepts each text that the library does, without repeated
        options."""
        rng, taken = random.Random(5), 0
        with Shaper() as shaper:
            shaper.configure("pipe 1 config")
            for _ in range(20_000):
                kind, line = rng.choice((("pipe", "pipe 2 config"), ("queue", "queue 2 config pipe 1")))
                words = rng.choices(WORDS, k=rng.randint(0, 4))
                try:
                    options = read_link(" ".join(words), kind)
                except WordError as wrong:
                    if "a second" in str(wrong):
                        continue
                    self.assertRaises(LineError, shaper.configure, f"{line} {' '.join(words)}")
                else:
                    taken += 1
                    shaper.configure(f"{line} {in_full(options)}")
        assert taken > 500

    def test_refused_words_change_no_simulated_link(self) -> None:
        with aio.Network() as net:
            one, other = net.host("10.0.0.1"), net.host("10.0.0.2")
            self.assertRaises(LineError, net.link, one, other, "8Mbit/s jitter 5")
            assert net.links == {}
            link = net.link(one, other, "bw 8Mbit/s delay 20")
            self.assertRaises(LineError, link.change, "queue 0")
            assert link.line == f"pipe {link.pipe} config bw 8Mbit/s delay 20"


def test_they_name_each_word() -> None:
    """Those that dummynet doesn't have."""
    for name in ("LINKS.md", "hinge.1"):
        page = (TOP / "docs" / name).read_text(encoding="utf-8")
        assert [word for word in EXTRAS if not re.search(rf"(`|Ql ){word} ", page)] == [], name


class Presets(unittest.TestCase):
    def test_the_emulator_takes_each(self) -> None:
        with Shaper() as shaper:
            for name, it in PRESETS.items():
                for text in (it.up, it.down):
                    options = read_link(text)
                    assert "bw" in options
                    shaper.configure(f"pipe 1 config {in_full(options)}")
        assert all(len(line) <= 80 for line in preset_table().splitlines())

    def test_the_page_names_each(self) -> None:
        page = (TOP / "docs" / "LINKS.md").read_text(encoding="utf-8")
        section = page.partition("\n## Presets\n")[2].partition("\n## ")[0]
        assert set(PRESETS) == set(re.findall(r"`([\w-]+)`(?=[,| ])", section))

    def test_one_that_is_none(self) -> None:
        self.assertRaisesRegex(ValueError, "^'fiber': not a preset; write fibre$", preset, "fiber")
        self.assertRaisesRegex(ValueError, "^'x25': not a preset; write one of dialup, edge, ", preset, "x25")

    def test_a_path_of_a_preset(self) -> None:
        """The figures are those of the profile Mobile LTE: 12 Mbit/s each way, and 70 ms there and back."""
        with aio.Network() as net:
            there, back = net.path(net.host("10.0.0.1"), net.host("10.0.0.2"), preset="lte")
            assert [it.line for it in (there, back)] == [f"pipe {n} config bw 12Mbit/s delay 35ms queue 250" for n in (1, 2)]
            there, back = net.path(net.host("10.0.0.3"), net.host("10.0.0.2"), back="5ms", preset="3g")
            assert [it.line for it in (there, back)] == [
                "pipe 3 config bw 768Kbit/s delay 150ms queue 20",
                "pipe 4 config delay 5ms",
            ]
