"""A link's words mean the same in options, nets, timelines, changes, marks of tests, hingetulip.aio and lines."""

import re
import tempfile
from pathlib import Path
from typing import Callable, Iterator

import pytest

from hinge.checks.lines import judged_lines
from hinge.net.described import Described, NetError
from hinge.net.description import read_description
from hinge.net.net_plan import NetPlan
from hinge.command_line import Parser
from hinge.run.options import add_link, add_run
from hinge.run.plan_of_options import plan_of
from hinge.run.changes import Change
from hinge.run.plan import Plan
from hinge.run.settings import LiveOptions
from hinge.run.words import Wrong
from hinge.testing.marks import ends_of
from hingetulip import LineError, aio
from hingetulip.aio.options import Options
from hingetulip_words.explained import explained
from hingetulip_words.presets import PRESETS
from hingetulip_words.values import EXTRAS, SHARES

NO_WORDS = "no words of a link (example: 10Mbit/s 20ms)"
ROOM = "out of range; a queue has room for 1 to 10000 packets, or for 1 to 1024Kbytes"
MASK = "a mask names the fields that tell flows apart; write mask src-ip"
OF_A_RUN = "of a whole run; write it in --up, --down or a line `link`, from the beginning on"
JITTER = "write jitter 5ms, a whole number from 1ms to 1000ms"
NONE = "dummynet has no such option; leave it and its value out"

# What is typed, and the words that are configured, or what is said of it; the same everywhere.
SAME = {
    "8mbits/S": "bw 8mbits/S",
    "1KByte/s": "bw 1KByte/s",
    "bw 1000Gbit/s": "bw 1000Gbit/s",
    "1001Gbit/s": "'1001Gbit/s': out of range; a bandwidth is 0 to 1000Gbit/s",
    "bw 99999999999999999999Gbit/s": "'bw 99999999999999999999Gbit/s': out of range; a bandwidth is 0 to 1000Gbit/s",
    "8M": "'8M': not a bandwidth; write 8Mbit/s",
    "08Mbit/s": "'08Mbit/s': not a bandwidth; write 8Mbit/s",
    "20ms": "delay 20ms",
    "delay 20": "delay 20",
    "delay 3600000": "delay 3600000",
    "020ms": "'020ms': not a delay; write 20ms",
    "delay 020": "'delay 020': not a delay; write 20ms",
    "3600001ms": "'3600001ms': out of range; a delay is 0 to 3600000ms",
    "1.5ms": "'1.5ms': a delay is whole milliseconds, and this is none; write 1ms or 2ms",
    "100us": "'100us': dummynet has no delay below a millisecond, and no audit could judge one; leave it out, or write 1ms",
    "1s": "'1s': not a delay; write 1000ms",
    "20 ms": "'20 ms': a number and its unit are one word; write 20ms",
    "queue 100": "queue 100",
    "queue 64kbyte": "queue 64kbyte",
    "queue 0": f"'queue 0': {ROOM}",
    "queue 1025KB": "'queue 1025KB': more than the 1024 Kbytes (or 10000 packets) that a queue has at most; write 1024Kbytes",
    "queue 064": "'queue 064': not a queue limit; write packets, as 50 (1 to 10000), or 64Kbytes (1 to 1024)",
    "100packets": "'100packets': a queue limit has its word before it; write queue 100",
    "loss 1%": "plr 0.01",
    "loss 100%": "plr 1",
    "loss 0.5%": "plr 0.005",
    "loss 101%": "'loss 101%': out of range; a loss is 0% to 100%",
    "loss .5%": "'loss .5%': a loss is a percentage here; write it as loss 1%",
    "loss 1": "'loss 1': a loss is a percentage here; write loss 1%, or plr 1 for a part of one",
    "loss=1%": "'loss=1%': a blank parts an option from its value; write loss 1%",
    "plr .5": "plr .5",
    "plr 1.": "plr 1.",
    "plr .": "'plr .': not a loss rate; write a rate from 0 to 1, as 0.01 for 1 %",
    "plr 5": "'plr 5': a loss rate is at most 1; write 0.05 for 5 %",
    "plr 1e-3": "'plr 1e-3': not a loss rate; write 0.001",
    "plr 1%": "'plr 1%': a loss rate isn't a percentage; write 0.01",
    "buckets 64": "buckets 64",
    "buckets 15": "'buckets 15': out of range; buckets are 16 to 65536",
    "mask all": "mask all",
    "mask src-ip 0XFF proto 7": "mask src-ip 0XFF proto 7",
    "mask proto 0x1ff": "'proto 0x1ff': out of range; a mask of proto has at most 8 bits",
    "mask": f"'mask': {MASK} 0xffffffff, or dst-ip, src-port, dst-port, proto, all",
    "mask /24": f"'mask /24': {MASK} 0xffffff00, or dst-ip, src-port, dst-port, proto, all",
    "bw": "'bw': its value is missing; write 8Mbit/s, 300Kbit/s or 1MByte/s",
    "loss": "'loss': its value is missing; write loss 1%",
    "weight 3": "'weight': an option of queues, and this line is of a pipe; ",
    "latency 20": "'latency': not an option; write delay",
    "red 1/2/3": "'red': ipfw(8) has it, and this program leaves it out; leave it and its values out",
    "pipe 1 config bw 5Mbit/s": "'pipe': a link has the options alone; leave out all before them, or give the whole line by --line",
    "8Mbit/s bw 9Mbit/s": "'bw 9Mbit/s': a second bandwidth beside '8Mbit/s'; write one of them",
    "20ms 20ms": "'20ms': a second delay beside '20ms'; write one of them",
    "1.5Mbit/s": "'1.5Mbit/s': not a bandwidth; write 1500Kbit/s",
    "10Mbit/s,20ms": "'10Mbit/s,20ms': blanks alone part the words; write 10Mbit/s 20ms",
    "10Mbit/s; 20ms": "'10Mbit/s;': ends in ';', and blanks alone part the words; write 10Mbit/s",
    "delay 0.1": "'delay 0.1': dummynet has no delay below a millisecond, and no audit could judge one; leave it out, or write 1ms",
    "20": "'20': a number without a unit; write 20ms for a delay, 20Mbit/s for a bandwidth or queue 20",
    "1%": "'1%': a percentage of what; write loss 1%",
    "drop 5%": "'drop': not an option; write loss",
    "delay 5 20ms": "'20ms': a second delay beside 'delay 5'; write one of them",
    "loss 1% plr 0.5": "'plr 0.5': a second loss rate beside 'loss 1%'; write one of them",
    "5Mbit/s  20ms queue 100 loss 1% # slow": "bw 5Mbit/s delay 20ms queue 100 plr 0.01",
}
SHARES_OF_ALL = [word for word in SHARES if word != "corrupt"]  # which sim_net lacks
# What a run and a link of sim_net do beside dummynet, from their beginning on; a change and the options of a pipe alone refuse the word.
OF_RUNS = {
    "20ms jitter 5ms": "delay 20ms",
    **{f"{word} {share}": "" for word in SHARES_OF_ALL for share in ("0%", "0.5%", "100%")},
    **{f"{word} 101%": f"'{word} 101%': not a share of the packets; write {word} 1%" for word in SHARES_OF_ALL},
    "jitter 0ms": f"'jitter 0ms': not a jitter; {JITTER}",
    "jitter 1001ms": f"'jitter 1001ms': not a jitter; {JITTER}",
    "jitter 5": f"'jitter 5': not a jitter; {JITTER}",
    "jitter": f"'jitter': its value is missing; {JITTER}",
    "jitter 1ms jitter 2ms": "'jitter 2ms': a second jitter beside 'jitter 1ms'; ",
    "reorder 5%": "'reorder': no link reorders by a share; write jitter 5ms, by which packets overtake each other",
}
EMPTY = ("", "# nothing")  # to change a link into one without words is no use; to begin so is
OF_EMPTY = ("--down", "a timeline")  # which say another thing of an empty link


def of_option(text: str) -> str:
    parser = Parser()
    add_link(parser), add_run(parser.add_argument_group("the run"))
    return plan_of(LiveOptions(**vars(parser.parse_args(["--down", text, "--control", "open"])), more_files=()), 1500).configured[0]


def net_plan(text: str) -> NetPlan:
    with tempfile.TemporaryDirectory() as folder:
        (path := Path(folder, "a.net")).write_text(f"host a\nhost b\n{text}\n")
        return NetPlan(read_description(str(path)), 1500)


def of_change(text: str) -> str:
    [change] = Plan().read(f"down {text}", 5)
    assert isinstance(change, Change)
    return change.line


def of_timeline(text: str) -> str:
    plan = Plan()
    with tempfile.NamedTemporaryFile("w+") as file:
        file.write(f"1s down {text}\n")
        file.flush()
        plan.timeline(file.name)
    return plan.changes.lines[-1].line


def of_python(text: str) -> str:
    net = Described(Path(), "", None)
    net.link("a", "b", text)
    return net_plan(net.lines[-1]).plan.configured[0]


def aio_link(text: str, is_change: bool) -> str:
    with aio.Network() as net:
        link = net.link(net.host("10.0.0.1"), net.host("10.0.0.2"), "" if is_change else text)
        if is_change:
            link.change(text)
        return link.line


def of_mark(text: str) -> str:
    mark = pytest.Mark("link", (text, "1ms"), {}, _ispytest=True)
    return f"pipe 1 config {Options(ends_of(mark).there)}"


RUN = {
    "--down": of_option,
    "a net": lambda text: net_plan(f"link a b {text}").plan.configured[0],
    "a net in Python": of_python,
    "aio": lambda text: aio_link(text, False),
}
CHANGE = {
    "a timeline": of_timeline,
    "hinge change": of_change,
    "a net's line at": lambda text: net_plan(f"link a b\nat 1s a b down {text}").plan.changes.lines[-1].line,
}
ELSEWHERE = {"a mark": of_mark}
WAYS = {**RUN, **CHANGE, **ELSEWHERE, "aio, a change": lambda text: aio_link(text, True)}


def answer(way: Callable[[str], str], text: str) -> str:
    """Returns the configured words, or the message on the first wrong word, without its place and the whole words."""
    try:
        return way(text).partition("config")[2].strip()
    except (Wrong, LineError, NetError) as wrong:
        return re.sub(r"^('down [^']*': |.*?(?='|no words))", "", str(wrong).partition("; in full: ")[0], count=1)


def cases() -> Iterator[tuple[str, str, str]]:
    for text, wanted in SAME.items():
        yield from ((name, text, wanted) for name in WAYS)
    for text, run in OF_RUNS.items():
        word = next(word for word in (*EXTRAS, "reorder") if word in text)
        change = run if word == "reorder" else f"'{word}': {OF_A_RUN}"
        for ways, wanted in ((RUN, run), (CHANGE, change), (ELSEWHERE, f"'{word}': {NONE}")):
            yield from ((name, text, wanted) for name in ways)
    for ways, wanted in ((RUN, ""), (CHANGE, NO_WORDS), (ELSEWHERE, "")):
        yield from ((name, text, wanted) for name in ways for text in EMPTY if name not in OF_EMPTY)
    for name in WAYS:
        lacks = {"aio": "no packet has a checksum here, which would discard it; write loss 1%", "a mark": NONE}
        why = OF_A_RUN if name in CHANGE or name == "aio, a change" else lacks.get(name, "")
        yield name, "corrupt 1%", f"'corrupt{' 1%' if name == 'aio' else ''}': {why}" if why else ""
    yield from [("--down", "# nothing", f"'# nothing': {NO_WORDS}; an open one is 'bw 0'")]
    yield from (("aio, a change", text, NO_WORDS) for text in ("", "# nothing"))


def test_the_words_mean_the_same_everywhere() -> None:
    wrong = []
    for name, text, wanted in cases():
        told = answer(WAYS[name], text)
        if told != wanted and not (wanted.endswith("; ") and told.startswith(wanted)):
            wrong.append((name, text, told, wanted))
    assert not wrong


def test_presets_are_words_of_a_link() -> None:
    for name, preset in PRESETS.items():
        for text in (preset.up, preset.down):
            assert len({answer(way, text) for way in WAYS.values()}) == 1, name


def test_the_program_takes_what_the_reader_takes_and_its_advice_is_the_readers() -> None:
    """A line contains the options in full, and gets the same message on a wrong value."""
    options = r"(bw|delay|queue|plr|buckets|mask|weight|red|latency|BW)\b"
    texts = [text for text in SAME if re.match(options, text) and ": a second " not in SAME[text]]
    told = {verdict.line: verdict for verdict in judged_lines([f"pipe 1 config {text}".encode() for text in texts])}
    for number, text in enumerate(texts, 1):
        wanted, line = SAME[text], f"pipe 1 config {text}"
        if wanted.startswith("'"):
            advice = wanted.partition("': ")[2]
            assert f": {advice}" in explained(line, told[number].text), (text, explained(line, told[number].text))
        else:
            assert told[number].name == "ok", text
