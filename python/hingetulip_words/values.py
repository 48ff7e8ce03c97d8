"""The values of options: their format in dummynet, their meaning, and advice on wrong values."""

from __future__ import annotations

import re
from fractions import Fraction
from typing import Callable, NamedTuple, Optional

FORMS = {  # the advice on each option's format
    "bw": "write 8Mbit/s, 300Kbit/s or 1MByte/s",
    "delay": "write whole milliseconds, as 20 or 20ms, up to 3600000",
    "queue": "write packets, as 50 (1 to 10000), or 64Kbytes (1 to 1024)",
    "plr": "write a rate from 0 to 1, as 0.01 for 1 %",
    "weight": "write 1 to 100",
    "buckets": "write 16 to 65536",
    "pipe": "write 1 to 65535",
}
LONGEST_WORD = 200  # letters; all accepted values are shorter
FIELD_BITS = {"src-ip": 32, "dst-ip": 32, "src-port": 16, "dst-port": 16, "proto": 8}  # the widths of a mask's fields in bits
SCALE = {"": 1, "k": 10**3, "m": 10**6, "g": 10**9}  # the factors before a bandwidth's unit
FACTOR, PER_SECOND = f"[{''.join(SCALE)}]?", "(?:bits?|bytes?)/s"  # the parts of a bandwidth's unit
MORE_SCALES = SCALE | {"t": 10**12}  # also the factors that people write, and dummynet refuses
# Patterns that only wrong words need are texts, so that no start compiles them.
BANDWIDTH = (
    rf"(\d+(?:\.\d+)?)([{''.join(MORE_SCALES)}]?)i?"
    "(b|bit|bits|byte|bytes|bps|b/s|bit/sec|bits/sec|bit/s|bits/s|byte/s|bytes/s|byte/sec|)"
)
UNITS = "ns=1/1000000 us,µs,usec,usecs=1/1000 ms,msec,msecs,milliseconds=1 s,sec,secs,second,seconds=1000 min,minute,minutes=60000"
TIMES = dict[str, Fraction]()  # the ms in each unit of time
for unit in UNITS.split():
    names, _, ms = unit.partition("=")
    TIMES.update(dict.fromkeys(names.split(","), Fraction(ms)))
DELAY = rf"(-?)(\d+(?:\.\d+)?)({'|'.join(TIMES)})"
ROOM = r"(\d+)(kib|mb|mbyte|mbytes|m|mib|b|byte|bytes|pkt|pkts|packet|packets|p|slots?|k|kb|kbytes?)"
MOST_KBYTES = 1024  # the greatest queue limit in Kbytes
EXTRAS = {"jitter": "5ms", "duplicate": "1%", "corrupt": "1%"}  # a link's words that dummynet doesn't have, each with an example
SHARES = tuple(word for word, example in EXTRAS.items() if example.endswith("%"))  # the words with a percentage of packets
EXAMPLES = ("10Mbit/s", "20ms", "queue 100", "loss 1%", *map(" ".join, EXTRAS.items()))  # an example of each link word


class Form(NamedTuple):
    """The format of a value in dummynet."""

    pattern: re.Pattern[str]
    least: int  # the least number, in the value's default unit
    most: int  # the greatest number
    range: str  # the range, in words


ANY_CASE = re.ASCII | re.IGNORECASE
NUMBER = r"(0|[1-9]\d*)"
PERCENT = re.compile(r"(\d+(?:\.\d+)?)%", re.ASCII)
TAKEN = {  # the format of each option's values, and of the values in a mask
    "bw": Form(re.compile(f"{NUMBER}({FACTOR})({PER_SECOND})?", ANY_CASE), 0, 10**12, "a bandwidth is 0 to 1000Gbit/s"),
    "delay": Form(re.compile(NUMBER + "(ms)?", re.ASCII), 0, 3_600_000, "a delay is 0 to 3600000ms"),
    "queue": Form(
        re.compile(NUMBER + "(kbytes?|kb|k)?", ANY_CASE),
        1,
        10_000,
        "a queue has room for 1 to 10000 packets, or for 1 to 1024Kbytes",
    ),
    "plr": Form(re.compile(r"(?=\.?\d)\d{0,18}(\.\d{0,18})?", re.ASCII), 0, 1, "a loss rate is 0 to 1, as 0.01 for 1 %"),
    "weight": Form(re.compile(NUMBER, re.ASCII), 1, 100, "a weight is 1 to 100"),
    "buckets": Form(re.compile(NUMBER, re.ASCII), 16, 65_536, "buckets are 16 to 65536"),
    "pipe": Form(re.compile(NUMBER, re.ASCII), 1, 65_535, "pipes are 1 to 65535"),
}
MASK_BITS = re.compile(NUMBER + r"|0[xX][\da-fA-F]+", re.ASCII)
TAKEN |= {name: Form(MASK_BITS, 0, 2**bits - 1, f"a mask of {name} has at most {bits} bits") for name, bits in FIELD_BITS.items()}


class Advice(NamedTuple):
    """Advice on a wrong word."""

    wrong: str  # the error
    right: str  # the advice
    word: Optional[str] = None  # the word's replacement, if there is one


def decimal(value: Fraction) -> str:
    """Returns the shortest text for a number, with at most 18 decimal places and without an exponent."""
    text = f"{int(value * 10**18):019d}"
    return f"{text[:-18]}.{text[-18:]}".rstrip("0").rstrip(".")


def scaled(number: int) -> str:
    """Returns a number above 0 with the letter of the greatest factor that leaves a whole number, such as 10M."""
    letter, scale = next((letter, scale) for letter, scale in reversed(SCALE.items()) if number % scale == 0)
    return f"{number // scale}{letter.upper()}"


def bandwidth(text: str) -> Advice:
    """Returns advice on a wrong bandwidth: the bandwidth in dummynet's units, if the text means one."""
    parts = re.fullmatch(BANDWIDTH, text.lower())
    if not parts:
        return Advice("not a bandwidth", FORMS["bw"])
    number, letter, unit = parts[1], parts[2], parts[3]
    value = Fraction(number) * MORE_SCALES[letter]
    if not value or value.denominator > 1:
        return Advice("not a bandwidth", FORMS["bw"])
    if "byte" in unit or "B" in text[len(number) + len(letter) :]:
        word = f"{scaled(int(value))}Byte/s"
        return Advice("not a bandwidth", f"write {word} ({word.replace('Byte', 'bit')} if bits are meant)", word)
    word = f"{scaled(int(value))}bit/s"
    return Advice("not a bandwidth", f"write {word}", word)


def delay(text: str) -> Advice:
    """Returns advice on a wrong delay: the delay in whole milliseconds, if the text means one."""
    parts = re.fullmatch(f"{DELAY}?", text.lower())
    if not parts:
        return Advice("not a delay", FORMS["delay"])
    if parts[1]:
        return Advice("a delay can't be negative", FORMS["delay"])
    value = Fraction(parts[2]) * TIMES.get(parts[3], 1)
    if value.denominator == 1:
        return Advice("not a delay", f"write {value}ms", f"{value}ms")
    near = max(1, round(value))
    if value < 1:
        return Advice(
            "dummynet has no delay below a millisecond, and no audit could judge one", "leave it out, or write 1ms", str(near)
        )
    return Advice("a delay is whole milliseconds, and this is none", f"write {int(value)}ms or {int(value) + 1}ms", str(near))


def room(text: str) -> Advice:
    """Returns advice on a wrong queue limit: the limit in packets or Kbytes, if the text means one."""
    parts = re.fullmatch(ROOM, text.lower())
    if not parts:
        return Advice("not a queue limit", FORMS["queue"])
    number = int(parts[1])
    first_letter = parts[2][0]
    if first_letter in "ps":  # packets or slots
        return Advice("not a queue limit", f"write {number}, which counts packets", str(number))
    kbytes = {"m": number * 1024, "k": number, "b": -(-number // 1024)}[first_letter]
    if kbytes > MOST_KBYTES:
        return Advice("more than the 1024 Kbytes (or 10000 packets) that a queue has at most", "write 1024Kbytes", "1024Kbytes")
    return Advice("not a queue limit", f"write {kbytes}Kbytes", f"{kbytes}Kbytes")


def loss(text: str) -> Advice:
    """Returns advice on a wrong loss rate: the rate as a fraction, if the text means one."""
    if percentage := PERCENT.fullmatch(text):
        rate = decimal(Fraction(percentage[1]) / 100)
        return Advice("a loss rate isn't a percentage", f"write {rate}", rate)
    try:
        value = Fraction(text)
    except (ValueError, ZeroDivisionError):
        return Advice("not a loss rate", FORMS["plr"])
    if value > 1:
        rate = decimal(value / 100)
        return Advice("a loss rate is at most 1", f"write {rate} for {text} %", rate if value <= 100 else None)
    if value < 0:
        return Advice("a loss rate can't be negative", FORMS["plr"])
    return Advice("not a loss rate", f"write {decimal(value)}", decimal(value))


def mask_bits(text: str, width: int = 32) -> Optional[str]:
    """Returns the bits of a mask for a netmask, or for a prefix length of at most `width`; None for other texts."""
    if re.fullmatch(r"\d+(\.\d+){3}", text):
        numbers = [int(part) for part in text.split(".")]
        return "0x" + "".join(f"{number:02x}" for number in numbers) if max(numbers) < 256 else None
    prefix = re.fullmatch(r"/(\d+)", text)
    if prefix is None or int(prefix[1]) > width:
        return None
    all_bits = (1 << width) - 1
    host_bits = (1 << (width - int(prefix[1]))) - 1
    return f"0x{all_bits & ~host_bits:0{width // 4}x}"


def mask_advice(field: str, text: str) -> Advice:
    """Returns advice on the wrong value of a mask's field."""
    if bits := mask_bits(text, FIELD_BITS.get(field, 32)):
        return Advice("a mask is the bits that tell flows apart, and no netmask", f"write {bits}", bits)
    return Advice("not the bits of a mask", "write them as 0xffffffff")


READERS: dict[str, Callable[[str], Advice]] = {"bw": bandwidth, "delay": delay, "queue": room, "plr": loss}  # advice by option


def value_number(option: str, text: str) -> Fraction:
    """Returns the number in an option's correct value, in the unit of the option's range."""
    if option == "plr":
        return Fraction(text.rstrip(".") or "0")
    if option == "bw" and (bits := TAKEN["bw"].pattern.fullmatch(text)):
        return Fraction(int(bits[1]) * SCALE[bits[2].lower()] * (8 if "byte" in text.lower() else 1))
    return Fraction(int(text, 16) if text[:2].lower() == "0x" else int(re.sub(r"\D", "", text)))


def value_fault(option: str, text: str) -> Optional[Advice]:
    """Returns advice on an option's value; None if the value is correct."""
    bare = text.rstrip(",;")
    if bare and bare != text:
        also = ", and a line one command from the next" if ";" in text else ""
        return Advice(f"ends in {text[len(bare):]!r}, and blanks alone part the words{also}", f"write {bare}", bare)
    form = TAKEN.get(option)
    if form is None or len(text) > LONGEST_WORD or not form.pattern.fullmatch(text):
        return wrong_form(option, text)
    if is_in_range(option, text):
        return None
    is_in_kbytes = option == "queue" and not text.isdigit()
    if option == "plr" or is_in_kbytes:
        return wrong_form(option, text)
    return Advice("out of range", form.range)


def is_in_range(option: str, text: str) -> bool:
    """Returns whether dummynet accepts the number in a value of the right format."""
    most = MOST_KBYTES if option == "queue" and not text.isdigit() else TAKEN[option].most
    return TAKEN[option].least <= value_number(option, text) <= most


def wrong_form(option: str, text: str) -> Advice:
    """Returns advice on a value that isn't in its option's format."""
    if len(text) > LONGEST_WORD:
        return Advice(f"a word of {len(text):,} letters", FORMS.get(option, "write a number"))
    if option in READERS:
        advice = READERS[option](text)
        if advice.word is None or is_in_range(option, advice.word):
            return advice
        return Advice("out of range", TAKEN[option].range)
    if option in FIELD_BITS:
        return mask_advice(option, text)
    return Advice("not a number here", FORMS.get(option, "write a number"))
