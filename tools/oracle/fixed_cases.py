"""Inputs of the program that are the same in every run: small replays, and each kind of fault and edge of the formats."""

from files import PACKET_HEADER

HEADER = PACKET_HEADER + "\n"
LAST_MOMENT = 2**62


def row(moment=0, target="pipe", number=1, length=1000, word=0) -> str:
    return f"{moment},{target},{number},10.0.0.1,10.0.0.2,17,1000,2000,{length},{word}\n"


def joined(config: str, *rows: str) -> str:
    return "".join((config, "\n--\n", HEADER, *rows))


def to_queues(order: str, moment: int = 0) -> list[str]:
    """A packet to each of these queues, all at one moment."""
    return [row(moment, "queue", number) for number in order]


def two_queues(weight: int, other: int) -> str:
    return f"pipe 1 config bw 8Mbit/s\nqueue 1 config pipe 1 weight {weight}\nqueue 2 config pipe 1 weight {other}"


# fmt: off
SMALL_REPLAYS = {
    "header": "--\n" + HEADER,
    "no-packets": "--\n",
    "nothing": "",
    "rounding": joined("pipe 1 config bw 300Kbit/s delay 50ms", row()),
    "limit-in-slots": joined("pipe 1 config bw 8Mbit/s queue 1", *[row()] * 3, row(1_000_000)),
    "limit-in-bytes": joined("pipe 1 config bw 8Mbit/s queue 1Kbytes", *(row(length=n) for n in (1000, 512, 512, 1, 1))),
    "weights": joined(two_queues(1, 3), *to_queues("11222")),
    "ties": joined(two_queues(1, 1), *to_queues("121")),
    "comes-back": joined(two_queues(1, 3), *to_queues("1122"), *to_queues("1", 3_500_000)),
    "new-busy-period": joined(two_queues(1, 1), *to_queues("11"), *to_queues("221", 10_000_000)),
    "loss-of-half": joined("pipe 1 config plr 0.5", *(row(word=w) for w in (2**30 - 1, 2**31, 2**30, 2**31 + 2**30))),
    "loss-of-all": joined("pipe 1 config plr 1", row(word=2**32 - 1)),
    "loss-of-none": joined("pipe 1 config plr 0", row()),
    "held": joined("pipe 1 config delay 1", row(LAST_MOMENT)),
}
# fmt: on

# fmt: off
LINES = (
    "pipe 0 config", "queue 1 config weight 101 pipe 1", "queue 1 config weight 5", "pipe 1 config red 0.002/3/7/0.1",
    "pipe 1 config bw 1.5Mbit/s", "pipe 1 config bw tun0", "pipe 1 config bw", "ipfw pipe 1 config weight 3",
    "queue 1 config pipe 1 mask dst-ip /24", "# note", "pipe 1 config bw 126GByte/s", "pipe 1 config queue 01",
    "pipe 1 config plr .", "pipe 1 config plr 1.000000000000000001", "pipe 1 config mask", "ipfw", "pipe show 1",
    "queue delete 2 3", "queue 2 delete now", "pipe delete", "ipfw pipe 0 delete", "pipe 1 show", "queue 1 config pipe 3",
    "pipe delete 1", "queue 7 delete", "pipe 1 config\nqueue 1 config pipe 1\npipe 1 delete", "pipe delete show",
    "sched 1 config type wf2q+", "pipe 1 config queue " + "9" * 10000, "pipe 1 config bw 1000G", "pipe 1 config bw 1M bw 2M",
    "pipe 1 config mask all", "pipe 1 config delay 3600001", "\u00e9", "--x", " --", "-- ",
)
# fmt: on

# fmt: off
EDGES_OF_THE_FORMATS = {
    "carriage-returns": "pipe 1 config\r\n--\r\n" + HEADER.replace("\n", "\r\n") + row(),
    "separator-last": "pipe 1 config\n--",
    "separator-alone": "--",
    "second-separator": joined("pipe 1 config", "--\n"),
    "mark-before-configuration": "\ufeffpipe 1 config\n",
    "mark-before-packets": "pipe 1 config\n--\n\ufeff" + HEADER + row(),
    "quoted": "pipe 1 config\n--\n" + ",".join(f'"{x}"' for x in PACKET_HEADER.split(","))
              + '\n"0","pipe","1",10.0.0.1,10.0.0.2,17,1000,2000,"1000",0\n',
    "open-quote": joined("pipe 1 config", '0,pipe,1,10.0.0.1,10.0.0.2,17,1000,2000,1000,"0'),
    "empty-lines": "pipe 1 config\n--\n\n\r\n" + HEADER + "\n\n" + row() + "\n\n",
    "blank-line": joined("pipe 1 config", " \n"),
    "other-header": "--\nfoo,bar\n",
    "header-in-capitals": "--\n" + HEADER.upper(),
    "header-after-blank": "--\n " + HEADER,
    "eleven-fields": joined("pipe 1 config", row().rstrip() + ",\n"),
}
# fmt: on

# fmt: off
ROWS = (
    "0,pipe,1,10.0.0.1,10.0\n", row(LAST_MOMENT + 1), row(LAST_MOMENT), row(5, "queue", 9), row("x"),
    row(target="PIPE"), row(number=0), row(number=65536), row(length=0), row(length=65536), row(word=2**32),
    row("00"), row(number="+1"),
)
# fmt: on

FIELDS = row().rstrip().split(",")
BAD_FIELDS = {"empty": "", "letter": "x", "accent": "\u00e9", "minus": "-0", "digits": "9" * 23, "address": "256.0.0.0"}


def with_field(place: int, text: str) -> str:
    return ",".join([*FIELDS[:place], text, *FIELDS[place + 1 :]]) + "\n"


# Name and standard input.
# fmt: off
JOINED = {
    **SMALL_REPLAYS,
    **{f"line-{i:02}": line + "\n" for i, line in enumerate(LINES)},
    **EDGES_OF_THE_FORMATS,
    **{f"row-{i:02}": joined("pipe 1 config", line) for i, line in enumerate(ROWS)},
    **{f"field-{i}-{name}": joined("pipe 1 config", with_field(i, text))
       for i in range(len(FIELDS)) for name, text in BAD_FIELDS.items()},
}
# fmt: on

HEADER_BYTES = HEADER.encode()

# Name, the words after `replay`, and the files.
# fmt: off
REPLAYS = {
    "files-empty": (("c", "p"), {"c": b"", "p": b""}),
    "files-header": (("c", "p"), {"c": b"", "p": HEADER_BYTES}),
    **{f"files-row-{i:02}": (("c", "p"), {"c": b"pipe 1 config bw 8Mbit/s", "p": (HEADER + line).encode()})
       for i, line in enumerate(ROWS)},
}
# fmt: on


def configured(line: str) -> str:
    """Returns the records of an accepted line."""
    return f"c,0,configure,{line}\nr,configured\n"


def queued(moment: int, packet: int) -> str:
    """Returns the records of a packet to pipe 1 that is queued when sent."""
    return f"c,0,submit,pipe,1,10.0.0.1,10.0.0.2,17,1000,2000,1000,0,{moment}\nr,queued,{moment},0,{packet}\n"


def delivered(moment: int, items: str) -> str:
    """Returns the records of a Collect with a single packet."""
    return f"c,0,collect,{moment}\nr,delivered,{moment},1\nd,{items}\n"


STATUS = "c,0,show\nr,status,1\nf,0,pipe,1,1,0.0.0.0,0.0.0.0,0,0,0,0.0.0.0,0.0.0.0,0,0,0,0,0,0,0,1,0\n"
ONE_CALLER = (
    "dummynet-history,3\n"
    + configured("pipe 1 config bw 8000000bit/s")
    + queued(0, 0)
    + delivered(1_000_000, "0,0,0,1000000")
    + STATUS
    + "end,4\n"
)

TRANSCRIPT = ONE_CALLER.replace("dummynet-history,3", "dummynet-live,1")

# The packets of a link overtake each other, as in histories of versions 1 and 2 alone.
OVERTAKING = (
    configured("pipe 1 config bw 8Mbit/s delay 50")
    + queued(0, 0)
    + configured("pipe 1 config bw 8Mbit/s")
    + queued(2_000_000, 1)
    + delivered(3_000_000, "1,0,2000000,3000000")
    + "end,5\n"
)

# Name and history file.
# fmt: off
AUDITS = {
    "one-caller": ONE_CALLER,
    "one-caller-version-2": ONE_CALLER.replace("history,3", "history,2"),
    "one-caller-version-1": ONE_CALLER.replace("history,3", "history,1").replace(",1,0\nend", ",1\nend"),
    "discarded-in-version-1": ONE_CALLER.replace("history,3", "history,1"),
    "no-discarded-in-version-3": ONE_CALLER.replace(",1,0\nend", ",1\nend"),
    **{f"overtaking-version-{v}": f"dummynet-history,{v}\n{OVERTAKING}" for v in (1, 2, 3)},
    "other-packet": ONE_CALLER.replace("r,queued,0,0,0", "r,queued,0,0,1"),
    "last-moment": ONE_CALLER.replace("r,queued,0,", f"r,queued,{2**64 - 1},"),
    "moment-too-great": ONE_CALLER.replace("r,queued,0,", f"r,queued,{2**64},"),
    "exhausted": ONE_CALLER.replace("r,configured", "r,exhausted"),
    "exhausted-alone": "dummynet-history,3\nc,0,show\nr,exhausted\nend,1\n",
    "great-count": ONE_CALLER.replace("r,delivered,1000000,1\n", f"r,delivered,1000000,{2**64 - 1}\n"),
    "no-end": ONE_CALLER.replace("end,4\n", ""),
    "two-ends": ONE_CALLER + "end,4\n",
    "empty-lines-after-end": ONE_CALLER + "\n\n",
    "other-count": ONE_CALLER.replace("end,4", "end,5"),
    "long-count": ONE_CALLER.replace("end,4", "end," + "4" * 5000),
    "no-entries": "dummynet-history,3\nend,0\n",
    "no-record": "",
    "transcript": TRANSCRIPT.replace("c,0,show", "#,next\n\n#\nc,0,show").replace("end,4", "#,bad,1,1,x\nend,4"),
    "transcript-without-remarks": TRANSCRIPT,
    "transcript-remark-before-a-reply": TRANSCRIPT.replace("r,configured", "#\nr,configured"),
    "transcript-remark-before-an-item": TRANSCRIPT.replace("\nd,0,0", "\n#\nd,0,0"),
    "transcript-remark-after-end": TRANSCRIPT + "#\n",
    "transcript-remark-first": "#\n" + TRANSCRIPT,
    "transcript-of-version-2": TRANSCRIPT.replace("live,1", "live,2"),
    **{f"remark-in-version-{v}": f"dummynet-history,{v}\n#\nend,0\n" for v in (1, 2, 3)},
    "remark-after-end": ONE_CALLER + "#\n",
}
# fmt: on
