"""The counts of running links in the text format OpenMetrics, for a monitor such as Prometheus."""

from __future__ import annotations

from itertools import chain
from typing import Any, Iterator, NamedTuple, Optional

from hinge.run.summary import NAMES

MS, NS = 1e3, 1e9  # how many make a second
QUANTILES = {"p50": "0.5", "p99": "0.99", "p99.9": "0.999", "max": "1"}


class Family(NamedTuple):
    """Describes a metric, and the key of its value in the record of a way (one direction of a link)."""

    name: str
    kind: str  # counter, gauge or summary
    unit: str
    key: str  # in the record
    help: str


COUNTERS = (
    ("came_packets", "packets", "came", "Packets that came to the way."),
    ("came_bytes", "bytes", "came_bytes", "Bytes of them, with the headers of IP."),
    ("sent_packets", "packets", "sent", "Packets that the way delivered."),
    ("sent_bytes", "bytes", "sent_bytes", "Bytes of them."),
    ("lost_packets", "packets", "lost", "Packets that the way lost, by its loss rate, a model or a cut."),
    ("full_packets", "packets", "full", "Packets that met a full queue."),
    ("no_target_packets", "packets", "no_target", "Packets whose pipe or queue was not there."),
    ("discarded_packets", "packets", "discarded", "Packets that the delete of a pipe or queue took away."),
    ("refused_packets", "packets", "refused", "Packets that the system refused behind the way."),
    ("corrupted_packets", "packets", "corrupted", "Packets that left the way with a flipped bit."),
    ("system_dropped_packets", "packets", "system_drops", "Packets that the system dropped before the way."),
    ("not_ip_packets", "packets", "not_ip", "Packets that were none of IP."),
    ("stayed_seconds", "seconds", "stayed", "The sum of the times that sent packets were on the way."),
)
GAUGES = (
    ("underway_packets", "packets", "underway", "Packets that are on the way now."),
    ("held_packets", "packets", "held", "Packets that the process of the links has in its memory."),
)
SUMMARIES = (
    ("late_seconds", "seconds", "late", "How much behind their due moments packets left, since the start."),
    ("unread_seconds", "seconds", "unread", "How long packets can have waited to be read, since the start."),
)
FAMILIES = [
    Family(name, kind, unit, key, help)
    for kind, families in (("counter", COUNTERS), ("gauge", GAUGES), ("summary", SUMMARIES))
    for name, unit, key, help in families
]
OF_HOST = (
    ("wakeups", "How often the process of the links slept and woke."),
    ("turns", "How often it looked after its links."),
)


def labels(**values: object) -> str:
    """Returns the text of labels. The values need no escapes, since hosts, numbers and quantiles contain no special characters."""
    return ",".join(f'{name.rstrip("_")}="{value}"' for name, value in values.items())


def ways_of(status: dict[str, Any]) -> list[tuple[str, dict[str, Any]]]:
    """Returns the labels and the record of each way."""
    if "ways" in status:
        return [(labels(from_=way["from"], to=way["to"], pipe=way["pipe"]), way) for way in status["ways"]]
    return [(labels(way=name), status[name]) for name in NAMES]


def samples(family: Family, label: str, way: dict[str, Any]) -> Iterator[str]:
    """Yields the lines with a metric's values for a way."""
    if family.kind == "summary":
        for part, quantile in QUANTILES.items():
            seconds = way[f"{family.key}_{part}_ms"] / MS
            yield f'hinge_{family.name}{{{label},quantile="{quantile}"}} {seconds:.9g}'
        return
    value = way[family.key] / NS if family.unit == "seconds" else way[family.key]
    ending = "_total" if family.kind == "counter" else ""
    yield f"hinge_{family.name}{ending}{{{label}}} {value!r}"


def head(name: str, kind: str, unit: str, text: str) -> Iterator[str]:
    """Yields the lines that describe a metric."""
    yield f"# TYPE hinge_{name} {kind}"
    if unit:
        yield f"# UNIT hinge_{name} {unit}"
    yield f"# HELP hinge_{name} {text}"


def openmetrics(status: dict[str, Any]) -> str:
    """Returns the record of `hinge status` in OpenMetrics format."""
    lines = list[str]()
    ways = ways_of(status)
    for family in FAMILIES:
        lines += head(family.name, family.kind, family.unit, family.help)
        lines += chain.from_iterable(samples(family, label, way) for label, way in ways)
    for name, text in OF_HOST:
        lines += head(name, "counter", "", text)
        lines.append(f"hinge_{name}_total {status[name]}")
    lines += head("moment_seconds", "gauge", "seconds", "The clock of the links.")
    lines.append(f"hinge_moment_seconds {status['moment'] / NS!r}")
    endings: Optional[dict[str, int]] = status.get("ended")
    if endings is not None:
        lines += head("ended_status", "gauge", "", "The statuses of the hosts' commands that have ended.")
        lines += [f"hinge_ended_status{{{labels(host=host)}}} {code}" for host, code in endings.items()]
    return "\n".join([*lines, "# EOF"])
