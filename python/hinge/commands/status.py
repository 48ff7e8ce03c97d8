"""The command `hinge status`, which prints the counts of a running link."""

from __future__ import annotations

import json

from hinge.border.asking import ask
from hinge.border.terminal import show
from hinge.command import new_parser
from hinge.run.openmetrics import openmetrics

WHAT = """\
Prints the counts of a link of hinge run, hinge udp or hinge net that runs, as JSON, as --json has them at the end. SOCKET is what --control
names there, or a name of hinge up. With --openmetrics a monitor as Prometheus can read them."""


def main() -> None:
    parser = new_parser(
        WHAT,
        "hinge run --control link.socket --up 10Mbit/s -- bash\n  hinge status link.socket",
        "0 done, 2 no such run, 6 the system refuses something",
    )
    parser.add_argument("socket", metavar="SOCKET")
    parser.add_argument("--openmetrics", action="store_true", help="in the text format of OpenMetrics")
    arguments = parser.parse_args()
    status = ask(arguments.socket, status=True).status or {}
    show(openmetrics(status) if arguments.openmetrics else json.dumps(status, indent=1))
