"""Other tools' options that `hinge run` refuses by name. `hinge.foreign` contains the other answers, and loads too slowly for a
help."""

from __future__ import annotations

import re

from hingetulip_words.values import EXTRAS

# Options that people try with `hinge run`, beside a link's options, and what to write: {0} is the option's value, and {time},
# {number} and {seeds} are this value if its kind fits, or else an example.
TABLE = """
--trace = --up-trace {0} --down-trace {0}
--outage = --timeline FILE with a line `5s outage {time}` in FILE
--pcap = --transcript {0}, which `hinge look` draws
--timeout --time --duration --for = timeout {time} before hinge, or --real-limit {time} of simulated time
--simulate = --simulated
-l --both = --link {0}
-o --output = --transcript FILE, and hinge look FILE -o {0}
--graph --plot = --transcript FILE, and hinge look FILE -o FILE.png
--docker --podman = --container {0}
--pid = --netns {0}
--port = --map 'up port {0} => pipe 3' --line 'pipe 3 config delay 20' for its packets alone, or --to {0} for this system's port
--filter --match = --map 'up RULE => pipe 3' --line 'pipe 3 config delay 20', where RULE is {0}
--presets = --list-presets
--iface --interface --dev -i = nothing for {0}, as COMMAND runs behind the link, or --container NAME
--uplink --upload = --up {0}
--downlink --download = --down {0}
--profile --conditions = --preset {0}
--log --record = --transcript {0}
--report = --json {0}
--seeds = hinge search --seeds {seeds} run, with the other words behind it
--repeat --count --runs -n = for i in $(seq {number}); do this line; done, or hinge search --seeds 1-{number} run in simulated time
--meter-all --verbose -v = --watch
--internet --network = --outside
--uplink-queue = --up '10Mbit/s queue 100' for {0}
--downlink-queue = --down '10Mbit/s queue 100' for {0}
"""
ROWS = [row.split(" = ", 1) for row in TABLE.strip().splitlines()]
FOREIGN_OPTIONS = {option: (form, "{" in form) for options, form in ROWS for option in options.split()}
LINK_OPTIONS = "--rate --bandwidth --bw --speed --delay --latency --rtt --plr --packet-loss --drop --queue --target-bw".split()
LINK_OPTIONS += [f"--{word}" for word in EXTRAS]
# The kinds of values that a form may name, each with its pattern and an example.
KINDS = {"time": (r"\d[\d.]*(ns|us|ms|s|min|h|d)?", "1s"), "number": (r"\d+", "100"), "seeds": (r"\d[\d,-]*", "1-100")}


def one_way(option: str, value: str) -> tuple[list[str], str]:
    """Returns the alternatives that replace an option, and the option's value. If the value begins with a direction, as in
    up:20ms, both are for this direction alone."""
    form = FOREIGN_OPTIONS[option][0]
    way, colon, rest = value.partition(":")
    if colon and way in ("up", "down"):
        other = "down" if way == "up" else "up"
        form = re.sub(rf"--{other}\S+ \S+ ?", "", form).strip()
        form = form.replace("--link ", f"--{way} ").replace("s outage ", f"s {way} outage ")
        value = rest
    return form.split(", or "), value


def filled(form: str, words: str) -> str:
    """Returns the form with the value, or with an example in each place for another kind of value."""
    values = {kind: words if re.fullmatch(pattern, words) else example for kind, (pattern, example) in KINDS.items()}
    return form.format(words, **values)
