#!/usr/bin/env python3
"""Packets and TCP through `hinge run`: how many, how late, and what they cost.

usage: bench/live_rates.py [ROUNDS] [SECONDS]     (3 rounds of 3 s)

Packets of 100 bytes one way with a delay of 5 ms, at some rates and as fast as they go; then TCP by iperf3 without a rate and 5 ms, and
through 10 Gbit/s and 1 ms. Each with a transcript and without one. The link goes before all other programs (--realtime), and the traffic
before all but the link, so as root. The processor's time is the host's, without that of the transcript's writer.
"""

import json
import re
import subprocess
import sys
import tempfile
from pathlib import Path

TOP = Path(__file__).resolve().parent.parent
CPU = "for host in $(grep -lx hinge-link /proc/[0-9]*/comm); do echo cpu $(cut -d' ' -f1 ${host%comm}schedstat); done"
FIRST = "chrt -f 5"


def run(folder: str, transcript: bool, links: list[str], server: str, line: str) -> tuple[str, dict[str, dict[str, float]]]:
    kept = ["--transcript", f"{folder}/history"] if transcript else []
    options = ["--quiet", "--realtime", "--json", f"{folder}/json", *kept, *links, "--server", server]
    done = subprocess.run([TOP / "hinge", "run", *options, "--", "sh", "-c", line], capture_output=True, text=True)
    with open(f"{folder}/json") as file:
        return done.stdout, json.load(file)


def packets(folder: str, rate: int, seconds: float, transcript: bool) -> str:
    blast = f"{FIRST} {folder}/blast"
    links, server = ["--up", "5ms"], f"{blast} sink 9999"
    text, told = run(folder, transcript, links, server, f"{blast} 10.8.0.2 9999 {rate} {seconds} 100; {CPU}")
    up, cpu = told["up"], spent(text)
    came = max(1, up["came"])
    return (
        f"{up['sent'] / seconds:9,.0f}/s delivered, {up['system_drops']} dropped; late {up['late_p50_ms']:.3f} p99 {up['late_p99_ms']:.3f} ms; "
        f"unread p99 {up['unread_p99_ms']:.3f} ms; {cpu / came * 1e6:.2f} us and {float(told['wakeups']) / came:.2f} wakeups a packet"
    )  # type: ignore[arg-type]


def spent(text: str) -> float:
    """The seconds of the host, which began before its writer."""
    return int(re.findall(r"cpu (\d+)", text)[0]) / 1e9


def tcp(folder: str, link: str, seconds: float, transcript: bool) -> str:
    links, server = ["--up", link, "--down", link], f"{FIRST} iperf3 -s -1 >/dev/null"
    text, _ = run(folder, transcript, links, server, f"{FIRST} iperf3 -c server -t {seconds} -J; {CPU}")
    received = json.loads(text[: text.rindex("}") + 1])["end"]["sum_received"]
    cost = received["bytes"] * 8e-9 / spent(text)
    return f"{received['bits_per_second'] / 1e9:.2f} Gbit/s, {cost:.2f} Gbit in a second of the processor"


def main(rounds: int = 3, seconds: float = 3) -> None:
    with tempfile.TemporaryDirectory() as folder:
        subprocess.run(["cc", "-O2", "-o", f"{folder}/blast", TOP / "bench" / "live_blast.c"], check=True)
        for transcript in (False, True):
            kept = ", transcript" if transcript else ""
            for rate in (1000, 10000, 50000, 0):
                for _ in range(rounds):
                    print(f"{rate or 'as fast as it goes':>6}{kept}: {packets(folder, rate, seconds, transcript)}", flush=True)
            for link in ("5ms", "10Gbit/s 1ms queue 10000"):
                for _ in range(rounds):
                    print(f"TCP, {link}{kept}: {tcp(folder, link, seconds, transcript)}", flush=True)


if __name__ == "__main__":
    main(*(int(word) for word in sys.argv[1:3]))
