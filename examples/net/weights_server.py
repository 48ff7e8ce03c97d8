"""Three servers of iperf3: what each of their clients got in the seconds in which all three sent.

The last line is `as weighted` where each has its share within a tenth."""

import json
import subprocess

WEIGHTS = {"a": 3, "b": 2, "c": 1}
RATE = 12_000_000 * 1448 / 1500  # bit/s of payload
FROM, TO = 3, 9  # s

servers = {
    name: subprocess.Popen(["iperf3", "-s", "-1", "-J", "-p", str(port)], stdout=subprocess.PIPE, text=True)
    for port, name in enumerate(WEIGHTS, 5201)
}
is_fair = True
for name, server in servers.items():
    seconds = [one["sum"] for one in json.loads(server.communicate()[0])["intervals"] if FROM <= one["sum"]["start"] < TO]
    got = sum(one["bits_per_second"] for one in seconds) / len(seconds)
    wanted = RATE * WEIGHTS[name] / sum(WEIGHTS.values())
    is_fair &= abs(got / wanted - 1) < 0.1
    print(f"{name}: {got / 1e6:.2f} Mbit/s of {wanted / 1e6:.2f}", flush=True)
print("as weighted" if is_fair else "not as weighted")
