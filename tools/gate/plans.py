"""Draws nets and runs by a seed, runs them, and judges each by its words: no false alarm. Then their transcripts are changed, and each change is found.

    python3 tools/gate/plans.py [--seed N] [--runs N] [--real N] [--honest] [NETS]

NETS (10) and runs (3) are drawn, in simulated time, and N more nets in real time (10); five nets are in a file. `--honest` changes no transcript.
A net in real time has a limit for what is late. One that is void by its own limit is drawn again, with a longer limit from try to try.
The seed follows from the sources of the kit and of the hosts, or is N, or a new one by `--seed fresh`.
"""

import argparse
import os
import random
import re
import subprocess
import tempfile
from pathlib import Path
from typing import Callable, Optional

import seeds
from tally import TOP, Tally, judge

from hinge.command import ROWS, Fault
from hinge.net.description import read_description
from hinge.net.net_plan import NetPlan
from hinge.plans.judged import Judge
from hinge.plans.sessions import judged, judged_run
from hinge.run.words import Wrong
from hingetulip_words.values import SHARES

HINGE, LIMIT = str(TOP / "hinge"), 300  # s
LATEST = 2_600  # ms, of a drawn line
AT_ONCE, STEP = 5, 10**7  # nets of one file, and between their seeds
SECOND, MS = 10**9, 10**6
LIMITS = ("100ms", "500ms", "2s", "10s")  # of --late in real time, on a machine that others use too
VOID = 75  # the status of a run that is void by its limit
BY_WORDS = "void: changed nothing: "  # as drawn faults lie within others
CHAT = """\
#include <arpa/inet.h>
#include <unistd.h>
int main(int count, char **names) { /* a datagram to each address every 25 ms, for ever or 3 s */
    int sender = socket(AF_INET, SOCK_DGRAM, 0), turns = names[0][2] == 'm' ? 120 : 1 << 30;
    char data[64] = {0};
    for (int turn = 0; turn < turns; turn++, usleep(25000))
        for (int i = 1; i < count; i++) {
            struct sockaddr_in to = {.sin_family = AF_INET, .sin_port = htons(9)};
            inet_pton(AF_INET, names[i], &to.sin_addr);
            sendto(sender, data, sizeof data, MSG_DONTWAIT, (struct sockaddr *)&to, sizeof to);
        }
}
"""


class Drawn:
    """A net or a run that a seed draws."""

    def __init__(self, seed: int, first: int = 0, is_last: bool = True) -> None:
        """A net whose first host has this number in its file. The last net's last host has the main command."""
        self.draw = random.Random(seed)
        self.first = first
        self.is_last = is_last
        self.hosts = [f"h{number}" for number in range(first, first + self.draw.randint(2, 5))]
        pairs = [(one, two) for at, one in enumerate(self.hosts) for two in self.hosts[at + 1 :]]
        chain = [*zip(self.hosts, self.hosts[1:])]
        self.has_model = self.draw.random() < 0.5  # of losses
        self.links = chain + [pair for pair in pairs if pair not in chain and self.draw.random() < 0.4]

    def ms(self, least: int, most: int) -> str:
        return f"{self.draw.randint(least, most)}ms"

    def words(self) -> str:
        """The words of a link."""
        chosen = [
            f"{self.draw.randint(1, 90)}Mbit/s",
            self.ms(1, 40),
            *([f"loss {self.draw.randint(1, 30)}%"] if not self.has_model else []),
        ]
        more = [f"jitter {self.ms(1, 4)}", *(f"{word} {self.draw.randint(1, 20)}%" for word in SHARES)]
        return " ".join(([self.ms(41, 60)] if not (kept := self.some(chosen)) else []) + [*kept, *self.some(more)])

    def change(self) -> str:
        """The words of a change, which leaves out none that a link has at its beginning."""
        return (
            f"{self.draw.randint(1, 90)}Mbit/s {self.ms(1, 40)} queue {self.draw.randint(20, 250)} loss {self.draw.randint(0, 30)}%"
        )

    def some(self, words: list[str]) -> list[str]:
        return [word for word in words if self.draw.random() < 0.5]

    def time(self) -> str:
        return self.ms(100, LATEST)

    def event(self) -> str:
        one, two = self.draw.choice(self.links)
        host = self.draw.choice(self.hosts)
        length = self.ms(50, 900)
        side = self.draw.choice(("", "up", "down"))
        act = self.draw.choice(self.hosts)
        kinds = [
            f"cut {host} {side} {length}",
            f"cut {one} from {two} {side} {length}",
            f"cut {one} from {two} {side} udp port 9 {length}",
            f"heal {one} from {two}",
            f"heal {one} from {two} udp port 9",
            f"{one} {two} {side} outage {length} lossy",
            f"{one} {two} {side} outage {length} lossy udp port 9",
            f"{one} {two} {side} outage {length}",
            f"{two} {one} {side} {self.change()}",
            f"kill {act} {length}",
            f"stop {act} {length}",
            f"cont {act}",
            f"restart {act}",
        ]
        return " ".join(self.draw.choice(kinds).split())

    def net(self) -> list[str]:
        """The lines of a net, among them some that are refused."""
        ends = {host: {end for link in self.links if host in link for end in link} - {host} for host in self.hosts}
        peers = {host: " ".join(f"10.8.0.{int(end[1:]) + 1}" for end in sorted(ends[host])) for host in self.hosts}
        lines = [f"host {host} exec ./chat {peers[host]}" for host in self.hosts]
        lines[-1] = f"main {self.hosts[-1]} ./main {peers[self.hosts[-1]]}" if self.is_last else lines[-1]
        lines += [f"link {one} {two} {self.words()} / {self.words()}" for one, two in self.links]
        one, two = self.draw.choice(self.links)
        shared = [f"line {one} {two} queue 1 config pipe 1 weight 3 plr 0", f"map {one} {two} up => queue 1"]
        lines += shared if self.draw.random() < 0.3 else []
        lines += [f"loss {one} {two} {side}gilbert:0.1,0.4" for side in self.some(["up:", "down:"]) if self.has_model]
        lines += [f"at {self.time()} {self.event()}" for _ in range(self.draw.randint(2, 9))]
        if self.draw.random() < 0.3:
            lines.append(f"at 200ms..900ms cut {one} from {two} {self.ms(50, 400)}")
        nemesis = self.draw.choice(("partition-one", "isolate-one", "stop-one"))
        hosts = self.hosts[: len(self.hosts) - (nemesis == "stop-one")]
        return lines + (
            [f"nemesis {nemesis} every 700ms for 200ms..400ms until 2s of {' '.join(hosts)}"] if self.draw.random() < 0.3 else []
        )

    def run(self, folder: Path) -> list[str]:
        """The options of a run, with the files that they name."""
        timeline = [f"{self.time()} {self.draw.choice(('', 'up ', 'down '))}{rest}" for rest in self.changes()]
        ways = ("client > server", "server > client")
        faults = [
            f"{way} packet {self.draw.randint(1, 60)} {kind}"
            for way in ways
            for kind in ("lost", "twice", f"late {self.ms(1, 40)}")
        ]
        cuts = [f"at {self.time()} {self.draw.choice(('cut', 'hold'))} {self.draw.choice(ways)} {self.ms(50, 300)}"]
        rates = [f"{at},{self.draw.randint(1, 9)}00000" for at in (0, 0.7, 1.4)]
        files = {"timeline": timeline, "faults": faults + cuts, "up-trace": rates}
        for name, lines in files.items():
            (folder / name).write_text("".join(f"{line}\n" for line in lines))
        options = ["--up", self.words(), "--down", self.words()] if self.draw.random() < 0.5 else ["--preset", "lte"]
        model = ["--loss", self.draw.choice(("gilbert:0.1,0.4", "down:gilbert:0.2,0.5,0.8", "up:list:3,7-9"))]
        chosen = self.draw.choice((model, ["--faults", "faults"])) if self.has_model else []
        return [*options, *chosen, *(word for name in self.some(["timeline", "up-trace"]) for word in (f"--{name}", name))]

    def changes(self) -> list[str]:
        return [
            self.draw.choice(
                (
                    self.change(),
                    f"outage {self.ms(50, 400)}",
                    f"outage {self.ms(50, 400)} lossy",
                    f"outage {self.ms(50, 400)} lossy udp port 9",
                )
            )
            for _ in range(5)
        ]


def nets(seed: int, count: int, path: Path) -> int:
    """Writes so many nets into one file, without the lines that are refused, and returns the number of their ways."""
    drawn = list[Drawn]()
    for number in range(count):
        drawn.append(Drawn(seed + number * STEP, sum(len(one.hosts) for one in drawn), number == count - 1))
    lines = [line for one in drawn for line in one.net()]
    while True:
        path.write_text("".join(f"{line}\n" for line in lines))
        try:
            NetPlan(read_description(str(path)), 1500, seed)
            return 2 * sum(len(one.links) for one in drawn)
        except (Wrong, Fault, ValueError) as wrong:
            refused = re.search(r"line (\d+)", str(wrong))
            if not refused:
                raise
            del lines[int(refused[1]) - 1]


class Transcript:
    """A transcript, and its possible changes that a check must find."""

    def __init__(self, text: str, ways: int, undrawn: set[int]) -> None:
        """No seed alone draws the words of the packets of some pipes."""
        self.lines = text.splitlines()
        self.ways = ways
        self.undrawn = undrawn
        self.moments, now = list[int](), 0
        for line in self.lines:
            if (call := re.fullmatch(r"c,0,(?:submit,.*,|collect,|advance,)(\d+)", line)) is not None:
                now = int(call[1])
            self.moments.append(now)

    def configured(self) -> dict[int, tuple[str, int]]:
        """Returns the lines for links' pipes, each with its pipe and the next line's moment."""
        result = dict[int, tuple[str, int]]()
        last = dict[str, int]()
        for at, line in reversed([*enumerate(self.lines)]):
            found = re.match(r"c,0,configure,(pipe (\d+)) ", line)
            if found and int(found[2]) <= self.ways:
                result[at] = found[1], last.get(found[1], self.moments[-1])
                last[found[1]] = self.moments[at]
        return result

    def places(self, pattern: str) -> list[int]:
        return [at for at, line in enumerate(self.lines) if re.match(pattern, line)]

    def changed(self, at: int, *lines: str, count: int = 1) -> str:
        return "\n".join([*self.lines[:at], *lines, *self.lines[at + count :], ""])

    def missed_cut(self, draw: random.Random) -> Optional[str]:
        lines = self.configured()
        cuts = [at for at, (_, end) in lines.items() if self.lines[at].endswith(" plr 1") and end > self.moments[at] + MS]
        return self.changed(at := draw.choice(cuts), self.lines[at].removesuffix(" plr 1")) if cuts else None

    def other_delay(self, draw: random.Random) -> Optional[str]:
        lines = [at for at in self.configured() if " delay " in self.lines[at]]
        more = lambda match: f" delay {int(match[1]) + 500}"  # noqa: E731
        return self.changed(at := draw.choice(lines), re.sub(r" delay (\d+)", more, self.lines[at])) if lines else None

    def nothing_lost(self, draw: random.Random) -> Optional[str]:
        """A packet passes in a cut."""
        lost, cut = list[int](), dict[str, int]()
        for at, line in enumerate(self.lines):
            match = re.match(r"c,0,(?:configure,pipe|submit,pipe,)\s?(\d+)[ ,]?", line)
            if match and "configure" in line:
                cut[match[1]] = self.moments[at] if line.endswith(" plr 1") else 2**62
            elif match and self.lines[at + 1].startswith("r,lost,") and self.moments[at] > cut.get(match[1], 2**62) + MS:
                lost.append(at + 1)
        return self.changed(at := draw.choice(lost), f"r,queued,{self.moments[at]},0,9999999") if lost else None

    def other_word(self, draw: random.Random) -> Optional[str]:
        drawn = {*range(1, self.ways + 1)} - self.undrawn
        packets = [at for at in self.places(r"c,0,submit,pipe,\d+,(?!0\.0\.0\.0)") if int(self.lines[at].split(",")[4]) in drawn]
        if not packets:
            return None
        at = draw.choice(packets)
        *head, word, moment = self.lines[at].split(",")
        return self.changed(at, ",".join([*head, str(int(word) ^ 1 << 9), moment]))

    def flips(self) -> list[int]:
        """Flipped bits, where the seed draws those of all packets."""
        return [] if self.undrawn else self.places(r"#,corrupt,\d+,\d+,[1-9]")

    def no_flip(self, draw: random.Random) -> Optional[str]:
        flips = self.flips()
        return self.changed(draw.choice(flips)) if flips else None

    def other_flip(self, draw: random.Random) -> Optional[str]:
        flips = self.flips()
        if not flips:
            return None
        kind, number, bit, bits, rest = self.lines[at := draw.choice(flips)].removeprefix("#,").split(",")
        return self.changed(at, f"#,{kind},{number},{(int(bit) + 1) % int(bits)},{bits},{rest}")

    def acts(self) -> list[int]:
        """Those of hosts before the end, so long before it that their lack is seen."""
        end = self.places("#,ending") or [len(self.lines)]
        acts = self.places("#,act,(kill|stop|cont|restart) ")
        return [at for at in acts if at < end[0] and self.moments[at] < self.moments[-1] - SECOND // 2]

    def late_act(self, draw: random.Random) -> Optional[str]:
        acts = self.acts()
        return self.changed(at := draw.choice(acts), f"#,late-act,{SECOND // 3}", self.lines[at]) if acts else None

    def no_act(self, draw: random.Random) -> Optional[str]:
        acts = self.acts()
        return self.changed(draw.choice(acts)) if acts else None

    def other_length(self, draw: random.Random) -> Optional[str]:
        """A fault ends as it begins."""
        for begin in self.acts():
            word, host = self.lines[begin][6:].split()
            end = {"kill": "restart", "stop": "cont"}.get(word)
            ends = [at for at in self.acts() if at > begin and self.lines[at] == f"#,act,{end} {host}"]
            if ends and self.moments[ends[0]] > self.moments[begin] + 40 * MS:
                rest = self.lines[begin + 1 : ends[0]] + self.lines[ends[0] + 1 :]
                return "\n".join([*self.lines[: begin + 1], self.lines[ends[0]], *rest, ""])
        return None

    def other_order(self, draw: random.Random) -> Optional[str]:
        acts = self.acts()
        pairs = [(one, two) for one, two in zip(acts, acts[1:]) if self.lines[one] != self.lines[two]]
        pairs = [(one, two) for one, two in pairs if self.moments[two] > self.moments[one] + 60 * MS]
        if not pairs:
            return None
        one, two = draw.choice(pairs)
        lines = [*self.lines, ""]
        lines[one], lines[two] = lines[two], lines[one]
        return "\n".join(lines)

    def unasked_cut(self, draw: random.Random) -> Optional[str]:
        places = [at for at in self.configured() if " plr " not in self.lines[at]]
        if not places:
            return None
        at = draw.choice(places)
        later = [one for one in self.places("c,0,submit") if self.moments[one] > self.moments[at]]
        return self.changed(later[0], f"{self.lines[at]} plr 1", "r,configured", self.lines[later[0]]) if later else None


CHANGES = [
    kind
    for name, kind in vars(Transcript).items()
    if name.endswith(("_cut", "_delay", "_lost", "_word", "_flip", "_act", "_length", "_order"))
]


class Void(Exception):
    """Raised if a run in real time is void by its limit, so that the run proves nothing."""


def run(words: list[str], folder: Path) -> str:
    """Runs a command, and prints its output unless the command ended well, or is void only by its words. Void: it was too late."""
    done = subprocess.run([HINGE, *words], cwd=folder, capture_output=True, text=True, timeout=LIMIT)
    if done.returncode == VOID and "--late" in words:
        late = [line for line in done.stderr.splitlines() if "void: " in line and BY_WORDS not in line]
        if late:
            raise Void("\n".join(late))
        return ""
    return "" if done.returncode == 0 else f"{' '.join(words)}: status {done.returncode}\n{done.stderr}"


def of_run(history: Path) -> Judge:
    """Judges a run. Fault: its transcript has no words."""
    judge = judged_run(str(history))
    if judge is None:
        raise Fault(f"{history}: no words", ROWS)
    return judge


def changes(tally: Tally, name: str, history: Path, ways: int, judge: Callable[[], Judge], draw: random.Random) -> None:
    """Changes a transcript in each way that it allows, and has each change checked."""
    text = history.read_text()
    undrawn = judge().meaning.undrawn
    for kind in CHANGES:
        changed = kind(Transcript(text, ways, undrawn), draw)
        if changed is None:
            continue
        history.write_text(changed)
        try:
            is_found = bool(judge().faults)
        except Fault:
            is_found = True  # it isn't even a transcript of such a net
        tally.note(f"{name}: {kind.__name__}", "" if is_found else "it isn't found")
    history.write_text(text)


def session(tally: Tally, seed: int, count: int, folder: Path, limit: str = "", is_honest: bool = False) -> None:
    """Draws and runs nets in one file, or a run where there are none, and judges them, and then with changes. With a limit they run in real
    time. Void: nothing can be judged by it."""
    name = f"{'real ' if limit else ''}{f'{count} nets' if count else 'run'} {seed}"
    (folder / "chat.c").write_text(CHAT)
    subprocess.run(["cc", "-static", "-O1", "-o", "chat", "chat.c"], cwd=folder, check=True)
    os.link(folder / "chat", folder / "main")
    options = ["--quiet", "--seed", str(seed), *(["--late", limit] if limit else ["--simulated"])]
    if count:
        ways = nets(seed, count, folder / "a.net")
        fault = run(["net", "a.net", "--transcripts", "s", *options], folder)
        history = folder / "s" / "net.history"
        judge = lambda: judged(str(folder / "s"))
    else:
        server = ["--server", "exec ./chat 10.8.0.1", "--server-wait", "0ms", "--transcript", "s.history"]
        fault = run(["run", *Drawn(seed).run(folder), *options, *server, "--", "./main", "10.8.0.2"], folder)
        ways = 2
        history = folder / "s.history"
        judge = lambda: of_run(folder / "s.history")
    faults = [] if fault else [one.text for one in judge().faults]
    for _ in range(max(count, 1)):
        tally.note(name, fault, *faults)
    if not fault and not faults and not limit and not is_honest:
        changes(tally, name, history, ways, judge, random.Random(seed))


def in_real_time(tally: Tally, seed: int) -> None:
    """Checks nets that run in real time, drawn again while a run is void by its limit."""
    for number, limit in enumerate(LIMITS):
        with tempfile.TemporaryDirectory(prefix="plans-") as folder:
            try:
                return session(tally, seed + number, AT_ONCE, Path(folder), limit)
            except Void as void:
                print(f"real {AT_ONCE} nets {seed + number}: void by --late {limit}, drawn again: {str(void).strip()}", flush=True)
    tally.note(f"real nets {seed}", f"none of {len(LIMITS)} could be judged: this machine stands still for seconds")


def main(tally: Tally, *arguments: str) -> None:
    line = argparse.ArgumentParser(description=(__doc__ or "").split("\n", 1)[0])
    line.add_argument("nets", type=int, nargs="?", default=10)
    line.add_argument("--runs", type=int, default=3)
    line.add_argument("--seed", help="a number, or `fresh`")
    line.add_argument("--real", type=int, default=10, help="how many nets in real time")
    line.add_argument("--honest", action="store_true", help="change no transcript")
    words = line.parse_args(arguments)
    seed = seeds.chosen(words.seed, *seeds.KIT, *seeds.HOSTS)
    counts = [AT_ONCE] * (words.nets // AT_ONCE) + [0] * words.runs
    for number, count in enumerate(counts):
        with tempfile.TemporaryDirectory(prefix="plans-") as folder:
            session(tally, seed + number, count, Path(folder), is_honest=words.honest)
    for number in range(words.real // AT_ONCE):
        in_real_time(tally, seed + len(counts) + number * len(LIMITS))


if __name__ == "__main__":
    judge(main)
