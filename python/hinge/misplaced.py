"""What to type in place of words that a command doesn't take: a file of another kind, or an option of an older version."""

from __future__ import annotations

import os
import re
import shlex
import stat
from argparse import ArgumentTypeError
from contextlib import suppress
from itertools import takewhile
from typing import Iterator, Sequence

from hinge.arguments import seeds
from hinge.border.files import read_front
from hinge.command import Fault
from hingetulip_words.link import corrected
from hingetulip_words.presets import near

FRONT = 4096  # the first bytes of a file, which tell its kind
MOST_ROWS = 20  # the most rows in a line to type
OF_CAPTURES = rb"\xd4\xc3\xb2\xa1|\xa1\xb2\xc3\xd4|\x4d\x3c\xb2\xa1|\xa1\xb2\x3c\x4d|\x0a\x0d\x0d\x0a"
# Each row: a kind of files, the pattern of their beginning after blank lines and comments, what a file of the kind is called, and the
# line to type, in which {0} is the file, and {1} the file's name without its ending. The first pattern that matches counts.
TABLE = (
    ("capture", OF_CAPTURES, "a capture", "hinge packets {0} -o packets.csv"),
    ("picture", rb"\x89PNG|%PDF|<\?xml|<svg|(?i:<!doctype html|<html)", "a picture or page, which hinge only writes", ""),
    ("python", rb"(import \w|from [\w.]+ import )", "a Python program", "hinge run --link 20ms -- python3 {0}"),
    ("program", rb"#!|\x7fELF", "a program", "hinge run --link 20ms -- {0}"),
    ("history", rb"dummynet-(history|live)", "a history", "hinge look {0}"),
    ("report", rb"event,row,flow", "a replay's report", "hinge look PACKETS {0}"),
    ("packets", rb"moment\b", "a packet file", "dummynet replay CONFIG {0} > REPORT"),
    ("failed-run", rb'\{\s*"words":\s*\[\s*"run"', "a failure of hinge search", "hinge run --like {0}"),
    ("failure", rb'\{\s*"words"', "a failure of hinge search", "hinge net --like {0}"),
    ("summary", rb'\{\s*"format"', "a summary", "hinge look HISTORY, which a run keeps with --transcript HISTORY"),
    ("operations", rb'\{[^\n]*"(client|op)"', "a list of operations", "hinge check {0} --model register"),
    ("faults", rb"[^\s>]+ > [^\s>]+ packet ", "a list of faults", "hinge run --link 20ms --faults {0} -- COMMAND"),
    ("net", rb"(host|main|router|link|switch)\s", "a network", "hinge net {0}"),
    ("config", rb"(pipe|queue|ipfw)\s", "a configuration", "hinge run --config {0} -- COMMAND"),
    ("timeline", rb"\d[\d.]*(ms|s|m|h) .*", "a timeline", "hinge run --link 20ms --timeline {0} -- COMMAND"),
    ("trace", rb"\d[\d.]*(,\d+)?\s*(\n|\Z)", "a trace of bandwidths", "hinge run --up-trace {0} --down-trace {0} -- COMMAND"),
    ("session", b"", "a network's session", "hinge look {0}"),
    ("folder", b"", "a folder without a session", "hinge net FILE --transcripts {0}"),
    ("socket", b"", "the socket of a run", "hinge status {0}"),
    ("empty", b"", "an empty file", ""),
)
FRONTS = [(kind, front) for kind, front, _, _ in TABLE if front]
KINDS = {kind: words for kind, _, *words in TABLE}
OF_NETS = ("net", "up", "search")
RUNNING = {"change": " WORDS", "status": "", "exec": " HOST -- COMMAND", "down": ""}  # commands, and their words behind a name
OF_COMMAND = {  # the line to type in place of TABLE's, by the command and the kind
    **{f"{command} net": f"hinge up {{0}}, and hinge {command} {{1}}{words}" for command, words in RUNNING.items()},
    "look config": "hinge look PACKETS REPORT --config {0}",
    "look net": "hinge net {0} --transcripts FOLDER, and hinge look FOLDER",
    "why net": "hinge net {0} --transcripts FOLDER, and hinge why ROW FOLDER",
    **dict.fromkeys(("why history", "why session"), "hinge why ROW {0}"),
    "why capture": "hinge packets {0} -o packets.csv",
    "why config": "hinge why ROW {0} PACKETS REPORT",
    "why packets": "hinge why ROW CONFIG {0} REPORT",
    "why report": "hinge why ROW CONFIG PACKETS {0}",
    "ipfw config": "hinge run --config {0} -- COMMAND",
    **dict.fromkeys(("dummynet config", "audit config"), "dummynet replay {0} PACKETS"),
    **dict.fromkeys(("dummynet history", "replay history"), "dummynet audit {0}"),
}
# The kinds of files that a command reads: for its first file, its second, and all others.
TAKES = {
    "look": "history session packets,report summary,report",
    "look --diff": "history",
    "look --model": "operations,net failure failed-run",
    "why": "history session packets config,report packets,report",
    "packets": "capture",
    **dict.fromkeys(OF_NETS, "net"),
    "check": "",
    "audit": "history",
    "replay": "config,packets",
    "ipfw": "config program",
    **dict.fromkeys(RUNNING, "socket"),
}
A_NET = "printf '%s\\n' 'host a ping -c 3 b' 'host b' 'link a b 20ms' > a.net, and hinge net a.net"
ONE_FILE = ("packets", *OF_NETS, *RUNNING)
OF_OPTIONS = {"--like": "summary failure failed-run", **{f"--{kind}": kind for kind in ("config", "timeline", "faults", "capture")}}
OF_OPTIONS |= {"--up-trace": "trace", "--down-trace": "trace"}
OUTPUTS = {"look": (".png", ".svg", ".pdf", ".html"), "packets": (".csv",)}
WRITTEN = ("-o", "--json", "--transcript", "--transcripts", "--logs", "--runs", "--index", "--name", "--control")
# Options and words of older versions, and others that people try. Each row: the commands, and words with the line to type, in which {0}
# is the word without its dashes, and {1} the word's value. `*` stands for any first word.
MEANT_TABLE = """
why look: --why --row --packet --packets = hinge why ROW HISTORY
look: --audit = dummynet audit HISTORY; --compare = --diff HISTORY HISTORY; --html --png --svg --pdf = -o FILE.{0};
 --bin --window --interval = --step MS; --flow --flows = --by flow;
 --ladder = hinge look SOURCE -o FILE.html, or for Wireshark's flow graph --capture CAPTURE --index INDEX -o FILE.pcapng;
 --save --plot --graph --draw --show --interactive --web --from --to = -o FILE.html, in which one zooms;
 --summary --stats --throughput --rtt --delay --latency --loss --jitter --percentile --cdf = hinge look HISTORY, whose tables have it
try: * = hinge run --link '10Mbit/s 20ms' -- COMMAND, as hinge try takes presets alone
net up: --host --hosts --node --nodes = a line `host NAME COMMAND` for each host in FILE; --check --validate --lint = --dry-run;
 --cut --partition --heal = a line `at 5s {0} A from B` in FILE; --kill --stop --restart --crash = a line `at 5s {0} HOST` in FILE;
 --draw --picture --diagram = --transcripts FOLDER, and hinge look FOLDER -o FILE.png; --tcpdump --capture = --transcript HISTORY;
 -d --detach --daemon --background = hinge up NET, which is in the background; exec = hinge exec NAME HOST -- COMMAND
net up search: -f --file = hinge {command} NET
search: -n --count --iterations --repeat --times = hinge search NET --seeds 1-{1}; -j --jobs --parallel --workers = -P N;
 --timeout --duration --time = --limit {1} of simulated time, or --real-limit {1};
 --link --up --down --preset --rate --delay --loss = hinge search run --link '10Mbit/s 20ms loss 1%' -- COMMAND
packets: --filter --match = --map 'tcp port 80 => pipe 1'; -r --read --pcap = hinge packets CAPTURE -o packets.csv; -w --write = -o {1};
 -i --interface --iface = tcpdump -i INTERFACE -w FILE.pcap, and hinge packets FILE.pcap; --client --source --src --host = --from {1};
 --link --delay --bandwidth --up --down = hinge packets CAPTURE -o packets.csv, and dummynet replay CONFIG packets.csv > REPORT;
 -c -n --count --limit = hinge packets CAPTURE | head -n {1}
change: --link --up --down --delay --rate --loss = hinge change NAME 10Mbit/s 20ms
status: -w --watch --follow -f -n = watch hinge status NAME; --json --prometheus --metrics = --openmetrics
exec: -it -i -t --host = hinge exec NAME HOST -- COMMAND
udp: -l --listen --listen-port -r --remote -p --server = hinge udp 5000 localhost:6000 --link 20ms
down: -a --all = hinge down NAME
doctor: * = hinge doctor, which tries all that hinge needs
kernel: * = hinge kernel, which builds one where there is none
docs: --list -l --all = hinge docs
"""


def lines_of_table() -> dict[str, str]:
    """Returns the lines to type in MEANT_TABLE, by a command and a word."""
    lines = dict[str, str]()
    for row in MEANT_TABLE.replace("\n ", " ").strip().splitlines():
        commands, _, entries = row.partition(": ")
        for words, line in (entry.split(" = ", 1) for entry in entries.split("; ")):
            lines.update((f"{command} {word}", line) for command in commands.split() for word in words.split())
    return lines


MEANT = lines_of_table()


def kind_of(path: str) -> str:
    """Returns the kind of a file, folder or socket; an empty text if unknown. A file's beginning shows its kind. OSError, Fault:
    the file can't be read."""
    mode = os.stat(path).st_mode
    if stat.S_ISDIR(mode):
        return "session" if os.path.exists(os.path.join(path, "net.history")) else "folder"
    if stat.S_ISSOCK(mode):
        return "socket"
    data = read_front(path, FRONT) if stat.S_ISREG(mode) else b"-"
    return kind_of_text(data) if data else "empty"


def kind_of_text(data: bytes) -> str:
    """Returns a file's kind from the first bytes, without blank lines and comments; an empty text if unknown."""
    text = data[:FRONT].removeprefix(b"\xef\xbb\xbf")
    if not text.startswith((b"#!", b"\x0a\x0d")):
        text = re.sub(rb"\A(?:[ \t\r]*(?:#[^\n]*)?\n)+", b"", text).lstrip(b" \t")
    return next((kind for kind, front in FRONTS if re.match(front, text)), "")


def line_for(command: str, kind: str, path: str) -> str:
    """Returns a noun for this kind, and the line to type with the file, unless the kind lacks such a line."""
    noun, form = KINDS[kind]
    form = OF_COMMAND.get(f"{command} {kind}", form)
    if not form:
        return noun
    name = f"./{path}" if kind == "program" and "/" not in path else path
    stem = os.path.splitext(os.path.basename(path))[0]
    return f"{noun}; write {form.format(shlex.quote(name), shlex.quote(stem))}"


def filled(line: str, words: Sequence[str]) -> str:
    """Returns a line to type, in which these words' files replace their kinds, such as HISTORY, and numbers replace ROW."""
    for word in words:
        with suppress(ArgumentTypeError, OSError, Fault):
            if os.path.exists(word):
                name, text = kind_of(word).upper(), shlex.quote(word)
            else:
                rows = seeds(word.lstrip("#").replace("..", "-"))  # a word such as #3 or 1..5
                name, text = "ROW", " ".join(map(str, rows[:MOST_ROWS]))
            if name:
                line = re.sub(rf"\b{name}\b", lambda _: text, line, count=1)
    return line


def files_in(command: str, words: Sequence[str]) -> Iterator[tuple[str, str]]:
    """Yields the existing files in a command line, each with the kinds of files that belong in its place."""
    option = next((option for option in ("--diff", "--model") if option in words), "")
    places = TAKES.get(f"{command} {option}".rstrip(), "").split(",")
    for before, word in zip(["", *words], words):
        begins_command = command in ("run", "udp") and not before.startswith("-") and not word.startswith("-")
        if word == "--" or begins_command:
            return
        if not os.path.exists(word) or before in WRITTEN:
            continue
        if before in OF_OPTIONS:
            yield word, OF_OPTIONS[before]
            continue
        yield word, places[0]
        if command in ONE_FILE:
            return
        places = places[1:] or places


def in_place(command: str, before: str, word: str) -> str:
    """Returns the replacement for a word that isn't a file but occurs where a file belongs, after the word `before`; an empty text
    if unknown."""
    if before in OF_OPTIONS:
        return in_place_of_value(before, word)
    if command in OF_NETS and before == "" and not word.startswith("-") and (command, word) != ("search", "run"):
        return in_place_of_net(command, word)
    link = corrected(word)
    if command == "change" and before == "" and link:
        return f"hinge change NAME {shlex.quote(link)}"
    if before.startswith("-"):
        return ""
    if command == "search" and re.fullmatch(r"\d+[-,]\d+", word):
        return f"--seeds {word}"
    if command == "packets" and " " in word:
        return MEANT["packets --filter"]
    if command == "look" and word.isdecimal():
        return "hinge why ROW HISTORY"
    is_output = before != "" and word.lower().endswith(OUTPUTS.get(command, ("\0",)))
    return f"-o {shlex.quote(word)}" if is_output else ""


def in_place_of_value(option: str, word: str) -> str:
    """Returns the option to write for a value that isn't a file, such as link words after --up-trace; an empty text if unknown."""
    if option == "--config" and kind_of_text(word.encode(errors="replace")) == "config":
        return f"--line {shlex.quote(word)}"
    if option == "--faults" and " " in word:
        return "--faults FILE, with a line `client > server packet 3 lost` in FILE"
    link = corrected(word) if option in ("--up-trace", "--down-trace") else None
    return f"{option.removesuffix('-trace')} {shlex.quote(link)}" if link else ""


def in_place_of_net(command: str, word: str) -> str:
    """Returns the line with the file of a net for a word that isn't a file: the word's file NAME.net, or a small net to try; an empty
    text if the word looks like a missing file."""
    file = f"{word}.net"
    if os.path.exists(file):
        return f"hinge {command} {shlex.quote(file)}"
    return A_NET if " " in word or "." not in word else ""


def line_for_word(command: str, own: Sequence[str]) -> str:
    """Returns the line to type for a first word or an option that people try; an empty text if unknown."""
    for word, following in zip(own, [*own[1:], "-"]):
        name, _, value = word.partition("=")
        if f"{command} {name}" not in MEANT:
            name = "" if name.startswith("--") else name[:2]  # an option of one letter, with its value
        form = MEANT.get(f"{command} {name}")
        if form and (word == own[0] or word.startswith("-")):
            value = value or word[len(name) :] or following.removeprefix("-") or "N"
            return filled(form.format(name.strip("-"), shlex.quote(value), command=command), own)
    return ""


def in_place_of_words(command: str, words: Sequence[str], refusal: str) -> str:
    """Returns the replacement for a command's first misplaced word; an empty text if all words are in their places."""
    if command == "try" and words and near(words[0]):
        return f"--preset {near(words[0])}"
    line = line_for_word(command, words)
    if line:
        return line
    is_unknown = "unrecognized" in refusal
    if is_unknown and f"{command} *" in MEANT:
        return MEANT[f"{command} *"]
    if is_unknown and "--server" in words:
        server = [*takewhile(lambda word: not word.startswith("--"), words[words.index("--server") + 1 :])]
        if len(server) > 1:
            return f"--server {shlex.quote(' '.join(server))}"
    for before, word in zip(["", *words], words):
        line = "" if os.path.exists(word) else in_place(command, before, word)
        if line:
            return filled(line, words)
    return ""


def advised(command: str, words: Sequence[str], refusal: str) -> str:
    """Returns a refusal for a command line, with the line to type if a word belongs elsewhere."""
    own = words[: words.index("--")] if "--" in words else words
    if re.search("[:;] write ", refusal):
        own = []  # the refusal already says what to write
    if command == "search" and "--" in words and "required: FILE" in refusal:
        return f"{refusal}; write hinge search {shlex.join([*own, 'run', *words[len(own) :]])}"
    line = in_place_of_words(command, own, refusal)
    if line:
        return f"{refusal}; write {line}"
    try:
        text = wrong_file(command, words, refusal)
    except (OSError, Fault):
        return refusal
    return f"{refusal}; {text}" if text else refusal


def wrong_file(command: str, words: Sequence[str], refusal: str) -> str:
    """Returns the kind of the first misplaced file, and the line to type; an empty text if all files are in their places, or if
    the refusal says the same. OSError, Fault: a file can't be read."""
    files = [(path, kind_of(path), kinds.split()) for path, kinds in files_in(command, words)]
    for path, kind, expected_kinds in files:
        lacks_others = len(files) < 3 and (command, kind) == ("why", "config") or "number of a row" in refusal
        if kind and expected_kinds and (kind not in expected_kinds or lacks_others):
            text = filled(line_for(command, kind, path), words)
            is_known = text.partition(";")[0] in refusal or kind == "folder" and "--transcripts" in refusal
            return "" if is_known else f"{path} is {text}"
    return ""
