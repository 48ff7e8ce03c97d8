"""The command `hinge up`, which starts a net in the background."""

from __future__ import annotations

import argparse
import os
import time
from pathlib import Path

from hinge.border.asking import ask, is_answered
from hinge.border.files import read_log
from hinge.border.programs import Process
from hinge.border.scratch import clean_end, undisturbed
from hinge.border.terminal import show
from hinge.command import NAME, Fault, new_parser, say
from hinge.program import in_background
from hinge.run.names import new_socket
from hinge.run.words import Wrong

WHAT = """\
Starts the net of FILE in the background, and returns when it runs and listens where its file waits for a port. It stays until `hinge down`.
All options of hinge net but --control and --stay go with it. What it did is in the folder of --transcripts, NAME.session if nothing else is
asked for, with what each host prints in its folder logs."""
EXAMPLE = """\
hinge up examples/net/etcd.net --name cluster
  hinge change cluster cut n1 from n2 n3
  hinge exec cluster n2 -- etcdctl endpoint status
  hinge down cluster"""
STATUSES = "0 it runs, 2 a wrong word, or such a net runs already, and else those of hinge net"
POLL = 0.02  # s between two looks whether the net's socket is there
PATIENCE = 600.0  # s that a net may take until it is ready


def command_line() -> argparse.Namespace:
    parser = new_parser(WHAT, EXAMPLE, STATUSES, f"{NAME[0]} FILE [--name NAME] [OPTION of hinge net ..]")
    parser.add_argument("file", metavar="FILE")
    parser.add_argument("--name", metavar="NAME", help="by which change, status, exec and down find it (FILE's name without .net)")
    parser.add_argument("--transcripts", metavar="FOLDER", help="for its history, its summary and what hosts print (NAME.session)")
    arguments, more = parser.parse_known_args()
    arguments.more = more
    own = [word for word in more if word.partition("=")[0] in ("--control", "--stay", "--while-open")]
    if own:
        parser.error(f"{own[0]}: a net in the background stays, and has the socket of its name")
    arguments.name = arguments.name or Path(arguments.file).stem
    arguments.transcripts = arguments.transcripts or f"{arguments.name}.session"
    return arguments


def wait_until_ready(process: "Process[bytes]", socket: str, log: Path) -> list[str]:
    """Waits until the net is ready; returns a line for each port that didn't open. Fault: the net ended."""
    while not is_answered(socket) and process.poll() is None:
        time.sleep(POLL)
    try:
        status = ask(socket, PATIENCE, status=True).status or {}
    except Wrong:
        failed = process.wait() or 1
        *before, last = read_log(log).strip().replace("hinge net: ", "").split("\n")
        for line in before:
            say(line)
        raise Fault(last or "the net has ended", failed) from None
    return list(status["silent"])


def remove_log(log: Path) -> None:
    """Removes a log with its folder, unless the folder contains other files."""
    if [*log.parent.iterdir()] == [log]:
        log.unlink()
        log.parent.rmdir()


def main() -> None:
    arguments = command_line()
    socket = new_socket(arguments.name)
    folder = Path(arguments.transcripts)
    if os.path.exists(socket) and is_answered(socket):
        raise Wrong(f"{arguments.name} runs already: hinge down {arguments.name} ends it, and --name gives another name")
    is_new = not folder.exists()
    log = folder / "net.log"
    folder.mkdir(parents=True, exist_ok=True)
    logs = [] if "--logs" in arguments.more else ["--logs", str(folder / "logs")]
    # Until a byte is written to this pipe, the net ends when the pipe closes, as it does if this process is killed.
    read_end, write_end = os.pipe()
    leash = ["--while-open", str(read_end)]
    words = ["net", arguments.file, "--transcripts", str(folder), *logs, *leash, "--control", socket, *arguments.more]
    processes = list["Process[bytes]"]()
    with clean_end():
        try:
            with undisturbed():
                processes.append(in_background(words, log, read_end))
            silent = wait_until_ready(processes[0], socket, log)
            os.write(write_end, b"!")
        except BaseException:
            with undisturbed():
                for process in processes:
                    process.terminate()
                    process.wait()
                if is_new:
                    remove_log(log)
            raise
    for line in silent:
        show(line)
    show(f"{arguments.name} runs, and keeps what it does in {folder}: hinge down {arguments.name} ends it")
