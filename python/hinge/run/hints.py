"""Hints about probable mistakes in a command line of `hinge run`, which are printed before the command starts."""

from __future__ import annotations

import os
import re
import shlex
import shutil
from typing import Iterator, Optional, Sequence

from hinge.misplaced import kind_of, line_for
from hinge.run.settings import RunOptions
from hingetulip_words.link import link_before

CLIENTS = """curl dig=bind9-dnsutils host=bind9-host iperf iperf3 mtr=mtr-tiny nc=netcat-openbsd ncat nslookup=bind9-dnsutils
ping=iputils-ping socat ssh=openssh-client telnet traceroute wget"""
PACKAGES = {name: package or name for name, _, package in (word.partition("=") for word in CLIENTS.split())}  # Debian's, by clients
SERVERS = {"babeld": "babeld", "bird": "bird2", "etcd": "etcd-server", "keepalived": "keepalived", "redis-server": "redis-server"}
HOSTS = "/etc/hosts"
URL = re.compile(r"[a-z][a-z0-9+.-]*://(?:[^@/]*@)?(\[[^]]*\]|[^/:]*)(?::(\d+))?.*", re.IGNORECASE)
HOST = re.compile(r"(?=.*[.:])[\w.:-]+\.?|localhost", re.ASCII)
AT_SERVER = re.compile(r"(?:^|[/@])server(?:$|[:/])")
WITHOUT_SERVER = ("ping", "mtr", "traceroute")  # clients to which the system itself replies
LOCAL = re.compile(r"localhost|127\..*|::1", re.IGNORECASE)
OWN = re.compile(r"(server|client|localhost|127\..*|::1|10\.8\..*|fd08:.*)", re.IGNORECASE)


def link_as_command(command: Sequence[str]) -> Optional[str]:
    """Returns advice if the command begins with a link's words; otherwise None."""
    if command and shutil.which(command[0]):
        return None
    link, rest = link_before(command)
    if not link:
        return None
    return f"{command[0]!r} isn't a command; write --link {shlex.quote(link)} -- {' '.join(rest) or 'COMMAND'}"


def lacking(command: Sequence[str]) -> Optional[str]:
    """Returns advice if the system lacks the command's program, or if the program isn't executable, or if the command contains the
    name `server` and there is no /etc/hosts; otherwise None."""
    if command and os.path.isfile(command[0]) and not os.access(command[0], os.X_OK):
        return advice_for_file(command[0])
    lacks = list[str]()
    remedies = list[str]()
    if command and "/" not in command[0] and shutil.which(command[0], os.F_OK) is None:
        package = (PACKAGES | SERVERS).get(command[0])
        lacks.append(command[0] if package else f"{command[0]} on the path")
        remedies.append(f"apt-get install {package}" if package else runnable(command[0]))
    if re.search(r"\bserver\b", " ".join(command)) and not os.path.exists(HOSTS):
        lacks.append(HOSTS)
        remedies.append(f"touch {HOSTS}")
    if not lacks:
        return None
    advice = "; ".join(filter(None, remedies))
    return f"there is no {' and no '.join(lacks)}" + (f": {advice}" if advice else "")


def advice_for_file(path: str) -> str:
    """Returns advice on a command that is a file without permission to execute: what the file is, and what to write."""
    kind = kind_of(path)
    if kind in ("program", "empty", ""):
        return f"{path} is not executable: {runnable(path)}"
    return f"{path} is {line_for('run', kind, path)}"


def runnable(name: str) -> str:
    """Returns advice if the program's name is a file in the current folder, or a command line in quotes; otherwise an empty
    text."""
    interpreter = {".py": "python3", ".sh": "sh"}.get(os.path.splitext(name)[1])
    if not os.path.isfile(name):
        return f"write sh -c {shlex.quote(name)}" if " " in name.strip() else ""
    if os.access(name, os.X_OK):
        return f"write ./{name}"
    return f"write {interpreter or 'chmod +x'} {name}"


def asked_hosts(command: Sequence[str]) -> Iterator[tuple[str, str]]:
    """Yields the hosts that a client's arguments name, each with a port, or an empty text without a port. Yields nothing if the
    command isn't a client in CLIENTS."""
    if not command or os.path.basename(command[0]) not in PACKAGES:
        return
    for word, following in zip(command[1:], [*command[2:], ""]):
        if word.startswith("-") or os.path.exists(word):
            continue
        url = URL.fullmatch(word)
        if url:
            name = url[1].strip("[]")
            port = url[2] or ("443" if word.startswith("https") else "80")
        else:
            name = word if HOST.fullmatch(word) and not word.replace(".", "", 1).isdigit() else ""
            port = following if following.isdigit() else ""
        if name:
            yield name, port


def far_host(command: Sequence[str]) -> Optional[str]:
    """Returns the first host outside the run that a client tries to reach; None if there is none."""
    return next((name for name, _ in asked_hosts(command) if not OWN.fullmatch(name)), None)


def lacks_server(run: RunOptions) -> bool:
    """Returns whether the command is a client that names `server`, although nothing runs there."""
    if run.server or run.to or run.netns or not run.command:
        return False
    name = os.path.basename(run.command[0])
    return name in PACKAGES and name not in WITHOUT_SERVER and any(map(AT_SERVER.search, run.command[1:]))


def hints(run: RunOptions) -> Iterator[str]:
    """Yields the hints for a run; with --quiet, only hints about the client's own address."""
    if not (run.quiet or run.has_link()):
        yield "no link is given, so nothing is slowed or lost: --link '10Mbit/s 20ms loss 1%' or --preset lte gives one"
    far = None if run.quiet else far_host(run.command)
    if far is not None and not (run.outside or run.outside_loopback) and run.netns is None and run.net is None:
        yield f"{far}: behind the link is the host `server` alone; --outside leads to the rest of the network"
    if not run.quiet and lacks_server(run):
        yield "`server` runs no program: write --server COMMAND, for example --server 'iperf3 -s -1'"
    for name, port in asked_hosts(run.command):
        if LOCAL.fullmatch(name) and run.netns is None and port not in map(str, run.to):
            target = f"this system's port {port}" if port else "a port of this system"
            advice = f"--to {port or 'PORT'} brings {target} behind it"
            yield f"{name} is the client's own address, before the link: {advice}, and `server` is the host at its end"
