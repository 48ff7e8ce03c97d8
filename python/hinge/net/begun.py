"""The command `hinge net`, from the options on."""

from __future__ import annotations

import fcntl
import json
import os
import resource
import shutil
import signal
import sys
from typing import NoReturn

from hinge.border.programs import can_be_read
from hinge.border.terminal import show
from hinge.checks.lines import twice
from hinge.command import NAME, say
from hinge.command import run as run_command
from hinge.net.description import Description, read_description
from hinge.net.net_inside import NetInside
from hinge.net.net_plan import NetPlan
from hinge.net.net_rooms import NETWORK, NetEnds
from hinge.net.order import end_wait_of, net_of, net_order, outside_of
from hinge.net.statements import Unobeyed
from hinge.net.ways import gap
from hinge.paths.folder import HISTORY, NET, SUMMARY
from hinge.run.changes import Change, refuse_second
from hinge.run.first import BLOCKED, exit_as, first_process
from hinge.run.host import program
from hinge.run.outside import Outside
from hinge.run.plan_of_options import drawn_seed, draws, limit_of, refuse_idle, refuse_idle_seed
from hinge.run.rooms import leave_the_system
from hinge.run.settings import NetOptions
from hinge.run.system import is_simulated
from hinge.run.transcripts import refuse_lost, refuse_own_input
from hinge.run.words import Wrong, placed
from hinge.simulated import start


def with_files(options: NetOptions) -> NetOptions:
    """Creates the folders for --transcripts and --logs, copies the net's file into the first, and checks all output files.
    Returns the options with paths for the history and the summary."""
    refuse_own_input("--transcripts", options.transcripts, [options.file])
    for path in (options.transcripts, options.logs):
        if path:
            os.makedirs(path, exist_ok=True)
    if options.transcripts:
        history = os.path.join(options.transcripts, HISTORY)
        summary = os.path.join(options.transcripts, SUMMARY)
        net = os.path.join(options.transcripts, NET)
        options = options.but(transcript=options.transcript or history, json=options.json or summary)
        if os.path.realpath(options.file) != os.path.realpath(net):
            shutil.copyfile(options.file, net)  # by which `hinge look` judges the session
    refuse_lost("--transcript", options.transcript, [options.file])
    refuse_lost("--json", options.json, [options.file, options.transcript])
    refuse_lost("--control", options.control, [options.file, options.transcript, options.json])
    return options


def refuse_idle_lines(net_plan: NetPlan, is_open: bool) -> None:
    """Checks for lines without effect. `is_open` tells that users may start commands in the net. Wrong: two lines configure the
    same pipe or queue at the same moment, or no command waits for a port. Unobeyed: a line contains an option twice."""
    before = dict[bool, set[tuple[int, str, int]]]()
    for of_main, moment, line, statement in net_plan.places:
        if statement.word == "at":
            with placed(statement.place):
                refuse_second([Change(moment, line)], before.setdefault(of_main, set()))
        option = twice(line.split())
        if option:
            raise Unobeyed(f"{statement.place}: {option} stands twice; write one of them")
    if net_plan.net.waits and not net_plan.has_main and not is_open:
        raise Wrong(f"wait {net_plan.net.waits[0].host}: no command waits; write a line `main NAME COMMAND`, which begins then")


def show_net(net: Description) -> None:
    """Prints the hosts with their addresses and commands, and then each pipe with its way's words."""
    ends = NetEnds(net)
    for name, host in net.hosts.items():
        if host.is_switch:
            show(f"{name} switch")
            continue
        words = [name, *ends.own[name]]
        if host.forwards:
            words.append("router")
        if name == net.main:
            words.append("main")
        show(" ".join(words) + (f": {host.command}" if host.command else ""))
    for number, link in enumerate(net.links):
        one, two = (f"{name} {ends.at_end(name, number).four}" if name in ends.own else name for name in link.ends)
        up, down = link.ways
        show(f"pipe {2 * number + 1}: {one} > {two}: {up or 'open'}")
        show(f"pipe {2 * number + 2}: {two} > {one}: {down or 'open'}")


def refuse_gap(net: Description, options: NetOptions) -> None:
    """Checks for a host that was probably meant as a router: a host without a command between hosts that have no route to each
    other. Wrong: there is such a host. With --control, the host may get a command later, so this call only prints a warning."""
    hole = gap(net)
    if hole is None or hole.between == options.shell:
        return
    text = f"{hole.start} has no way to {hole.end}: {hole.between} hands nothing on; write router {hole.between}"
    if not options.control:
        raise Wrong(f"{options.file}: {text}, or give it a command")
    if not options.quiet:
        say(text)


def run(arguments: NetOptions) -> None:
    """Checks the options, and runs the net; with --dry-run, shows the net instead. Wrong: an option, or a word of the net, has no
    effect here."""
    refuse_gap(read_description(arguments.file), arguments)
    net = net_of(arguments)
    seed = drawn_seed(arguments.seed)
    net_plan = NetPlan(net, net.longest(arguments.mtu), seed)  # so that a wrong word is told before folders are made
    # These three are called only for their refusals.
    limit_of(arguments.late)
    end_wait_of(arguments)
    outside_of(arguments, net)
    stays = arguments.stay or arguments.while_open is not None
    refuse_idle_lines(net_plan, bool(arguments.control or stays))
    refuse_idle(net_plan.plan, [link.statement.place for link in net.links for _ in link.ways], bool(arguments.control))
    is_of_links = arguments.seed is not None and not (arguments.simulated or arguments.control)
    refuse_idle_seed(is_of_links, draws(net_plan.plan) or bool(net_plan.drawn))
    if arguments.dry_run:
        show_net(net)
        if net_plan.drawn:
            show(f"# by seed {seed}")
        for line in net_plan.drawn:
            show(line)
        return
    arguments = with_files(arguments)
    if arguments.simulated:
        if stays:
            raise Wrong("--stay, --while-open: nobody can end a machine of its own; simulated time ends with its commands")
        sys.exit(start.run_simulated(arguments))
    begin(arguments)


def begin(options: NetOptions) -> NoReturn:
    """Runs the net on this system and its clock, and ends this process with the net's status."""
    mask = signal.pthread_sigmask(signal.SIG_BLOCK, ())
    program()
    order = net_order(options, net_of(options), mask, is_simulated())
    signal.pthread_sigmask(signal.SIG_BLOCK, BLOCKED)  # once all files are read, which a FIFO may put off for ever
    most = resource.getrlimit(resource.RLIMIT_NOFILE)[1]
    resource.setrlimit(resource.RLIMIT_NOFILE, (most, most))  # two descriptors for each link
    sys.stdout.flush()
    # Before this process leaves the network that it joins.
    outside = Outside(bool(options.outside_loopback), NETWORK) if order.outside else None
    own_users = leave_the_system()
    first = first_process(lambda: NetInside(order, own_users, outside).run())
    if outside:
        outside.tell(first, own_users)
    if options.while_open is not None:
        look_at(options.while_open)
    exit_as(first, options.while_open)


def begin_inside() -> NoReturn:
    """Runs a net inside a simulated machine. The first argument of this process contains the options in JSON."""
    NAME[0] = "hinge net"
    run_command(lambda: begin(NetOptions(**json.loads(sys.argv[1]))))


def look_at(pipe: int) -> None:
    """Makes the system send SIGIO to this process when a pipe can be read. A thread can't wait for the pipe, because this process
    can't start threads any more."""
    fcntl.fcntl(pipe, fcntl.F_SETOWN, os.getpid())
    fcntl.fcntl(pipe, fcntl.F_SETFL, fcntl.fcntl(pipe, fcntl.F_GETFL) | os.O_ASYNC)
    if can_be_read(pipe, 0):
        os.kill(os.getpid(), signal.SIGIO)
