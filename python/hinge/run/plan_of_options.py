"""The conversion of the options of `hinge run` and `hinge udp` into a plan: the text that tells hinge-link what to emulate."""

from __future__ import annotations

import random
from array import array
from itertools import chain
from typing import Iterable, Iterator, Optional, Sequence

from hinge.run.plan import Plan
from hinge.run.settings import LinkOptions, LiveOptions
from hinge.run.transcripts import refuse_lost
from hinge.run.words import Target, Wrong, bare, duration, read_link_words, read_lines, target_of
from hingetulip_words.link import NO_WORDS, LinkWords, Place
from hingetulip_words.presets import Preset, preset

BIN_LEAST = 10**6  # ns
TRACE_LASTING = "1h"  # how long traces are repeated by default
WAY_NAMES = "client > server", "server > client"  # the names of ways 0 and 1 in a file of faults
Numbered = tuple[int, str]  # a line's number, and its text


def value(line: str, option: str) -> str:
    """Returns the value of an option in a pipe's line, or an empty text."""
    words = line.split()
    return words[words.index(option) + 1] if option in words[:-1] else ""


def idle_queues(plan: Plan) -> Iterator[tuple[int, str]]:
    """Yields each way (one direction of a link) whose pipe has a queue's length but never a bandwidth, so that no packet waits in
    the queue, and the message about this."""
    for way in range(plan.ways):
        line = plan.current.get(Target("pipe", way + 1), "")
        length = value(line, "queue")
        if length and not may_wait(plan, way, line):
            yield way, f"queue {length} does nothing, as no packet waits without a bandwidth; write 10Mbit/s beside it"


def may_wait(plan: Plan, way: int, line: str) -> bool:
    """Returns whether packets may wait in the queue of a way's pipe: the pipe's line has a bandwidth, a trace or an outage delays
    the packets, or a change configures the pipe."""
    target = Target("pipe", way + 1)
    if any(digit in value(line, "bw") for digit in "123456789") or any(text.startswith(f"slots {way + 1} ") for text in plan.rest):
        return True
    both = (plan.changes, plan.behind_main)
    if any(target.number in changes.outages for changes in both):
        return True
    return any(target_of(change.line) == target for changes in both for change in changes.every())


def idle_losses(plan: Plan) -> Iterator[tuple[int, str]]:
    """Yields each way with a loss rate that has no effect, because a loss model or faults decide about each packet, and the message
    about this."""
    for way, model in plan.decided.items():
        rate = value(plan.current.get(Target("pipe", way + 1), ""), "plr")
        if rate and float(rate) < 1:
            cause = "the faults decide" if model == "faults" else f"{model} decides"
            yield way, f"the loss rate {rate} does nothing, as {cause} about each packet; leave one of them out"


def refuse_idle(plan: Plan, places: Sequence[str], is_open: bool) -> None:
    """Checks that the words for each way have an effect. `places` names the place of each way's words, for the message. Wrong: a
    loss rate or a queue has no effect. If `hinge change` can reach the run (`is_open`), a queue may still get a bandwidth."""
    messages = [*idle_losses(plan)]
    if not is_open:
        messages += idle_queues(plan)
    for way, message in messages:
        raise Wrong(f"{places[way]}: {message}")


def refuse_idle_options(options: LiveOptions, plan: Plan, draws: bool) -> None:
    """Checks that --bin, --trace-for and --seed have an effect; `draws` tells whether the run draws random numbers. Wrong: an
    option has no effect."""
    if options.bin and not plan.has_moments:
        raise Wrong("--bin does nothing, as the rows of seconds,bit/s are no moments that could be counted; leave it out")
    if options.trace_for and not plan.has_bins:
        raise Wrong("--trace-for does nothing, as no moments are counted over bins; leave it out, or write --bin 100ms beside it")
    is_simulated = getattr(options, "simulated", False)
    refuse_idle_seed(options.seed is not None and not options.control and not is_simulated, draws)


def refuse_idle_seed(is_of_link_alone: bool, draws: bool) -> None:
    """Checks that a seed has an effect. Wrong: only the links could use the seed (`is_of_link_alone`), but no link draws a number.
    In simulated time the seed determines all programs' random numbers, too."""
    if is_of_link_alone and not draws:
        raise Wrong("--seed does nothing, as no link draws anything; write a loss, jitter or duplicates, or leave it out")


def preset_of(name: Optional[str]) -> Optional[Preset]:
    """Returns the preset of a name, or None without a name. Wrong: there is no such preset."""
    try:
        return None if name is None else preset(name)
    except ValueError as unknown:
        raise Wrong(f"--preset: {unknown}") from None


def own_link(text: str, option: str) -> LinkWords:
    """Returns the link in an option of the command line. Wrong: the text is empty, or isn't a link."""
    if not bare(text):
        raise Wrong(f"{option} {text!r}: {NO_WORDS}; an open one is 'bw 0'")
    return read_link_words(text, option, Place.KERNELS)


def asking(option: str, lines: Iterable[Numbered]) -> Iterator[Numbered]:
    """Returns an option's lines without empty lines and comments. Wrong: no line remains."""
    with_contents = ((number, text) for number, text in lines if bare(text))
    first = next(with_contents, None)
    if first is None:
        raise Wrong(f"{option}: no line of a configuration (example: pipe 1 config bw 10Mbit/s)")
    return chain([first], with_contents)


def numbered_lines(options: LinkOptions) -> Iterator[Numbered]:
    """Yields the lines from --config with their numbers, then the lines from --line with the number 0. Wrong: an option contains no
    line."""
    if options.config:
        yield from asking("--config", enumerate(read_lines(options.config), 1))
    for text in options.line:
        yield from asking("--line", ((0, part) for part in text.splitlines()))


def lines_of(options: LinkOptions, numbered: Iterable[Numbered]) -> list[str]:
    """Returns the configuration lines of all options in order; `numbered` are the lines from --config and --line. The line for --up
    or --down follows these if one of them configures the same pipe, and otherwise precedes these, which may configure the pipe's
    queues. A direction without words has the preset's link, or an open link. Wrong: a link or a line is wrong, or the preset has no
    effect."""
    texts = link_texts(options)
    inputs = list[str]()
    numbers = array("I")
    for number, line in numbered:
        inputs.append(line)
        numbers.append(number)
    if inputs:
        from hinge.checks.lines import refuse_wrong  # imported here, since few runs need the module

        refuse_wrong(inputs, numbers, options.config or "", "--line")
    targets = {target_of(bare(line)) for line in inputs}
    first = list[str]()
    last = list[str]()
    for pipe, (option, text, preset_text) in enumerate(texts, 1):
        is_configured = Target("pipe", pipe) in targets
        if text is None and not is_configured:
            text = preset_text
        link = None if text is None else own_link(text, option)
        if is_configured:
            if link is not None and link.options:
                last.append(link.line(pipe))
        elif link is not None:
            first.append(link.line(pipe))
        else:
            last.append(f"pipe {pipe} config")
    if options.preset is not None and {Target("pipe", 1), Target("pipe", 2)} <= targets:
        raise Wrong("--preset does nothing beside lines of the pipes 1 and 2")
    return [*first, *inputs, *last]


def link_texts(options: LinkOptions) -> list[tuple[str, Optional[str], Optional[str]]]:
    """Returns for each way the option for its link, the option's text, and the text of the preset."""
    links = preset_of(options.preset)
    up, down = (links.up, links.down) if links else (None, None)
    return [("--up", options.up, up), ("--down", options.down, down)]


def limit_of(late: Optional[str]) -> Optional[float]:
    """Returns the limit from --late in ms, or None without the option. Wrong: the limit lacks a unit, and could mean ms or s."""
    if late is None:
        return None
    if late.replace(".", "", 1).isdecimal():
        raise Wrong(f"--late {late}: it has no unit; write {late}ms or {late}s")
    return duration(late, "--late") / 1e6


def noted(plan: Plan, lines: Iterable[Numbered]) -> Iterator[Numbered]:
    """Yields configuration lines, and notes each line as a remark in the plan."""
    for number, text in lines:
        plan.note("--config" if number else "--line", number, text)
        yield number, text


def plan_of(options: LiveOptions, longest: int) -> Plan:
    """Converts the options of `hinge run` or `hinge udp` into a plan: the text that tells the program hinge-link what to emulate.
    Packets have at most `longest` bytes."""
    refuse_lost("--transcript", options.transcript, options.files())
    refuse_lost("--json", options.json, [*options.files(), options.transcript])
    refuse_lost("--control", options.control, [*options.files(), options.transcript, options.json])
    plan = Plan(longest)
    plan.is_noted = options.transcript is not None
    note_options(plan, options)
    for line in lines_of(options, noted(plan, numbered_lines(options))):
        plan.link(line)
    for way, (option, text, preset_text) in enumerate(link_texts(options)):
        if text is None:
            text = preset_text or ""
        plan.words(way, read_link_words(text, option, Place.KERNELS))
    for rule in options.map:
        plan.rule(rule)
    for model in options.loss:
        plan.loss(model)
    if options.faults:
        plan.faults(options.faults, WAY_NAMES)
    if options.timeline:
        plan.timeline(options.timeline)
    for way, path in enumerate((options.up_trace, options.down_trace)):
        if path:
            bin_ns = max(BIN_LEAST, duration(options.bin, "--bin")) if options.bin else None
            plan.trace(way, path, bin_ns, duration(options.trace_for or TRACE_LASTING, "--trace-for"))
    places = ["pipe 1" if options.up is None else "--up", "pipe 2" if options.down is None else "--down"]
    refuse_idle(plan, places, bool(options.control))
    refuse_idle_options(options, plan, draws(plan))
    return plan


def note_options(plan: Plan, options: LiveOptions) -> None:
    """Notes the texts of the options for the link as remarks in the plan."""
    texts = [("--up", options.up), ("--down", options.down), ("--preset", options.preset)]
    texts += [("--map", rule) for rule in options.map]
    texts += [("--loss", model) for model in options.loss]
    for option, text in texts:
        plan.note(option, 0, text or "")


def drawn_seed(seed_of_user: Optional[int]) -> int:
    """Returns the user's seed, or a random one."""
    return random.SystemRandom().getrandbits(32) if seed_of_user is None else seed_of_user


def draws(plan: Plan) -> bool:
    """Returns whether a link draws random numbers, so that the run depends on the seed."""
    lines = chain(plan.configured, (change.line for change in plan.changes.every()))
    return bool(plan.decided or plan.extras) or any("plr" in line for line in lines)
