"""Pictures and pages of replays: series with common flows and steps, side by side."""

from __future__ import annotations

from dataclasses import replace
from typing import Optional

from hinge.arguments import LookOptions
from hinge.outputs import Format, format_of, written
from hinge.paths.net_graph import as_link
from hinge.pictures.chart import save
from hinge.pictures.html_page import HtmlPage, save_page, teller
from hinge.pictures.panels import MOST_FLOWS, drawing
from hinge.pictures.provenance import provenance, with_models
from hinge.pictures.series import NS_PER_MS, NS_PER_S, Series, fitting_step, series, span_of
from hinge.replays.explain import Explainer
from hinge.replays.groups import group
from hinge.replays.source import Source


def series_of(sources: list[Source], by: str, top: Optional[int], step_ms: Optional[int]) -> list[Series]:
    """Returns the series of each source. Sources of one packet file share flows, unless they are dummynet's flows."""
    replays = [source.replay for source in sources]
    span = span_of(replays)
    step_ns = step_ms * NS_PER_MS if step_ms else fitting_step(replays, span)
    most = min(top or MOST_FLOWS, MOST_FLOWS)
    flows = group(replays[0], by).largest(replays[0].packets.length, most)
    result = list[Series]()
    for source in sources:
        if by == "flow" and source is not sources[0]:
            flows = group(source.replay, by).largest(source.replay.packets.length, most)
        bounds = () if source.whole else source.bounds or ()
        result.append(series(source.replay, flows, step_ns, span, source.changes, source.lateness, bounds))
    return result


def provenance_of(sources: list[Source]) -> list[str]:
    """Returns the text under a picture of these sources, which share a configuration."""
    names = [name for source in sources for name in source.files]
    lines = with_models([text for _, text in sources[0].changes], sources[0].replay.packets)
    if of_run(sources[0]):
        lines = [f"{name}: {as_link(words) or 'no limit'}" for name, _, words in (line.partition(" config ") for line in lines)]
    return provenance(lines, list(dict.fromkeys(names)), sources[0].seed)


def first_link(source: Source, number: int) -> str:
    """Returns the link words of a pipe's first configuration, or an empty text if no command configures the pipe."""
    begin = f"pipe {number} config"
    for _, text in source.changes:
        if text.startswith(begin):
            return as_link(text.removeprefix(begin).strip()) or "no limit"
    return ""


def of_run(source: Source) -> str:
    """Returns a run's link in the words that a user types; an empty text if the source isn't a run, which is a session with a seed
    whose pipes 1 and 2 are the link's two directions."""
    if source.seed is None or {kind for kind, _ in source.replay.packets.targets} != {"pipe"}:
        return ""
    link_up, link_down = first_link(source, 1), first_link(source, 2)
    if not link_up or not link_down:
        return ""
    up = source.words.get("--up", link_up)
    down = source.words.get("--down", link_down)
    return up if up == down else f"up {up}, down {down}"


def draw_sources(sources: list[Source], path: str, options: LookOptions) -> None:
    """Draws the picture or the page of the command line. A page shows a single source."""
    result = series_of(sources, options.by, options.top, options.step)
    drawings = [drawing(flows_in_time, provenance_of(sources)) for flows_in_time in result]
    is_page = format_of(path) is Format.PAGE
    title = options.title or of_run(sources[0])
    parts = (sources[0].whole or sources[0]).parts
    explainer = Explainer(parts) if parts and (is_page or sources[0].seed) else None
    if explainer is not None:
        spans = explainer.shades(result[0].steps.span)
        drawings[0] = replace(drawings[0], shades=tuple(sorted((begin / NS_PER_S, end / NS_PER_S) for begin, end in spans)))
    with written(path) as place:
        if is_page:
            save_page(HtmlPage(drawings[0], teller(result[0], explainer, sources[0].rows), result[0]), str(place), title)
        else:
            save(drawings, str(place), format_of(path).kind, title)
