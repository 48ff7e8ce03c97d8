"""Presets: links with familiar names, each with both ways (directions) and the source of the figures.

If the source states a round trip's delay, each way has half of it. No source states queues: a queue holds 10 to 1,000 packets, a
multiple of ten that stores about 250 ms of traffic in packets of 1,500 bytes. Real links vary, so a preset is a starting point, not
a measurement.
"""

from __future__ import annotations

from typing import NamedTuple, Optional


class Preset(NamedTuple):
    """The words for both ways of a link."""

    up: str  # to the server
    down: str  # from the server
    source: str  # the origin of the figures


PAGE, APPLE = "WebPageTest's profile", "Apple's Network Link Conditioner,"
PRESETS = {
    "dialup": Preset("30Kbit/s 60ms queue 10", "49Kbit/s 60ms queue 10", f"{PAGE} 56K Dial-Up"),
    "edge": Preset("200Kbit/s 420ms queue 10", "240Kbit/s 420ms queue 10", f"{PAGE} Mobile Edge"),
    "slow-3g": Preset("400Kbit/s 200ms queue 10", "400Kbit/s 200ms queue 10", f"{PAGE} Slow 3G"),
    "3g": Preset("768Kbit/s 150ms queue 20", "1600Kbit/s 150ms queue 30", f"{PAGE} Mobile 3G"),
    "fast-3g": Preset("768Kbit/s 75ms queue 20", "1600Kbit/s 75ms queue 30", f"{PAGE} Mobile 3G - Fast"),
    "4g": Preset("9Mbit/s 85ms queue 190", "9Mbit/s 85ms queue 190", f"{PAGE} Mobile 4G"),
    "lte": Preset("12Mbit/s 35ms queue 250", "12Mbit/s 35ms queue 250", f"{PAGE} Mobile LTE"),
    "dsl": Preset("384Kbit/s 25ms queue 10", "1500Kbit/s 25ms queue 30", f"{PAGE} DSL"),
    "cable": Preset("1Mbit/s 14ms queue 20", "5Mbit/s 14ms queue 100", f"{PAGE} Cable"),
    "fibre": Preset("5Mbit/s 2ms queue 100", "20Mbit/s 2ms queue 420", f"{PAGE} FIOS"),
    "satellite": Preset("10Mbit/s 20ms queue 210", "100Mbit/s 20ms queue 1000", "a low orbit, as Starlink describes its service"),
    "geo": Preset(
        "3Mbit/s 300ms queue 60", "25Mbit/s 300ms queue 520", "a geostationary orbit: 240 ms of way, and 60 ms on the ground"
    ),
    "lossy-wifi": Preset("33Mbit/s 1ms queue 690 loss 2%", "40Mbit/s 1ms queue 830 loss 2%", f"{APPLE} Wi-Fi, with losses"),
    "bad": Preset("1Mbit/s 500ms queue 20 loss 10%", "1Mbit/s 500ms queue 20 loss 10%", f"{APPLE} Very Bad Network"),
    "lan": Preset("1Gbit/s queue 1000", "1Gbit/s queue 1000", "Gigabit Ethernet, whose delay is far below a millisecond"),
}
# Each preset, with the names of links that it resembles most.
OTHER_PRESETS = """dialup=modem,isdn edge=2g,gprs,gsm 3g=umts,hspa,hsdpa 4g=mobile,cellular,phone lte=5g,nr dsl=adsl,vdsl,broadband
cable=docsis,home fibre=ftth,fios,fiber satellite=starlink,leo,sat geo=viasat,geostationary,vsat
lossy-wifi=wifi,wi-fi,wlan,wireless,lossy bad=train,terrible,poor,worst lan=ethernet,gigabit,wired,datacenter,datacentre,local"""
NEAREST = dict[str, str]()  # the presets by these other names
for entry in OTHER_PRESETS.split():
    nearest, _, names = entry.partition("=")
    NEAREST.update(dict.fromkeys(names.split(","), nearest))


def near(name: str) -> str:
    """Returns the preset that a name resembles or means; an empty text if there is none."""
    import difflib  # only a wrong name needs this module

    plain = "-".join(name.lower().replace("_", " ").split())
    return NEAREST.get(plain) or "".join(difflib.get_close_matches(plain, PRESETS, 1))


def preset(name: str) -> Preset:
    """Returns the preset with a name, in upper or lower case. ValueError: there is no such preset."""
    plain = "-".join(name.lower().split())
    if plain in PRESETS:
        return PRESETS[plain]
    if nearest := near(name):
        advice = f"write {nearest}"
    elif plain in ("list", "help", "all"):
        advice = "write --list-presets"
    else:
        advice = f"write one of {', '.join(PRESETS)}"
    raise ValueError(f"'{name}': not a preset; {advice}")


def either_way(name: str, up: Optional[str] = None, down: Optional[str] = None) -> tuple[str, str]:
    """Returns a preset's words for both ways; `up` and `down` replace them. ValueError: there is no such preset."""
    links = preset(name)
    up_words = links.up if up is None else up
    down_words = links.down if down is None else down
    return up_words, down_words


def preset_table() -> str:
    """Returns a table of all presets, in lines of at most 80 columns."""
    rows = [("preset", "up", "down", ""), *((name, *links) for name, links in PRESETS.items())]
    name_width = max(len(name) for name, _, _, _ in rows)
    up_width = max(len(up) for _, up, _, _ in rows)
    lines = []
    for name, up, down, source in rows:
        lines.append(f"{name:<{name_width}}  {up:<{up_width}}  {down}")
        if source:
            lines.append(f"{'':<{name_width}}  {source}")
    return "\n".join(lines)
