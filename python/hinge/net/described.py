"""A net's description in Python: the lines in the net's file, before the net starts."""

from __future__ import annotations

import shlex
from pathlib import Path
from typing import Optional, Sequence, Union

from hinge.run.words import Wrong, read_link_words
from hingetulip_words.link import Place
from hingetulip_words.presets import either_way

__tracebackhide__ = True  # of a test that fails, pytest shows its own line
Time = Union[int, float, str]
Command = Union[str, Sequence[str]]


class NetError(Exception):
    """Raised if a net can't start, or refuses a change."""


def spelled_time(lasting: Time) -> str:
    """Returns a time as a word of a net's file. A number counts seconds."""
    return lasting if isinstance(lasting, str) else f"{lasting:.9f}".rstrip("0").rstrip(".") + "s"


class Described:
    """Collects the lines of a net's file."""

    def __init__(self, folder: Path, link: str, back: Optional[str]) -> None:
        """`link` and `back` are the words for links that are added without words, as for `link`. The folder receives commands
        that have several lines."""
        self.folder = folder
        self.default_link = link
        self.default_back = back
        self.lines: list[str] = []
        self.is_running = False
        self.unsaid = 0  # the number of links that were added without words

    def describe(self, text: str) -> None:
        """Adds lines in the format of a `hinge net` file. NetError: the net is already running."""
        if self.is_running:
            raise NetError("the net runs already; `change`, `cut` and `obey` change it")
        self.lines += text.splitlines()

    def host(self, name: str, command: Command = "", *, port: Optional[int] = None, wait: Time = 30, word: str = "host") -> None:
        """Adds a host and its command. With `port`, `start` waits up to `wait` until something listens at the port."""
        text = command if isinstance(command, str) else shlex.join(command)
        if "\n" in text.strip() or text.endswith("\\"):
            text = self.saved_script(name, text)
        self.describe(f"{word} {name} {text.strip()}")
        if port is not None:
            self.describe(f"wait {name} port {port} {spelled_time(wait)}")

    def saved_script(self, name: str, text: str) -> str:
        """Saves a command with several lines in the folder; returns a command in one line that runs the saved lines."""
        self.folder.mkdir(parents=True, exist_ok=True)
        path = self.folder / f"{name}.sh"
        path.write_text(text)
        return f". {shlex.quote(str(path))}"

    def router(self, name: str, command: Command = "", *, port: Optional[int] = None) -> None:
        """Adds a host that forwards packets."""
        self.host(name, command, port=port, word="router")

    def words(self, link: Optional[str], back: Optional[str], preset: Optional[str]) -> str:
        """Returns a link's words as in a net's file: `LINK`, or `LINK / LINK` if the way back has other words. NetError: a word
        is wrong."""
        if preset is not None:
            link, back = either_way(preset, link, back)
        elif link is None:
            link = self.default_link
            back = self.default_back if back is None else back
            self.unsaid += 1
        ways = [link or ""] if back is None else [link or "", back]
        for way in ways:
            try:
                read_link_words(way, "the link", Place.KERNELS)
            except Wrong as wrong:
                raise NetError(str(wrong)) from None
        return " / ".join(ways) if any(ways) else ""

    def link(
        self, one: str, two: str, link: Optional[str] = None, back: Optional[str] = None, *, preset: Optional[str] = None
    ) -> None:
        """Adds a link. Without `back`, `link` describes both ways, otherwise only the way from the first host to the second."""
        self.describe(f"link {one} {two} {self.words(link, back, preset)}")

    def switch(
        self,
        name: str,
        hosts: Sequence[str],
        link: Optional[str] = None,
        back: Optional[str] = None,
        *,
        preset: Optional[str] = None,
    ) -> None:
        """Adds a switch with a link to each of these hosts."""
        self.describe(f"switch {name} {' '.join(hosts)} {self.words(link, back, preset)}")

    def loss(self, one: str, two: str, model: str) -> None:
        """Adds a loss model to a link: bursts such as `up:gilbert:0.01,0.3`, or packets by number."""
        self.describe(f"loss {one} {two} {model}")

    def trace(self, one: str, two: str, path: Union[str, Path]) -> None:
        """Makes the bandwidth from the first host to the second follow a trace file."""
        self.describe(f"trace {one} {two} {Path(path).absolute()}")
