"""The command `hinge docs`, which names or shows the installed or the clone's pages of the documentation."""

from __future__ import annotations

import difflib
import pydoc
import sys
from pathlib import Path
from typing import Iterator, Optional, Sequence

from hinge.border.terminal import show
from hinge.command import MISSING, USAGE, Fault, new_parser
from hinge.program import PACKAGE, REPOSITORY

WHAT = """\
Names the pages of the documentation and their folder, or shows one: on a terminal by the pager of the variable PAGER,
and else as it is."""
INSTALLED = Path("share", "doc", "hingetulip", "docs")
INSIDE = "inside"  # the folder of the pages on the code, which only a clone has
PAGES = """FORMATS=FILES HISTORIES=FILES SESSIONS=FILES JSON=FILES CONFIG=LINKS FAULTS=NET SWEEPS=CAPTURE SHARES=SPEC THREADS=EMBEDDING
CALLERS=DECISIONS CHOICES=DECISIONS RATES=PERFORMANCE"""
MOVED = dict(pair.split("=") for pair in PAGES.split())  # pages that versions up to 1.7 had, and the page that has their contents


def folder_of_pages() -> Path:
    """Returns the folder of the pages, in the clone or the installation. Fault: there is none."""
    places = [REPOSITORY / "docs", *(folder / INSTALLED for folder in PACKAGE.parents)]
    result = next((place for place in places if any(place.glob("*.md"))), None)
    if result is None:
        raise Fault(f"the pages aren't there: neither in a clone nor in {INSTALLED} of a folder above {PACKAGE}", MISSING)
    return result


def page_rows(folder: Path) -> Iterator[str]:
    """Yields the name and the title of each page."""
    pages = [*sorted(folder.glob("*.md")), *sorted(folder.glob(f"{INSIDE}/*.md"))]
    width = max(len(page.stem) for page in pages)
    for page in pages:
        title = page.read_text(encoding="utf-8").partition("\n")[0].removeprefix("# ")
        yield f"  {page.stem:<{width}}  {title}"


def page_named(folder: Path, name: str) -> str:
    """Returns the text of the page with this current or former name, regardless of case and extension. Fault: no such page."""
    pages = {page.stem: page for page in folder.rglob("*.md")}
    key = name.rpartition("/")[2].upper().removesuffix(".MD")
    key = MOVED.get(key, key)
    if key not in pages:
        raise Fault(f"no page {name!r}; {advice_on(name, difflib.get_close_matches(key, pages, 1))}", USAGE)
    return pages[key].read_text(encoding="utf-8")


def advice_on(name: str, similar: Sequence[str]) -> str:
    """Returns advice on a page's wrong name: a command's help, a page on the subject, or a similar name."""
    from hinge.__main__ import COMMANDS  # only a wrong name needs these modules
    from hinge.foreign_words import WORDS

    if name in COMMANDS:
        return f"`hinge help {name}` describes it."
    if name.lower() in WORDS:
        return f"write hinge docs {WORDS[name.lower()].page}".rstrip()
    return f"write hinge docs {similar[0]}" if similar else "`hinge docs` names them."


def show_page(text: str) -> None:
    if sys.stdout.isatty():
        pydoc.pager(text)
    else:
        show(text, end="")


def main() -> None:
    parser = new_parser(WHAT, "hinge docs\n  hinge docs LIVE", "0 done, 2 no such page, 7 there are no pages")
    parser.add_argument("page", nargs="?", help="its name, as LIVE")
    page: Optional[str] = parser.parse_args().page
    folder = folder_of_pages()
    if page is not None:
        show_page(page_named(folder, page))
    else:
        show("\n".join([f"pages in {folder}; `hinge docs NAME` shows one:", "", *page_rows(folder)]))
