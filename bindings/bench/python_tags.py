#!/usr/bin/env python3
"""Tags a second from Python, beside soupsieve on the same page: the whole way from the page's text, and the matching alone.

    ZUGRENJA_LIBRARY=bindings/out/libzugrenja.so /usr/bin/python3 bindings/bench/python_tags.py [PAGE]

It needs Debian's python3-bs4 and python3-soupsieve, and bindings/out, which bindings/check makes. Both read the page by html.parser. The
page is examples/page.html a hundred times if none is named. Best of five runs.
"""

import sys
import time
from pathlib import Path
from typing import Callable

import soupsieve
from bs4 import BeautifulSoup

TOP = Path(__file__).resolve().parents[2]
sys.path.insert(0, str(TOP / "bindings" / "python"))

from page_tags import PageTags  # noqa: E402
from zugrenja import Matcher, select  # noqa: E402

SELECTORS = (
    "main a[href]", "img:not([alt])", "article > p", "h2", "nav ul > li:nth-child(2)", "a[href^='https:']", "#content p", ".note",
    "table td", "p:first-child > em",
)


class Reading(PageTags):
    """The tags of a page, in their order: what `Matcher.start` takes, and the name alone of an end tag."""

    def __init__(self, page: str) -> None:
        super().__init__()
        self.tags: list[tuple] = []
        self.read(page)

    def start(self, *tag: object) -> None:
        self.tags.append(tag)

    def end(self, name: str) -> None:
        self.tags.append((name,))


def tell(tags: list[tuple]) -> int:
    """How often a selector matches."""
    with Matcher(SELECTORS) as matcher:
        count = 0
        for tag in tags:
            if len(tag) > 1:
                count += len(matcher.start(*tag))
            else:
                matcher.end(*tag)
        return count


def sieve(soup: BeautifulSoup) -> int:
    return sum(len(soupsieve.select(selector, soup)) for selector in SELECTORS)


def best(call: Callable[[], int]) -> tuple[float, int]:
    """The least of the seconds of five calls, and what the last answers."""
    seconds = []
    for _ in range(5):
        began = time.perf_counter()
        answer = call()
        seconds.append(time.perf_counter() - began)
    return min(seconds), answer


def main() -> None:
    page = Path(sys.argv[1]).read_text() if len(sys.argv) > 1 else (TOP / "examples/page.html").read_text() * 100
    tags, soup = Reading(page).tags, BeautifulSoup(page, "html.parser")
    starts = sum(len(tag) > 1 for tag in tags)
    print(f"{len(page)} characters, {starts} start tags, {len(tags) - starts} end tags, {len(SELECTORS)} selectors")
    for words, call in {
        "zugrenja, from text": lambda: sum(len(match.selectors) for match in select(page, SELECTORS)),
        "soupsieve, from text": lambda: sieve(BeautifulSoup(page, "html.parser")),
        "zugrenja, matching alone": lambda: tell(tags),
        "soupsieve, matching alone": lambda: sieve(soup),
    }.items():
        seconds, found = best(call)
        print(f"{words:26} {seconds:7.3f} s, {starts / seconds:9.0f} start tags a second, {found} matches", flush=True)


if __name__ == "__main__":
    main()
