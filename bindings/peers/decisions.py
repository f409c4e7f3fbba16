#!/usr/bin/env python3
"""Compares what `select` of the Python binding decides on whole pages with soupsieve, and with cssselect over lxml.

    ZUGRENJA_LIBRARY=bindings/out/libzugrenja.so /usr/bin/python3 bindings/peers/decisions.py

The pages, the selectors, the engines and the reasons for differences are those of diff/peers.py. Each page is written as a text, in which
line N has the start tag of element N; each engine is given the same elements, all of them in the HTML namespace.
It needs what diff/README.md names for pages and for these two engines.
"""

import argparse
import html
import sys
from pathlib import Path
from typing import Iterator

TOP = Path(__file__).resolve().parents[2]
sys.path[:0] = [str(TOP / "diff"), str(TOP / "bindings" / "python")]

from engines import ENGINES
from peer_pages import HTML, Element, Page
from peer_reasons import elements_with, with_reasons
from peer_selectors import text_of
from peers import Comparing, arguments, compare, pages_by
from model import VOID_NAMES
from zugrenja import select


def in_html(element: Element) -> Element:
    """The element in HTML, as `select` reads it: its names in lower case, without attributes of other namespaces. One of SVG or MathML has
    another name, and so has `noscript`, in which `select` reads text."""
    own = element.name.lower()
    if element.namespace != HTML or own == "noscript":
        own = f"x-{own}"
    attributes = {}
    for prefix, name, value in element.attributes:
        if prefix is None:
            attributes.setdefault(name.lower(), value)
    return Element(element.parent, HTML, own, [(None, *one) for one in attributes.items()])


def pages(options: argparse.Namespace) -> Iterator[Page]:
    for page in pages_by(options):
        yield Page(page.name, [in_html(element) for element in page.elements])


def end_tag(element: Element) -> str:
    return "" if element.name.encode() in VOID_NAMES else f"</{element.name}>"


def text_of_page(elements: list[Element]) -> str:
    """A line for each element: the end tags of those that are over, and its start tag."""
    lines, opened = [], []
    for number, element in enumerate(elements):
        line = ""
        while opened and opened[-1] != element.parent:
            line += end_tag(elements[opened.pop()])
        written = [f' {name}="{html.escape(value)}"' for _, name, value in element.attributes]
        lines.append(f"{line}<{element.name}{''.join(written)}>")
        opened.append(number)
    return "\n".join(lines)


def decide(page: Page, selectors: list, reasons: tuple = ()) -> list[set]:
    """For each selector the numbers of the elements that `select` finds, once all is changed by these reasons."""
    elements = elements_with(reasons, page.elements)
    added = len(elements) - len(page.elements)
    found = [set() for _ in selectors]
    for match in select(text_of_page(elements), [text_of(with_reasons(reasons, selector)) for selector in selectors]):
        for number in match.selectors if match.line > added else ():
            found[number].add(match.line - 1 - added)
    return found


def main() -> int:
    options = arguments(__doc__).parse_args()
    comparing = Comparing(decide, [engine for engine in ENGINES if engine[0] in ("soupsieve", "cssselect")])
    print("\n".join(compare(comparing, pages(options), options)))
    return 1 if comparing.unexplained or sum(comparing.decided.values()) < 1_000_000 else 0


if __name__ == "__main__":
    sys.exit(main())
