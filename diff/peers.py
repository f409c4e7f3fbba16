#!/usr/bin/env python3
"""Compares lol_match's decisions on whole pages with those of engines that Debian packages (README.md).

    /usr/bin/python3 diff/peers.py --seed 1

A decision is whether a selector matches an element. Each page is read once, and each engine is given the same tree.
"""

import argparse
import collections
import functools
import itertools
import os
import sys
import time
from typing import Callable, Iterable, Iterator, NamedTuple

import peer_pages
from engines import ENGINES, Engine
from peer_pages import Page
from peer_reasons import REASONS, STANDARD, elements_with, with_reasons, without_parts
from peer_selectors import Drawing, text_of
from programs import PORT, find_program, run_program

RESULTS = os.path.join(os.path.dirname(os.path.abspath(__file__)), "results")
TOGETHER, NO_REASON = "several of these together", "no reason"


class Difference(NamedTuple):
    """A selector on which an engine differs from lol_match: the elements that match by each, and by the standard."""

    page: str
    text: str
    ours: set
    theirs: set
    standard: set

    def sides(self) -> collections.Counter:
        """Of the decisions that differ, how many the standard gives as lol_match, and as the engine."""
        differing = self.ours ^ self.theirs
        right = len(differing - (self.ours ^ self.standard))
        return collections.Counter({"differ": len(differing), "as lol_match": right,
                                    "as the engine": len(differing) - right, "selectors": 1})


def decisions(port: str, page: Page, selectors: list, reasons: tuple = ()) -> list[set]:
    """For each selector the numbers of the elements that lol_match reports, once all is changed by these reasons."""
    texts = [text_of(with_reasons(reasons, selector)) for selector in selectors]
    elements = elements_with(reasons, page.elements)
    written, status = run_program(port, peer_pages.script(elements, texts))
    if status:
        raise RuntimeError(f"{page.name}: lol_match ends with {status}: {written.decode()}")
    starts = [line.split("\t")[1] for line in written.decode().split("\n") if line.startswith("start\t")]
    found = [set() for _ in selectors]
    for number, listed in enumerate(starts[len(elements) - len(page.elements):]):
        for one in listed.split(",") if listed != "-" else []:
            found[int(one.rstrip("/"))].add(number)
    return found


def explained(decide: Callable, page: Page, selectors: list, engine: Engine, theirs: dict[int, set]) -> dict[int, str]:
    """For each selector by its number why the engine gives these elements, as far as a reason is known."""
    reasons = {}
    for some in (some for count in (1, 2, 3) for some in itertools.combinations(REASONS[engine.name], count)):
        left = [number for number in theirs if number not in reasons]
        if not left:
            break
        asked = [without_parts(some, selectors[number]) for number in left]
        expected = [theirs[number] for number in left]
        if asked != [selectors[number] for number in left]:
            engine.ask(page.elements, [text_of(selector) for selector in asked])
            expected = [found if isinstance(found, str) else set(found) for found in engine.answers()]
        ours = decide(page, asked, some)
        alike = [number for number, one, other in zip(left, ours, expected) if one == other]
        reasons |= {number: some[0].name if len(some) == 1 else TOGETHER for number in alike}
    return reasons


class Comparing:
    """What was counted so far, for each engine. `decide` gives what is compared, as `decisions` does."""

    def __init__(self, decide: Callable, engines: list = ENGINES):
        self.decide = decide
        self.engines = [Engine(*engine) for engine in engines]
        self.decided, self.refused, self.selectors = (collections.Counter() for _ in range(3))
        self.reasons = collections.defaultdict(collections.Counter)
        self.unexplained = []

    def page(self, page: Page, selectors: list) -> None:
        """Compares each engine's answers for these selectors on a page."""
        texts = [text_of(selector) for selector in selectors]
        for engine in self.engines:
            engine.ask(page.elements, texts)
        ours, standard = self.decide(page, selectors), self.decide(page, selectors, (STANDARD,))
        for engine in self.engines:
            name, answers = engine.name, engine.answers()
            taken = {number: set(found) for number, found in enumerate(answers) if not isinstance(found, str)}
            self.refused[name] += len(texts) - len(taken)
            self.selectors[name] += len(taken)
            self.decided[name] += len(taken) * len(page.elements)
            differing = {number: found for number, found in taken.items() if found != ours[number]}
            reasons = explained(self.decide, page, selectors, engine, differing)
            for number, found in differing.items():
                difference = Difference(page.name, texts[number], ours[number], found, standard[number])
                self.reasons[name, reasons.get(number, NO_REASON)].update(difference.sides())
                if number not in reasons:
                    self.unexplained.append((name, difference))

    def lines(self) -> Iterator[str]:
        """What was found: for each engine its decisions, and those that differ by reason; and what has no reason."""
        for engine in self.engines:
            name = engine.name
            rows = {reason: row for (owner, reason), row in self.reasons.items() if owner == name}
            differing = sum(row["differ"] for row in rows.values())
            yield (f"{name} ({engine.version()}): {self.decided[name]:,} decisions by {self.selectors[name]:,} "
                   f"selectors; it refuses {self.refused[name]:,} others; {differing:,} decisions differ")
            for reason, row in sorted(rows.items(), key=lambda pair: -pair[1]["differ"]):
                yield (f"  {row['differ']:,} by {row['selectors']:,} selectors: {reason}; the standard decides "
                       f"{row['as lol_match']:,} as lol_match, {row['as the engine']:,} as the engine")
        for name, one in self.unexplained[:20]:
            yield (f"no reason: {name}, {one.page}, {one.text}: lol_match alone {sorted(one.ours - one.theirs)[:9]}, "
                   f"the engine alone {sorted(one.theirs - one.ours)[:9]}")


def arguments(description: str) -> argparse.ArgumentParser:
    """The options that name pages and selectors."""
    parser = argparse.ArgumentParser(description=description, formatter_class=argparse.RawDescriptionHelpFormatter)
    parser.add_argument("--seed", type=int, default=1)
    parser.add_argument("--made", type=int, default=60, help="how many pages are made from the seed")
    parser.add_argument("--shipped", type=int, default=8, help="how many pages at most are taken of each package")
    parser.add_argument("--packages", nargs="*", default=peer_pages.PACKAGES, help="packages of Debian with pages")
    parser.add_argument("--selectors", type=int, default=60, help="how many selectors are drawn for each page")
    return parser


def pages_by(options: argparse.Namespace) -> Iterator[Page]:
    return itertools.chain(peer_pages.made(options.seed, options.made),
                           peer_pages.shipped(options.packages, options.shipped))


def compare(comparing: Comparing, pages: Iterable[Page], options: argparse.Namespace) -> list[str]:
    """Compares the engines on each of these pages: the lines of what was found."""
    began, count, elements = time.monotonic(), 0, 0
    for page in pages:
        draw = Drawing(options.seed, page)
        comparing.page(page, [draw.selector() for _ in range(options.selectors)])
        count, elements = count + 1, elements + len(page.elements)
        print(f"{page.name}: {len(page.elements)} elements", file=sys.stderr)
    return [*comparing.lines(),
            f"{sum(comparing.decided.values()):,} decisions on {elements:,} elements of {count} pages, seed "
            f"{options.seed}; {len(comparing.unexplained)} selectors differ for no reason; "
            f"{time.monotonic() - began:.0f} seconds"]


def main() -> int:
    parser = arguments(__doc__)
    parser.add_argument("--port", default=PORT, help="the program to test")
    parser.add_argument("--record", action="store_true", help="keep what is printed in diff/results")
    options = parser.parse_args()
    comparing = Comparing(functools.partial(decisions, find_program(options.port)))
    lines = compare(comparing, pages_by(options), options)
    print("\n".join(lines))
    if options.record:
        os.makedirs(RESULTS, exist_ok=True)
        with open(os.path.join(RESULTS, time.strftime("%Y-%m-%d-peers.txt", time.gmtime())), "w") as page:
            page.write("\n".join(lines) + "\n")
    return 1 if comparing.unexplained or not comparing.decided else 0


if __name__ == "__main__":
    sys.exit(main())
