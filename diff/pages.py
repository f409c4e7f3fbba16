#!/usr/bin/env python3
"""Compares the start tags that zugrenja reports of pages with those that other parsers read (README.md).

    /usr/bin/python3 diff/pages.py 20000 --seed 1
    python3 diff/pages.py --stored

Each tag's place, name, attributes, and whether it is HTML are asked for by selectors. It ends with 1 if a difference has no
reason.
"""

import argparse
import collections
import itertools
import os
import subprocess
import sys
import time
from typing import Iterable, Iterator, NamedTuple

import page_stored
from page_drawing import drawn, pieces_of
from page_known import KNOWN, NO_REASON, TREE, MIDDLE
from page_peers import Tag, Told, peers_there
from page_port import PORT, PROBE, Found, Port, Selectors
from programs import find_program
from shrinking import processor_time

CHUNKS = (1, 7, 65_536)
SECONDS, SHRUNK = 10, 300
TOGETHER = 25  # pages that are asked by the same selectors, which the program reads anew for each
LARGEST = 300_000


def differences(found: list[Found], told: Told, selectors: Selectors, peer) -> list[str]:
    """Where a parser's tags and the program's differ."""
    key = (lambda tag: tag.end) if peer.by_end else (lambda tag: tag.start)
    ours, theirs = {key(tag): tag for tag in found}, {key(tag): tag for tag in told.tags}
    lines = []
    for place in sorted(ours.keys() | theirs.keys() if peer.is_whole else theirs):
        one, other = ours.get(place), theirs.get(place)
        if one is None or other is None:
            lines.append(f"{place}: {other or one} only by {peer.name if other else 'zugrenja'}")
        elif one.end != other.end:
            lines.append(f"{place}: the tag ends at {one.end}, by {peer.name} at {other.end}")
        else:
            differing = one.ids ^ selectors.ids(other)
            if other.namespace is None:
                differing -= {selectors.numbers[PROBE]}
            if differing:
                lines.append(f"{place}: by {peer.name} {other}; {' '.join(selectors.names(differing))} differ")
    return lines


def rewritten(page: bytes, edits: list) -> tuple[bytes, list[tuple[int, int]]]:
    """The page with these edits, and where its parts come from, as (place in it, place in the page)."""
    parts, places, read, length = [], [], 0, 0
    for start, end, text in sorted(edits):
        part = page[read:start]
        places.append((length, read))
        parts += [part, text.encode("latin-1")]
        length += len(part) + len(parts[-1])
        read = end
    return b"".join([*parts, page[read:]]), [*places, (length, read)]


def moved_back(found: list[Found], places: list) -> list[Found]:
    moved = []
    for tag in found:
        new, old = max(place for place in places if place[0] <= tag.start)
        moved.append(Found(tag.start - new + old, tag.end - new + old, tag.ids))
    return moved


class Comparing:
    """What was counted so far, for each parser."""

    def __init__(self, port, peers: list):
        self.port, self.peers = port, peers
        self.pages, self.tags, self.attributes, self.left_out = (collections.Counter() for _ in range(4))
        self.reasons, self.shrunk, self.unexplained = collections.Counter(), 0, []

    def differs(self, page: bytes, peer, told: Told | None = None) -> list[str]:
        """How a parser and the program differ on a page."""
        told = told or peer.tell(page)
        selectors = Selectors(told.tags)
        return differences(self.port.ask(selectors, [page])[0], told, selectors, peer)

    def by_tree(self, page: bytes, peer, told: Told) -> str | None:
        """The reason for a difference if it is that the parser builds a tree: with what the tree does written out in tags,
        as parse5 tells it, the program reports what the parser tells."""
        tree = self.peers[0].tell(page)
        if not tree.edits and not tree.middle:
            return None
        changed, places = rewritten(page, tree.edits)
        kept = Told([tag for tag in told.tags if tag.namespace])
        selectors = Selectors(kept.tags)
        found = moved_back(self.port.ask(selectors, [changed])[0], places)
        if not differences(found, kept, selectors, peer):
            return TREE
        return MIDDLE if tree.middle else None

    def reason(self, name: str, page: bytes, peer, told: Told) -> None:
        """Looks for the reason of a difference, and keeps it, or the smallest page that shows it."""
        if reason := self.by_tree(page, peer, told):
            self.reasons[peer.name, reason] += 1
            return
        self.shrunk += 1
        if self.shrunk <= SHRUNK:
            page = self.shrink(page, peer)
            if reason := self.by_tree(page, peer, peer.tell(page)):
                self.reasons[peer.name, reason] += 1
                return
        known = (known.reason for known in KNOWN if known.peer == peer.name and known.shows(page))
        reason = next(known, NO_REASON)
        self.reasons[peer.name, reason] += 1
        if reason == NO_REASON:
            self.unexplained.append((name, peer, page))

    def shrink(self, page: bytes, peer) -> bytes:
        """A smaller page on which they differ too: fewer pieces, then fewer bytes."""
        until = processor_time() + SECONDS
        for pieces in (pieces_of, lambda page: [page[place:place + 1] for place in range(len(page))]):
            left = pieces(page)
            count = max(len(left) // 2, 1)
            while count and processor_time() < until:
                place = len(left)
                while place > 0 and processor_time() < until:
                    place = max(place - count, 0)
                    fewer = left[:place] + left[place + count:]
                    if self.differs(b"".join(fewer), peer):
                        left = fewer
                count //= 2
            page = b"".join(left)
        return page

    def compare(self, pages: list[tuple[str, bytes]], chunks: Iterable[int] = ()) -> None:
        """Compares all parsers on some named pages, and the program with itself in chunks."""
        texts = [text for _, text in pages]
        told = {peer: [peer.tell(text) for text in texts] for peer in self.peers}
        selectors = Selectors(itertools.chain.from_iterable(one.tags for some in told.values() for one in some))
        found = self.port.ask(selectors, texts)
        for (name, text), tags in zip(pages, found):
            for size in chunks:
                if self.port.ask_in_chunks(text, size) != tags:
                    self.unexplained.append((f"{name}, chunks of {size} bytes", None, text))
        for peer, answers in told.items():
            for (name, text), tags, answer in zip(pages, found, answers):
                if peer.leaves_out(text):
                    self.left_out[peer.name] += 1
                    continue
                self.pages[peer.name] += 1
                self.tags[peer.name] += len(answer.tags)
                self.attributes[peer.name] += sum(len(tag.attributes) for tag in answer.tags)
                if differences(tags, answer, selectors, peer):
                    self.reason(name, text, peer, answer)

    def lines(self) -> Iterator[str]:
        for peer in self.peers:
            name = peer.name
            out = f"; {self.left_out[name]:,} pages left out" if self.left_out[name] else ""
            yield f"{name}: {self.pages[name]:,} pages, {self.tags[name]:,} start tags, {self.attributes[name]:,} attributes{out}"
            for (owner, reason), count in self.reasons.most_common():
                if owner == name:
                    yield f"  {count:,} pages differ: {reason}"
        for name, peer, page in self.unexplained[:20]:
            yield f"no reason: {name}: {page[:2000]!r}"
            for line in self.differs(page, peer)[:5] if peer else []:
                yield f"  {line}"


def shipped(folders: list[str], count: int) -> list[str]:
    """So many pages of HTML below some folders, spread over the packages' own folders."""
    groups = collections.defaultdict(list)
    for folder in folders:
        for path, _, files in os.walk(folder):
            for file in files:
                whole = os.path.join(path, file)
                if file.endswith((".html", ".htm", ".xhtml")) and os.path.isfile(whole) and os.path.getsize(whole) <= LARGEST:
                    groups[whole.split("/")[3:5][-1]].append(whole)
    rows = []
    for name, files in sorted(groups.items()):
        files.sort()
        step = max(len(files) // count, 1)
        rows.append(files[::step])
    return [file for row in itertools.zip_longest(*rows) for file in row if file][:count]


def probed(page: bytes, tags: list[Tag]) -> bytes:
    """The page with `type=Zz` as the first attribute of each of these tags, so that it tells whether the tag is HTML."""
    edits = [(tag.start + 1 + len(tag.name),) * 2 + (" type=Zz",) for tag in tags]
    return rewritten(page, edits)[0]


def shipped_pages(comparing: Comparing, folders: list[str], count: int) -> None:
    """Compares pages of packages: as they are, and those with svg or math with a probe in each tag too."""
    for number, file in enumerate(shipped(folders, count)):
        with open(file, "rb") as page:
            text = page.read()
        comparing.compare([(file, text)], (7, 65_536) if number % 20 == 0 else ())
        tags = comparing.peers[0].tell(text).tags
        if not comparing.peers[0].by_end and any(tag.namespace not in ("html", None) for tag in tags):
            comparing.compare([(f"{file}, probed", probed(text, tags))])


def arguments() -> argparse.Namespace:
    parser = argparse.ArgumentParser(description=__doc__, formatter_class=argparse.RawDescriptionHelpFormatter)
    parser.add_argument("count", type=int, nargs="?", default=2_000, help="how many pages are drawn")
    parser.add_argument("--seed", type=int, default=1)
    parser.add_argument("--port", default=PORT, help="the program to test")
    parser.add_argument("--shipped", type=int, default=0, help="how many pages of Debian's packages are read")
    parser.add_argument("--folders", nargs="*", default=["/usr/share"], help="where they are")
    parser.add_argument("--no-chunks", action="store_true", help="gives no page in chunks")
    parser.add_argument("--stored", action="store_true", help="replays diff/cases/pages.txt, without any parser")
    parser.add_argument("--store", action="store_true", help="writes that file from what the parsers tell of drawn pages")
    return parser.parse_args()


def main() -> int:
    options = arguments()
    began = time.monotonic()
    if options.store:
        print(f"{page_stored.store(options.seed, peers_there()[0])} pages are stored")
        return 0
    port = Port(find_program(options.port))
    if options.stored:
        lines = page_stored.replay(port, CHUNKS[:2], differences)
        print("\n".join(lines), f"{time.monotonic() - began:.0f} seconds", sep="\n")
        return 0 if len(lines) == 1 else 1
    peers, left_out = peers_there()
    print(*left_out, sep="\n", file=sys.stderr)
    comparing = Comparing(port, peers)
    for start in range(0, options.count, TOGETHER):
        numbers = range(start, min(start + TOGETHER, options.count))
        comparing.compare([(f"page {number} of seed {options.seed}", drawn(options.seed, number)) for number in numbers],
                          () if options.no_chunks else CHUNKS)
    shipped_pages(comparing, options.folders, options.shipped)
    print(*comparing.lines(), f"{len(comparing.unexplained)} pages differ for no reason; {time.monotonic() - began:.0f} seconds", sep="\n")
    return 1 if comparing.unexplained or not comparing.pages else 0


if __name__ == "__main__":
    sys.exit(main())
