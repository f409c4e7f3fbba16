"""Stored pages, each with the start tags that parsers read in it.

In diff/cases/pages.txt `page` begins one; its lines have `< ` before them, as those of scripts (stored.py), and each of its tags
has `> ` and a JSON array: the first byte, the one behind the last, name, attributes, namespace. Texts have a character for
each byte. Rows come from parsers on which all agree, never from zugrenja.
"""

import json
import os
import re
from typing import Callable

from page_drawing import drawn
from page_peers import Tag, Told
from page_port import Port, Selectors
from stored import FOLDER, read_line, written

FILE = os.path.join(FOLDER, "pages.txt")
DRAWN, WANTED, LONGEST = 3_000, 300, 400
TOGETHER = 25
POINTS = re.compile(r"</(desc|title|foreignobject|mi|mo|mn|ms|mtext|annotation-xml)>", re.I)


class Stored:
    """Stands for the parsers when pages are replayed."""

    name, by_end, is_whole = "the stored row", False, True


def stored() -> list[tuple[bytes, Told]]:
    with open(FILE, encoding="utf-8", newline="\n") as file:
        blocks = re.split(r"^page.*\n", file.read(), flags=re.M)[1:]
    pages = []
    for block in blocks:
        lines = [line for line in block.split("\n") if line]
        page = b"".join(read_line(line[2:]) for line in lines if line[0] == "<")
        tags = [json.loads(line[2:]) for line in lines if line[0] == ">"]
        pages.append((page, Told([Tag(*tag[:3], tuple(map(tuple, tag[3])), tag[4]) for tag in tags])))
    return pages


def replay(port: Port, chunks: tuple[int, ...], differences: Callable) -> list[str]:
    """Compares the program's tags with the stored ones: a line for each difference, and one with how many there are."""
    pages, lines = stored(), []
    for start in range(0, len(pages), TOGETHER):
        some = pages[start:start + TOGETHER]
        selectors = Selectors(tag for _, told in some for tag in told.tags)
        for (page, told), found in zip(some, port.ask(selectors, [page for page, _ in some])):
            lines += [f"stored page {page!r}: {line}" for line in differences(found, told, selectors, Stored)]
            lines += [f"stored page {page!r}: other tags in chunks of {size} bytes"
                      for size in chunks if port.ask_in_chunks(page, size) != found]
    tags = sum(len(told.tags) for _, told in pages)
    return [*lines, f"{len(pages)} stored pages with {tags:,} start tags: {len(lines)} differences"]


def is_as_written(page: bytes, told: Told) -> bool:
    """Whether the tree does no more than the tags say: no end tag that closes another element, or is ignored though one of
    its name was opened; no start tag that closes elements or is ignored."""
    names = set()
    tags = {tag.start: tag for tag in told.tags}
    for start, end, text in told.edits:
        name = re.match(rb"</([^\t\n\f\r />]*)", page[start:end])
        if start in tags or not name:
            return False
        name = name[1].decode("latin-1").lower()
        names = {tag.name for tag in told.tags if tag.start < start}
        whole = f"</{name}>"
        closes = text.endswith(whole) and text.count(whole) == 1 and not POINTS.search(text.removesuffix(whole))
        if not closes and (text or name in names):
            return False
    return not told.middle


def agreed(page: bytes, peers: list) -> Told | None:
    """What the first parser tells, if the others tell the same and the tree does no more than the tags say."""
    told = peers[0].tell(page)
    for peer in peers[1:]:
        other = {tag.end: tag[1:] for tag in peer.tell(page).tags}
        own = {tag.end: tag[1:] for tag in told.tags}
        if peer.leaves_out(page) or (other != own if peer.is_whole else other.items() - own.items()):
            return None
    return told if is_as_written(page, told) and all(tag.namespace for tag in told.tags) else None


def features(page: bytes) -> set:
    """What a page shows: each four signs in a row, letters as one."""
    classes = re.sub(rb"[a-z]+", b"x", page.lower())
    return {classes[place:place + 4] for place in range(len(classes))}


def store(seed: int, peers: list) -> int:
    """Writes the page of each row of drawn ones that shows most of what none before shows: how many."""
    blocks, seen = [], set()
    for start in range(0, DRAWN, DRAWN // WANTED):
        best = None
        for number in range(start, start + DRAWN // WANTED):
            page = drawn(seed, number)
            told = agreed(page, peers) if len(page) <= LONGEST else None
            if told and told.tags:
                foreign = sum(tag.namespace != "html" for tag in told.tags)
                score = len(features(page) - seen) + 2 * len(told.tags) + 8 * foreign
                best = max(best or (0,), (score, number, page, told))
        if best:
            _, number, page, told = best
            seen |= features(page)
            rows = [f"> {json.dumps([*tag[:3], tag.attributes, tag.namespace])}" for tag in told.tags]
            blocks.append("\n".join([f"page {number} of seed {seed}", *written(page, "< "), *rows]) + "\n")
    with open(FILE, "w", encoding="utf-8", newline="\n") as file:
        file.write("\n".join(blocks))
    return len(blocks)
