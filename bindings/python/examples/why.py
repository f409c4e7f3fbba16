"""Why start tags of a page match selectors: why.py SELECTOR.. < page.html

For each tag that is matched its line:column and the tag; below it, for each item of a selector's list that matches it, the selector's
number from 0, the item, and the elements that its compounds are passed by: the line:column of the start tag, the compound, and the tag.
"""

import re
import sys
from collections.abc import Iterator
from pathlib import Path
from typing import NamedTuple

sys.path.insert(0, str(Path(__file__).resolve().parent.parent))
from page_tags import PageTags  # noqa: E402
from zugrenja import Matcher, Reason, SelectorError  # noqa: E402

# A comment, an escape, a string (up to the end of the text if it isn't closed), or one sign.
PIECE = re.compile(
    r"""/\*.*?(?:\*/|\Z) | \\(?:[0-9a-f]{1,6}(?:\r\n|[ \t\r\n\f])?|.) | "(?:\\.|[^"\\])*"? | '(?:\\.|[^'\\])*'? | .""",
    re.DOTALL | re.IGNORECASE | re.VERBOSE,
)
WHITE_SPACE = " \t\r\n\f"


def items_of(text: str) -> list[list[str]]:
    """The compounds of each item of a list of selectors, as written; one after a child step begins with `> `."""
    items: list[list[str]] = [[]]
    begins, step, depth = True, "", 0
    for piece in PIECE.findall(text):
        if depth == 0 and piece in WHITE_SPACE:
            begins = True
        elif depth == 0 and piece == ">":
            begins, step = True, "> "
        elif depth == 0 and piece == ",":
            items.append([])
            begins, step = True, ""
        elif not (begins and piece.startswith("/*")):
            if begins:
                items[-1].append(step)
                begins, step = False, ""
            items[-1][-1] += piece
            depth += (piece in "([") - (piece in ")]")
    return items


class Tag(NamedTuple):
    """A start tag: its line:column, both from 1, and all of it in one line."""

    place: str
    text: str


class Explaining(PageTags):
    """Tells a matcher that explains of the tags of a page. It keeps the tags by their numbers, with none for an end tag, and those that
    are matched, with the reasons."""

    def __init__(self, matcher: Matcher) -> None:
        super().__init__()
        self.matcher = matcher
        self.tags: list[Tag | None] = []
        self.matches: list[tuple[Tag, list[Reason]]] = []

    def start(self, name: str, attributes: dict[str, str | None], namespace: str, self_closing: bool) -> None:
        line, column = self.getpos()
        tag = Tag(f"{line}:{column + 1}", " ".join((self.get_starttag_text() or "").split()))
        self.tags.append(tag)
        if self.matcher.start(name, attributes, namespace, self_closing):
            self.matches.append((tag, self.matcher.explain()))

    def end(self, name: str) -> None:
        self.tags.append(None)
        self.matcher.end(name)


def chain(compounds: list[str], tags: list[Tag]) -> Iterator[str]:
    """A line for each compound and the tag of the element that it is passed by."""
    places, widths = max(len(tag.place) for tag in tags), max(map(len, compounds))
    for compound, tag in zip(compounds, tags, strict=True):
        yield f"    {tag.place:{places}}  {compound:{widths}}  {tag.text}"


def explained(page: str | bytes, selectors: list[str]) -> Iterator[str]:
    """The lines for a page."""
    items = [items_of(selector) for selector in selectors]
    with Matcher(selectors, explain=True) as matcher:
        explaining = Explaining(matcher)
        explaining.read(page)
    for start, reasons in explaining.matches:
        yield f"{start.place} {start.text}"
        for reason in reasons:
            compounds = items[reason.text][reason.item]
            yield f"  selector {reason.text}: {' '.join(compounds)}"
            yield from chain(compounds, [explaining.tags[number] for number in reason.witness])


def main() -> None:
    try:
        for line in explained(sys.stdin.buffer.read(), sys.argv[1:]):
            print(line)
    except SelectorError as error:
        sys.exit(str(error))


if __name__ == "__main__":
    main()
