"""The tags of a page of HTML, by Python's html.parser, each with its namespace. It needs no library.

What it adds to html.parser is of the HTML Standard: where text has no tags (13.2.6.4, `textarea` and its kin, with scripts turned on), and which
elements are of SVG and MathML (13.2.6.5). It moves no tag, and adds none but the end tags of SVG and MathML that a tag of HTML ends.
"""

from __future__ import annotations

import re
from collections import Counter
from html.parser import HTMLParser

VOID = frozenset("area base basefont bgsound br col embed hr img input keygen link meta param source track wbr".split())
TEXT = frozenset("iframe noembed noframes noscript plaintext script style textarea title xmp".split())
ROOTS = {"svg": "svg", "math": "mathml"}
# In these elements of SVG and MathML there is HTML, and in `annotation-xml` of these encodings.
HTML_INSIDE = {"svg": frozenset(("foreignobject", "desc", "title")), "mathml": frozenset(("mi", "mo", "mn", "ms", "mtext"))}
HTML_ENCODINGS = ("text/html", "application/xhtml+xml")
# These tags of HTML end SVG and MathML, and so does `font` with one of its attributes.
ENDING = frozenset(
    "b big blockquote body br center code dd div dl dt em embed h1 h2 h3 h4 h5 h6 head hr i img li listing menu meta nobr ol p pre ruby s small"
    " span strong strike sub sup table tt u ul var".split()
)
FONT = frozenset(("color", "face", "size"))


class PageTags(HTMLParser):
    """Reads a page, and calls `start` and `end` for its tags, in their order. Names are in lower case, and of attributes of one name the first
    is told. Meanwhile html.parser's `getpos` and `get_starttag_text` say where the tag is, and what it is."""

    CDATA_CONTENT_ELEMENTS = RCDATA_CONTENT_ELEMENTS = ()

    def __init__(self) -> None:
        super().__init__()
        # Of each open element its name, its namespace, and the namespace of what stands in it; and how many have a name.
        self._open: list[tuple[str, str, str]] = []
        self._names: Counter[str] = Counter()

    def start(self, name: str, attributes: dict[str, str | None], namespace: str, self_closing: bool) -> None:
        """A start tag; `namespace` is `html`, `svg` or `mathml`. The mark of a tag that closes itself closes no element of HTML."""

    def end(self, name: str) -> None:
        """An end tag."""

    def read(self, page: str | bytes) -> None:
        """Reads a whole page. Bytes are UTF-8."""
        text = page.decode("utf-8-sig", "replace") if isinstance(page, bytes) else page
        self.feed(text.replace("\r\n", "\n").replace("\r", "\n"))
        self.close()

    def _inside(self) -> str:
        return self._open[-1][2] if self._open else "html"

    def _namespace(self, name: str) -> str:
        """The namespace of a start tag."""
        if not self._open:
            return ROOTS.get(name, "html")
        parent, namespace, inside = self._open[-1]
        if namespace == "mathml" and parent == "annotation-xml" and name == "svg":
            return "svg"
        if namespace == "mathml" and parent in HTML_INSIDE["mathml"] and name in ("mglyph", "malignmark"):
            return "mathml"
        return ROOTS.get(name, "html") if inside == "html" else inside

    def handle_starttag(self, tag: str, attrs: list[tuple[str, str | None]], self_closing: bool = False) -> None:
        attributes: dict[str, str | None] = {}
        for name, value in attrs:
            attributes.setdefault(name, value)
        if self._inside() != "html" and (tag in ENDING or tag == "font" and not FONT.isdisjoint(attributes)):
            self._end_foreign()
        namespace = self._namespace(tag)
        self.start(tag, attributes, namespace, self_closing)
        if namespace == "html" and tag in TEXT:
            self._read_text(tag)
        if not (tag in VOID if namespace == "html" else self_closing):
            encoded = namespace == "mathml" and tag == "annotation-xml" and (attributes.get("encoding") or "").lower() in HTML_ENCODINGS
            inside = "html" if encoded or tag in HTML_INSIDE.get(namespace, ()) else namespace
            self._open.append((tag, namespace, inside))
            self._names[tag] += 1

    def handle_startendtag(self, tag: str, attrs: list[tuple[str, str | None]]) -> None:
        self.handle_starttag(tag, attrs, True)

    def handle_endtag(self, tag: str) -> None:
        if self._inside() != "html" and tag in ("br", "p"):
            self._end_foreign()
        self._end(tag)

    def _end(self, name: str) -> None:
        """Tells an end tag; it closes the innermost open element of its name, and those in it."""
        self.end(name)
        closed = None if self._names[name] else name
        while closed != name:
            closed = self._open.pop()[0]
            self._names[closed] -= 1

    def _end_foreign(self) -> None:
        """Ends the elements of SVG and MathML up to one in which there is HTML."""
        while self._inside() != "html":
            self._end(self._open[-1][0])

    def _read_text(self, name: str) -> None:
        """What follows is text up to the end tag of this name, and all of it after `plaintext`."""
        self.set_cdata_mode(name)
        self.interesting = re.compile(r"(?!)" if name == "plaintext" else rf"</{name}(?=[\t\n\f />])", re.IGNORECASE)

    def parse_endtag(self, i: int) -> int:
        if self.cdata_elem:
            self.clear_cdata_mode()
        return super().parse_endtag(i)

    def parse_marked_section(self, i: int, report: int = 1) -> int:
        """CDATA, which is of SVG and MathML; elsewhere a comment, up to the next `>`."""
        if self._inside() == "html" or not self.rawdata.startswith("<![CDATA[", i):
            return self.parse_bogus_comment(i)
        end = self.rawdata.find("]]>", i)
        return end + 3 if end >= 0 else -1
