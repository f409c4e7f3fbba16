"""The start tags that other parsers read in a page, each with its place: parse5's and html5lib's tokenizers, driven by
their tree construction, and libgumbo's tree. Pages are bytes, and texts in answers have a character for each byte.
"""

import bisect
import ctypes
import json
import os
import re
import shutil
import subprocess
from typing import Iterator, NamedTuple

ENGINES = os.path.join(os.path.dirname(os.path.abspath(__file__)), "engines")
NAME = re.compile(r"<([^\t\n\f\r />]*)")
UPPER_TO_LOWER = {code: code + 32 for code in range(65, 91)}


class Tag(NamedTuple):
    """A start tag: its first byte and the one behind it (None: not told), its name, its attributes, its namespace. The
    tree ignores one that has none."""

    start: int | None
    end: int
    name: str
    attributes: tuple[tuple[str, str], ...]
    namespace: str | None


class Told(NamedTuple):
    """What a parser tells of a page. The edits write out in tags what its tree does: (start, end, text) each."""

    tags: list[Tag]
    edits: list[tuple[int, int, str]] = []
    middle: bool = False  # whether an element leaves the middle of its stack, which no tags can say


class Mask:
    """A page as parsers get it: with another sign for `&`, so that they decode nothing, and, if it has no form feed, one
    for each CR, so that places and values stay. None of this changes what is a tag (13.2.3.5, 13.2.5). What isn't known
    of a value is U+FFFD: a NUL, and a line end if CRs stayed."""

    def __init__(self, page: bytes):
        sign = next(sign for sign in range(1, 9) if sign not in page)
        self.back = {sign: "&"}
        self.page = page.replace(b"&", bytes([sign]))
        if b"\r" in page and b"\f" not in page:
            self.back[12] = "\r"
            self.page = self.page.replace(b"\r", b"\f")
        elif b"\r" in page:
            self.back[10] = "\ufffd"

    def text(self, masked: str) -> str:
        return masked.translate(self.back)

    def tag(self, start, end, name, attributes, namespace) -> Tag:
        pairs = tuple((self.text(key), self.text(value)) for key, value in attributes)
        return Tag(start, end, self.text(name), pairs, namespace)


class Peer:
    """A parser: whether it tells only where tags end, and whether it tells all tags."""

    name, packages, by_end, is_whole = "", "", False, True

    def tell(self, page: bytes) -> Told:
        raise NotImplementedError

    def leaves_out(self, page: bytes) -> bool:
        return False


class Parse5(Peer):
    """parse5, in a process of its own."""

    name, packages = "parse5", "node-parse5"

    def __init__(self):
        if not shutil.which("node") or not os.path.exists("/usr/share/nodejs/parse5"):
            raise ImportError
        self.process = subprocess.Popen(["node", os.path.join(ENGINES, "parse5_tags.js")], stdin=subprocess.PIPE,
                                        stdout=subprocess.PIPE, env={**os.environ, "NODE_PATH": "/usr/share/nodejs"})

    def tell(self, page: bytes) -> Told:
        mask = Mask(page)
        self.process.stdin.write(b"%d\n%s" % (len(page), mask.page))
        self.process.stdin.flush()
        told = json.loads(self.process.stdout.readline())
        edits = [(start, end, mask.text(text).replace("\ufffd", "\0")) for start, end, text in told["edits"]]
        return Told([mask.tag(*tag) for tag in told["tags"]], edits, told["middle"])


class Html5lib(Peer):
    """html5lib, which tells only where tags end."""

    name, packages, by_end = "html5lib", "python3-html5lib", True

    def __init__(self):
        from html5lib import _inputstream, _tokenizer, constants, getTreeBuilder, html5parser

        _inputstream.HTMLUnicodeInputStream._defaultChunkSize = 1 << 40
        start_tag, found = constants.tokenTypes["StartTag"], []

        emit = _tokenizer.HTMLTokenizer.emitCurrentToken

        def emit_and_note(tokenizer):
            token = tokenizer.currentToken
            emit(tokenizer)
            if token["type"] == start_tag:
                found.append((tokenizer.stream.chunkOffset, token["name"], list(token["data"].items()), token))

        class Builder(getTreeBuilder("etree")):
            def insertElementNormal(self, token):
                token["is_made"] = True
                return super().insertElementNormal(token)

            def createElement(self, token):
                token["is_made"] = True
                return super().createElement(token)

        _tokenizer.HTMLTokenizer.emitCurrentToken = emit_and_note
        self.found, self.namespaces = found, {constants.namespaces[name]: name for name in ("html", "svg", "mathml")}
        self.parser = lambda: html5parser.HTMLParser(Builder)

    def tell(self, page: bytes) -> Told:
        mask = Mask(page)
        self.found.clear()
        self.parser().parse(mask.page.decode("latin-1"), scripting=True)
        joined = [match.start() - number for number, match in enumerate(re.finditer(b"\r\n", mask.page))]
        tags = []
        for end, name, attributes, token in self.found:
            namespace = self.namespaces[token.get("namespace", next(iter(self.namespaces)))]
            end += bisect.bisect_left(joined, end)
            tags.append(mask.tag(None, end, name, attributes, namespace if token.get("is_made") else None))
        return Told(tags)


class Gumbo(Peer):
    """libgumbo, which tells only the tags that are in its tree, and reads `noscript` as if no scripts ran."""

    name, packages, is_whole = "libgumbo", "python3-gumbo", False

    def __init__(self):
        from gumbo import gumboc

        self.library = gumboc

    def tell(self, page: bytes) -> Told:
        mask, library = Mask(page), self.library
        text = ctypes.c_char_p(mask.page)
        options = library.Options.in_dll(library._dll, "kGumboDefaultOptions")
        output = library._parse_with_options(ctypes.byref(options), text, len(mask.page))
        try:
            found = dict(self.elements(output.contents.document, ctypes.cast(text, ctypes.c_void_p).value, len(page)))
        finally:
            library._destroy_output(ctypes.byref(options), output)
        return Told([mask.tag(*found[start]) for start in sorted(found)])

    def leaves_out(self, page: bytes) -> bool:
        return b"noscript" in page.lower()

    def elements(self, document, base: int, length: int) -> Iterator[tuple[int, tuple]]:
        element_types, namespaces = (1, 6), ("html", "svg", "mathml")
        waiting = [document.contents.v.document.children]
        while waiting:
            for node in waiting.pop():
                if node.type.value not in element_types:
                    continue
                element = node.v.element
                waiting.append(element.children)
                piece = element.original_tag
                start = (ctypes.cast(piece.data, ctypes.c_void_p).value or 0) - base
                if 0 <= start < length:
                    name = NAME.match(bytes_of(piece))[1].replace("\0", "\ufffd").translate(UPPER_TO_LOWER)
                    attributes = [attribute_of(one) for one in element.attributes]
                    yield start, (start, start + piece.length, name, attributes, namespaces[element.tag_namespace.value])


def bytes_of(piece) -> str:
    return ctypes.string_at(piece.data, piece.length).decode("latin-1") if piece.length else ""


def attribute_of(attribute) -> tuple[str, str]:
    """Its name and value as they are written, but for what parsers make of them."""
    name, value = bytes_of(attribute.original_name), bytes_of(attribute.original_value) if attribute.value else ""
    if value[:1] in ('"', "'"):
        value = value[1:-1]
    value = re.sub("\r\n?", "\n", value)
    return name.translate(UPPER_TO_LOWER).replace("\0", "\ufffd"), value.replace("\0", "\ufffd")


def peers_there() -> tuple[list, list[str]]:
    """The parsers that are installed, and what is said of the others."""
    there, left_out = [], []
    for peer in (Parse5, Html5lib, Gumbo):
        try:
            there.append(peer())
        except (ImportError, OSError):
            left_out.append(f"{peer.name} is left out: apt-get install {peer.packages}, and /usr/bin/python3")
    return there, left_out
