"""Pages drawn from a seed, of pieces that are hostile to a tokenizer and to its namespaces."""

import random

NAMES = ["x", "x-y", "q", "cite", "section", "A-B", "X", "q\u00e9", "x<y", "x\"y", "x\0y", "br", "INPUT"]
RAW = ["title", "textarea", "style", "xmp", "iframe", "noembed", "noframes", "script", "SCRIPT", "Title"]
FOREIGN = ["svg", "svg", "math", "SVG", "desc", "title", "foreignObject", "foreignobject", "mi", "mo", "mn", "ms", "mtext",
           "mglyph", "malignmark", "annotation-xml", "g", "path", "style", "script", "x", "font"]
BREAKOUTS = ["p", "div", "DIV", "span", "img", "br", "code", "ul"]
TREE = ["select", "table", "tr", "td", "b", "a", "li", "p", "form", "image", "body", "head", "template", "frameset", "option",
        "caption", "html", "button", "h1", "h2", "dd", "nobr"]
KEYS = ["a", "b", "A", "Bc", "a-b", "data-x", "xlink:href", "encoding", "color", "size", "=y", "'", "\"q", "<", "\u00e9", "a\0", "class",
        "viewBox"]
VALUES = ["", "1", "d/e", "/", "Zz", "x>y", "a b", "=", "a=b", "'", "\"", "`", "<b>", "&amp;", "&No", "&#62;", "\0", "\r\n", "\r", "\n", "\t",
          "\f", "\u00e9", "text/html", "TEXT/html", "application/xhtml+xml", "-->", "]]>", "</title>", "\\", "\u20ac"]
SPACES = [" ", " ", " ", "\n", "\t", "\f", "\r", "\r\n", "  ", "/", " / ", "//"]
COMMENTS = ["<!-->", "<!--->", "<!---->", "<!--", "-->", "--!>", "--!", "--", "->", "<!--x-->", "<!-- <x> -->", "<!--x--!>", "<!--x--!->",
            "<!--<!-->", "<!--<!--->", "<!--<!--x-->", "<!---x-->", "<!-x>", "<!x>", "<!>", "<?x>", "<?", "<!", "<!-", "<!--\0-->", "<!----!>",
            "<!--->x-->", "</ x>", "</>", "</", "</\0>", "</3>", "<!DOCTYPE x>", "<!doctype>", "<!DOCTYPE x PUBLIC \"a>b\">",
            "<!DOCTYPE x SYSTEM 'a'>", "<!DOCTYPE", "<!DOCTYPEx\"<b>\">", "<![CDATA[", "<![CDATA[<x>]]>", "<![cdata[<x>]]>", "]]>", "]]", "]",
            "<![CDATA[x]]]>", "<![CDATA[]]]]>", "<![CDATA[>"]
TEXTS = ["x", " ", "<", "<<", "< x>", "<3>", "<x<y>", "<=", "&lt;", "&", "&amp", "\0", "<\0>", "\r", "\r\n", "\n", "\f", "\u00e9", "\"", "'", "=",
         "/", ">", "/>", "-", "!", "<x", "<x y", "<x y=", "<x y='", "<x/", "\\", "\u20ac"]
ESCAPES = ["<!--", "<!-", "<!", "-->", "--", "-", "--!>", "<script>", "<script ", "<scriptx>", "<SCRIPT/", "</script>", "</script ", "</scriptx>",
           "</SCRIPT\f>", "</script/>", "</script\r>", "</script", "<", "</", "\0", "x", "</s", "<x>"]


class Drawing:
    """Draws a page; `page` gives its bytes."""

    def __init__(self, seed: int, number: int):
        self.r = random.Random(f"{seed} tags {number}")
        self.kind = self.r.choice(("tags", "texts", "foreign", "foreign", "states", "states", "states", "tree"))
        self.opened: list[str] = []

    def pieces(self) -> list[str]:
        count = self.r.choice((1, 2, 3, 5, 8, 13, 21))
        return [self.piece() for _ in range(count)]

    def page(self) -> bytes:
        page = "".join(self.pieces()).encode()
        return page[:self.r.randrange(len(page) + 1)] if self.r.random() < 0.3 else page

    def piece(self) -> str:
        kinds = {"tags": (self.tag, self.tag, self.tag, self.end, self.comment, self.text),
                 "texts": (self.raw, self.raw, self.tag, self.comment, self.text, self.end),
                 "foreign": (self.foreign, self.foreign, self.foreign, self.breakout, self.end, self.end, self.comment, self.raw),
                 "states": (self.states, self.states, self.tag),
                 "tree": (self.tree, self.tree, self.end, self.foreign, self.tag, self.raw)}
        return self.r.choice(kinds[self.kind])()

    def attributes(self) -> str:
        r = self.r
        written = r.choice(SPACES) + "type=Zz" if r.random() < (0.7 if self.kind in ("foreign", "tree") else 0.1) else ""
        for _ in range(r.choice((0, 0, 1, 1, 2, 4))):
            quote = r.choice(("", "", "'", "\""))
            value = r.choice(VALUES) + (r.choice(VALUES) if r.random() < 0.2 else "")
            equals = r.choice(("=", "=", "=", " =", "= ", "\r\n=\t", "=="))
            written += r.choice(SPACES) + r.choice(KEYS) + (equals + quote + value + quote if r.random() < 0.8 else "")
        return written

    def start(self, name: str) -> str:
        r = self.r
        name = name.upper() if r.random() < 0.1 else name
        self.opened.append(name)
        return f"<{name}{self.attributes()}" + r.choice((">", ">", ">", ">", "/>", " >", " />", "/ >", ""))

    def tag(self) -> str:
        return self.start(self.r.choice(NAMES))

    def end(self) -> str:
        r = self.r
        names = self.opened[-4:] if self.opened and r.random() < 0.8 else NAMES + FOREIGN + ["p", "br"]
        return f"</{r.choice(names)}" + r.choice((">", ">", ">", ">", " >", "/>", " a=b>", " a=\">\">", ""))

    def comment(self) -> str:
        return self.r.choice(COMMENTS)

    def text(self) -> str:
        return self.r.choice(TEXTS)

    def raw(self) -> str:
        """An element of raw text, with what looks like its end, and an end now and then."""
        r = self.r
        name = r.choice(RAW) if r.random() < 0.97 else "plaintext"
        inside = "".join(r.choice(ESCAPES if name.lower() == "script" else TEXTS + COMMENTS + [f"</{name}", f"</{name}x>", f"</ {name}>"])
                         for _ in range(r.choice((0, 1, 2, 4, 7))))
        return f"<{name}{self.attributes()}>{inside}" + r.choice((f"</{name}>", f"</{name.upper()} a=b>", f"</{name}/>", f"</{name}\n>", ""))

    def states(self) -> str:
        """A text that only its own end leaves, and a tag behind, which tells where that is."""
        r = self.r
        name = r.choice(RAW)
        first, parts, last = r.choice((
            ("<script>", ESCAPES, "</script>"), ("<script>", ESCAPES, "--></script>"),
            (f"<{name}>", [f"</{name}", "</", "<", "/", ">", " ", "x", "<!--", "\t", "<x>"], f"</{name}>"),
            ("<!--", ["-", "--", "!", ">", "<", "<!", "<!-", "<!--", "x", "-!>", "\0"], "-->"),
            ("<svg><![CDATA[", ["]", "]]", ">", "x", "<x>", "]>"], "]]>"),
            ("<!DOCTYPE", [" ", "x", "PUBLIC", "system", "\"", "'", ">", "\0", "<x>"], ">")))
        inside = "".join(r.choice(parts) for _ in range(r.choice((0, 1, 2, 3, 5, 8))))
        return first + inside + last + r.choice(("<x>", "<x a=b>", "</x><q>"))

    def foreign(self) -> str:
        return self.start(self.r.choice(FOREIGN))

    def breakout(self) -> str:
        return self.start(self.r.choice(BREAKOUTS))

    def tree(self) -> str:
        return self.start(self.r.choice(TREE))


def drawn(seed: int, number: int) -> bytes:
    return Drawing(seed, number).page()


def pieces_of(page: bytes) -> list[bytes]:
    """A page in pieces, each with one `<` or `>` at its edge."""
    pieces = [b""]
    for place in range(len(page)):
        if page[place:place + 1] == b"<" or (place and page[place - 1:place] == b">"):
            pieces.append(b"")
        pieces[-1] += page[place:place + 1]
    return [piece for piece in pieces if piece]
