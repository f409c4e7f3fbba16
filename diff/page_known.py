"""Why parsers may tell other tags of a page than zugrenja. What is named here is the parser's own; the rest is its tree."""

import re
from typing import Callable, NamedTuple

TREE = "a tree ignores or closes elements; with that written out in tags they agree"
MIDDLE = "a tree takes an element out of the middle of those that are open"
NO_REASON = "no reason"


class Known(NamedTuple):
    peer: str
    reason: str
    shows: Callable[[bytes], bool]  # whether a smallest page can differ so


def has(pattern: bytes) -> Callable[[bytes], bool]:
    return lambda page: re.search(pattern, page, re.I | re.S) is not None


KNOWN = [
    Known("parse5", "it reads `noframes` in the body as any element, its text as tags", has(rb"<noframes")),
    Known("parse5", "from inside HTML, an end tag closes an element of svg or math of its name", has(rb"<(svg|math)\b.*</")),
    Known("html5lib", "`</p>` and `</br>` don't leave svg and math", has(rb"<(svg|math)\b.*</(p|br)\b")),
    Known("html5lib", "end tags pass `desc` and `title` of svg, and what holds HTML in math",
          has(rb"<(svg|math)\b.*<(desc|title|mi|mo|mn|ms|mtext|annotation-xml)\b.*</")),
    Known("html5lib", "it has no `template`", has(rb"<template")),
    Known("libgumbo", "it gives a tag behind `</>` the place of that", has(rb"</>")),
    Known("libgumbo", "NUL at the front of a name isn't in the name as written", has(rb"<[^>]*\0")),
    Known("libgumbo", "attributes of a second `body` or `html` are the first one's", has(rb"<body.*<body|<html.*<html")),
    Known("libgumbo", "end tags in svg and math close other elements, by the standard of 2015", has(rb"<(svg|math)\b.*</")),
]
