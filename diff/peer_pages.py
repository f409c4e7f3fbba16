"""Pages for diff/peers.py: from Debian's packages, or made from a seed. Each is read once, into its elements."""

import os
import random
import re
import subprocess
from typing import Iterator, NamedTuple

import html5lib

from model import VOID_NAMES

HTML, SVG, MATHML = "http://www.w3.org/1999/xhtml", "http://www.w3.org/2000/svg", "http://www.w3.org/1998/Math/MathML"
NAMESPACES = {HTML: "html", SVG: "svg", MATHML: "mathml"}
PREFIXES = {"http://www.w3.org/1999/xlink": "xlink", "http://www.w3.org/XML/1998/namespace": "xml"}
PACKAGES = ["valgrind", "debian-faq", "apt-doc", "debian-policy"]
LEAST, MOST = 8_000, 120_000
NAME = re.compile(r"[A-Za-z_][A-Za-z0-9_.-]*")
CONTROL = re.compile(r"[\x00-\x1f\x7f\ud800-\udfff\ufffe\uffff]")


class Element(NamedTuple):
    """An element: the number of its parent, its namespace, its name, and (prefix, name, value) of its attributes."""

    parent: int | None
    namespace: str
    name: str
    attributes: list


class Page(NamedTuple):
    name: str
    elements: list[Element]


def attributes_of(node) -> list:
    """The attributes that every tree can hold: with names of XML, and without declarations of namespaces."""
    listed = []
    for key, value in node.attrib.items():
        namespace, _, name = key[1:].partition("}") if key.startswith("{") else ("", "", key)
        if NAME.fullmatch(name) and name != "xmlns" and (not namespace or namespace in PREFIXES):
            listed.append((PREFIXES.get(namespace), name, CONTROL.sub(" ", value)))
    return listed


def read(name: str, text: bytes) -> Page:
    """Reads a page by html5lib. A sign that names of XML can't have is a hyphen in the name of an element."""
    elements = []
    waiting = [(None, html5lib.parse(text))]
    while waiting:
        parent, node = waiting.pop()
        if not isinstance(node.tag, str):
            continue
        namespace, _, local = node.tag[1:].partition("}")
        local = "x-" * (not re.match("[A-Za-z_]", local)) + re.sub(r"[^A-Za-z0-9_.-]", "-", local)
        elements.append(Element(parent, namespace, local, attributes_of(node)))
        waiting += [(len(elements) - 1, child) for child in reversed(node)]
    return Page(name, elements)


def shipped(packages: list[str], most: int) -> Iterator[Page]:
    """Of each package, so many of the pages that it ships, spread over all that are neither small nor large."""
    for package in packages:
        listed = subprocess.run(["dpkg", "-L", package], stdout=subprocess.PIPE, text=True)
        if listed.returncode:
            raise SystemExit(f"The package {package} isn't there: apt-get install {' '.join(packages)}")
        files = sorted(file for file in listed.stdout.split("\n") if file.endswith(".html") and os.path.isfile(file))
        texts = []
        for file in files:
            with open(file, "rb") as page:
                texts.append((file, page.read()))
        fitting = [(file, text) for file, text in texts if LEAST <= len(text) <= MOST]
        step = max(len(fitting) // most, 1)
        for file, text in fitting[::step][:most]:
            yield read(file, text)


CLASSES = ["a", "b", "nav", "item", "Item", "wide", "x-1", "é", "it's"]
WORDS = ["one", "One", "TWO", "two", "x-y", "x", "en", "EN-us", "text", "TEXT", "1", "a\u00a0b", ""]
HTML_NAMES = "div p span a ul li section article h1 h2 table tr td img br input em custom-element".split()
SVG_NAMES = "g path circle text linearGradient clipPath foreignObject a title use".split()
MATH_NAMES = "mrow mi mo mn mfrac msup mtext annotation-xml".split()
ATTRIBUTES = ["class", "id", "type", "rel", "lang", "href", "data-x", "title", "align", "media"]
SVG_ATTRIBUTES = ["class", "id", "viewBox", "type", "xlink:href", "href", "gradientUnits", "media", "xml:lang"]


def tag(r: random.Random, name: str, attributes: list[str]) -> str:
    """A start tag as a page has it, with up to three attributes."""
    written = f"<{name}"
    for attribute in r.sample(attributes, r.choice((0, 1, 1, 2, 3))):
        words = r.choices(CLASSES if attribute == "class" else WORDS, k=r.choice((1, 1, 1, 2, 3)))
        value = r.choice((" ", " ", "  ", "\n ")).join(words)
        written += f' {attribute}="{value}"'
    return written + ">"


def content(r: random.Random, depth: int, names: list[str], attributes: list[str]) -> str:
    """Some elements, with others in them; SVG and MathML now and then."""
    parts = []
    for _ in range(r.choice((1, 2, 3, 5)) if depth else 0):
        if names is HTML_NAMES and r.random() < 0.12:
            parts.append(tag(r, "svg", SVG_ATTRIBUTES) + content(r, depth - 1, SVG_NAMES, SVG_ATTRIBUTES) + "</svg>")
        elif names is HTML_NAMES and r.random() < 0.08:
            parts.append(tag(r, "math", ATTRIBUTES) + content(r, depth - 1, MATH_NAMES, ATTRIBUTES) + "</math>")
        else:
            name = r.choice(names)
            inner = (HTML_NAMES, ATTRIBUTES) if name == "foreignObject" else (names, attributes)
            parts.append(tag(r, name, attributes) + content(r, depth - 1, *inner) + f"</{name}>")
    return "text ".join(parts)


def made(seed: int, count: int) -> Iterator[Page]:
    """Pages from a seed, with SVG and MathML."""
    for number in range(count):
        r = random.Random(f"{seed} page {number}")
        body = "".join(content(r, r.choice((3, 4, 5)), HTML_NAMES, ATTRIBUTES) for _ in range(6))
        page = f"<!DOCTYPE html><meta charset=utf-8><title>x</title><body>{body}"
        yield read(f"page {number} of seed {seed}", page.encode())


def end_of(element: Element) -> list[str]:
    """Its end tag, if it has content."""
    void = element.namespace == HTML and element.name.encode() in VOID_NAMES
    return [] if void else [f"end\t{element.name}"]


def script(elements: list[Element], texts: list[str]) -> bytes:
    """The script of docs/SCRIPT.md: these selectors, and the tags of the elements."""
    lines = [f"select\t{number}\t{text}" for number, text in enumerate(texts)]
    opened = []
    for number, (parent, namespace, name, attributes) in enumerate(elements):
        while opened and opened[-1] != parent:
            lines += end_of(elements[opened.pop()])
        written = [f"{prefix}:{local}={value}" if prefix else f"{local}={value}" for prefix, local, value in attributes]
        lines.append("\t".join(["start", NAMESPACES[namespace], name, *written]))
        opened.append(number)
    return "\n".join([*lines, ""]).encode()
