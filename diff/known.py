"""The known differences from lol_html, as classes. Only programs beside may differ so, never the model."""

import os
import re
from typing import Callable, NamedTuple

from programs import ROOT

DEEPER = re.compile(r":(not|is|where)\(", re.I)
NEGATION = re.compile(r":not\(", re.I)
TOKEN = re.compile(r"/\*.*?(?:\*/|$)|\\[0-9a-fA-F]{1,6}[ \t]?|\\."
                   r"|\"(?:\\.|[^\"\\])*(?:\"|$)|'(?:\\.|[^'\\])*(?:'|$)", re.S)
SIMPLE = re.compile(r"\s*(\*|[.#]?(\\.|[\w-]|[^\x00-\x7f])+|\[[^][]*\]?|:[\w-]+(\([^()]*\)?)?)\s*", re.S)
TRIES = re.compile(rb"\ttries \d+ \d+$", re.M)
PART = re.compile(r"\[[^]]*\]?|:?[.#]?(?:\\.|[\w-]|[^\x00-\x7f])+(?:\([^()]*\)?)?|[*|]", re.S)
LINE = re.compile(rb"bad line (\d+): ([^\n]*)\n?")
BOUNDS = ("A selector has at most 128 of `:not`, `:is` and `:where` one inside the other, and an item at most 1,024"
          " compounds, and the numbers of An+B lie in `i32`; beyond, a text is refused.")


def plain(text: str) -> str:
    """The text without comments, with `x` in place of each escape and of each string."""
    return TOKEN.sub(lambda token: "" if token[0].startswith("/*") else "x", text)


def cause(answer: tuple) -> str:
    """The cause of a bad line, or nothing."""
    bad = LINE.fullmatch(answer[0])
    return bad[2].decode() if bad else ""


def items_of(text: str, start: int) -> list:
    """The items of the parentheses that open before `start`."""
    depth, items = 0, [""]
    for c in text[start:]:
        depth += (c in "([") - (c in ")]")
        if depth < 0:
            break
        if c == "," and depth == 0:
            items.append("")
        else:
            items[-1] += c
    return items


def negates_compounds(text: str) -> bool:
    text = plain(text)
    insides = [items_of(text, negation.end()) for negation in NEGATION.finditer(text)]
    return any(not SIMPLE.fullmatch(item) or NEGATION.search(item) for items in insides for item in items)


def compounds_in_other_order(script: bytes) -> bool:
    """Whether two compounds of the script have the same parts in another order."""
    found = {}
    for line in script.split(b"\n"):
        if line.startswith(b"select\t"):
            text = plain(line.split(b"\t", 2)[-1].decode("utf-8", "replace"))
            for compound in re.split(r"[\s>,]+(?![^\[]*\])", text):
                parts = PART.findall(compound)
                found.setdefault(tuple(sorted(parts)), set()).add(tuple(parts))
    return any(len(orders) > 1 for orders in found.values())


class Known(NamedTuple):
    name: str
    reason: str
    told: str | None  # the line of docs/DIFFERENCES.md, or its part that tells it
    touches: Callable[[str], bool]  # the text of a selector that may be answered in another way
    shows: Callable[[tuple, tuple], bool]  # whether the port's and the other answer differ as they do here


CLASSES = [
    Known("is and where", "lol_html refuses both by name",
          "`:is` and `:where` are read, as parts `SimpleSelector::Is` and `Where`; lol_html refuses both by name.",
          lambda text: re.search(r"(is|where|x[\w-]*)\(", plain(text), re.I) is not None,
          lambda port, other: cause(other) == "UnsupportedPseudoClassOrElement"),
    Known("not of compounds", "lol_html negates each simple test by itself",
          "`:not` negates whole compounds, as Selectors 4 says, where lol_html negates each simple test by itself",
          negates_compounds, lambda port, other: port[1] != 2 and other[1] != 2),
    Known("numbers beyond i32", "lol_html cuts them to i32", BOUNDS,
          lambda text: re.search(r"[0-9]{10}", text) is not None,
          lambda port, other: cause(port) == "UnexpectedToken"),
    Known("places beyond i32", "a place less an offset wraps in lol_html",
          "`NthChild::has_index` (it is in lol_base) computes in wider numbers, so it doesn't wrap near `i32::MIN`.",
          lambda text: re.search(r"-[0-9]{9}|- +[0-9]{9}", text) is not None,
          lambda port, other: port[1] != 2 and other[1] != 2),
    Known("deep negations", "lol_html has no bound", BOUNDS,
          lambda text: len(DEEPER.findall(text)) > 128, lambda port, other: cause(port) == "UnsupportedSyntax"),
    Known("long items", "lol_html has no bound", BOUNDS,
          lambda text: len(text.split()) + text.count(">") > 1024,
          lambda port, other: cause(port) == "UnsupportedSyntax"),
    Known("pseudo-elements in not", "an older parser of selectors names another cause", None,
          lambda text: re.search(r"::|:(before|after|first-l)", plain(text), re.I) is not None,
          lambda port, other: cause(port) == "UnsupportedPseudoClassOrElement" and cause(other) == "UnsupportedSyntax"),
    Known("host", "an older parser of selectors reads what is inside first", None,
          lambda text: ":host(" in plain(text).lower(),
          lambda port, other: cause(port) == "UnsupportedPseudoClassOrElement" and other[1] == 2),
    Known("hyphen before an escaped line's end", "an older tokenizer takes it as a name", None,
          lambda text: re.search(r"-\\[\r\f]", text) is not None, lambda port, other: port[1] == 2 and other[1] == 2),
]
IN_ORDER = Known("nodes by the order of tests", "lol_html keeps tests of names and of attributes apart, so"
                 " `.a:first-child` and `:first-child.a` are one node there",
                 "A compound's tests are a tree (`Predicate { tests }`, `Test`)",
                 lambda text: True, lambda port, other: TRIES.sub(b"", port[0]) == TRIES.sub(b"", other[0]))


def blanked(script: bytes, touches: Callable[[str], bool]) -> bytes:
    """The script with an empty line in place of each selector that is touched."""
    lines = script.split(b"\n")
    for place, line in enumerate(lines):
        fields = line.split(b"\t", 2)
        if fields[0] == b"select" and len(fields) == 3 and touches(fields[2].decode("utf-8", "replace")):
            lines[place] = b""
    return b"\n".join(lines)


def class_of(script: bytes, port: tuple, other: tuple, agree: Callable[[bytes], bool]) -> str | None:
    """The class of a difference: without the selectors that it touches, the answers agree."""
    shown = [known for known in CLASSES if known.shows(port, other)]
    for known in shown:
        rest = blanked(script, known.touches)
        if rest != script and agree(rest):
            return known.name
    if IN_ORDER.shows(port, other) and compounds_in_other_order(script):
        return IN_ORDER.name
    for known in shown:
        if blanked(script, known.touches) != script:
            rest = blanked(script, lambda text: any(one.touches(text) for one in CLASSES))
            return known.name + ", with others" if agree(rest) else None
    return None


def untold() -> list:
    """The classes whose line isn't in docs/DIFFERENCES.md."""
    with open(os.path.join(ROOT, "docs", "DIFFERENCES.md"), encoding="utf-8") as page:
        text = page.read()
    return [known.name for known in CLASSES + [IN_ORDER] if known.told and known.told not in text]
