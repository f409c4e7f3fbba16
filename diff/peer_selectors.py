"""Selectors for diff/peers.py: drawn from a page, so that many match, and kept as trees, so that they can be changed.

A selector is a list of items, an item a list of compounds with steps between them, a compound a list of parts. A part
is ("name", NAME), ("any",), ("class", NAME), ("id", NAME), ("has", NAME), ("compare", NAME, OPERATOR, VALUE, FLAG),
("nth", TEXT) or (KIND, COMPOUNDS), where KIND is "not", "is" or "where".
"""

import random
import re
from typing import Callable

from peer_pages import Page

LOGICAL = ("not", "is", "where")
PROGRESSIONS = ["odd", "even", "1", "2", "3", "2n+1", "3n", "3n-1", "-n+3", "n+2", "0n+2", "n"]
OPERATORS = ["=", "=", "~=", "|=", "^=", "$=", "*="]


def identifier(text: str) -> str:
    """The text as a CSS identifier."""
    out = re.sub(r"[^A-Za-z0-9_\-\u0080-\U0010ffff]", lambda c: "\\" + c[0], text)
    first = re.match(r"-?[0-9]|-\Z", out)
    return out[:first.end() - 1] + f"\\{ord(out[first.end() - 1]):x} " + out[first.end():] if first else out


def quoted(text: str) -> str:
    return '"' + re.sub(r'["\\]', lambda c: "\\" + c[0], text) + '"'


def part_text(part: tuple) -> str:
    match part:
        case ("name", name):
            return identifier(name)
        case ("any",):
            return "*"
        case ("class", name):
            return "." + identifier(name)
        case ("id", name):
            return "#" + identifier(name)
        case ("has", name):
            return f"[{identifier(name)}]"
        case ("compare", name, operator, value, flag):
            return f"[{identifier(name)}{operator}{quoted(value)}{flag and ' ' + flag}]"
        case ("nth", text):
            return ":" + text
        case (kind, compounds):
            return f":{kind}({', '.join(map(compound_text, compounds))})"


def compound_text(compound: list) -> str:
    return "".join(map(part_text, compound))


def text_of(selector: list) -> str:
    return ", ".join("".join(one if isinstance(one, str) else compound_text(one) for one in item) for item in selector)


def changed(selector: list, change: Callable[[list], list]) -> list:
    """The selector with what `change` gives in the place of each compound; of those in functions first."""
    def in_compound(compound: list) -> list:
        return change([(part[0], [in_compound(one) for one in part[1]]) if part[0] in LOGICAL else part
                       for part in compound])

    return [[one if isinstance(one, str) else in_compound(one) for one in item] for item in selector]


class Drawing:
    """Draws selectors from a page: compounds that some element of it passes, and others."""

    def __init__(self, seed: int, page: Page):
        self.r, self.elements = random.Random(f"{seed} selectors of {page.name}"), page.elements

    def other_case(self, text: str) -> str:
        return "".join(c.swapcase() if c.isascii() and self.r.random() < 0.5 else c for c in text)

    def compare(self, name: str, value: str) -> tuple:
        """A comparison with a value, with a part of it, or with it in another case."""
        r = self.r
        operator = r.choice(OPERATORS)
        words = [word for word in re.split(r"[ \xa0]+", value) if word] or [value]
        start, end = sorted((r.randrange(len(value) + 1), r.randrange(len(value) + 1)))
        operand = {"~=": r.choice(words), "|=": value.partition("-")[0], "^=": value[:end], "$=": value[start:],
                   "*=": value[start:end], "=": value}[operator]
        operand = self.other_case(operand[:80]) if r.random() < 0.2 else operand[:80]
        return "compare", name, operator, operand, r.choice(("",) * 6 + ("i", "s"))

    def attribute(self, element) -> tuple | None:
        r = self.r
        if not element.attributes:
            return None
        prefix, name, value = r.choice(element.attributes)
        if prefix is None and name == "class" and value.split() and r.random() < 0.6:
            return "class", r.choice(value.split())
        if prefix is None and name == "id" and value.strip() == value != "" and r.random() < 0.6:
            return "id", value
        name = f"{prefix}:{name}" if prefix else name
        name = self.other_case(name) if r.random() < 0.04 else name
        return ("has", name) if r.random() < 0.3 else self.compare(name, value)

    def nth(self) -> tuple:
        kind = self.r.choice(("first-child", "first-of-type", "nth-child", "nth-child", "nth-of-type", "nth-of-type"))
        return "nth", kind if kind.startswith("first") else f"{kind}({self.r.choice(PROGRESSIONS)})"

    def logical(self) -> tuple:
        r = self.r
        kind = r.choice(("not", "not", "is", "where"))
        return kind, [self.compound(r.choice(self.elements), False) for _ in range(r.choice((1, 1, 2)))]

    def compound(self, element, may_nest: bool = True) -> list:
        """A compound that the element passes, or nearly."""
        r = self.r
        name = self.other_case(element.name) if r.random() < 0.03 else element.name
        parts = [r.choice(([], [("any",)], [("name", name)], [("name", name)]))]
        parts.append([attribute for _ in range(r.choice((0, 1, 1, 2))) if (attribute := self.attribute(element))])
        parts.append([self.nth()] if r.random() < 0.15 else [])
        parts.append([self.logical()] if may_nest and r.random() < 0.2 else [])
        return [one for some in parts for one in some] or [("name", name)]

    def item(self) -> list:
        """A compound of an element, and to the left of it those of some elements around it."""
        r = self.r
        element = r.choice(self.elements)
        item = [self.compound(element)]
        for _ in range(r.choice((0, 0, 1, 1, 2))):
            step = r.choice((" ", " > "))
            for _ in range(1 if step == " > " else r.choice((1, 2, 3))):
                if element.parent is not None:
                    element = self.elements[element.parent]
            item = [self.compound(element), step] + item
        return item

    def selector(self) -> list:
        return [self.item() for _ in range(self.r.choice((1, 1, 1, 1, 2)))]
