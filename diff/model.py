"""A model of the definitions, to run beside the program `lol_match`: python3 diff/model.py < SCRIPT

It follows docs/SELECTORS.md, docs/DEFINITIONS.md and docs/SCRIPT.md, in their words, and shares nothing with the code.
Sections are those of CSS Syntax 3, Selectors 4 and the HTML Standard. Names and values are bytes, whose `lower` changes
ASCII letters alone.
"""

import re
import sys
from dataclasses import dataclass, field
from typing import NamedTuple, Optional

# Functions stand up to 128 deep in a selector, and each takes a handful of calls.
sys.setrecursionlimit(10000)

# HTML, 13.1.2, and the obsolete names that the parser closes at once (13.2.6.4.7).
VOID_NAMES = b"area base br col embed hr img input link meta source track wbr basefont bgsound keygen param".split()
ESI_NAMES = [b"esi:include", b"esi:comment"]

# HTML, 4.16.2: the attributes whose values compare without case on HTML elements.
CASELESS_NAMES = b"""
    accept accept-charset align alink axis bgcolor charset checked clear codetype color compact declare defer dir
    direction disabled enctype face frame hreflang http-equiv lang language link media method multiple nohref noresize
    noshade nowrap readonly rel rev rules scope scrolling selected shape target text type valign valuetype vlink
""".split()


class Refused(Exception):
    """A text, a line or a run is refused; the argument is the cause."""


def number(digits: bytes, greatest: int, cause: str) -> int:
    """The number of one or more decimal digits, of which zeros may lead; refused if it isn't one or is too large."""
    significant = digits.lstrip(b"0") or b"0"
    if not re.fullmatch(rb"[0-9]+", digits) or len(significant) > 20 or int(significant) > greatest:
        raise Refused(cause)
    return int(significant)


# Texts and tokens (CSS Syntax 3, 3.3 and 4)

ESCAPE = r"\\(?:[0-9A-Fa-f]{1,6}+[ \t\n]?+|[^\n0-9A-Fa-f]|\Z)"
ESCAPE_IN_STRING = rf"\\\n|{ESCAPE}"
NAME_START = rf"(?:[A-Za-z_\u0080-\U0010FFFF]|{ESCAPE})"
NAME_POINT = rf"(?:[A-Za-z0-9_\-\u0080-\U0010FFFF]|{ESCAPE})"
NAME = rf"(?:--|-?{NAME_START}){NAME_POINT}*"
NUMBER = r"(?P<number>(?>[+-]?(?:[0-9]*\.[0-9]+|[0-9]+)(?:[Ee][+-]?[0-9]+)?))"
STRING = rf"(?P<quote>[\"'])(?P<value>(?:(?!(?P=quote))[^\\\n]|{ESCAPE_IN_STRING})*)"

# The rows of docs/SELECTORS.md ("Text and tokens"), some of them parted in two or three.
ROWS = [
    ("comment", r"/\*.*?(?:\*/|\Z)"),
    ("white space", r"[ \t\n]+"),
    ("string", rf"{STRING}(?:(?P=quote)|\Z)"),
    ("bad string", STRING),
    ("id", rf"#(?={NAME})(?P<value>{NAME_POINT}+)"),
    ("hash", rf"#{NAME_POINT}+"),
    ("dimension", rf"{NUMBER}(?P<value>{NAME})"),
    ("percentage", rf"{NUMBER}%"),
    ("number", NUMBER),
    ("arrow", r"-->"),
    ("function", rf"(?P<value>{NAME})\("),
    ("name", rf"(?P<value>{NAME})"),
    ("sign", r"[~|^$*]=|."),
]
COMPILED_ROWS = [(kind, re.compile(row, re.DOTALL)) for kind, row in ROWS]


class Token(NamedTuple):
    """A token: its kind, which is the sign itself for a sign or an operator; the name, unit or string; its number."""

    kind: str
    value: bytes = b""
    number: str = ""


def preprocessed(text: str) -> str:
    return text.replace("\r\n", "\n").replace("\r", "\n").replace("\f", "\n").replace("\0", "\ufffd")


def without_escapes(text: str, in_string: bool) -> bytes:
    """The text with what its escapes stand for (CSS Syntax 3, 4.3.5 and 4.3.7)."""

    def stands_for(escape: re.Match) -> str:
        after = escape[0][1:]
        if after in ("", "\n"):
            return "" if in_string else "\ufffd"
        if not re.match("[0-9A-Fa-f]", after):
            return after
        code = int(after.rstrip(" \t\n"), 16)
        return "\ufffd" if code == 0 or 0xD800 <= code <= 0xDFFF or code > 0x10FFFF else chr(code)

    return re.sub(ESCAPE_IN_STRING, stands_for, text).encode("utf-8")


def tokens(text: str) -> list[Token]:
    """At each place the first row that fits decides. Comments are no tokens."""
    points, place, listed = preprocessed(text), 0, []
    while place < len(points):
        kind, found = next((kind, found) for kind, row in COMPILED_ROWS if (found := row.match(points, place)))
        place = found.end()
        if kind != "comment":
            parts = found.groupdict("")
            value = without_escapes(parts.get("value", ""), kind == "string")
            listed.append(Token(found[0] if kind == "sign" else kind, value, parts.get("number", "")))
    return listed


# Reading (Selectors 4, 3, 4, 6, 16 and 18.1). An item is compounds and the steps between them, a compound is its parts.
# A part is its test, but a function's has items in place of compounds, and one refused late begins with its cause.

END = Token("End")
CLOSING = {"list": ")", "attribute": "]", "An+B": ")"}


class Reader:
    """The tokens of a text, the place of the next one, and what is open around it."""

    def __init__(self, text: str):
        self.tokens = tokens(text)
        self.place = 0
        self.open = []

    def next(self, ahead: int = 0) -> Token:
        """The next token, or one after it; End at the end of the text, and at what closes what is open innermost."""
        if self.place + ahead >= len(self.tokens):
            return END
        token = self.tokens[self.place + ahead]
        return END if self.open and token.kind == CLOSING[self.open[-1]] else token

    def at_end(self) -> bool:
        return self.next() is END

    def at_stop(self) -> bool:
        """At End, or at a comma that parts the items of a list."""
        return self.at_end() or self.next().kind == "," and self.open[-1:] in ([], ["list"])

    def wanted(self, kinds=None, cause: str = "") -> Token:
        """Takes the next token, where one is wanted; if kinds are given it has to be of one of them."""
        if self.at_stop():
            raise Refused("UnexpectedEnd")
        if kinds and self.next().kind not in kinds:
            raise Refused(cause)
        self.place += 1
        return self.tokens[self.place - 1]

    def take_if(self, kind: str) -> bool:
        taken = self.next().kind == kind
        self.place += taken
        return taken

    def skip_white_space(self) -> bool:
        """Whether there was some; comments may part it."""
        start = self.place
        while self.take_if("white space"):
            pass
        return self.place > start

    def take_bars(self) -> str:
        """Takes `|` or `*|`, if it is next."""
        if self.take_if("|"):
            return "|"
        if self.next().kind == "*" and self.next(1).kind == "|":
            self.place += 2
            return "*|"
        return ""

    def inside(self, opened: str, rule):
        """What a rule reads of what was opened, up to its End, which is taken."""
        self.open.append(opened)
        read = rule(self)
        if not self.at_end():
            raise Refused("UnexpectedToken")
        self.open.pop()
        self.place += 1
        return read


def selector_list(reader: Reader) -> list:
    """List: an item, for each comma another item, then End."""
    items = [item(reader)]
    while reader.take_if(","):
        items.append(item(reader))
    return items


def item(reader: Reader) -> tuple[list, list]:
    """Item: compounds with a step between each two (Selectors 4, 16)."""
    reader.skip_white_space()
    compounds, steps = [compound(reader, "EmptySelector")], []
    while True:
        spaced = reader.skip_white_space()
        if reader.at_stop():
            return compounds, steps
        if reader.next().kind in (">", "+", "~"):
            steps.append(reader.wanted().kind)
            reader.skip_white_space()
        elif spaced:
            steps.append(" ")
        else:
            raise Refused("UnexpectedToken")
        if len(compounds) == 1024:
            raise Refused("UnsupportedSyntax")
        compounds.append(compound(reader, "DanglingCombinator"))


def compound(reader: Reader, cause_if_empty: str) -> list:
    """Compound: at most one name or `*`, then the other parts, without white space between."""
    parts = type_parts(reader)
    while True:
        if reader.next().kind == "id":
            parts.append(("id", reader.wanted().value))
        elif reader.take_if("."):
            parts.append(("class", reader.wanted(["name"], "InvalidClassName").value))
        elif reader.take_if("["):
            parts.append(reader.inside("attribute", attribute_part))
        elif reader.take_if(":"):
            parts.append(pseudo_part(reader))
        elif parts:
            return parts
        else:
            raise Refused(cause_if_empty)


def type_parts(reader: Reader) -> list:
    """A name or `*`, with `|` or `*|` directly before it, or nothing (Selectors 4, 5)."""
    bars, token = reader.take_bars(), reader.next()
    if token.kind not in ("name", "*"):
        if bars and not reader.at_stop():
            raise Refused("UnexpectedToken")
        return []
    reader.wanted()
    if token.kind == "name" and not bars and reader.next().kind == "|":
        raise Refused("NamespacedSelector")
    part = ("name", token.value) if token.kind == "name" else ("any name",)
    return [("no name",), part] if bars == "|" else [part]


def attribute_part(reader: Reader) -> tuple:
    """Attribute, after its `[` (Selectors 4, 6): a name, and perhaps an operator, a value and a flag."""
    reader.skip_white_space()
    bars, name = attribute_name(reader)
    reader.skip_white_space()
    part = ("attribute", name)
    if not reader.at_end():
        operator = reader.wanted(OPERATORS, "UnexpectedTokenInAttribute").kind
        reader.skip_white_space()
        operand = reader.wanted(["name", "string"], "UnexpectedTokenInAttribute").value
        part = ("compare", name, operator, operand, case_rule(reader, name))
    return ("NamespacedSelector",) if bars == "*|" else part


def attribute_name(reader: Reader) -> tuple[str, bytes]:
    """The bars before a name, and the name, in lower case."""
    bars = reader.take_bars()
    if not bars and reader.next().kind == "*":
        reader.wanted()
        reader.wanted(["|"], "UnexpectedTokenInAttribute")
    name = reader.wanted(["name"], "UnexpectedTokenInAttribute" if bars else "MissingAttributeName").value
    if not bars and reader.next().kind == "|":
        raise Refused("NamespacedSelector")
    return bars, name.lower()


def case_rule(reader: Reader, name: bytes) -> str:
    """The flag, or the rule where there is none (Selectors 4, 6.3). Each of the four rules makes a test of its own."""
    reader.skip_white_space()
    if reader.at_end():
        return "without case in HTML" if name in CASELESS_NAMES else "with case"
    flag = reader.wanted(["name"], "UnexpectedToken").value.lower()
    if flag not in (b"i", b"s"):
        raise Refused("UnexpectedToken")
    reader.skip_white_space()
    return "without case" if flag == b"i" else "with case, as flagged"


# Pseudo-classes (Selectors 4, 4.2 to 4.4 and 13)

UNSUPPORTED = "UnsupportedPseudoClassOrElement"
LATE_NAMES = b"last-child only-child last-of-type only-of-type root empty scope".split()
PLAIN = {b"first-child": ("place", 0, 1), b"first-of-type": ("typed place", 0, 1)}
BY_PLACE = {b"nth-child": "place", b"nth-of-type": "typed place"}
BY_PLACE |= {b"nth-last-child": UNSUPPORTED, b"nth-last-of-type": UNSUPPORTED}
LOGICAL = {b"not": "none", b"is": "some", b"where": "some"}


def pseudo_part(reader: Reader) -> tuple:
    """What is directly after a colon. No pseudo-element is known."""
    element = reader.take_if(":")
    token = reader.wanted()
    kind, name = "element" if element else token.kind, token.value.lower()
    if kind == "name" and name in PLAIN:
        return PLAIN[name]
    if kind == "name" and name in LATE_NAMES:
        return (UNSUPPORTED,)
    if kind == "function" and name in BY_PLACE:
        return (BY_PLACE[name], *reader.inside("An+B", an_plus_b))
    if kind == "function" and name in LOGICAL:
        if len(reader.open) == 128:
            raise Refused("UnsupportedSyntax")
        return (LOGICAL[name], reader.inside("list", selector_list))
    raise Refused(UNSUPPORTED)


def an_plus_b(reader: Reader) -> tuple[int, int]:
    """An+B: the step and the offset, with white space around (CSS Syntax 3, 6.2)."""
    reader.skip_white_space()
    plus = reader.take_if("+")
    token = reader.wanted()
    name = token.value.lower()
    if token.kind == "name" and name in (b"even", b"odd") and not plus:
        read = 2, 1 if name == b"odd" else 0
    elif token.kind == "name" and not (plus and name.startswith(b"-")):
        read = -1 if name.startswith(b"-") else 1, offset_after(reader, name.removeprefix(b"-"))
    elif token.kind == "number" and not plus:
        read = 0, integer(token.number, "[+-]?")
    elif token.kind == "dimension" and not plus:
        read = integer(token.number, "[+-]?"), offset_after(reader, name)
    else:
        raise Refused("UnexpectedToken")
    reader.skip_white_space()
    return read


def offset_after(reader: Reader, unit: bytes) -> int:
    """B: its sign and its digits may be in one token with the `n`, or in the next ones."""
    if re.fullmatch(rb"n-[0-9]+", unit):
        return integer(unit[1:].decode("ascii"), "-")
    if unit not in (b"n", b"n-"):
        raise Refused("UnexpectedToken")
    sign = unit[1:].decode("ascii")
    reader.skip_white_space()
    if not sign and reader.at_end():
        return 0
    if not sign and reader.next().kind in ("+", "-"):
        sign = reader.wanted().kind
        reader.skip_white_space()
    return integer(sign + reader.wanted(["number"], "UnexpectedToken").number, "[+-]")


def integer(written: str, signs: str) -> int:
    """The integer that is written with one of these signs and digits, if it lies in `i32`."""
    found = re.fullmatch(rf"({signs})([0-9]+)", written)
    if not found:
        raise Refused("UnexpectedToken")
    negative = found[1] == "-"
    size = number(found[2].encode("ascii"), 2**31 if negative else 2**31 - 1, "UnexpectedToken")
    return -size if negative else size


def judge(items: list, in_function: bool) -> None:
    """The walk over what was read: items as written, compounds from the last one back, parts as written."""
    for compounds, steps in items:
        for place in reversed(range(len(compounds))):
            for part in compounds[place]:
                if part[0] in (UNSUPPORTED, "NamespacedSelector"):
                    raise Refused(part[0])
                if part[0] in ("none", "some"):
                    judge(part[1], True)
            if place > 0 and in_function:
                raise Refused(UNSUPPORTED)
            if place > 0 and steps[place - 1] in ("+", "~"):
                raise Refused(f"UnsupportedCombinator({steps[place - 1]})")


def accept(text: str) -> list:
    """The list that a text stands for; refused for the one cause if it stands for none."""
    items = selector_list(Reader(text))
    judge(items, False)
    return items


# Paths


class Path(NamedTuple):
    """A compound, and unless it is the first, the step before it and the number of the path on its left."""

    left: Optional[int]
    step: str
    tests: tuple


@dataclass
class Selectors:
    """The pairs of a path's number and an id, and the nodes: the beginnings of all paths, each once with its number."""

    pairs: set = field(default_factory=set)
    nodes: dict = field(default_factory=dict)

    def add(self, items: list, identifier: int) -> list:
        """Adds the path of each item, and tells their numbers. Two paths are the same if they are so test for test, in order."""
        added = []
        for compounds, steps in items:
            path = None
            for step, parts in zip([""] + steps, compounds):
                path = self.nodes.setdefault(Path(path, step, compound_tests(parts)), len(self.nodes))
            self.pairs.add((path, identifier))
            added.append(path)
        return added


def compound_tests(parts: list) -> tuple:
    """The tests of a compound. An item of a function is one compound, since a step in it is refused."""
    return tuple(
        (part[0], tuple(compound_tests(one) for (one,), _ in part[1])) if part[0] in ("none", "some") else part
        for part in parts
    )


# Tags and elements


class StartTag(NamedTuple):
    """A start tag; `finish`: whether its attributes are handed over if they are asked for."""

    name: bytes
    namespace: str
    attributes: list
    closes_itself: bool
    finish: bool


@dataclass
class Element:
    """The element of a start tag, and what is kept of it while it is open: its children, and the paths that match."""

    tag: StartTag
    event: int
    position: int
    typed_position: int
    children: int = 0
    typed_children: dict = field(default_factory=dict)
    matching: frozenset = frozenset()
    matching_here_or_outside: frozenset = frozenset()


def has_content(tag: StartTag, esi: bool) -> bool:
    """HTML, 13.1.2. The names of ESI are void only as they are spelled."""
    void = tag.name.lower() in VOID_NAMES or esi and tag.name in ESI_NAMES
    return not (void if tag.namespace == "html" else tag.closes_itself)


# Tests (Selectors 4, 5, 6 and 13)

OPEN = None


def has_index(step: int, offset: int, index: int) -> bool:
    """Whether the index is step * n + offset for some n from 0 on (Selectors 4, 13.3.1)."""
    beyond = index - offset
    return beyond == 0 if step == 0 else beyond % step == 0 and beyond // step >= 0


def name_holds(test: tuple, element: Element) -> Optional[bool]:
    """A test of the name or the place; OPEN if it is one of attributes."""
    match test:
        case ("any name" | "no name" as kind,):
            return kind == "any name"
        case ("name", name):
            return element.tag.name.lower() == name.lower()
        case ("place", step, offset):
            return has_index(step, offset, element.position)
        case ("typed place", step, offset):
            return has_index(step, offset, element.typed_position)
    return OPEN


def attribute_value(element: Element, name: bytes) -> Optional[bytes]:
    """The value of the first attribute of that name; None if there is none."""
    return next((value for other, value in element.tag.attributes if other.lower() == name), None)


def attribute_holds(test: tuple, element: Element) -> bool:
    """A test of attributes. Ids and classes have case."""
    match test:
        case ("id", identifier):
            return attribute_value(element, b"id") == identifier
        case ("class", name):
            return name in words(attribute_value(element, b"class") or b"")
        case ("attribute", name):
            return attribute_value(element, name) is not None
    _, name, operator, operand, rule = test
    value = attribute_value(element, name)
    if value is None:
        return False
    if rule == "without case" or rule == "without case in HTML" and element.tag.namespace == "html":
        value, operand = value.lower(), operand.lower()
    return OPERATORS[operator](value, operand)


def words(value: bytes) -> list[bytes]:
    """What white space parts: space, tab, line feed, form feed and carriage return."""
    return [word for word in re.split(rb"[ \t\n\f\r]", value) if word]


# Selectors 4, 6.1 and 6.2: all but `=` and `|=` never hold with an empty operand.
OPERATORS = {
    "=": lambda value, operand: value == operand,
    "|=": lambda value, operand: value == operand or value.startswith(operand + b"-"),
    "~=": lambda value, operand: operand in words(value),
    "^=": lambda value, operand: operand != b"" and value.startswith(operand),
    "$=": lambda value, operand: operand != b"" and value.endswith(operand),
    "*=": lambda value, operand: operand != b"" and operand in value,
}


# Compounds (Selectors 4, 3.1 and 4.2 to 4.4)


def holds(test: tuple, element: Element) -> bool:
    if test[0] in ("none", "some"):
        return some_hold(test[1], element) == (test[0] == "some")
    known = name_holds(test, element)
    return attribute_holds(test, element) if known is OPEN else known


def all_hold(tests: tuple, element: Element) -> bool:
    return all(holds(test, element) for test in tests)


def some_hold(compounds: tuple, element: Element) -> bool:
    return any(all_hold(tests, element) for tests in compounds)


def by_names(test: tuple, element: Element) -> Optional[bool]:
    """What is known of a test before attributes are: True, False or OPEN."""
    if test[0] not in ("none", "some"):
        return name_holds(test, element)
    values = [all_by_names(tests, element) for tests in test[1]]
    some = True if True in values else OPEN if OPEN in values else False
    return OPEN if some is OPEN else some == (test[0] == "some")


def all_by_names(tests: tuple, element: Element) -> Optional[bool]:
    """False if a part is false, else OPEN if one is open, else True."""
    values = [by_names(test, element) for test in tests]
    return False if False in values else OPEN if OPEN in values else True


# Keys: what a tag must have for its element to pass a compound. No test inside `:not`, `:is` or `:where` is one.


class Keys(NamedTuple):
    """A name in lower case; an id, else a class, else a part of an attribute's value, else an attribute's name, each as a test; and whether
    the value by names is known to be open at each element of the name."""

    name: Optional[bytes]
    attribute: Optional[tuple]
    opens: bool


def attribute_key(test: tuple) -> Optional[tuple]:
    """The test of an id, a class, a part of a value or an attribute that a test of attributes asks for. A part is the last four bytes of an
    operand that is compared with case. A comparison that its empty operand makes false asks for none."""
    if test[0] in ("id", "class", "attribute"):
        return test
    _, name, operator, operand, rule = test
    if operator not in ("=", "|=") and operand == b"":
        return None
    if rule.startswith("with case") and len(operand) >= 4:
        return ("compare", name, "*=", operand[-4:], "with case, as flagged")
    return ("attribute", name)


def is_of_attributes(test: tuple) -> bool:
    return test[0] not in ("none", "some", "any name", "no name", "name", "place", "typed place")


def keys_of(tests: tuple) -> Keys:
    names = [test[1].lower() for test in tests if test[0] == "name"]
    others = [test for test in tests if test[0] not in ("name", "any name")]
    asked = [key for test in others if is_of_attributes(test) and (key := attribute_key(test))]
    key = next((key for kind in ("id", "class", "compare", "attribute") for key in reversed(asked) if key[0] == kind), None)
    opens = bool(others) and all(map(is_of_attributes, others)) and len(names) < 2
    return Keys(names[0] if names else None, key, opens)


# Documents and answers

GREATEST_COUNT = 2147483647
ITEM_BYTES = 64
ROWS_PAY_FROM = 256  # nodes, where the line `rows` gives no number


class Document:
    """The root, and in it the open elements, the outermost first; the slots that are charged for them."""

    def __init__(self, script: "Script"):
        self.script = script
        self.open = [Element(StartTag(b"", "", [], False, True), 0, 0, 0)]
        self.slots = 0
        self.paths = list(script.selectors.nodes)
        self.keys = [keys_of(path.tests) for path in self.paths]
        self.has_rows = script.rows_from is not None and script.rows_from <= len(self.paths)

    def element_of(self, event: int, tag: StartTag) -> Element:
        """The element of a start tag that comes now, a child of the innermost open one (Selectors 4, 13.3, 13.4)."""
        parent, name = self.open[-1], tag.name.lower()
        if parent.children == GREATEST_COUNT:
            raise Refused("counter")
        parent.children += 1
        parent.typed_children[name] = parent.typed_children.get(name, 0) + 1
        return Element(tag, event, parent.children, parent.typed_children[name])

    def left_matches(self, path: Path) -> bool:
        """What is left of the last compound matches the parent, or some ancestor (Selectors 4, 16.1 and 16.2)."""
        parent = self.open[-1]
        around = parent.matching if path.step == ">" else parent.matching_here_or_outside
        return path.left is None or path.left in around

    def open_element(self, element: Element, matching: frozenset) -> None:
        """Opens an element. The paths that match it are kept, since no later tag changes them."""
        outside = self.open[-1].matching_here_or_outside
        element.matching = matching
        element.matching_here_or_outside = outside if matching <= outside else outside | matching
        if len(self.open) > self.slots:  # the root, which takes no slot, stands for the element that comes
            self.slots = 2 * self.slots or 8
        if self.slots * ITEM_BYTES > self.script.limit:
            raise Refused("limit")
        self.open.append(element)

    def innermost(self, node: int, element: Element, outer: list) -> list:
        """The elements that a path's compounds are passed by, the outermost first: from the last compound on, a child step
        goes to the parent, and any other to the nearest element that what is left of the step matches."""
        path = self.paths[node]
        if path.left is None:
            return [element]
        places = [len(outer) - 1] if path.step == ">" else reversed(range(len(outer)))
        nearest = next(place for place in places if path.left in outer[place].matching)
        return self.innermost(path.left, outer[nearest], outer[:nearest]) + [element]

    def reasons(self, element: Element, outer: list, matching: frozenset) -> list[str]:
        """A line for each item that matches, in the order of the lines and of their lists."""
        lines = []
        for number, identifier, items in self.script.selects:
            for item, node in enumerate(items):
                if node in matching:
                    passed = listed(f"{one.event}" for one in self.innermost(node, element, outer))
                    lines.append(f"why\t{identifier}\t{number}\t{item}\t{passed}")
        return lines

    def looked_at(self, tried: list, element: Element) -> list:
        """Of the nodes that are tried, those that keys don't rule out: by the name, and where attributes are asked for before any node is
        tried, by these."""
        named = [(node, tests) for node, tests in tried if self.keys[node].name in (None, element.tag.name.lower())]
        if element.tag.namespace == "html" and not any(self.keys[node].opens for node, _ in named):
            return named
        keys = ((node, tests, self.keys[node].attribute) for node, tests in named)
        return [(node, tests) for node, tests, key in keys if key is None or attribute_holds(key, element)]

    def answer_start(self, event: int, tag: StartTag) -> list[str]:
        """The lines of a start tag: of its report, its tries, and whether attributes were asked for; and of the reasons."""
        element, outer = self.element_of(event, tag), self.open[:]
        nodes, pairs = self.script.selectors.nodes, self.script.selectors.pairs
        tried = [(node, path.tests) for path, node in nodes.items() if self.left_matches(path)]
        needing = [node for node, tests in tried if all_by_names(tests, element) is OPEN]
        asked = tag.namespace != "html" or bool(needing)
        if asked and not tag.finish:
            return ["dropped"]
        matching = frozenset(node for node, tests in tried if all_hold(tests, element))
        content = has_content(tag, self.script.esi)
        if content:
            self.open_element(element, matching)
        report = sorted({identifier for node, identifier in pairs if node in matching})
        line = "start\t" + listed(f"{identifier}" if content else f"{identifier}/" for identifier in report)
        if self.has_rows:
            tried = self.looked_at(tried, element)
            needing = [node for node, tests in tried if all_by_names(tests, element) is OPEN]
        tries = f"\ttries {len(tried)} {len(needing)}" if self.script.tries else ""
        reasons = self.reasons(element, outer, matching) if self.script.explain else []
        return [line + ("\tasked" if asked else "") + tries] + reasons

    def answer_end(self, name: bytes) -> list[str]:
        """The line of an end tag: it closes the innermost element of its name and all inside (HTML, 13.2.6.4.7)."""
        for place in range(len(self.open) - 1, 0, -1):
            if self.open[place].tag.name.lower() == name.lower():
                closed = self.open[place:]
                del self.open[place:]
                return ["end\t" + listed(f"{element.event}" for element in closed)]
        return ["end\t-"]


def listed(fields) -> str:
    return ",".join(fields) or "-"


# Scripts


@dataclass
class Script:
    """What the lines so far ask for."""

    limit: int = 2**64 - 1
    esi: bool = False
    tries: bool = False
    explain: bool = False
    rows_from: int | None = None
    selects: list = field(default_factory=list)  # for each line its number, its id and the numbers of its items' paths
    selectors: Selectors = field(default_factory=Selectors)
    tags: list = field(default_factory=list)

    def read_line(self, place: int, line: bytes) -> None:
        """What a line asks for by its fields. Nothing but tags may come after a tag."""
        match line.split(b"\t"):
            case [b"start" | b"drop" as kind, namespace, name, *attributes]:
                self.tags.append(start_tag(namespace, name, attributes, kind == b"start"))
            case [b"end", name] if name:
                self.tags.append(name)
            case _ if self.tags:
                raise Refused("form")
            case [b"esi"]:
                self.esi = True
            case [b"tries"]:
                self.tries = True
            case [b"explain"]:
                self.explain = True
            case [b"rows"]:
                self.rows_from = ROWS_PAY_FROM
            case [b"rows", fewest]:
                self.rows_from = number(fewest, 2**64 - 1, "form")
            case [b"limit", limit]:
                self.limit = number(limit, 2**64 - 1, "form")
            case [b"select", identifier, _, *_]:
                self.add(place, number(identifier, 2**32 - 1, "form"), line.split(b"\t", 2)[2])
            case _:
                raise Refused("form")

    def add(self, place: int, identifier: int, text: bytes) -> None:
        """Adds the selectors of a text, which is the rest of its line, under an id."""
        try:
            decoded = text.decode("utf-8")
        except UnicodeDecodeError:
            raise Refused("form") from None
        self.selects.append((place, identifier, self.selectors.add(accept(decoded), identifier)))


def start_tag(namespace: bytes, name: bytes, fields: list[bytes], finish: bool) -> StartTag:
    """The tag of a line. An attribute is cut at its first `=`; one without a value has the empty one."""
    plain = namespace.removesuffix(b"/")
    attributes = [tuple(written.partition(b"=")[::2]) for written in fields]
    if plain not in (b"html", b"svg", b"mathml") or b"" in [name] + [other for other, _ in attributes]:
        raise Refused("form")
    return StartTag(name, plain.decode("ascii"), attributes, namespace.endswith(b"/"), finish)


def output(script: Script) -> tuple[list[str], int]:
    """The lines for each tag, up to one that is refused, and the exit status."""
    document, lines = Document(script), []
    for event, tag in enumerate(script.tags):
        try:
            lines += document.answer_start(event, tag) if isinstance(tag, StartTag) else document.answer_end(tag)
        except Refused as refused:
            return lines + [f"refused {refused.args[0]}"], 3
    return lines, 0


def answer(text: bytes) -> tuple[bytes, int]:
    """What is printed for a script, and the exit status. Empty lines are numbered and skipped."""
    script = Script()
    try:
        for place, line in enumerate(text.split(b"\n"), 1):
            if line:
                script.read_line(place, line)
        lines, status = output(script)
    except Refused as refused:
        lines, status = [f"bad line {place}: {refused.args[0]}"], 2
    return "".join(f"{line}\n" for line in lines).encode("ascii"), status


def main() -> int:
    """Writes nothing before all is read and answered. A fault is named on standard error."""
    fault = "read failed"
    try:
        printed, status = answer(sys.stdin.buffer.read())
        fault = "write failed"
        with open(sys.stdout.fileno(), "wb", closefd=False) as writer:
            writer.write(printed)
        return status
    except OSError:
        print(f"lol_match: {fault}", file=sys.stderr)
        return 4


if __name__ == "__main__":
    sys.exit(main())
