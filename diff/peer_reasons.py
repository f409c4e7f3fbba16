"""Why engines and lol_match decide otherwise, for diff/peers.py.

Each reason is something that an engine does, told as a change of selectors and of pages. It holds of a difference if
lol_match gives, once both are changed so, exactly what the engine gave. The public standard is told in the same way.
"""

import collections
import re
from typing import Callable, NamedTuple

from model import CASELESS_NAMES
from peer_pages import HTML, Element
from peer_selectors import changed, part_text

CASELESS = {name.decode() for name in CASELESS_NAMES}
WORDS_OF = {"*": ["class", "accesskey", "dropzone"], "a": ["rel", "rev"], "link": ["rel", "rev"], "area": ["rel"],
            "td": ["headers"], "th": ["headers"], "form": ["accept-charset"], "object": ["archive"],
            "icon": ["sizes"], "iframe": ["sandbox"], "output": ["for"]}
Compound, Elements = list[tuple], list[Element]


class Reason(NamedTuple):
    """What an engine does: how it changes a compound, and the elements of a page; or which parts it takes otherwise.

    Of the parts that are left out it is only shown that without them the engine and lol_match decide alike.
    """

    name: str
    compound: Callable[[Compound], Compound] = lambda compound: compound
    elements: Callable[[Elements], Elements] = lambda elements: elements
    left_out: Callable[[tuple], bool] | None = None


def with_reasons(reasons: tuple, selector: list) -> list:
    for reason in reasons:
        selector = changed(selector, reason.compound)
    return selector


def elements_with(reasons: tuple, elements: Elements) -> Elements:
    for reason in reasons:
        elements = reason.elements(elements)
    return elements


def without_parts(reasons: tuple, selector: list) -> list:
    """The selector without the parts that these reasons leave out; `*` where none remains."""
    for reason in reasons:
        if reason.left_out:
            def kept(compound: Compound) -> Compound:
                return [part for part in compound if not reason.left_out(part)] or [("any",)]

            selector = changed(selector, kept)
    return selector


def each_part(change: Callable[[tuple], Compound]) -> Callable[[Compound], Compound]:
    return lambda compound: [new for part in compound for new in change(part)]


def each_element(change: Callable[[Element], Element]) -> Callable[[Elements], Elements]:
    return lambda elements: [change(element) for element in elements]


def marked(name: str) -> str:
    """The name with marks in place of capitals, so that comparing it without case is comparing with case."""
    return re.sub("[A-Z]", lambda capital: "\u00b7" + capital[0].lower(), name)


def with_names(element: Element) -> Element:
    return element._replace(name=marked(element.name))


def with_attribute_names(element: Element) -> Element:
    return element._replace(attributes=[(prefix, marked(name), value) for prefix, name, value in element.attributes])


def names(change: Callable[[str], str], *kinds: str):
    """The change of the name in parts of these kinds."""
    return each_part(lambda part: [(part[0], change(part[1]), *part[2:])] if part[0] in kinds else [part])


def flagged(flag: str, wanted: Callable[[str], bool]):
    """Gives this flag to comparisons without one by attributes of these names, out of the 46."""
    def change(part: tuple) -> Compound:
        fits = part[0] == "compare" and part[4] == "" and part[1].lower() in CASELESS and wanted(part[1].lower())
        return [(*part[:4], flag)] if fits else [part]

    return each_part(change)


def empty_operand(operators: tuple, instead: Callable[[str], list[Compound]]):
    """Puts a choice of compounds in the place of a comparison by one of these operators with nothing."""
    def change(part: tuple) -> Compound:
        fits = part[0] == "compare" and part[2] in operators and part[3] == ""
        return [("is", instead(part[1]))] if fits else [part]

    return each_part(change)


def by_words(element: Element) -> Element:
    """The element as Beautiful Soup keeps it: some values as lists of words."""
    listed = WORDS_OF["*"] + WORDS_OF.get(element.name.lower(), [])
    return element._replace(attributes=[
        (prefix, name, " ".join(value.split()) if prefix is None and name.lower() in listed else value)
        for prefix, name, value in element.attributes])


def no_break_is_space(element: Element) -> Element:
    attributes = [(prefix, name, value.replace("\u00a0", " ")) for prefix, name, value in element.attributes]
    return element._replace(attributes=attributes)


def operand_with_spaces(part: tuple) -> list:
    if part[0] == "id":
        return [("id", part[1].replace("\u00a0", " "))]
    return [(*part[:3], part[3].replace("\u00a0", " "), part[4])] if part[0] == "compare" else [part]


def with_bare_names(element: Element) -> Element:
    """The element with attributes under another name for those in a namespace."""
    bare = [(None, f"bare\u00b7{name}", value) for prefix, name, value in element.attributes if prefix is not None]
    return element._replace(attributes=element.attributes + bare)


def by_bare_name_too(part: tuple) -> Compound:
    is_of_attribute = part[0] in ("has", "compare")
    return [("is", [[part], [(part[0], f"bare\u00b7{part[1]}", *part[2:])]])] if is_of_attribute else [part]


def without_xlink(element: Element) -> Element:
    return element._replace(attributes=[attribute for attribute in element.attributes if attribute[0] != "xlink"])


def in_document(elements: Elements) -> Elements:
    """The elements inside one more, which stands for the document."""
    return [Element(None, HTML, "document", [])] + [
        element._replace(parent=0 if element.parent is None else element.parent + 1) for element in elements]


def with_counts(elements: Elements) -> Elements:
    """The elements with attributes for how many children, and of their name, are there, and for the last of each."""
    same, marks = collections.defaultdict(list), []
    for number, element in enumerate(elements):
        same[element.parent].append(number)
        same[element.parent, element.name].append(number)
    for number, element in enumerate(elements):
        children, typed = same[element.parent], same[element.parent, element.name]
        marks.append([(None, "n\u00b7child", f"{len(children)}"), (None, "n\u00b7type", f"{len(typed)}")])
        marks[-1] += [(None, "last\u00b7child", "")] * (number == children[-1])
        marks[-1] += [(None, "last\u00b7type", "")] * (number == typed[-1])
    return [element._replace(attributes=element.attributes + mark) for element, mark in zip(elements, marks)]


def nth_without(missed: Callable[[str, str], list[Compound]]):
    """Takes from what a part of `:nth-` matches the elements of these compounds, by its kind and its An+B."""
    def change(part: tuple) -> Compound:
        kind, _, progression = part[1].rstrip(")").partition("(") if part[0] == "nth" else ("", "", "")
        left = missed(kind.rpartition("-")[2], progression) if progression else []
        return [part, ("not", left)] if left else [part]

    return each_part(change)


def missed_by_soupsieve(_: str, progression: str) -> list[Compound]:
    step, offset = step_and_offset(progression)
    count = offset if step > 0 else 1
    return [[("compare", "n\u00b7child", "=", f"{count}", "s")]] if step and offset > 0 else []


def missed_by_mojo(kind: str, progression: str) -> list[Compound]:
    if progression == "n":
        return [[("has", f"last\u00b7{kind}")]]
    _, offset = step_and_offset(progression)
    few = [[("compare", f"n\u00b7{kind}", "=", f"{count}", "s")] for count in range(1, offset)]
    return few if progression.startswith("-n") else []


def step_and_offset(progression: str) -> tuple[int, int]:
    """A and B as peer_selectors.py writes them."""
    progression = {"odd": "2n+1", "even": "2n+0"}.get(progression, progression)
    step, is_progression, offset = progression.rpartition("n")
    return int({"": "1", "-": "-1"}.get(step, step)) if is_progression else 0, int(offset or 0)


def chosen_or_before(compound: Compound) -> Compound:
    """Makes a last `:is` or `:where` one more choice beside all conditions before it; the name stays apart."""
    if compound[-1][0] not in ("is", "where"):
        return compound
    start = compound[0][0] in ("name", "any")
    before, choices = compound[start:-1], [one for one in compound[-1][1] if one != [("any",)]]
    if not choices:
        return compound[:-1] or [("any",)]
    return compound[:start] + [("is", ([before] if before else []) + choices)]


def dash_match_parts(compound: Compound) -> Compound:
    """Makes `A and x=v or starts-with(x, v-) and B` of the conditions A, `[x|=v]` and B."""
    start = compound[0][0] in ("name", "any")
    choices = [[]]
    for part in compound[start:]:
        if part[0] == "compare" and part[2] == "|=":
            _, name, _, value, flag = part
            choices[-1].append(("compare", name, "=", value, flag))
            choices.append([("compare", name, "^=", value + "-", flag)])
        else:
            choices[-1].append(part)
    return compound if len(choices) == 1 else compound[:start] + [("is", choices)]


def names_alone(part: tuple) -> Compound:
    """Keeps of each compound of a `:not` the name alone, if there is one."""
    if part[0] != "not":
        return [part]
    return [("not", [one[:1] if one[0][0] in ("name", "any") else one for one in part[1]])]


def between_spaces(name: str, blank: str) -> list[Compound]:
    """What holds of values that have this blank for a word."""
    return [[("compare", name, operator, value, "s")]
            for operator, value in (("=", blank), ("^=", blank + " "), ("$=", " " + blank), ("*=", f" {blank} "))]


def blank_word(part: tuple) -> Compound:
    is_blank = part[0] == "compare" and part[2] == "~=" and not part[3].strip(" ")
    return [("is", between_spaces(part[1], part[3]))] if is_blank else [part]


def has_escape(part: tuple) -> bool:
    return part[0] == "id" and "\\" in part_text(part)


NEVER = [("not", [[("any",)]])]
NOT_ROOT = [("not", [[("name", "html")]])]
LOWER_NAMES = Reason("names in selectors are lower-cased, those of SVG kept",
                     names(lambda name: marked(name.lower()), "name"), each_element(with_names))
LOWER_ATTRIBUTES = Reason("names of attributes in selectors are lower-cased, those of SVG kept",
                          names(lambda name: marked(name.lower()), "has", "compare"),
                          each_element(with_attribute_names))
EXACT_NAMES = Reason("names are compared with case", names(marked, "name"), each_element(with_names))
EXACT_ATTRIBUTES = Reason("names of attributes are compared with case", names(marked, "has", "compare"),
                          each_element(with_attribute_names))
VALUES_WITH_CASE = Reason("values of the 46 names are compared with case", flagged("s", lambda name: True))
EMPTY_HOLDS = Reason("an empty operand of ^=, $= or *= holds of each value",
                     empty_operand(("^=", "$=", "*="), lambda name: [[("has", name)]]))
XLINK_UNSEEN = Reason("attributes of XLink aren't found by their prefix", elements=each_element(without_xlink))
NO_BREAK_SPACE = Reason("a no-break space parts words", each_part(operand_with_spaces), each_element(no_break_is_space))

REASONS = {
    "soupsieve": [
        Reason("values of 45 of the 46 names are compared with case, all but those of type",
               flagged("s", lambda name: name != "type")),
        Reason("values of type are compared without case on all elements", flagged("i", lambda name: name == "type")),
        EMPTY_HOLDS,
        Reason("Beautiful Soup keeps values of class, rel and some others as words", elements=each_element(by_words)),
        Reason("the document is an element around the root", elements=in_document),
        Reason("An+B misses the last of B children, and -n+B an only child",
               nth_without(missed_by_soupsieve), with_counts),
    ],
    "cssselect": [
        LOWER_NAMES, LOWER_ATTRIBUTES, VALUES_WITH_CASE, XLINK_UNSEEN,
        Reason(":is and :where are choices beside the conditions before them", chosen_or_before),
    ],
    "css-select": [
        LOWER_NAMES, LOWER_ATTRIBUTES, NO_BREAK_SPACE,
        Reason("an empty operand of ~= is a word beside a space",
               empty_operand(("~=",), lambda name: between_spaces(name, ""))),
        Reason("values of the 46 names are compared without case on all elements", flagged("i", lambda name: True)),
        Reason("an An+B that holds of each place wants a parent",
               each_part(lambda part: [part] + NOT_ROOT * (part[0] == "nth" and part[1].endswith("(n)")))),
        Reason("a no-break space ends a name",
               left_out=lambda part: part[0] == "id" and "\u00a0" in part[1]),
    ],
    "Nokogiri": [
        EXACT_NAMES, EXACT_ATTRIBUTES, VALUES_WITH_CASE,
        Reason("an empty operand of ^=, $=, *= or ~= holds without the attribute too",
               empty_operand(("^=", "$=", "*=", "~="), lambda name: [[("any",)]])),
        Reason("escapes in an id aren't read", each_part(lambda part: NEVER if has_escape(part) else [part])),
        Reason("|= isn't put in parentheses", dash_match_parts),
        Reason("0n+B never holds", each_part(lambda part: NEVER if part[0] == "nth" and "(0n" in part[1] else [part])),
        Reason(":not of a name with more takes the name alone", each_part(names_alone)),
        Reason(":is and :where aren't known, which it only says where it comes to test them",
               left_out=lambda part: part[0] in ("is", "where")),
        Reason(":nth-of-type counts what fits the parts before it",
               left_out=lambda part: part[0] == "nth" and "of-type" in part[1]),
    ],
    "Mojo::DOM": [
        EXACT_NAMES, EXACT_ATTRIBUTES, VALUES_WITH_CASE, EMPTY_HOLDS, NO_BREAK_SPACE,
        Reason("an operand of ~= that is empty or a space is a word beside a space", each_part(blank_word)),
        Reason(":where isn't known, and never holds",
               each_part(lambda part: NEVER if part[0] == "where" else [part])),
        Reason("attributes are found without their prefix too",
               each_part(by_bare_name_too), each_element(with_bare_names)),
        Reason(":nth- misses the last by n, and all but B children by -n+B", nth_without(missed_by_mojo), with_counts),
    ],
}

# The standard: Selectors 4, 5.1 and 6.1, and HTML, 4.16.2. In an HTML document names in selectors are lower-cased for
# HTML elements and compared with case on others, the 46 names are for HTML elements, and attributes have namespaces.


def standard_element(element: Element) -> Element:
    html = element.namespace == HTML
    own = [(prefix, name, value) for prefix, name, value in element.attributes if prefix is None]
    kept = [attribute for attribute in own if attribute[1] in ("id", "class")]
    renamed = [(None, f"html\u00b7{name}" if html else f"other\u00b7{marked(name)}", value) for _, name, value in own]
    name = f"html\u00b7{element.name}" if html else f"other\u00b7{marked(element.name)}"
    return element._replace(name=name, attributes=kept + renamed)


def standard_part(part: tuple) -> list:
    if part[0] not in ("name", "has", "compare"):
        return [part]
    html, other = (part[0], f"html\u00b7{part[1].lower()}"), (part[0], f"other\u00b7{marked(part[1])}")
    if part[0] == "compare":
        flag = part[4] or "s"
        html = (*html, *part[2:4], "i" if part[1].lower() in CASELESS and not part[4] else flag)
        other = (*other, *part[2:4], flag)
    return [("is", [[html], [other]])]


STANDARD = Reason("the standard", each_part(standard_part), each_element(standard_element))
