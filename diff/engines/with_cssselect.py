"""Decides by cssselect and libxml2's XPath, on a tree of lxml (python3-cssselect, python3-lxml). See __init__.py."""

import json
import sys

from cssselect import HTMLTranslator
from lxml import etree

NAMESPACES = {"xlink": "http://www.w3.org/1999/xlink", "xml": "http://www.w3.org/XML/1998/namespace"}
TRANSLATOR = HTMLTranslator()


def tree_of(elements: list) -> list:
    """The elements, the root first. As libxml2's parser of HTML makes them, they are in no namespace."""
    made = []
    for parent, _, name, attributes in elements:
        written = {f"{{{NAMESPACES[prefix]}}}{local}" if prefix else local: value
                   for prefix, local, value in attributes}
        made.append(etree.Element(name, written) if parent is None else etree.SubElement(made[parent], name, written))
    return made


def answer(made: list, numbers: dict, selector: str):
    """The numbers of the elements that match, or why the selector is refused."""
    try:
        return sorted(numbers[element] for element in made[0].xpath(TRANSLATOR.css_to_xpath(selector)))
    except Exception as refusal:
        return f"{type(refusal).__name__}: {refusal}"


def main() -> None:
    for line in sys.stdin:
        asked = json.loads(line)
        made = tree_of(asked["elements"])
        numbers = {element: number for number, element in enumerate(made)}
        print(json.dumps([answer(made, numbers, selector) for selector in asked["selectors"]]), flush=True)


if __name__ == "__main__":
    main()
