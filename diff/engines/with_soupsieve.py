"""Decides by soupsieve, on a tree of Beautiful Soup (python3-soupsieve, python3-bs4). See __init__.py."""

import json
import sys

import bs4
import soupsieve
from bs4.element import NamespacedAttribute


def tree_of(elements: list) -> tuple[bs4.BeautifulSoup, dict[int, int]]:
    """The tree, and the numbers of its elements by their identity."""
    soup = bs4.BeautifulSoup("", "html.parser")
    made, numbers = [], {}
    for number, (parent, namespace, name, attributes) in enumerate(elements):
        written = {NamespacedAttribute(prefix, local) if prefix else local: value
                   for prefix, local, value in attributes}
        made.append(soup.new_tag(name, namespace=namespace, attrs=written))
        numbers[id(made[-1])] = number
        (soup if parent is None else made[parent]).append(made[-1])
    return soup, numbers


def answer(soup: bs4.BeautifulSoup, numbers: dict[int, int], selector: str):
    """The numbers of the elements that match, or why the selector is refused."""
    try:
        return sorted(numbers[id(element)] for element in soupsieve.select(selector, soup))
    except Exception as refusal:
        return f"{type(refusal).__name__}: {refusal}"


def main() -> None:
    for line in sys.stdin:
        asked = json.loads(line)
        soup, numbers = tree_of(asked["elements"])
        print(json.dumps([answer(soup, numbers, selector) for selector in asked["selectors"]]), flush=True)


if __name__ == "__main__":
    main()
