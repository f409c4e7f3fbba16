#!/usr/bin/env python3
"""Writes a script as a content blocker has it: 10,000 selectors of what it hides, and a page of 2,000 start tags. Its words are invented.

    python3 examples/filters.py > examples/filters.txt
    python3 diff/model.py < examples/filters.txt > examples/filters.out

The model tries each selector for each tag, which takes minutes.
"""

import random

SELECTORS, STARTS, DEPTH = 10_000, 2_000, 14
SYLLABLES = "ba bre cho da dri fe flo ga gru hi jo ka klo lu ma mi no pla qui ro ska ti tre vu wo ze".split()
FORMS = [".{0}"] * 106 + ["#{0}"] * 36 + ["{2}.{0}"] * 14 + ['div[id^="{0}"]'] * 8 + ['a[href*="/{0}/"]'] * 10 + [
    "[data-{0}]", '[data-{0}="{1}"]', "div[data-{0}]", ".{1} > .{0}", ".{1} > .{0}", ".{1} > {2}.{0}", ".{1} > #{0}", ".{1} .{0}", ".{1} .{0}",
    ".{1} {2}.{0}", '.{1} a[href^="https://{0}."]', "{2}.{0}.{1}", ".{0}:not(.{1})", "{2}.{0}:not([id])", ".{1} > {2}:not(.{0})", "{2}:is(.{0}, #{0})"]
TAGS = "div div div p span a a ul li section article aside iframe img".split()

draw = random.Random(41).random  # the one call whose numbers are the same in each version of Python


def one_of(choices):
    return choices[int(draw() * len(choices))]


def word():
    return one_of(SYLLABLES) + one_of(SYLLABLES) + one_of(["", "", one_of("lnrst")])


def name():
    return one_of([word() + "-" + word(), word() + "_" + word(), word() + str(int(draw() * 1000))])


def tag():
    """The name of a start tag and its attributes, some of which a selector names."""
    element, attributes = one_of(TAGS), []
    named = lambda: one_of(hidden) if draw() < 0.15 else name()
    if draw() < 0.6:
        attributes.append("class=" + " ".join(one_of([one_of(common), named()]) for _ in range(1 + int(draw() * 3))))
    if draw() < 0.2:
        attributes.append("id=" + named() + one_of(["", "", "-2"]))
    if draw() < 0.1:
        attributes.append(f"data-{named()}={one_of(common)}")
    if element == "a":
        attributes.append(f"href=https://{named()}.example/{named()}/{word()}")
    return element, attributes


common = [word() for _ in range(30)]  # classes that many elements have
hidden = [name() for _ in range(6_000)]  # what selectors name
selectors = set()
lines = ["rows"]
while len(selectors) < SELECTORS:
    text = one_of(FORMS).format(one_of(hidden), one_of(common), one_of(TAGS))
    if text not in selectors:
        lines.append(f"select\t{len(selectors)}\t{text}")
        selectors.add(text)
starts, opened = 0, []
while starts < STARTS or opened:
    if opened and (starts == STARTS or len(opened) == DEPTH or draw() < 0.45):
        lines.append("end\t" + opened.pop())
        continue
    element, attributes = tag()
    lines.append("\t".join(["start", "html", element, *attributes]))
    starts += 1
    if element != "img":
        opened.append(element)
print("\n".join(lines))
