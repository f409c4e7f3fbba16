#!/usr/bin/env python3
"""Writes the tags of an HTML page as a script for lol_match, with the arguments as selectors under the ids 0, 1 and so on.

    python3 tags.py "main a[href]" "img:not([alt])" < page.html

A TAB or a line's end in a name or value becomes a space, which a script can hold.
"""

import re
import sys
from pathlib import Path

sys.path.insert(0, str(Path(__file__).resolve().parent.parent / "bindings" / "python"))
from page_tags import PageTags  # noqa: E402


class Script(PageTags):
    def start(self, name, attributes, namespace, self_closing):
        # A script cuts an attribute at its first `=`, so it can't hold one whose name begins with it.
        held = [(key, value) for key, value in attributes.items() if not key.startswith("=")]
        written = [key if value is None else f"{key}={value}" for key, value in held]
        print("start", namespace + "/" * self_closing, name, *(re.sub(r"[\t\r\n]", " ", word) for word in written), sep="\t")

    def end(self, name):
        print("end", name, sep="\t")


if len(sys.argv) < 2:
    print("usage: tags.py SELECTOR.. < page.html", file=sys.stderr)
    sys.exit(2)
if sys.stdin.isatty():
    print("tags.py waits for a page on standard input", file=sys.stderr)
for number, selector in enumerate(sys.argv[1:]):
    print("select", number, selector, sep="\t")
Script().read(sys.stdin.buffer.read())
