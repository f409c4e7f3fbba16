#!/usr/bin/env python3
"""Writes crates/lol_references/src/names.rt: the named character references of the HTML Standard (13.5), by Python's copy of that table. With
--check it says whether the file is as written.

    python3 docs/references.py [--check]
"""

import sys
from html.entities import html5
from itertools import accumulate, product
from pathlib import Path

FILE = Path(__file__).resolve().parent.parent / "crates/lol_references/src/names.rt"
COLUMNS = 140
HEAD = """\
//! The named character references of the HTML Standard (13.5), written by docs/references.py.

// Rows with a space behind each: a name, `=`, and the characters that it stands for. Rows whose names begin with the same two letters are in one
// part, and a name that goes on with another one stands before it.
#[rattlefmt::skip]
pub(crate) static NAMES: &str = "\\
"""
PARTS = """\
";

// Where each part begins, by its two letters, which go from `A` to `z`, and where the last one ends.
#[rattlefmt::skip]
"""


def filled(words: list[str], ends: str) -> str:
    """Lines of words, with a space between two."""
    lines = [""]
    for word in words:
        if len(lines[-1]) + len(word) >= COLUMNS - 6:
            lines.append("")
        lines[-1] += word + " "
    return "".join(f"    {line}{ends}\n" if ends else f"    {line.rstrip()}\n" for line in lines)


def literal(text: str) -> str:
    return "".join(f"\\{sign}" if sign in '"\\' else sign if "!" <= sign <= "~" else f"\\u{{{ord(sign):04X}}}" for sign in text)


def written() -> str:
    letters = [chr(letter) for letter in range(ord("A"), ord("z") + 1)]
    parts = [sorted((name for name in html5 if name.startswith(a + b)), reverse=True) for a, b in product(letters, letters)]
    rows = [f"{name}={literal(html5[name])}" for part in parts for name in part]
    sizes = [sum(len(f"{name}={html5[name]} ".encode()) for name in part) for part in parts]
    starts = [f"{start}," for start in accumulate(sizes, initial=0)]
    table = f"pub(crate) static PARTS: [u16; {len(starts)}] = [\n{filled(starts, '')}];\n"
    return HEAD + filled(rows, "\\") + PARTS + table


def main() -> int:
    if sys.argv[1:] == ["--check"]:
        is_same = FILE.is_file() and FILE.read_text() == written()
        print(f"{FILE.name} has the {len(html5)} names" if is_same else f"{FILE.name} is not as written")
        return 0 if is_same else 1
    FILE.write_text(written())
    return 0


if __name__ == "__main__":
    sys.exit(main())
