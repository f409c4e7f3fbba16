#!/usr/bin/env python3
"""Makes random scripts for lol_match (docs/SCRIPT.md). The same seed and number give the same script.

    python3 diff/gen.py --seed S NUMBER                prints one
    python3 diff/gen.py --seed S NUMBER --explain      with `explain` in it
    python3 diff/gen.py --seed S NUMBER --rows         with `rows` in it
"""

import argparse
import random
import sys

from selector_texts import (ATTRIBUTES, NAMES, NEAR_MISSES, ODD_NAMES, OPERATORS, VOID, WITHOUT_CASE, Selectors,
Vocabulary,
                            other_case)

NAMESPACES = ["html"] * 9 + ["html/", "svg", "svg", "svg/", "mathml", "mathml/"]
SMALL_IDS = [0, 1, 2, 3, 7, 15, 16, 30, 31, 32, 33, 62, 63, 64, 65, 127, 128, 255, 1000, 4095, 100000]
SEPARATORS = (" ", " ", " ", "  ", "\x0c", "\r", "\xa0", "\x0b", "-", "")
FALSE_UTF8 = [b"\xff", b"\xc3", b"\xc0\x80", b"\xed\xa0\x80", b"\xf4\x90\x80\x80", b"a\x80b"]


class Tags:
    """Draws the tags of a document over a vocabulary, and keeps which names may be open."""

    def __init__(self, r: random.Random, words: Vocabulary):
        self.r, self.words, self.open = r, words, []
        self.name_lists = [words.names] * 8 + [NAMES, VOID]
        self.ends, self.drops = r.choice((0.15, 0.35, 0.5)), r.choice((0, 0, 0.05, 0.3))

    def value(self) -> bytes:
        r = self.r
        text = r.choice(self.words.values)
        if r.random() < 0.25:
            text += r.choice(SEPARATORS) + r.choice(self.words.values)
        if r.random() < 0.2:
            text = other_case(r, text)
        if r.random() < 0.05:
            text = r.choice((text + "=", "=" + text, " " + text, text + " ", ""))
        return text.encode() + (r.choice(FALSE_UTF8) if r.random() < 0.02 else b"")

    def attribute(self) -> bytes:
        r = self.r
        name = r.choice(self.words.attributes if r.random() < 0.9 else ATTRIBUTES)
        name = (other_case(r, name) if r.random() < 0.1 else name).encode()
        return name if r.random() < 0.12 else name + b"=" + self.value()

    def name(self) -> bytes:
        name = self.r.choice(self.r.choice(self.name_lists))
        return (other_case(self.r, name) if self.r.random() < 0.1 else name).encode()

    def start(self, attributes=(0, 0, 1, 1, 2, 3)) -> bytes:
        r = self.r
        name, space = self.name(), r.choice(NAMESPACES)
        kind = "drop" if r.random() < self.drops else "start"
        if space[:4] == "html" and name.decode().lower() not in VOID or space[:4] != "html" and space[-1] != "/":
            self.open.append(name)
        fields = [kind.encode(), space.encode(), name] + [self.attribute() for _ in range(r.choice(attributes))]
        return b"\t".join(fields)

    def end(self) -> bytes:
        r = self.r
        chance = r.random()
        if self.open and chance < 0.6:
            return b"end\t" + self.open.pop()
        if self.open and chance < 0.85:
            name = r.choice(self.open)
            del self.open[max(place for place, other in enumerate(self.open) if other == name):]
            return b"end\t" + (other_case(r, name.decode()).encode() if r.random() < 0.2 else name)
        return b"end\t" + self.name()

    def lines(self, count: int) -> list:
        return [self.end() if self.r.random() < self.ends else self.start() for _ in range(count)]


def select(number: int, text: str) -> bytes:
    return b"select\t%d\t%s" % (number, text.encode())


def identity(r: random.Random) -> int:
    """An id: mostly a small one, now and then a great one."""
    if r.random() < 0.95:
        return r.choice(SMALL_IDS[:8] if r.random() < 0.5 else SMALL_IDS)
    return r.randrange(2 ** r.choice((8, 12, 16, 20)))


def settings(r: random.Random) -> list:
    lines = [b"tries"] if r.random() < 0.6 else []
    return lines + ([b"esi"] if r.random() < 0.15 else [])


def start_of(r: random.Random, names: list, attributes: list, most: int = 6):
    """The lines that set a script up, and its drawer of tags."""
    words = Vocabulary(r, names, attributes)
    selectors = Selectors(r, words, r.random() < 0.65)
    ids = [identity(r) for _ in range(r.choice((1, 2, 4)))]
    lines = [select(r.choice(ids), selectors.text()) for _ in range(r.choice((1, 1, 2, 3, most)))]
    return settings(r) + lines, Tags(r, words)


def matching(r: random.Random) -> list:
    lines, tags = start_of(r, NAMES, ATTRIBUTES)
    return lines + tags.lines(r.choice((1, 3, 6, 10, 20, 40)))


def odd_names(r: random.Random) -> list:
    """Names that are void or of ESI, in odd case, in all namespaces."""
    lines, tags = start_of(r, ODD_NAMES + VOID[:4] + ["a"], ATTRIBUTES)
    return lines + tags.lines(r.choice((3, 6, 12)))


def without_case(r: random.Random) -> list:
    """Attributes whose values are compared without case in HTML, and names near to theirs."""
    lines, tags = start_of(r, NAMES[:3], WITHOUT_CASE if r.random() < 0.7 else NEAR_MISSES + WITHOUT_CASE[:3])
    return lines + tags.lines(r.choice((2, 4, 8)))


def each_without_case(r: random.Random) -> list:
    """Many of the names whose values are compared without case, each in a selector of its own."""
    names = r.sample(WITHOUT_CASE + NEAR_MISSES, r.choice((6, 20, 30)))
    words = Vocabulary(r, NAMES[:3], ATTRIBUTES)
    words.attributes, words.values = names, r.sample(("ab", "aB", "Ab", "AB", "ab-b", "AB b"), 2)
    lines = settings(r)
    for number, name in enumerate(names):
        value = r.choice(("ab", "AB", "Ab", words.values[0], words.values[1]))
        lines.append(select(number, f'[{name}{r.choice(OPERATORS)}"{value}"{r.choice(("",) * 6 + (" i", " s"))}]'))
    tags = Tags(r, words)
    return lines + [tags.start((6, 20, 30)) for _ in range(r.choice((3, 6)))]


def refused(r: random.Random) -> list:
    words = Vocabulary(r, NAMES, ATTRIBUTES)
    selectors = Selectors(r, words, r.random() < 0.3)
    text = selectors.refused() if r.random() < 0.45 else selectors.disturbed()
    lines = settings(r) + [select(identity(r), selectors.text())] * r.choice((0, 0, 1)) + [select(identity(r), text)]
    return lines + Tags(r, words).lines(r.choice((1, 2, 4)))


def great_selectors(r: random.Random) -> list:
    words = Vocabulary(r, NAMES[:3], ATTRIBUTES)
    selectors = Selectors(r, words, r.random() < 0.3)
    return settings(r) + [select(identity(r), selectors.great())] + Tags(r, words).lines(r.choice((1, 3, 8)))


def bad_line(r: random.Random) -> list:
    """A script with one line that may be bad."""
    lines, tags = start_of(r, NAMES, ATTRIBUTES, 2)
    lines += tags.lines(r.choice((0, 1, 3)))
    number = r.choice(("4294967295", "4294967296", "-1", "+1", "1.0", "", " 1", "0x1", "00", "99999999999999999999",
                      "1a", "\u0661"))
    bound = r.choice(("18446744073709551615", "18446744073709551616", "-1", "", "1 ", "0064", "1e3", "64\t"))
    line = r.choice([
        f"limit\t{bound}", f"select\t{number}\t!", f"select\t{number}", "select\t0\t", "select\t0", "select 0 a",
        "select\t\ta", "Select\t0\ta", "select\t0\ta\tb", "esi", "esi\t", "esi\r", "ESI", "tries", "tries\t1",
        " tries", "limit", "limit\t1\t2", "start", "start\thtml", "start\thtml\t", "start\tHTML\ta",
        "start\thtml/\ta", "start\thtml//\ta", "start\t/\ta", "start\tmath\ta", "start\thtml\ta\t",
        "start\thtml\ta\t=b", "start\thtml\ta\t\tb", "start\thtml\ta\tb=\tc==", "START\thtml\ta", "drop",
        "drop\thtml", "drop\tsvg\ta", "start html a", "start\thtml \ta", "end", "end\t", "end\ta\tb", "end\ta ",
        "end\ta\r", "\t", "\r", " ", "#", "start\thtml\ta\r", "start\thtml\r\ta", "select\t0\ta\r", "select\t0\r\ta",
        "limit\t64\r", "end a",
    ]).encode()
    if r.random() < 0.1:
        line = b"select\t0\t." + r.choice(FALSE_UTF8)
    place = r.randrange(len(lines) + 1)
    return lines[:place] + [line] + lines[place:]


def limits(r: random.Random) -> list:
    """A limit on memory that is met, or is just not met."""
    lines, tags = start_of(r, NAMES[:4], ATTRIBUTES, 2)
    depth = r.choice((1, 7, 8, 9, 15, 16, 17, 31, 32, 33, 65))
    room = 64 * r.choice((1, 7, 8, 8, 16, 16, 32, 32, 64)) + r.choice((-1, 0, 0, 1))
    bounds = [b"limit\t%d" % r.choice((room, room, 0, 2 ** 64 - 1)) for _ in range(r.choice((1, 1, 2)))]
    tags.ends = r.choice((0, 0.05, 0.1))
    return bounds + lines + tags.lines(depth + r.choice((0, 1, 3)))


def deep(r: random.Random) -> list:
    """Elements one inside the other, now and then 10,000 of them."""
    words = Vocabulary(r, NAMES, ATTRIBUTES)
    selectors = Selectors(r, words, True)
    depth = r.choice((130, 131, 140, 140, 150, 200, 200, 260, 400, 1000 if r.random() < 0.2 else 140))
    depth = 10000 if r.random() < 0.008 else depth
    texts = [r.choice((selectors.item(3), f"{selectors.name()} {selectors.compound()}", f"{selectors.compound()} *"))
             for _ in range(r.choice((1, 2, 3)))]
    texts = texts if depth < 1000 else [selectors.compound() + r.choice(" >") + selectors.compound()]
    lines = settings(r) + [select(identity(r), text) for text in texts]
    tags = Tags(r, words)
    tags.name_lists, tags.ends = [words.names], r.choice((0, 0, 0.1))
    lines += tags.lines(r.choice((0, 2)))
    body = [b"start\thtml\t" + r.choice(words.names).encode() for _ in range(r.choice((1, 2, 3)))]
    body += [tags.start((0, 1))] * (depth < 1000 and r.random() < 0.7)
    lines += (body * (depth // len(body) + 1))[:depth]
    return lines + tags.lines(r.choice((4, 12)))


def wide(r: random.Random) -> list:
    """Many children of one element, with tests by place."""
    words = Vocabulary(r, NAMES[:4], ATTRIBUTES)
    selectors = Selectors(r, words, r.random() < 0.7)
    lines = settings(r) + [select(identity(r), f"{r.choice(('', selectors.name()))}:{kind}({selectors.progression()})")
                           for kind in r.choices(("nth-child", "nth-of-type"), k=r.choice((1, 2, 4)))]
    tags = Tags(r, words)
    lines += tags.lines(r.choice((0, 1, 3)))
    for _ in range(r.choice((10, 40, 150, 1500 if r.random() < 0.1 else 40))):
        name = tags.name()
        lines.append(b"start\thtml\t" + name)
        lines += [tags.start((0,)) for _ in range(r.choice((0, 0, 0, 1)))] + [b"end\t" + name]
    return lines


def long_values(r: random.Random) -> list:
    lines, tags = start_of(r, NAMES[:3], ATTRIBUTES)
    for line in tags.lines(r.choice((2, 5))):
        if line.startswith((b"start", b"drop")):
            name = r.choice(tags.words.attributes).encode()
            count = r.choice((20, 200, 2000, 20000 if r.random() < 0.2 else 50))
            pieces = [r.choice(tags.words.values) for _ in range(3)]
            value = (r.choice(SEPARATORS).join(pieces[:2]) * count + pieces[2]).encode()[-count * 2:]
            line += b"\t" + name + b"=" + value
        lines.append(line)
    return lines


def many_ids(r: random.Random) -> list:
    """Many ids, or great ones."""
    words = Vocabulary(r, NAMES[:4], ATTRIBUTES)
    selectors = Selectors(r, words, r.random() < 0.8)
    if r.random() < 0.1:
        greatest = 2 ** r.choice((30, 31, 32) if r.random() < 0.05 else (22, 24, 26, 28))
        number = r.choice((greatest - 1, greatest - 2 ** 5, r.randrange(greatest)))
        return [select(number, selectors.text())] + Tags(r, words).lines(2)
    count, spread = r.choice((10, 40, 150)), r.choice((1, 1, 31, 1000))
    texts = [selectors.item(1) for _ in range(r.choice((2, 10, 60)))]
    lines = [select(r.randrange(count) * spread, r.choice(texts)) for _ in range(count)]
    return settings(r) + lines + Tags(r, words).lines(r.choice((3, 10)))


def many_selectors(r: random.Random) -> list:
    """Hundreds or thousands of selectors: most name a class, an id or an attribute that few others name."""
    words = Vocabulary(r, NAMES, ATTRIBUTES)
    selectors = Selectors(r, words, r.random() < 0.8)
    count = r.choices((500, 1000, 2000, 5000), (12, 5, 2, 1))[0]
    drawn = lambda: r.randrange(count // 2)

    def text() -> str:
        name = selectors.name()
        return r.choice((f".c{drawn()}", f"#i{drawn()}", f"{name}.c{drawn()}", f"{name} > .c{drawn()}", f"{name}:not(.c{drawn()})",
                         f".c{drawn()} .c{drawn()}", f"[data-a{drawn()}]", f'{name}[id="i{drawn()}"]', selectors.item(2)))

    def start() -> bytes:
        return b"%s\tclass=%s\tid=i%d" % (tags.start((0,)), " ".join(f"c{drawn()}" for _ in range(r.choice((1, 2, 4)))).encode(), drawn())

    ids = [r.choice((number, identity(r))) for number in range(count)]
    tags = Tags(r, words)
    lines = settings(r) + [select(number, text()) for number in ids]
    return lines + [r.choice((start, start, tags.start, tags.end))() for _ in range(r.choice((3, 8)))]


# How often each kind is drawn, where none is asked for. `many_selectors` is drawn only where it is.
KINDS = {matching: 46, odd_names: 8, without_case: 7, each_without_case: 6, refused: 14, bad_line: 6, limits: 4,
         deep: 3, wide: 2,
         long_values: 2, many_ids: 2, great_selectors: 1}


def kind_named(name: str):
    """The kind of this name."""
    return {kind.__name__: kind for kind in (*KINDS, many_selectors)}[name]


def with_line(r: random.Random, lines: list, line: bytes) -> list:
    """The lines with this one somewhere before the first tag, now and then twice."""
    tags = [place for place, line in enumerate(lines) if line.startswith((b"start", b"drop", b"end"))]
    for _ in range(r.choice((1, 1, 1, 2))):
        place = r.randrange((tags or [len(lines)])[0] + 1)
        lines = lines[:place] + [line] + lines[place:]
    return lines


def case(seed: int, number: int, kind=None, explain: bool = False, rows: bool = False) -> bytes:
    """The script of this number under this seed, of a kind if one is given. With `explain` or `rows` it is the same but for that line."""
    r = random.Random(f"{seed} {number}")
    lines = (kind or r.choices(list(KINDS), list(KINDS.values()))[0])(r)
    if r.random() < 0.04:
        lines.insert(r.randrange(len(lines) + 1), b"")
    last = r.choice((b"\n",) * 20 + (b"",))
    if explain:
        lines = with_line(random.Random(f"explain {seed} {number}"), lines, b"explain")
    if rows:
        of_rows = random.Random(f"rows {seed} {number}")
        lines = with_line(of_rows, lines, b"rows\t%d" % of_rows.choice([0] * 7 + [3, 10, 1000]))
    return b"\n".join(lines) + last


def main():
    parser = argparse.ArgumentParser(description="Prints the script of a number under a seed.")
    parser.add_argument("--seed", type=int, default=1)
    parser.add_argument("--explain", action="store_true", help="write `explain` into it")
    parser.add_argument("--rows", action="store_true", help="write `rows` into it")
    parser.add_argument("number", type=int)
    options = parser.parse_args()
    sys.stdout.buffer.write(case(options.seed, options.number, explain=options.explain, rows=options.rows))


if __name__ == "__main__":
    main()
