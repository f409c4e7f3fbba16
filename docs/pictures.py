"""Draws the pictures of the pages, docs/pictures/*.svg: boxes, arrows between them, and notes. With --check it says whether they are as drawn.

    python3 docs/pictures.py [--check]
"""

import sys
from html import escape
from pathlib import Path

FOLDER = Path(__file__).resolve().parent / "pictures"
# Grey lines and text are read on light and on dark ground.
GREY, BLUE, ORANGE = "#808080", "#2a8fd6", "#d9822b"
LINE = 17


def text(x: float, y: float, line: str, colour: str = GREY, bold: bool = False, anchor: str = "middle") -> str:
    weight = ' font-weight="bold"' if bold else ""
    return f'<text x="{x}" y="{y}" fill="{colour}" text-anchor="{anchor}"{weight}>{escape(line)}</text>'


def box(x: int, y: int, width: int, height: int, lines: list[str], colour: str = BLUE) -> list[str]:
    """A box whose first line is its title."""
    top = y + (height - LINE * len(lines)) / 2 + 13
    drawn = [f'<rect x="{x}" y="{y}" width="{width}" height="{height}" rx="6" fill="none" stroke="{colour}" stroke-width="1.5"/>']
    return drawn + [text(x + width / 2, top + LINE * number, line, colour if number == 0 else GREY, number == 0) for number, line in enumerate(lines)]


def arrow(x: int, y: int, to_x: int, to_y: int, note: str = "") -> list[str]:
    drawn = [f'<line x1="{x}" y1="{y}" x2="{to_x}" y2="{to_y}" stroke="{GREY}" stroke-width="1.5" marker-end="url(#head)"/>']
    return drawn + ([text((x + to_x) / 2, min(y, to_y) - 6, note)] if note else [])


def picture(width: int, height: int, drawn: list[str]) -> str:
    head = f'<marker id="head" viewBox="0 0 8 8" refX="8" refY="4" markerWidth="7" markerHeight="7" orient="auto"><path d="M0 0 8 4 0 8z" fill="{GREY}"/></marker>'
    return "\n".join([
        f'<svg xmlns="http://www.w3.org/2000/svg" viewBox="0 0 {width} {height}" width="{width}" height="{height}" font-family="sans-serif" font-size="12">',
        f"<defs>{head}</defs>",
        *drawn,
        "</svg>\n",
    ])


def way_of_a_page() -> str:
    """From the bytes of a page to what matches."""
    return picture(820, 190, [
        *arrow(8, 80, 106, 80, "bytes, in chunks"),
        *box(110, 40, 160, 80, ["lol_tags", "tags and attributes,", "each as its places", "(HTML 13.2.5)"]),
        *arrow(270, 80, 326, 80, "tags"),
        *box(330, 40, 160, 80, ["lol_page", "namespaces, open", "elements, lines", "(13.2.6)"]),
        *arrow(490, 80, 546, 80, "events"),
        *box(550, 40, 160, 80, ["lol_matcher", "lol_html's machine:", "a program over the", "open elements"]),
        *arrow(710, 80, 812, 80, "matches"),
        f'<path d="M410 120v34H190v-30" fill="none" stroke="{GREY}" stroke-width="1.5" marker-end="url(#head)"/>',
        text(300, 172, "is the innermost element one of HTML?"),
        text(762, 100, "place, ids,"),
        text(762, 117, "bytes of the tag"),
    ])


def what_is_proved() -> str:
    """What is read, what the prover checks, and what is trusted."""
    return picture(820, 250, [
        *box(20, 20, 240, 90, ["You read", "definitions (specs/), each with", "its section, and the clauses", "of public calls"], ORANGE),
        *box(300, 20, 220, 90, ["The prover checks", "for all inputs: functions meet", "their clauses and never panic;", "each wrong body is refused"]),
        *box(560, 20, 240, 90, ["Code (src/)", "compiled from the same text", "that the clauses stand in"]),
        *arrow(300, 65, 264, 65),
        *arrow(520, 65, 556, 65),
        *box(20, 150, 500, 80, ["Tested only", "the definitions say what lol_html and the Standard say; programs in C, C++,", "Rust and Python over the archive; messages; time and memory"], GREY),
        *box(560, 150, 240, 80, ["Trusted", "prover, compiler, C library; what", "std and three small crates state"], ORANGE),
        *arrow(140, 150, 140, 114),
        *arrow(680, 150, 680, 114),
    ])


def main() -> int:
    drawn = {FOLDER / "page.svg": way_of_a_page(), FOLDER / "proved.svg": what_is_proved()}
    if sys.argv[1:] == ["--check"]:
        stale = [path.name for path, svg in drawn.items() if not path.is_file() or path.read_text(encoding="utf-8") != svg]
        print("\n".join([f"{name}: isn't as drawn" for name in stale]) or "all are as drawn")
        return 1 if stale else 0
    FOLDER.mkdir(exist_ok=True)
    for path, svg in drawn.items():
        path.write_text(svg, encoding="utf-8")
    return 0


if __name__ == "__main__":
    sys.exit(main())
