#!/usr/bin/env python3
"""Reads all crates and pages for the bounds that keep them readable, and names each place that passes one.

    python3 docs/check_house.py

No crate cites the `proofs/` of another: what it may cite stands in `specs/`. No module has one name in `specs/` and in `proofs/` of a crate.
A file has at most 800 lines, a function 40 lines of body and 16 clauses, in the library six parameters, and the first line of a clause 120 columns.
Each page has a number of words (WORDS) that it keeps, alone or with others, and its links lead to files that are there.
The last line is 'N places pass a bound'.
"""

import re
import sys
from dataclasses import dataclass
from pathlib import Path

import crates

FILE_LINES, BODY_LINES, PARAMETERS, CLAUSES, COLUMNS = 800, 40, 7, 16, 120
# How many words the pages of a pattern have at most, together.
WORDS = {
    "README.md": 900,
    "bench/README.md diff/README.md": 1250,
    "crates/*/CALLING.md": 3500,
    "docs/BINDINGS.md": 1700,
    "docs/CONTRIBUTING.md": 1800,
    "docs/DECISIONS.md": 3000,
    "docs/DEFINITIONS.md": 4300,
    "docs/DIFFERENCES.md": 1400,
    "docs/PAGES.md": 1500,
    "docs/PROVED.md": 2200,
    "docs/SCRIPT.md": 1300,
    "docs/SELECTORS.md": 2000,
    "docs/TESTED.md": 2400,
}
LINK = re.compile(r"\]\(([^)#\s]+)")
CITED = re.compile(r"\bRattle\.(\w+)\.proofs\b")
SIGNATURE = re.compile(r"( *)(?:pub(?:\([a-z]+\))? )?(?:const )?(?:unsafe )?(?:extern \"C\" )?fn (\w+)")
CLAUSE = re.compile(r" *(?:requires|ensures)\b")


@dataclass
class Function:
    """A function as it stands in its file: its first line, counted from 1, its parameters, its clauses and the lines of its body."""

    name: str
    line: int
    parameters: int
    clauses: int
    body: int


def parameters_of(lines: list[str], start: int) -> int:
    """How many parameters a function has, whose signature begins in this line."""
    text = "\n".join(lines[start : start + 20])
    text = re.sub(r"->", "  ", text[text.index("fn ") :])
    depth, count, is_one = 0, 0, False
    for sign in text[text.index("(") :]:
        depth += (sign in "([{<") - (sign in ")]}>")
        if depth == 0:
            break
        if depth == 1 and sign == ",":
            count, is_one = count + is_one, False
        elif sign.strip() and not (depth == 1 and sign == "("):
            is_one = True
    return count + is_one


def functions_of(lines: list[str]) -> list[Function]:
    """The functions of a file that `rt fmt` has laid out."""
    found = []
    for start, line in enumerate(lines):
        at = SIGNATURE.match(line)
        if not at:
            continue
        opens, closes = re.compile(rf"{at[1]}\{{$|{at[1]}\S.*\{{$"), re.compile(rf"{at[1]}\}}")
        clauses, body = 0, None
        for number in range(start, len(lines)):
            clauses += body is None and bool(CLAUSE.match(lines[number]))
            if lines[number].endswith("{}") or body is None and lines[number].endswith(";") and not CLAUSE.match(lines[number]):
                body = number + 1 if body is None else body
                break
            if body is None and opens.match(lines[number]):
                body = number + 1
            elif body is not None and closes.match(lines[number]):
                break
        found.append(Function(at[2], start + 1, parameters_of(lines, start), clauses, max(0, number - (body or number))))
    return found


def passed(name: str) -> list[str]:
    """What of a crate passes a bound."""
    folder, told = crates.ROOT / "crates" / name, []
    most = PARAMETERS if name.startswith("lol_") else sys.maxsize
    for path in (it for it in crates.files(name) if it.suffix in (".rt", ".antt")):
        place, lines = path.relative_to(crates.ROOT), path.read_text().split("\n")
        told += [f"{place}: {len(lines) - 1} lines"] * (len(lines) - 1 > FILE_LINES)
        for number, line in enumerate(lines, 1):
            told += [f"{place}:{number}: cites the proofs of {other}" for other in CITED.findall(line) if other in crates.rows() and other != name]
            told += [f"{place}:{number}: a clause of {len(line)} columns"] * (path.suffix == ".rt" and bool(CLAUSE.match(line)) and len(line) > COLUMNS)
        for function in functions_of(lines) if path.suffix == ".rt" else []:
            bounds = [(function.parameters, most, "parameters"), (function.clauses, CLAUSES, "clauses"), (function.body, BODY_LINES, "lines of body")]
            told += [f"{place}:{function.line}: {function.name} has {count} {what}" for count, bound, what in bounds if count > bound]
    modules = [{path.stem for path in (folder / part).rglob("*.antt")} - {"Lib"} for part in ("specs", "proofs")]
    generated = {"Answers", "Proof", "Invariants"}
    return told + [f"{name}: {module} is a module of specs and of proofs" for module in sorted(modules[0] & modules[1] - generated)]


def pages_passed() -> list[str]:
    """What of the pages passes a bound: too many words, links that lead nowhere, and pages that have no number of words."""
    told, counted = [], set()
    for patterns, most in WORDS.items():
        pages = [page for pattern in patterns.split() for page in crates.ROOT.glob(pattern)]
        counted.update(pages)
        words = sum(len(page.read_text().split()) for page in pages)
        told += [f"{patterns}: {words} words"] * (words > most)
    for page in sorted({page for pattern in ("*.md", "*/*.md", "crates/*/*.md", "bindings/*/*.md") for page in crates.ROOT.glob(pattern)}):
        place = page.relative_to(crates.ROOT)
        told += [f"{place}: has no number of words"] * (page not in counted)
        links = [link for link in LINK.findall(page.read_text()) if "://" not in link]
        told += [f"{place}: {link} is not there" for link in links if not (page.parent / link).exists()]
    return told


def main() -> int:
    told = [line for name in crates.rows() for line in passed(name)] + pages_passed()
    print(*told, f"{len(told)} places pass a bound", sep="\n")
    return 1 if told else 0


if __name__ == "__main__":
    sys.exit(main())
