"""Writes the tables of recorded figures in docs/TESTED.md, bench/README.md and README.md and the span in README.md, or checks them.

    python3 bench/table.py bench/results/FILE.json     writes the table of this file's kind, in the place of the one there
    python3 bench/table.py --check                     compares each table with the file that it names
"""
import json
import pathlib
import re
import sys

TOP = pathlib.Path(__file__).resolve().parent.parent
README = TOP / "README.md"
PAGES = [TOP / "docs" / "TESTED.md", TOP / "bench" / "README.md", README]
TABLE = re.compile(r"<!-- (bench/results/[\w.-]+\.json) -->\n(.*?)<!-- end -->\n", re.S)
SPAN = re.compile(r"takes \d\.\d\d to \d\.\d\d of the time of lol_html's own machine")


def rounded(figures, field="seconds"):
    """The ratio of time, or of another cost, as the table has it."""
    return f"{figures['port'][field] / figures['beside'][field]:.2f}"


def ratios(recorded):
    """A row for each workload; with instructions if they were counted."""
    rows = recorded["workloads"].items()
    counted = all(figures[whose]["instructions"] for _, figures in rows for whose in ("port", "beside"))
    fields = ["seconds", "instructions"] if counted else ["seconds"]
    heads = ["Workload", "Ratio of time", "Ratio of instructions"][:len(fields) + 1]
    lines = [heads, ["---"] * len(heads), *([name, *(rounded(figures, one) for one in fields)] for name, figures in rows)]
    return "".join("|" + "|".join(line) + "|\n" if line[0] == "---" else f"| {' | '.join(line)} |\n" for line in lines)


def peers(recorded):
    """A row for each engine: milliseconds to read a page, and to search it the first time and later, by the number of selectors."""
    engines = dict.fromkeys(row["engine"] for row in recorded["peers"])
    counts = "; ".join(f"{count:,}" for count in dict.fromkeys(row["selectors"] for row in recorded["peers"]))
    lines = [f"| Engine, with {counts} selectors | Page read, ms | First search, ms | Later search, ms |\n", "|---|---|---|---|\n"]
    for engine in engines:
        rows = [row for row in recorded["peers"] if row["engine"] == engine]
        cells = ["; ".join(f"{row[name] * 1e3:,.1f}" for row in rows if row[name]) for name in ("parse", "first", "later")]
        lines.append(f"| {' | '.join([engine, *cells])} |\n")
    return "".join(lines)


def shortened(value):
    """With two digits after the point below 10, and none from there on."""
    return f"{value:,.2f}" if value < 10 else f"{value:,.0f}"


def growth(recorded):
    """Microseconds a start tag by the number of selectors: without rows, with them, and beside where that was measured."""
    cells = {(row["by"], row["size"]): ", ".join(shortened(row[whose]["microseconds"]) for whose in ("port", "rows", "beside") if whose in row)
             for row in recorded["rows"] if "rows" in row}
    kinds, sizes = (dict.fromkeys(key[place] for key in cells) for place in (0, 1))
    rows = [f"| {size:,} | {' | '.join(cells.get((kind, size), '') for kind in kinds)} |\n" for size in sizes]
    return "".join([f"| Selectors | {' | '.join(kinds)} |\n", "|---" * (len(kinds) + 1) + "|\n", *rows])


TABLES = {"workloads": ratios, "peers": peers, "rows": growth}


def kind(file):
    """What a recorded file has, and it."""
    recorded = json.loads((TOP / file).read_text(encoding="utf-8"))
    return next((name for name in TABLES if name in recorded), None), recorded


def with_tables(page, new=None):
    """The text of a page with its tables made anew: from the new file if it is of their kind, else from those they name."""
    def made(found):
        file = new if new and kind(new)[0] == kind(found[1])[0] else found[1]
        name, recorded = kind(file)
        return f"<!-- {file} -->\n{TABLES[name](recorded)}<!-- end -->\n"

    return TABLE.sub(made, page)


def span(recorded):
    ratios = sorted(map(rounded, recorded["workloads"].values()))
    return f"takes {ratios[0]} to {ratios[-1]} of the time of lol_html's own machine"


def files_of_ratios(pages):
    return [file for page in pages for file, _ in TABLE.findall(page) if kind(file)[0] == "workloads"]


def main():
    check = sys.argv[1:] == ["--check"]
    texts = {page: page.read_text(encoding="utf-8") for page in PAGES}
    new = {page: with_tables(texts[page], None if check else sys.argv[1]) for page in PAGES}
    recorded = kind(files_of_ratios(new.values())[0])[1]
    new[README] = SPAN.sub(span(recorded), new[README])
    if check:
        files = [file for page in PAGES for file, _ in TABLE.findall(texts[page])]
        print(f"the tables and README's span {'are' if new == texts else 'are NOT'} those of {', '.join(files)}")
        return 0 if new == texts else 1
    for page, text in new.items():
        page.write_text(text, encoding="utf-8")
    return 0


if __name__ == "__main__":
    sys.exit(main())
