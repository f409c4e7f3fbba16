r"""Measures how the cost of a start tag grows: with selectors, tags, open elements, siblings and attributes.

    python3 bench/scale.py [--port PROGRAM] [--beside PROGRAM] [--counts 10,100,..] [--rows [N]] [--runs N] [--record]

The program beside is given lists of up to 10,000 selectors (--beside-to). With --rows lists alone are measured, without the
line `rows` and with it, or with `rows\tN`, and so is examples/filters.txt.

The cost of a start tag is that of a page less that of a page of one tag, over its start tags; of a row, that of a script
less that of an empty one. Up to 10,000 selectors, and with rows, a page comes ten times. A time is the processor's, in the
program itself. Instructions are counted where a run takes less than five seconds, and no run is repeated once all took more than ten.
"""
import argparse
import functools
import json
import os
import tempfile

from programs import TOP, circumstances, instructions, memory, port, user_seconds
from workloads import EXAMPLE, LISTS, depth, listed, listed_example, mixed, script, siblings, start, wide

COUNTS = "10,100,200,1000,10000,100000"
TIMES, REPEATED_TO = 10, 10_000
COUNTED_SECONDS, LONG_SECONDS = 5, 10


def costs(program, text, runs, count, with_memory=False):
    """The best time of so many runs of a script, the instructions of one, and its memory."""
    with tempfile.TemporaryDirectory() as folder:
        file = os.path.join(folder, "script")
        with open(file, "wb") as out:
            out.write(text)
        times = [user_seconds(program, file)]
        while len(times) < runs and sum(times) < LONG_SECONDS:
            times.append(user_seconds(program, file))
        counted = instructions(program, file) if count and min(times) < COUNTED_SECONDS else None
        return min(times), counted, memory(program, file) if with_memory else None


def each(whole, less, number):
    """Microseconds and instructions for each of a number of things, and megabytes: the whole's costs less others."""
    counted = None if None in (whole[1], less[1]) else round((whole[1] - less[1]) / number)
    microseconds = round((whole[0] - less[0]) / number * 1e6, 3)
    return {"microseconds": microseconds, "instructions": counted, "megabytes": whole[2]}


def by_selectors(program, kind, number, runs, count, head=b""):
    """Seconds to read a list of selectors, and the costs of a start tag."""
    selectors, tags = listed_example() if kind == EXAMPLE else listed(kind, number)
    tags = tags * TIMES if number <= REPEATED_TO or head else tags
    starts = sum(tag.startswith("start") for tag in tags)
    read = costs(program, head + script(selectors, [start("br")]), runs, count)
    whole = costs(program, head + script(selectors, tags), runs, count, with_memory=True)
    return {"read": round(read[0], 4), **each(whole, read, starts)}


def by_size(program, kind, size, runs, count):
    """The costs of each of so many."""
    make, _, times = SIZES[kind]
    whole = costs(program, make(size), runs, count, with_memory=True)
    return each(whole, costs(program, b"", runs, count), size * times)


# What makes a script of a size, the sizes, and how many times it has so many.
SIZES = {
    "tags of a page, 50 selectors": (lambda size: mixed(50, size), [1000, 10_000, 100_000, 1_000_000], 1),
    "open elements": (depth, [1000, 10_000, 100_000], 1),
    "siblings": (siblings, [1000, 10_000, 100_000], 1),
    "attributes of a tag": (wide, [10, 100, 1000], 200),
}


def said(name, size, figures):
    parts = [f"{name:32} {size:7d}"]
    for whose, figure in figures.items():
        read = f"{figure['read']:.3f} s to read, " if "read" in figure else ""
        unit = "a start tag" if read else "each"
        memory_words = "" if figure["megabytes"] is None else f", {figure['megabytes']:.0f} MB"
        counted = "" if figure["instructions"] is None else f", {figure['instructions']:,} instructions"
        parts.append(f"{whose}: {read}{figure['microseconds']:.2f} us {unit}{counted}{memory_words}")
    return "; ".join(parts)


def main():
    words = argparse.ArgumentParser(description=__doc__.split("\n", maxsplit=1)[0])
    words.add_argument("--port")
    words.add_argument("--beside")
    words.add_argument("--beside-to", type=int, default=10_000, help="the longest list for the program beside (10000)")
    words.add_argument("--counts", default=COUNTS, help=f"numbers of selectors ({COUNTS})")
    words.add_argument("--rows", metavar="N", nargs="?", const="", help="measure lists alone, without the line `rows` and with it, or with that of N")
    words.add_argument("--runs", type=int, default=3)
    words.add_argument("--no-instructions", action="store_true", help="leave out valgrind, which takes most of the time")
    words.add_argument("--record", action="store_true", help="keep the figures in bench/results")
    asked = words.parse_args()
    programs = {"port": port(asked.port), "rows": port(asked.port), "beside": asked.beside}
    conditions, rows = circumstances(), []
    print(", ".join(f"{name} {value}" for name, value in conditions.items() if value != ""))
    cases = [(kind, int(count), by_selectors) for kind in LISTS for count in asked.counts.split(",")]
    with_rows = asked.rows is not None
    line = f"rows\t{asked.rows}\n" if asked.rows else "rows\n"
    if with_rows:
        cases.append((EXAMPLE, 10_000, by_selectors))
    else:
        cases += [(kind, size, by_size) for kind, (_, sizes, _) in SIZES.items() for size in sizes]
    for name, size, measure in cases:
        measures = {"port": measure}
        if with_rows and measure is by_selectors:
            measures["rows"] = functools.partial(by_selectors, head=line.encode())
        if asked.beside and name != EXAMPLE and (measure is by_size or size <= asked.beside_to):
            measures["beside"] = measure
        figures = {whose: one(programs[whose], name, size, asked.runs, not asked.no_instructions) for whose, one in measures.items()}
        print(said(name, size, figures), flush=True)
        rows.append({"by": name, "size": size, **figures})
    if asked.record:
        file = TOP / "bench" / "results" / f"{conditions['date']}-{conditions['commit']}-scale.json"
        file.parent.mkdir(exist_ok=True)
        file.write_text(json.dumps({**conditions, "rows": rows}, indent=1) + "\n", encoding="utf-8")
        print(f"kept in {file.relative_to(TOP)}")


if __name__ == "__main__":
    main()
