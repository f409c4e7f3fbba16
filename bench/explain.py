"""Measures what `explain` costs: scripts with it beside the same without.

    python3 bench/explain.py [--port PROGRAM] [--runs N] [--no-instructions]

First three pages of mixed tags, whose elements are up to 20 deep; then one element after another inside so many others, matched by so many
items of two compounds, where the outer one is at the far end.
"""
import argparse
import os
import statistics
import tempfile

from programs import instructions, port, run
from workloads import mixed, script, start

ELEMENTS = 2000


def inside(depth, items):
    """Elements that so many items match, inside so many that match none of their compounds, but for the outermost."""
    selectors = [f"main p:not(.x{number})" for number in range(items)]
    opened = [start("main"), *[start("div")] * (depth - 1)]
    return script(selectors, opened + [start("p"), "end\tp"] * ELEMENTS)


def cost(program, text, runs, count):
    """The median time of a script's runs, and the instructions of one."""
    with tempfile.TemporaryDirectory() as folder:
        path = os.path.join(folder, "script")
        with open(path, "wb") as file:
            file.write(text)
        times = [run(program, path)[1] for _ in range(runs)]
        return statistics.median(times), instructions(program, path) if count else None


def compared(program, name, text, runs, count):
    """A line about a script without `explain` and with it."""
    plain, told = cost(program, text, runs, count), cost(program, b"explain\n" + text, runs, count)
    line = f"{name:38} {plain[0]:7.3f} s, explained {told[0]:7.3f} s: {told[0] / plain[0]:.2f} times"
    if count:
        line += f"; {plain[1] / 1e6:8.1f} M instructions, explained {told[1] / 1e6:8.1f} M: {told[1] / plain[1]:.2f} times"
    print(line, flush=True)


def main():
    words = argparse.ArgumentParser(description=__doc__.split("\n", maxsplit=1)[0])
    words.add_argument("--port", help="the program (crates/lol_match/out/lol_match, built if it isn't there)")
    words.add_argument("--runs", type=int, default=9)
    words.add_argument("--no-instructions", action="store_true", help="leave out valgrind, which takes most of the time")
    asked = words.parse_args()
    program, count = port(asked.port), not asked.no_instructions
    for selectors in (10, 50, 200):
        compared(program, f"{selectors} selectors, a page of mixed tags", mixed(selectors), asked.runs, count)
    for depth, items in [(20, 10), (20, 20), (20, 40), (40, 20), (80, 20)]:
        compared(program, f"{items} items match, {depth} deep", inside(depth, items), asked.runs, count)


if __name__ == "__main__":
    main()
