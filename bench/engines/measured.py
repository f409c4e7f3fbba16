"""Measures an engine in Python: how long it takes to read a page, and all selectors on it, the first time and later."""

import json
import pathlib
import sys
import time
from typing import Callable


def best(work: Callable, runs: int) -> tuple[float, object]:
    """The best time of so many runs, and what the last one gave."""
    times = []
    for _ in range(runs):
        begin = time.perf_counter()
        given = work()
        times.append(time.perf_counter() - begin)
    return min(times), given


def measure(read: Callable[[str], object], find: Callable[[object, str], int]) -> None:
    """Prints the times, for the page, the file of selectors and the number of runs that are this program's arguments."""
    page, selectors, runs = pathlib.Path(sys.argv[1]).read_text("utf-8"), sys.argv[2], int(sys.argv[3])
    texts = pathlib.Path(selectors).read_text("utf-8").splitlines()
    parse, tree = best(lambda: read(page), runs)
    first, found = best(lambda: sum(find(tree, text) for text in texts), 1)
    later, _ = best(lambda: sum(find(tree, text) for text in texts), runs)
    print(json.dumps({"parse": parse, "first": first, "later": later, "found": found}))
