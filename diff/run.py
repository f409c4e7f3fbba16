#!/usr/bin/env python3
"""Runs random scripts by lol_match, by the model and by other programs, and shows each difference by a smallest script.

    python3 diff/run.py 20000 --seed 1 --beside PROGRAM     compares N random cases
    python3 diff/run.py 20000 --seed 1 --store              and stores some of those on which all agree
    python3 diff/run.py 2000 --kind many_selectors          of one kind
    python3 diff/run.py 20000 --explain                     with reasons
    python3 diff/run.py 20000 --rows                        with rows
    python3 diff/run.py --stored                            replays the stored cases
    python3 diff/run.py --stored --lines                    and tells which lines of the model they reach
"""

import argparse
import collections
import contextlib
import functools
import itertools
import multiprocessing
import sys
import time
from typing import Iterator

import gen
import known
import lines
import stored
from programs import PORT, Peer, find_model, find_program, run_model, run_program
from shrinking import shrink

BATCH = 10


class Comparing:
    """The port beside its peers; what is found in a batch goes back to the one who asked."""

    def __init__(self, port: str, peers: list, options):
        self.port, self.peers, self.seed, self.kind = port, peers, options.seed, options.kind
        self.explain, self.rows, self.keep = options.explain, options.rows, options.store

    def class_of(self, script: bytes, peer: Peer, port: tuple, other: tuple) -> str | None:
        """The known class of a difference. From the model none is known."""
        if not peer.program:
            return None
        return known.class_of(script, port, other, lambda rest: self.agree(rest, peer))

    def agree(self, script: bytes, peer: Peer) -> bool:
        return run_program(self.port, script) == peer.answer(script)

    def differs(self, script: bytes, peer: Peer) -> bool:
        """Whether the answers differ in no known way."""
        port, other = run_program(self.port, script), peer.answer(script)
        return port != other and self.class_of(script, peer, port, other) is None

    def differences(self, number: int, script: bytes, port: tuple, counts: collections.Counter) -> list:
        """Counts how the peers answer a case; returns what differs in no known way."""
        found = []
        for peer in self.peers:
            if not peer.takes(script):
                counts[peer.name, "not run"] += 1
                continue
            other = peer.answer(script)
            name = "agreed" if port == other else self.class_of(script, peer, port, other)
            counts[peer.name, name or "differed"] += 1
            if name is None:
                found.append(self.shrunk(number, script, peer))
        return found

    def shrunk(self, number: int, script: bytes, peer: Peer) -> tuple:
        small = shrink(script, lambda one: self.differs(one, peer))
        if self.differs(small + b"\n", peer):
            small += b"\n"
        return number, peer.name, len(script.split(b"\n")), small, run_program(self.port, small), peer.answer(small)

    def batch(self, numbers: range) -> tuple:
        counts, found, pool = collections.Counter(), [], []
        for number in numbers:
            script = gen.case(self.seed, number, self.kind, self.explain, self.rows)
            port = run_program(self.port, script)
            differences = self.differences(number, script, port, counts)
            found += differences
            if self.keep and not differences:
                pool.append((script, port))
        return counts, found, pool


def show(title: str, text: bytes) -> None:
    """Prints a text as stored cases are written, equal lines in a row once."""
    print(title)
    for line in stored.written(text, "    "):
        print(line)


def show_answers(port: tuple, name: str, other: tuple, first_name: str = "port") -> None:
    """Prints both answers; of long ones what is round the first line that differs."""
    ours, theirs = port[0].split(b"\n"), other[0].split(b"\n")
    first = next((place for place, pair in enumerate(itertools.zip_longest(ours, theirs)) if pair[0] != pair[1]), 0)
    start = first - 3 if first > 12 else 0
    for title, lines, status in ((first_name, ours, port[1]), (name, theirs, other[1])):
        shown = b"\n".join(lines[start:start + 16])
        shown += b"\n.." * (len(lines) > start + 16) + b"\n" * (len(lines) > start + 15)
        show(f"  {title}, exit status {status}" + (f", from line {start + 1} on" if start else "") + ":", shown)


def show_difference(seed: int, difference: tuple) -> None:
    number, name, before, small, port, other = difference
    lines = len(list(stored.written(small, "")))
    print(f"case {number} of seed {seed}: the port and {name} differ. Of {before} lines, {lines} remain:")
    show("  script:", small)
    show_answers(port, name, other)
    sys.stdout.flush()


def show_counts(counts: collections.Counter, peers: list, seconds: float) -> None:
    reasons = {one.name: one for one in known.CLASSES + [known.IN_ORDER]}
    for peer in peers:
        of_peer = {name: count for (owner, name), count in counts.items() if owner == peer.name}
        classes = {name: count for name, count in of_peer.items() if name not in ("agreed", "differed", "not run")}
        print(f"{peer.name}: {of_peer.get('agreed', 0)} agreed, {sum(classes.values())} differ as is known,"
              f" {of_peer.get('differed', 0)} differ otherwise, {of_peer.get('not run', 0)} weren't run (great ids)")
        for name, count in sorted(classes.items(), key=lambda pair: -pair[1]):
            one = reasons[name.removesuffix(", with others")]
            told = f'docs/DIFFERENCES.md: "{one.told}"' if one.told else "not in docs/DIFFERENCES.md"
            print(f"  {count} {name}: {one.reason} ({told})")
    print(f"{seconds:.0f} seconds")


def compare(options) -> int:
    peers = ([] if options.no_model else [Peer(None)]) + [Peer(find_program(program)) for program in options.beside]
    if not peers:
        sys.exit("There is nothing to compare with: leave --no-model out, or name a program with --beside.")
    comparing = Comparing(find_program(options.port), peers, options)
    end = options.first + options.count
    batches = [range(first, min(first + BATCH, end)) for first in range(options.first, end, BATCH)]
    counts, differing, pool, began = collections.Counter(), 0, [], time.monotonic()
    with multiprocessing.Pool(options.jobs) as workers:
        results = workers.imap(functools.partial(Comparing.batch, comparing), batches)
        for batch, (some_counts, found, some_pool) in zip(batches, results):
            counts.update(some_counts)
            if batch.stop % 1000 == 0:
                print(f"{batch.stop} ..", file=sys.stderr)
            pool += some_pool
            for difference in found:
                show_difference(options.seed, difference)
            differing += len(found)
            if differing >= options.differences:
                print(f"stopped: {differing} cases differ")
                break
        workers.terminate()
    show_counts(counts, peers, time.monotonic() - began)
    if options.store:
        print(f"{stored.store(pool)} cases stored, of {len(pool)}")
    return 1 if differing else 0


def answers_again(options, port: str, found: set[int]) -> Iterator[tuple]:
    """Where each stored case is, its script, its answer, and those of the port and, if it is wanted, of the model."""
    for place, script, answer in stored.cases():
        others = [("port", run_program(port, script))]
        if not options.no_model:
            with lines.reached() if options.lines else contextlib.nullcontext(set()) as some:
                others.append(("model", run_model(script)))
            found |= some
        yield place, script, answer, others


def replay(options) -> int:
    """Compares the port, and the model if it is wanted, with the stored answers."""
    began, wrong, count, found = time.monotonic(), 0, 0, set()
    for place, script, answer, others in answers_again(options, find_program(options.port), found):
        differing = [(name, other) for name, other in others if other != answer]
        count, wrong = count + 1, wrong + bool(differing)
        for name, other in differing:
            if wrong <= options.differences:
                print(f"{place}: the {name} answers otherwise")
                show("  script:", script)
                show_answers(other, "stored", answer, name)
    print(f"{count - wrong} of {count} stored cases are answered as stored; {time.monotonic() - began:.0f} seconds")
    return 1 if options.lines and lines.report(found) or wrong or not count else 0


def main() -> int:
    parser = argparse.ArgumentParser(description=__doc__, formatter_class=argparse.RawDescriptionHelpFormatter)
    parser.add_argument("count", type=int, nargs="?", default=0, help="how many random cases")
    parser.add_argument("--seed", type=int, default=1)
    parser.add_argument("--first", type=int, default=0, help="the number of the first case")
    parser.add_argument("--kind", type=gen.kind_named, help="the one kind of cases, by its name in gen.py")
    parser.add_argument("--explain", action="store_true", help="write `explain` into each script")
    parser.add_argument("--rows", action="store_true", help="write `rows` into each script")
    parser.add_argument("--port", default=PORT, help="the program to test")
    parser.add_argument("--beside", nargs="+", action="extend", default=[],
                        help="programs that answer the same scripts")
    parser.add_argument("--jobs", type=int, default=multiprocessing.cpu_count(), help="how many run at once")
    parser.add_argument("--no-model", action="store_true", help="leave diff/model.py out")
    parser.add_argument("--differences", type=int, default=20, help="stop after so many cases that differ")
    parser.add_argument("--store", action="store_true", help="store cases on which all agree")
    parser.add_argument("--stored", action="store_true", help="replay the stored cases")
    parser.add_argument("--lines", action="store_true", help="tell which lines of the model the stored cases reach")
    options = parser.parse_args()
    if known.untold():
        sys.exit(f"docs/DIFFERENCES.md doesn't tell of these classes as known.py says: {', '.join(known.untold())}")
    if options.lines and (options.no_model or not options.stored):
        parser.error("--lines is of the model and of the stored cases")
    if not options.no_model:
        find_model()
    if options.stored:
        return replay(options)
    return compare(options) if options.count else parser.error("how many cases?")


if __name__ == "__main__":
    sys.exit(main())
