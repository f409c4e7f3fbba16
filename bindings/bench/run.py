#!/usr/bin/env python3
"""Measures the calls from C on the eight workloads of bench/workloads.py, and a start tag that reports nothing.

    python3 bindings/bench/run.py [--beside PROGRAM] [--runs N] [--only WORDS] [--no-instructions]

The script is cut into calls beforehand: the time is the best of N runs of the calls alone, and so are the instructions, by valgrind. A
program beside, as lol_html's own machine, reads the same script: its time and instructions are those of its whole run.
`bindings/check` builds the archives before.
"""
import argparse
import os
import re
import subprocess
import sys
import tempfile
from pathlib import Path

TOP = Path(__file__).resolve().parents[2]
sys.path.insert(0, str(TOP / "bench"))

from programs import instructions, run
from workloads import WORKLOADS

OUT = TOP / "bindings" / "out"
TOLD = re.compile(rb"(\d+) tags, \d+ ids, \d+ closed in ([0-9.]+) seconds")
STARTS = 1_000_000


def build():
    """The program that makes the calls."""
    program = OUT / "calls"
    words = ["gcc", "-std=c11", "-O2", "-Wall", "-Wextra", "-Werror", "-I", TOP / "bindings" / "c", TOP / "bindings" / "bench" / "calls.c"]
    subprocess.run([*words, OUT / "libzugrenja_c.a", OUT / "liblibc_c.a", "-o", program], check=True)
    return program


def called(words, script):
    """The tags that were told, and the seconds of the calls."""
    with open(script, "rb") as file:
        done = subprocess.run(words, stdin=file, stdout=subprocess.PIPE, check=True)
    tags, seconds = TOLD.fullmatch(done.stdout.strip()).groups()
    return int(tags), float(seconds)


def call_instructions(words, script, function):
    """The instructions of this function alone."""
    with tempfile.TemporaryDirectory() as folder, open(script, "rb") as file:
        grind = ["valgrind", "--tool=callgrind", f"--toggle-collect={function}", f"--callgrind-out-file={folder}/out"]
        done = subprocess.run([*grind, *words], stdin=file, stdout=subprocess.DEVNULL, stderr=subprocess.PIPE, check=True)
    return int(re.search(rb"Collected : (\d+)", done.stderr)[1])


def compared(program, beside, script, options):
    """A line for a workload: the calls, and the program beside."""
    tags, seconds = min((called([program], script) for _ in range(options.runs)), key=lambda one: one[1])
    line = f"{tags:7} tags, {seconds:8.4f} s"
    own = None if options.no_instructions else call_instructions([program], script, "make_calls")
    line += f", {own / 1e6:8.1f} M instructions" if own else ""
    if beside:
        other_seconds = min(run(beside, script)[1] for _ in range(options.runs))
        line += f"; beside {other_seconds:8.4f} s: {seconds / other_seconds:.2f} of the time"
        if own:
            other = instructions(beside, script)
            line += f", {other / 1e6:8.1f} M: {own / other:.2f} of the instructions"
    return line


def nothing(program, options):
    """A line for a start tag that reports nothing."""
    words = [program, str(STARTS)]
    seconds = min(called(words, os.devnull)[1] for _ in range(options.runs))
    line = f"a start tag that reports nothing: {seconds / STARTS * 1e9:.0f} ns"
    if not options.no_instructions:
        line += f", {call_instructions(words, os.devnull, 'report_nothing') / STARTS:.0f} instructions"
    return line


def main():
    parser = argparse.ArgumentParser(description=__doc__, formatter_class=argparse.RawDescriptionHelpFormatter)
    parser.add_argument("--beside", type=Path, help="a program that reads the same scripts")
    parser.add_argument("--runs", type=int, default=9)
    parser.add_argument("--only", default="", help="words of a workload's name")
    parser.add_argument("--no-instructions", action="store_true")
    options = parser.parse_args()
    program = build()
    for name, make in WORKLOADS.items():
        if options.only not in name:
            continue
        with tempfile.NamedTemporaryFile() as script:
            script.write(make())
            script.flush()
            print(f"{name:38} {compared(program, options.beside, script.name, options)}", flush=True)
    if not options.only:
        print(nothing(program, options))


if __name__ == "__main__":
    main()
