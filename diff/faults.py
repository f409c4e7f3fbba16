#!/usr/bin/env python3
"""Asks whether seeded faults are found: whether a case of at most six lines is named within a minute.

    python3 diff/faults.py [--seed S] [FAULT]     each is put into a copy of the model, which diff/run.py tests
    python3 diff/faults.py --source [FAULT]       each is put into a copy of the Rattle source, which `rt try` runs

The sound model is what the faulty ones are compared with, so neither needs a built program.
"""

import argparse
import os
import re
import shutil
import subprocess
import sys
import tempfile
import time
from typing import NamedTuple

from programs import run_model
from run import show, show_answers
from source_faults import LINES, NO_FAULT, SOURCE_FAULTS, SourceFault, faulty_answers, lines_of, small_cases

HERE = os.path.dirname(os.path.abspath(__file__))
CASES, SECONDS = 100_000, 60


class Fault(NamedTuple):
    """A fault: a text of the model, which is there once, and what is in its place."""

    name: str
    sound: str
    faulty: str


FAULTS = [
    Fault("a dropped start tag isn't counted",
          'return ["dropped"]',
          'self.open[-1].children -= 1; self.open[-1].typed_children[tag.name.lower()] -= 1; return ["dropped"]'),
    Fault("values of rev are compared with case", " rev rules", " rules"),
    Fault("names of attributes are compared with case",
          "if other.lower() == name), None)", "if other == name), None)"),
    Fault("the outermost of equal names is closed",
          "range(len(self.open) - 1, 0, -1)", "range(1, len(self.open))"),
    Fault("an id is reported once for each path",
          "sorted({identifier for node, identifier in pairs if node in matching})",
          "sorted([identifier for node, identifier in pairs if node in matching])"),
    Fault("the 130th of elements one inside the other loses a range",
          "outside = self.open[-1].matching_here_or_outside\n",
          "outside = self.open[-1].matching_here_or_outside\n"
          "        outside = frozenset(sorted(outside)[len(self.open) == 130:])\n"),
]


def faulty_model(fault: Fault) -> str:
    with open(os.path.join(HERE, "model.py"), encoding="utf-8") as page:
        text = page.read()
    if text.count(fault.sound) != 1:
        sys.exit(f"The model has {text.count(fault.sound)} times, not once: {fault.sound}")
    return text.replace(fault.sound, fault.faulty)


def is_found(name: str, lines: int | None, seconds: float) -> bool:
    """Judges the lines of the case that was named, if one was, and the time; prints the verdict."""
    found = lines is not None and lines <= LINES and seconds < SECONDS
    print(f"{'found' if found else 'NOT FOUND'} in {seconds:.0f} seconds: {name}")
    return found


def is_found_in_model(fault: Fault, seed: int) -> bool:
    """Runs diff/run.py on the faulty model, and prints the case that it names."""
    with tempfile.TemporaryDirectory() as folder:
        port = os.path.join(folder, "faulty_model.py")
        with open(port, "w", encoding="utf-8") as page:
            page.write(faulty_model(fault))
        began = time.monotonic()
        words = [sys.executable, os.path.join(HERE, "run.py"), str(CASES), "--seed", str(seed), "--port", port]
        done = subprocess.run(words + ["--differences", "1"], stdout=subprocess.PIPE, stderr=subprocess.DEVNULL)
        seconds = time.monotonic() - began
    printed = done.stdout.decode()
    remaining = re.search(r"Of \d+ lines, (\d+) remain", printed)
    found = is_found(fault.name, int(remaining[1]) if remaining else None, seconds)
    print("".join(f"    {line}\n" for line in printed.partition("stopped:")[0].splitlines()), end="", flush=True)
    return found


def differing(fault: SourceFault, cases: list) -> list:
    """The cases, each with its right answer, that the source with the fault answers otherwise, with those answers."""
    answers = faulty_answers(fault, [script for script, _ in cases])
    return [(script, answer, right) for (script, right), answer in zip(cases, answers) if answer != right]


def is_found_in_source(fault: SourceFault, cases: list) -> bool:
    """Runs the cases on the source with the fault, and prints the smallest that is answered otherwise."""
    began = time.monotonic()
    wrong = differing(fault, cases)
    seconds = time.monotonic() - began
    found = is_found(fault.name, lines_of(wrong[0][0]) if wrong else None, seconds)
    if wrong:
        script, answer, right = wrong[0]
        print(f"  in {fault.body}; of {len(cases)} cases {len(wrong)} differ, a smallest of {lines_of(script)} lines:")
        show("  script:", script)
        show_answers(answer, "the model", right, "the faulty source")
    sys.stdout.flush()
    return found


def cases_of_source() -> list:
    """The cases for all faults of the source, with their right answers. Ends the program if it fails them as it is."""
    if not shutil.which("rt"):
        sys.exit("--source needs Rattle's toolchain: there is no command rt.")
    began = time.monotonic()
    cases = [(script, run_model(script)) for script in small_cases()]
    print(f"{len(cases)} cases chosen in {time.monotonic() - began:.0f} seconds", flush=True)
    began = time.monotonic()
    wrong = differing(NO_FAULT, cases)
    print(f"without a fault {len(cases) - len(wrong)} of them are answered as by the model;"
          f" {time.monotonic() - began:.0f} seconds", flush=True)
    if wrong:
        show("the first other one:", wrong[0][0])
        sys.exit(1)
    return cases


def main() -> int:
    parser = argparse.ArgumentParser(description=__doc__, formatter_class=argparse.RawDescriptionHelpFormatter)
    parser.add_argument("--seed", type=int, default=1)
    parser.add_argument("fault", nargs="?", default="", help="words of the fault's name (all)")
    parser.add_argument("--source", action="store_true", help="put the faults into the Rattle source")
    options = parser.parse_args()
    faults = [fault for fault in (SOURCE_FAULTS if options.source else FAULTS) if options.fault in fault.name]
    if options.source:
        cases = cases_of_source()
        found = sum(is_found_in_source(fault, cases) for fault in faults)
    else:
        found = sum(is_found_in_model(fault, options.seed) for fault in faults)
    print(f"{found} of {len(faults)} faults are found by a case of at most {LINES} lines within {SECONDS} seconds each")
    return 0 if found == len(faults) and faults else 1


if __name__ == "__main__":
    sys.exit(main())
