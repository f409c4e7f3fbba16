#!/usr/bin/env python3
"""Gives lol_match scripts in pieces: stored cases a few bytes at a time, and scripts with lines longer than its buffer in
pieces about as long as that. What it answers is compared with the stored answers, and with the model's.

    python3 diff/pieces.py [--port PROGRAM] [--seed S] [--cases N]
"""

import argparse
import random
import subprocess
import sys
import threading

from programs import PORT, find_model, find_program, run_model
from stored import cases

BUFFER = 65_536


def answer_in_pieces(program: str, script: bytes, size) -> tuple:
    """The output and the exit status, where each piece has `size()` bytes."""
    with subprocess.Popen([program], stdin=subprocess.PIPE, stdout=subprocess.PIPE, stderr=subprocess.DEVNULL) as process:
        output = []
        reading = threading.Thread(target=lambda: output.append(process.stdout.read()))
        reading.start()
        place = 0
        while place < len(script):
            count = size()
            process.stdin.write(script[place:place + count])
            process.stdin.flush()
            place += count
        process.stdin.close()
        reading.join()
    return output[0], process.returncode


def long_lines(r: random.Random) -> bytes:
    """A script some of whose lines are longer than the buffer, or end near its end."""
    lines = [b"select\t0\tdiv > p", b"select\t1\t[a^=x]", b"select\t2\tp"]
    for _ in range(r.randrange(1, 60)):
        name = r.choice([b"div", b"p", b"br", b"x" * r.choice([BUFFER - 30, BUFFER, 200_000]) if r.random() < 0.1 else b"b"])
        value = b"x" * r.choice([1, 9, BUFFER - 60, BUFFER + 3, 200_000]) if r.random() < 0.2 else b"x"
        lines.append(r.choice([b"end\t" + name, b"start\thtml\t" + name + b"\ta=" + value, b"drop\tsvg\t" + name, b""]))
    if r.random() < 0.3:
        lines.insert(r.randrange(3, len(lines)), r.choice([b"start\thtml", b"esi", b"select\t0\ta + b"]))
    return b"\n".join(lines) + r.choice([b"", b"\n"])


def main() -> int:
    """Returns 1 if an answer isn't what it has to be."""
    parser = argparse.ArgumentParser(description=__doc__, formatter_class=argparse.RawDescriptionHelpFormatter)
    parser.add_argument("--port", default=PORT)
    parser.add_argument("--seed", type=int, default=1)
    parser.add_argument("--cases", type=int, default=200)
    given = parser.parse_args()
    program, r, wrong = find_program(given.port), random.Random(given.seed), 0
    find_model()
    stored = [(script, answer) for _, script, answer in cases() if len(script) < 4_000]
    few = [(*pair, lambda: r.randrange(1, 8)) for pair in r.sample(stored, given.cases)]
    scripts = [long_lines(r) for _ in range(given.cases)]
    near = [(script, run_model(script), lambda: r.choice([1, 100, 4_096, BUFFER - 1, BUFFER, BUFFER + 1])) for script in scripts]
    for script, answer, size in few + near:
        told = answer_in_pieces(program, script, size)
        if tuple(told) != tuple(answer):
            wrong += 1
            print(f"a script of {len(script)} bytes: {script[:60]!r}..\n  {told[0][:60]!r}.., {told[1]}")
    print(f"{len(few) + len(near) - wrong} of {len(few) + len(near)} scripts in pieces are answered as they have to be")
    return 1 if wrong else 0


if __name__ == "__main__":
    sys.exit(main())
