#!/usr/bin/env python3
"""Looks for the least stack with which lol_match answers, for selectors without and with depth. Run it at the top of the
repository once lol_match is built:

    (cd crates/lol_match && rt run < /dev/null)
    python3 hostile/stack.py
"""

import resource
import subprocess

PROGRAM = "crates/lol_match/out/lol_match"
NESTED = ":not(" * 128 + "a" + ")" * 128
LONG = " ".join(["a"] * 1024)
SELECTORS = {
    "`a`": "a",
    "128 of `:not` inside one another": NESTED,
    "1,024 compounds": LONG,
    "one with both": LONG + NESTED,
}
GREATEST_KB = 8192


def answers(text, kilobytes):
    """Whether the program answers with a stack of this size."""
    size = kilobytes * 1024
    script = f"select\t0\t{text}\n" + "start\thtml\ta\n" * 1024
    done = subprocess.run([PROGRAM], input=script.encode(), env={}, stdout=subprocess.DEVNULL,
                          stderr=subprocess.DEVNULL, check=False,
                          preexec_fn=lambda: resource.setrlimit(resource.RLIMIT_STACK, (size, size)))
    return done.returncode == 0


def least(text):
    """The least number of kilobytes with which it answers."""
    refused, enough = 0, GREATEST_KB
    while enough - refused > 1:
        middle = (refused + enough) // 2
        refused, enough = (refused, middle) if answers(text, middle) else (middle, enough)
    return enough


for name, text in SELECTORS.items():
    print(f"{name}: {least(text)} KB")
