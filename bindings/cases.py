"""Runs a program over the stored cases of diff/cases: cases.py PROGRAM..

The program reads a script and writes its answer, as lol_match does. Cases whose answer is a line of no right form are left out, and those with
the lines `explain` and `rows`: no matcher that explains has rows. Then each case without a line `rows` is run with a line `explain` before
the others, and the answer is that of the model in diff/model.py.
"""

import re
import subprocess
import sys
from pathlib import Path

sys.path.insert(0, str(Path(__file__).resolve().parent.parent / "diff"))
import model  # noqa: E402
import stored  # noqa: E402


def cases() -> list[tuple[bytes, bytes, int]]:
    """Script, answer and exit status of each case."""
    every = [(script, *answer) for _, script, answer in stored.cases() if not answer[0].endswith(b": form\n")]
    return [case for case in every if not (has_line(b"rows", case[0]) and has_line(b"explain", case[0]))]


def has_line(kind: bytes, script: bytes) -> bool:
    return re.search(rb"^" + kind, script, re.M) is not None


def explained(every: list[tuple[bytes, bytes, int]]) -> list[tuple[bytes, bytes, int]]:
    """Those without a line `rows`, with a line `explain`."""
    scripts = [b"explain\n" + script for script, _, _ in every if not has_line(b"rows", script)]
    return [(script, *model.answer(script)) for script in scripts]


def wrong_of(every: list[tuple[bytes, bytes, int]]) -> int:
    """How many of the cases are answered otherwise."""
    wrong = 0
    for script, answer, status in every:
        done = subprocess.run(sys.argv[1:], input=script, stdout=subprocess.PIPE)
        if (done.stdout, done.returncode) != (answer, status):
            wrong += 1
            print(f"wanted {status} {answer!r}, got {done.returncode} {done.stdout!r}, for {script!r}")
    return wrong


def main() -> None:
    every = cases()
    told = explained(every)
    wrong, wrongly_told = wrong_of(every), wrong_of(told)
    reasons = sum(answer.count(b"why\t") for _, answer, _ in told)
    print(f"{len(every) - wrong} of {len(every)} cases answered as stored")
    print(f"{len(told) - wrongly_told} of {len(told)} cases explained as the model does, with {reasons} reasons")
    sys.exit(wrong + wrongly_told > 0)


if __name__ == "__main__":
    main()
