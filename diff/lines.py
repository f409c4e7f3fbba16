"""Which lines of diff/model.py are reached: by each script, and by what no script can show."""

import contextlib
import io
import os
import runpy
import sys
import types
from unittest import mock

MODEL = os.path.join(os.path.dirname(os.path.abspath(__file__)), "model.py")


def lines_of(code: types.CodeType) -> set[int]:
    """The lines that have code, those of what is inside too."""
    inner = [lines_of(constant) for constant in code.co_consts if isinstance(constant, types.CodeType)]
    return {line for _, _, line in code.co_lines() if line}.union(*inner)


def all_lines() -> dict[int, str]:
    """The lines of the model that have code, with their texts."""
    with open(MODEL, encoding="utf-8") as page:
        text = page.read()
    listed = text.split("\n")
    return {line: listed[line - 1] for line in sorted(lines_of(compile(text, MODEL, "exec")))}


@contextlib.contextmanager
def reached():
    """Gathers the numbers of the model's lines that run meanwhile."""
    found = set()

    def trace(frame, event, _):
        if frame.f_code.co_filename != MODEL:
            return None
        found.add(frame.f_lineno)
        return trace

    before = sys.gettrace()
    sys.settrace(trace)
    try:
        yield found
    finally:
        sys.settrace(before)


def run_as_program(reads, writes) -> int:
    """The exit status of the model, run as a program that reads and writes these files."""
    with mock.patch.multiple(sys, stdin=reads, stdout=writes, stderr=io.StringIO()):
        try:
            runpy.run_path(MODEL, run_name="__main__")
        except SystemExit as end:
            return end.code


def run_without_scripts() -> None:
    """Runs what no stored case shows: good and failing files of the program, and a full counter, by a smaller bound."""
    import model

    tag = b"start\thtml\tbr\n"
    good, again = (io.TextIOWrapper(io.BytesIO(tag)) for _ in range(2))
    with open(os.devnull, "w") as sink, open(os.devnull) as unwritable:
        statuses = [run_as_program(good, sink), run_as_program(again, unwritable), run_as_program(sink, sink)]
    with mock.patch.object(model, "GREATEST_COUNT", 1):
        counted = model.answer(tag * 2)
    if statuses != [0, 4, 4] or counted != (b"start\t-\nrefused counter\n", 3):
        raise AssertionError(f"the model ends with {statuses}, and answers a full counter with {counted}")


def lines_of_script(script: bytes) -> set[int]:
    """The model's lines that answer a script."""
    import model

    with reached() as found:
        model.answer(script)
    return found


def report(found: set[int]) -> int:
    """Prints how many lines of the model were reached, and each other one; returns how many these are."""
    with reached() as further:
        run_without_scripts()
    listed = all_lines()
    left = [line for line in listed if line not in found | further]
    print(f"{len(listed) - len(left)} of {len(listed)} lines of the model are reached, "
          f"{len((set(listed) & further) - found)} of them by no script")
    for line in left:
        print(f"  model.py, line {line}: {listed[line].strip()}")
    return len(left)
