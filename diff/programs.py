"""Answers to scripts: of the port, of the model, and of programs beside."""

import functools
import importlib.util
import os
import re
import signal
import subprocess
import sys
from typing import Callable

ROOT = os.path.dirname(os.path.dirname(os.path.abspath(__file__)))
PORT = os.path.join(ROOT, "crates", "lol_match", "out", "lol_match")
SECONDS = 60
GREATEST_ID_BESIDE = 100_000_000


class NoAnswer(Exception):
    """Raised in the model when its time is over."""


def find_program(program: str) -> str:
    """The program's whole path; ends this one if it isn't there."""
    if not os.path.exists(program):
        build = "It is built by `rt run < ../../examples/div_p.txt` in crates/lol_match; --port names another one."
        sys.exit(f"{program} isn't there. " + (build if program == PORT else ""))
    return os.path.abspath(program)


def find_model() -> None:
    """Ends the program if the model isn't there."""
    if importlib.util.find_spec("model") is None:
        sys.exit("diff/model.py isn't there: leave it out with --no-model.")


@functools.cache
def answer_of(path: str) -> Callable[[bytes], tuple]:
    """The function `answer` of a program in Python, which needs no process of its own."""
    found = importlib.util.spec_from_file_location(os.path.basename(path).removesuffix(".py"), path)
    module = importlib.util.module_from_spec(found)
    sys.modules[found.name] = module
    found.loader.exec_module(module)
    return module.answer


def run_program(program: str, script: bytes) -> tuple:
    """Standard output and exit status; -1 stands for no answer in time."""
    if program.endswith(".py"):
        return run_answer(answer_of(program), script)
    try:
        done = subprocess.run([program], input=script, stdout=subprocess.PIPE, stderr=subprocess.DEVNULL,
                              timeout=SECONDS)
    except subprocess.TimeoutExpired:
        return b"no answer in time\n", -1
    return done.stdout, done.returncode


def run_model(script: bytes) -> tuple:
    """As run_program, by diff/model.py."""
    from model import answer

    return run_answer(answer, script)


def run_answer(answer: Callable[[bytes], tuple], script: bytes) -> tuple:
    """As run_program, by a function; -2 stands for an exception."""

    def stop(*_):
        raise NoAnswer

    before = signal.signal(signal.SIGALRM, stop)
    signal.alarm(SECONDS)
    try:
        return answer(script)
    except NoAnswer:
        return b"no answer in time\n", -1
    except Exception as fault:
        return f"{type(fault).__name__}: {fault}\n".encode(), -2
    finally:
        signal.alarm(0)
        signal.signal(signal.SIGALRM, before)


def has_great_id(script: bytes) -> bool:
    """Whether some id is too great for the sets of a program beside, which may take bytes for each number below."""
    ids = re.findall(rb"^select\t(\d+)\t", script, re.M)
    return any(int(number) > GREATEST_ID_BESIDE for number in ids)


class Peer:
    """What the port is compared with: the model, or a program beside."""

    def __init__(self, program: str | None):
        self.program = program
        self.name = os.path.basename(program) if program else "the model"

    def answer(self, script: bytes) -> tuple:
        return run_program(self.program, script) if self.program else run_model(script)

    def takes(self, script: bytes) -> bool:
        return not self.program or not has_great_id(script)
