"""The programs that are measured: where they are, and how one run of each is measured."""
import os
import pathlib
import re
import resource
import shutil
import subprocess
import sys
import tempfile
import time

TOP = pathlib.Path(__file__).resolve().parent.parent
PORT = TOP / "crates" / "lol_match" / "out" / "lol_match"
LIMIT_SECONDS = 600


def port(given):
    """The program that is asked for; else `lol_match`, built as a user builds it if it isn't there."""
    if given:
        return pathlib.Path(given).resolve()
    if not PORT.exists():
        print("building lol_match: what isn't proved yet is proved, which may take a quarter of an hour", file=sys.stderr)
        subprocess.run(["rt", "run"], cwd=PORT.parents[1], stdin=subprocess.DEVNULL, stdout=subprocess.DEVNULL, check=True)
    return PORT


def run(program, script):
    """What it writes, and the seconds of one run. A program may be a list of its words."""
    words = program if isinstance(program, list) else [program]
    begin = time.perf_counter()
    with open(script, "rb") as file:
        done = subprocess.run(words, stdin=file, stdout=subprocess.PIPE, env={}, timeout=LIMIT_SECONDS, check=False)
    return done.stdout, time.perf_counter() - begin


def user_seconds(program, script):
    """The seconds that one run spends in the program itself: less dependent than its time on what else the machine does."""
    before = resource.getrusage(resource.RUSAGE_CHILDREN).ru_utime
    with open(script, "rb") as file:
        subprocess.run([program], stdin=file, stdout=subprocess.DEVNULL, env={}, timeout=LIMIT_SECONDS, check=True)
    return resource.getrusage(resource.RUSAGE_CHILDREN).ru_utime - before


def memory(program, script):
    """The greatest memory that it has, in megabytes, by GNU time; none where that isn't there."""
    if not os.path.exists("/usr/bin/time"):
        return None
    with open(script, "rb") as file:
        words = ["/usr/bin/time", "-f", "%M", program]
        done = subprocess.run(words, stdin=file, stdout=subprocess.DEVNULL, stderr=subprocess.PIPE, check=True)
    return round(int(done.stderr.split()[-1]) / 1024, 1)


def instructions(program, script):
    """The instructions of one run by valgrind's callgrind, or none where valgrind isn't there."""
    if not shutil.which("valgrind"):
        return None
    with tempfile.TemporaryDirectory() as folder, open(script, "rb") as file:
        words = ["valgrind", "--tool=callgrind", f"--callgrind-out-file={folder}/out", program]
        done = subprocess.run(words, stdin=file, stdout=subprocess.DEVNULL, stderr=subprocess.PIPE, check=True)
    return int(re.search(rb"Collected : (\d+)", done.stderr)[1])


def first_line(*words):
    """The first line that a command writes, or nothing where it isn't there."""
    try:
        done = subprocess.run(words, stdout=subprocess.PIPE, stderr=subprocess.DEVNULL, cwd=TOP, check=False)
    except OSError:
        return ""
    return done.stdout.decode().strip().split("\n")[0]


def circumstances():
    """What a reader of the figures wants to know of the machine and of the tree."""
    cpu = ""
    if os.path.exists("/proc/cpuinfo"):
        found = re.search(r"model name\s*: (.*)", pathlib.Path("/proc/cpuinfo").read_text(encoding="utf-8"))
        cpu = found[1] if found else ""
    return {
        "date": time.strftime("%Y-%m-%d", time.gmtime()),
        "commit": first_line("git", "rev-parse", "--short", "HEAD"),
        "processor": cpu,
        "processors": os.cpu_count(),
        "load": round(os.getloadavg()[0], 1),
        "toolchain": first_line("rt", "version"),
        "valgrind": first_line("valgrind", "--version"),
        "python": sys.version.split()[0],
    }
