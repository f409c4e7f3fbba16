"""Measures lol_match, and another program that reads the same scripts in turn with it: time, memory, instructions.

    python3 bench/run.py [--port PROGRAM] [--beside PROGRAM] [--runs N] [--only WORDS] [--no-instructions] [--record]

Each workload is run N times by each program in turn. The time is the median of the N, its spread the third quarter of them over the median.
"""
import argparse
import json
import os
import statistics
import tempfile

from programs import TOP, circumstances, instructions, memory, port, run
from workloads import WORKLOADS


def measured(programs, script, runs, count):
    """For each program the times of its runs, memory and instructions; and whether all write the same."""
    times = [[] for _ in programs]
    written = [b""] * len(programs)
    for _ in range(runs):
        for number, program in enumerate(programs):
            written[number], seconds = run(program, script)
            times[number].append(seconds)
    figures = [
        {
            "seconds": round(statistics.median(spent), 4),
            "best": round(min(spent), 4),
            "spread": round(sorted(spent)[len(spent) * 3 // 4] / statistics.median(spent), 2),
            "megabytes": memory(program, script),
            "instructions": instructions(program, script) if count else None,
        }
        for program, spent in zip(programs, times)
    ]
    return figures, all(text == written[0] for text in written)


def size(figure):
    """The memory in words, where it was measured."""
    return "" if figure["megabytes"] is None else f", {figure['megabytes']:6.1f} MB"


def said(name, figures, same):
    """A line about a workload."""
    own = figures[0]
    text = f"{name:38} {own['seconds']:7.3f} s, spread {own['spread']:.2f}{size(own)}"
    if own["instructions"]:
        text += f", {own['instructions'] / 1e6:8.1f} M instructions"
    if len(figures) > 1:
        other = figures[1]
        text += f"; beside {other['seconds']:7.3f} s{size(other)}: {own['seconds'] / other['seconds']:.2f} of the time"
        if own["instructions"]:
            text += f", {own['instructions'] / other['instructions']:.2f} of the instructions"
        text += "" if same else "; THEY WRITE DIFFERENT ANSWERS"
    return text


def record(conditions, rows):
    """Keeps the figures under their date and commit."""
    folder = TOP / "bench" / "results"
    folder.mkdir(exist_ok=True)
    file = folder / f"{conditions['date']}-{conditions['commit']}.json"
    file.write_text(json.dumps({**conditions, "workloads": rows}, indent=1) + "\n", encoding="utf-8")
    print(f"kept in {file.relative_to(TOP)}")


def main():
    words = argparse.ArgumentParser(description=__doc__.split("\n", maxsplit=1)[0])
    words.add_argument("--port", help="the program (crates/lol_match/out/lol_match, built if it isn't there)")
    words.add_argument("--beside", help="another program that reads docs/SCRIPT.md")
    words.add_argument("--runs", type=int, default=15)
    words.add_argument("--only", default="", help="workloads whose name has these words")
    words.add_argument("--no-instructions", action="store_true", help="leave out valgrind, which takes most of the time")
    words.add_argument("--record", action="store_true", help="keep the figures in bench/results")
    asked = words.parse_args()
    programs = [port(asked.port), *([asked.beside] if asked.beside else [])]
    conditions, rows, all_same = circumstances(), {}, True
    print(", ".join(f"{name} {value}" for name, value in conditions.items() if value != ""))
    with tempfile.TemporaryDirectory() as folder:
        for name, make in WORKLOADS.items():
            if asked.only not in name:
                continue
            script = os.path.join(folder, "script")
            with open(script, "wb") as file:
                file.write(make())
            figures, same = measured(programs, script, asked.runs, not asked.no_instructions)
            print(said(name, figures, same), flush=True)
            rows[name] = dict(zip(("port", "beside"), figures))
            all_same = all_same and same
    if asked.record:
        record(conditions, rows)
    return 0 if all_same else 1


if __name__ == "__main__":
    raise SystemExit(main())
