"""Measures a page and 10, 100 and 1,000 selectors through zugrenja, lol_match and engines that Debian packages.

    python3 bench/peers.py [--port PROGRAM] [--bytes PROGRAM] [--page FILE] [--counts 10,100,..] [--runs N] [--record]

Each engine reads and searches in its usual way.
"""
import argparse
import json
import os
import pathlib
import random
import re
import shutil
import subprocess
import sys
import tempfile
import time

from programs import TOP, circumstances, port, run
from workloads import script

PAGE = "/usr/share/doc/valgrind/html/mc-manual.html"  # of the package valgrind
PAGES = 20
ZUGRENJA = TOP / "crates" / "zugrenja" / "out" / "zugrenja"
NODE = {"NODE_PATH": "/usr/share/nodejs"}
ENGINES = {
    "cssselect": (["/usr/bin/python3", "with_cssselect.py"], ["python3-cssselect", "python3-lxml"]),
    "Nokogiri": (["ruby", "nokogiri.rb"], ["ruby-nokogiri"]),
    "css-select": (["node", "css_select.js"], ["node-css-select", "node-htmlparser2"]),
    "Mojo::DOM": (["perl", "mojo_dom.pl"], ["libmojolicious-perl"]),
    "soupsieve": (["/usr/bin/python3", "with_soupsieve.py"], ["python3-soupsieve", "python3-bs4", "python3-lxml"]),
}


def drawn(html, count):
    """So many selectors of the kinds that every engine takes, made from the page's names, classes, ids and links."""
    draw = random.Random(f"peers {count}")
    names = sorted(set(re.findall(r"<([a-z][a-z0-9]*)", html)))
    classes = sorted({name for value in re.findall(r'class="([A-Za-z][\w -]*)"', html) for name in value.split()})
    ids = sorted(set(re.findall(r'id="([A-Za-z][\w-]*)"', html))) or ["main"]
    links = sorted(set(re.findall(r'href="([#\w./:-]+)"', html)))
    name, some, one, link = ((lambda words=words: draw.choice(words)) for words in (names, classes, ids, links))
    kinds = [
        name,
        lambda: f".{some()}",
        lambda: f"#{one()}",
        lambda: f"{name()}.{some()}",
        lambda: f"{name()}[href]",
        lambda: f'{name()}[href^="{link()[:6]}"]',
        lambda: f"{name()} > {name()}",
        lambda: f"{name()} .{some()}",
        lambda: f"{name()}:not(.{some()})",
        lambda: f"{name()}:nth-child({draw.randrange(2, 5)}n+1)",
    ]
    return [draw.choice(kinds)() for _ in range(count)]


def time_of(program, text, runs):
    """The best time of so many runs of a program on a text, and what it writes."""
    with tempfile.NamedTemporaryFile() as file:
        file.write(text)
        file.flush()
        times = [run(program, file.name) for _ in range(runs)]
    return min(seconds for _, seconds in times), times[0][0]


def lol_match(program, page, selectors, runs):
    """The page's tags by examples/tags.py; then a run with the page once, and what each further page takes."""
    parse, tags = time_of([sys.executable, TOP / "examples" / "tags.py", "*"], pathlib.Path(page).read_bytes(), runs)
    lines = tags.decode().split("\n")[1:-1]
    once, written = time_of(program, script(selectors, lines), runs)
    often, _ = time_of(program, script(selectors, lines * PAGES), runs)
    found = sum(len(line.split(b"\t")[1].split(b",")) for line in written.split(b"\n")
                if line.startswith(b"start\t") and not line.startswith(b"start\t-"))
    return {"parse": parse, "first": once, "later": (often - once) / (PAGES - 1), "found": found}


def zugrenja(program, page, selectors, runs):
    """From bytes to matches: a run with the page once, and what each further page takes; no page is read apart from its search."""
    if not program.exists():
        print(f"zugrenja is left out: {program} isn't there (rt run < /dev/null in crates/zugrenja)", file=sys.stderr)
        return None
    text = pathlib.Path(page).read_bytes()
    with tempfile.NamedTemporaryFile("w", encoding="utf-8") as file:
        file.write("\n".join(selectors) + "\n")
        file.flush()
        words = [str(program), "--ids", "-f", file.name]
        once, written = time_of(words, text, runs)
        often, _ = time_of(words, text * PAGES, runs)
    found = sum(line.count(b",") + 1 for line in written.splitlines())
    return {"parse": 0, "first": once, "later": (often - once) / (PAGES - 1), "found": found}


def modest(page, selectors, runs):
    """What bench/engines/modest.c prints, or nothing where its compiler or library isn't there."""
    with tempfile.TemporaryDirectory() as folder:
        program, source = os.path.join(folder, "modest"), TOP / "bench" / "engines" / "modest.c"
        words = ["cc", "-O2", "-o", program, source, "-lmodest", "-lm"]
        if not shutil.which("cc") or subprocess.run(words, stderr=subprocess.DEVNULL, check=False).returncode:
            print("Modest is left out: are gcc, libmodest-dev there?", file=sys.stderr)
            return None
        return ran([program], page, selectors, runs)


def pup(page, selectors, runs):
    """pup's whole run with all selectors, less one with a selector that nothing matches."""
    def whole(text):
        with open(page, "rb") as file:
            words = ["pup", text]
            return min(timed(words, file) for _ in range(runs))

    parse = whole(".nothing-has-this-class")
    rest = whole(", ".join(selectors)) - parse
    return {"parse": parse, "first": rest, "later": rest, "found": None}


def timed(words, file):
    """The seconds of one run of a command on a file."""
    file.seek(0)
    begin = time.perf_counter()
    subprocess.run(words, stdin=file, stdout=subprocess.DEVNULL, check=True)
    return time.perf_counter() - begin


def engine(name, page, selectors, runs):
    """What the engine's program in bench/engines prints, or nothing where its packages aren't there."""
    words, packages = ENGINES[name]
    figures = ran(words, page, selectors, runs)
    if figures is None:
        print(f"{name} is left out: are {', '.join(packages)} there?", file=sys.stderr)
    return figures


def ran(words, page, selectors, runs):
    """What a program prints for a page, a file of selectors and a number of runs, or nothing where it fails."""
    with tempfile.NamedTemporaryFile("w", encoding="utf-8") as file:
        file.write("\n".join(selectors) + "\n")
        file.flush()
        done = subprocess.run([*words, page, file.name, str(runs)], cwd=TOP / "bench" / "engines",
                              stdout=subprocess.PIPE, stderr=subprocess.DEVNULL, env={**os.environ, **NODE}, check=False)
    return None if done.returncode else json.loads(done.stdout)


def versions():
    """The versions of the packages that are there."""
    packages = sorted({package for _, listed in ENGINES.values() for package in listed} | {"libmodest-dev", "pup", "valgrind"})
    words = ["dpkg-query", "-W", "-f", "${Package} ${Version}\n", *packages]
    return subprocess.run(words, stdout=subprocess.PIPE, stderr=subprocess.DEVNULL, check=False).stdout.decode().splitlines()


def said(name, count, figures, tags, size):
    later = figures["later"]
    return (f"{name:11} {count:5d} selectors: page {figures['parse'] * 1e3:7.1f} ms, first {figures['first'] * 1e3:8.1f} ms,"
            f" later {later * 1e3:8.1f} ms: {tags / later:11,.0f} tags a second, {1 / later:7.1f} pages a second,"
            f" {1 / (later + figures['parse']):6.1f} and {size / 1e6 / (later + figures['parse']):6.1f} MB/s with the page read;"
            f" {figures['found'] or '?'} found")


def measured(program, from_bytes, page, selectors, runs):
    """The figures of each engine that is there."""
    figures = {"zugrenja": zugrenja(from_bytes, page, selectors, runs), "lol_match": lol_match(program, page, selectors, runs)}
    figures |= {name: engine(name, page, selectors, runs) for name in ENGINES}
    figures["Modest"] = modest(page, selectors, runs)
    figures["pup"] = pup(page, selectors, runs) if shutil.which("pup") else None
    return {name: one for name, one in figures.items() if one}


def record(conditions, page, tags, rows):
    """Keeps the figures under their date and commit."""
    file = TOP / "bench" / "results" / f"{conditions['date']}-{conditions['commit']}-peers.json"
    recorded = {**conditions, "packages": versions(), "page": page, "tags": tags, "peers": rows}
    file.write_text(json.dumps(recorded, indent=1) + "\n", encoding="utf-8")
    print(f"kept in {file.relative_to(TOP)}")


def main():
    words = argparse.ArgumentParser(description=__doc__.split("\n", maxsplit=1)[0])
    words.add_argument("--port", help="the program (crates/lol_match/out/lol_match, built if it isn't there)")
    words.add_argument("--bytes", type=pathlib.Path, default=ZUGRENJA, help="the program from bytes to matches")
    words.add_argument("--page", default=PAGE, help=f"a page of HTML ({PAGE}, of the package valgrind)")
    words.add_argument("--counts", default="10,100,1000", help="numbers of selectors")
    words.add_argument("--runs", type=int, default=5)
    words.add_argument("--record", action="store_true", help="keep the figures in bench/results")
    asked = words.parse_args()
    program, conditions = port(asked.port), circumstances()
    html = pathlib.Path(asked.page).read_text(encoding="utf-8", errors="replace")
    tags, rows = len(re.findall(r"<[a-zA-Z]", html)), []
    print(", ".join(f"{name} {value}" for name, value in conditions.items() if value != ""))
    print(f"{asked.page}: {len(html) / 1e3:.0f} kB, {tags} start tags")
    for count in map(int, asked.counts.split(",")):
        for name, figures in measured(program, asked.bytes.resolve(), asked.page, drawn(html, count), asked.runs).items():
            print(said(name, count, figures, tags, os.path.getsize(asked.page)), flush=True)
            rounded = {key: value if key == "found" else round(value, 6) for key, value in figures.items()}
            rows.append({"engine": name, "selectors": count, **rounded})
    if asked.record:
        record(conditions, asked.page, tags, rows)


if __name__ == "__main__":
    main()
