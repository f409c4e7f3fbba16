#!/usr/bin/env python3
"""Tries the wrong bodies, FILE.FUNCTION.WHAT_IS_WRONG.edit in crates/NAME/must-fail and crates/NAME/wrong-bodies, many in one check: the prover
must refuse each. Those of must-fail are tried by `rt ci` too, each by itself.

    python3 docs/wrong_bodies.py                     all of them, over the libraries that `rt ci` left
    python3 docs/wrong_bodies.py lol_css lol_vm      those of these crates, over what `rt check` left too
    python3 docs/wrong_bodies.py --only limiter      those whose name has this word
    python3 docs/wrong_bodies.py --beside            those that `rt ci` doesn't try
    python3 docs/wrong_bodies.py --singly            each in a check of its own
    python3 docs/wrong_bodies.py --read              reads them alone: each says what it changes, and the sources have that once
    python3 docs/wrong_bodies.py --page              all, and writes docs/edits.txt from what refused them; with crates' names, their parts of it

An edit is a line 'file: src/..', then pairs of lines 'old: ' and 'new: '; each 'old:' stands once in that file. An edit of a constant names the
function that is to fail, by a line 'function: OWNER::NAME'. A function is proved from its own
body and the contracts of what it calls, and edits change bodies alone. So one check tries many wrong bodies, one for each function, and each
must be refused by a goal of its own function. What such a check doesn't decide is tried again with fewer others, and by itself in the end.
The last line is 'N passed, M failed'.
"""

import argparse
import os
import re
import shutil
import subprocess
import sys
import tempfile
from concurrent.futures import ThreadPoolExecutor
from dataclasses import dataclass, field
from pathlib import Path

import crates

PAGE = crates.ROOT / "docs/edits.txt"
HEAD = """# What refuses each wrong body. `python3 docs/wrong_bodies.py --page` writes this file.
#
# A line has a function and its wrong bodies. Each is refused at a goal of that function: at a clause of its contract or, where brackets
# follow, at what they name (an invariant of a loop or a type, a condition of a call, a step of a proof). Those between stars are in
# crates/*/wrong-bodies, the others in crates/*/must-fail, which `rt ci` tries too.
"""
GATE, BESIDE = "must-fail", "wrong-bodies"
# So many wrong bodies are tried in a check of their functions and of what these call, more in one of the whole crate.
FEW = 8
# What a check takes of memory at most, in KiB.
CHECK_KIB = 5_000_000
FUNCTION = re.compile(r'(\s*)(?:pub(?:\([a-z]+\))? )?(?:const )?(?:unsafe )?(?:extern "C" )?fn (\w+)')
IMPL = re.compile(r"(?:unsafe )?impl\b(?:<(?P<parameters>.*?)>(?= ))? ?(?:(?P<trait>[\w:]+)(?:<(?P<argument>\w+).*?>)? for )?(?P<type>[\w:&' ]+)(?:<(?P<arguments>.*)>)? \{")
TRAIT = re.compile(r"(?:pub(?:\([a-z]+\))? )?trait (\w+)")
# What the prover says of a goal that isn't proved, and of what it didn't try since something else failed.
GOAL = re.compile(r"(?:note: )?(?:\./)?(?P<file>(?:src|proofs)/\S+?):(?P<line>\d+):\d+: (?P<said>.*)")
OPEN = re.compile(r"^error: (?!.*was not admitted)|^it is not proved that")
UNREAD = re.compile(r"(?P<file>src/\S+?):(?P<line>\d+):\d+: error\[")
NAMELESS = re.compile(r"has no field|is not in scope|has no `")
LIMIT = re.compile(r"antt ran out of|outgrew the memory limit|stopped at the step limit|could not tell")
KINDS = [
    ("clause", r"clause-|(^|-)returns|^ensures"),
    ("invariant", r"-preserved|-init$|-smaller$|^invariant"),
    ("condition", r"requires|^overflow_|^bounds-|^slice_bounds|^nonzero"),
]


@dataclass
class WrongBody:
    """An edit, the function that it changes, and what refused it once that is known."""

    crate: str
    name: str
    # whether `rt ci` tries it too
    is_in_gate: bool
    # files, and what stands there once, and what is put in its place
    changes: list[tuple[str, str, str]]
    # the lines that are changed, counted from 0
    lines: dict[tuple[str, int], str] = field(default_factory=dict)
    # the file of its function, the type or trait that owns it, its name, its first and last line, and the cycle of calls that it belongs to
    file: str = ""
    owner: str = ""
    function: str = ""
    span: tuple[int, int] = (0, 0)
    cycle: str = ""
    # the goal that failed, or what is wrong with the edit or its verdict
    kind: str = ""
    refused_by: str = ""
    fault: str = ""

    @property
    def site(self) -> tuple[str, ...]:
        """What only one wrong body of a check may change."""
        return (self.cycle,) if self.cycle else (self.file, self.owner, self.function)

    def is_at(self, at: re.Match) -> bool:
        """Whether the prover speaks of a line of its function."""
        return at["file"] == self.file and self.span[0] <= int(at["line"]) <= self.span[1]


def read(path: Path) -> WrongBody:
    file, old, changes, told = "", "", [], ""
    for line in path.read_text().split("\n"):
        if line.startswith("file: "):
            file = line.removeprefix("file: ").strip()
        elif line.startswith("function: "):
            told = line.removeprefix("function: ").strip()
        elif line.startswith("old: "):
            old = line.removeprefix("old: ")
        elif line.startswith("new:"):
            changes.append((file, old, line.removeprefix("new:").removeprefix(" ")))
    owner, _, function = told.rpartition("::")
    body = WrongBody(path.parent.parent.name, path.stem, path.parent.name == GATE, changes, owner=owner, function=function)
    if not changes or any(not file.startswith("src/") for file, _, _ in changes):
        body.fault = "it changes no file of src/"
    return body


def function_at(lines: list[str], at: int) -> tuple[int, str]:
    """The line at which the function begins that a line belongs to, and its name; or -1."""
    first = FUNCTION.match(lines[at])
    if first:
        return at, first[2]
    depth = len(lines[at]) - len(lines[at].lstrip())
    for number in range(at - 1, -1, -1):
        found = FUNCTION.match(lines[number])
        if found and len(found[1]) < depth:
            return number, found[2]
        if re.match(r"[^\s{}#/)\]w]", lines[number]):
            break
    return -1, ""


def words_of(arguments: str) -> list[str]:
    """The types of a list of arguments by their last names, without those that have them and without lifetimes."""
    while "<" in arguments:
        arguments = re.sub(r"<[^<>]*>", "", arguments)
    return [re.sub(r":.*|.*::", "", it.strip()) for it in arguments.split(",") if it.strip() and not it.strip().startswith("'")]


def owner_of(lines: list[str], at: int) -> str:
    """The trait that a method stands in, or the type of its impl as the prover writes it: with the trait's name after it, and its arguments
    where they aren't the impl's parameters."""
    if not lines[at][:1].isspace():
        return ""
    for number in range(at - 1, -1, -1):
        trait, found = TRAIT.match(lines[number]), IMPL.match(lines[number])
        if trait:
            return trait[1]
        if found:
            argument, given = found["argument"] or "", words_of(found["arguments"] or "")
            own = re.sub(r".*::|[&' ]", "", found["type"]) + (found["trait"] or "").rpartition("::")[2] + argument[:1].upper() + argument[1:]
            return own if given == words_of(found["parameters"] or "")[-len(given) or None :] or found["trait"] else "+".join([own, *given])
    return ""


def begin_of(body: WrongBody, lines: list[str], at: int) -> int:
    """The line at which the function begins that a wrong body changes at a line, or that its edit names; or -1."""
    if not body.function:
        begins, body.function = function_at(lines, at)
        body.owner = owner_of(lines, begins) if begins >= 0 else ""
        return begins
    named = [number for number, line in enumerate(lines) if (found := FUNCTION.match(line)) and found[2] == body.function]
    return next((number for number in named if owner_of(lines, number) == body.owner), -1)


def locate(body: WrongBody, folder: Path) -> None:
    """Finds the lines and the function that a wrong body changes, from the files as they stand, or says what is wrong with the edit."""
    was: dict[str, str] = {}
    texts: dict[str, str] = {}
    for file, old, new in body.changes:
        text = texts.get(file) or was.setdefault(file, (folder / file).read_text())
        if text.count(old) != 1:
            body.fault = f"an 'old:' text is in {file} {text.count(old)} times, and not once"
            return
        texts[file] = text.replace(old, new)
    for file, text in texts.items():
        pairs = enumerate(zip(was[file].split("\n"), text.split("\n")))
        body.lines.update({(file, number): new for number, (old, new) in pairs if old != new})
    if not body.lines:
        body.fault = "it changes nothing"
        return
    body.file, at = min(body.lines)
    lines = was[body.file].split("\n")
    begins = begin_of(body, lines, at)
    if begins < 0:
        body.fault = "it changes no function, and names none by a line 'function: OWNER::NAME'"
        return
    first = begins
    while first and lines[first - 1].lstrip().startswith(("#[", "///")):
        first -= 1
    cycle = re.search(r"#\[cycle\((\w+)\)\]", "\n".join(lines[first:begins]))
    body.cycle = cycle[1] if cycle else ""
    ends = re.match(r"\s*", lines[begins])[0] + "}"
    body.span = first + 1, next((number for number in range(begins, len(lines)) if lines[number] == ends), begins) + 1


def apply(bodies: list[WrongBody], folder: Path, room: Path) -> None:
    """Writes the crate with these wrong bodies into a folder."""
    for part in crates.PARTS:
        if (folder / part).is_dir():
            shutil.copytree(folder / part, room / part)
    changed = {at: line for body in bodies for at, line in body.lines.items()}
    for file in {file for file, _ in changed}:
        lines = (folder / file).read_text().split("\n")
        (room / file).write_text("\n".join(changed.get((file, number), line) for number, line in enumerate(lines)))


class Crate:
    """A crate whose wrong bodies are tried, and the words that check it."""

    def __init__(self, name: str, rows: dict[str, list[str]], bodies: list[WrongBody]):
        self.name, self.bodies = name, bodies
        self.folder = crates.ROOT / "crates" / name
        self.words = [*crates.rattle("check", rows, name), "--jobs", "1"]
        sources = {str(path.relative_to(self.folder)): path.read_text() for path in sorted(self.folder.glob("src/**/*.rt"))}
        types = re.compile(r"^(?:pub(?:\([a-z]+\))? )?(?:struct|enum|trait) (\w+)", re.M)
        self.declared = {name: file for file, text in sources.items() for name in types.findall(text)}

    def check(self, bodies: list[WrongBody], kept: str, only: list[str]) -> tuple[int, list[str]]:
        """What the prover says of the crate with these wrong bodies, over what earlier checks of it kept."""
        with tempfile.TemporaryDirectory(prefix="wrong-bodies-") as room:
            apply(bodies, self.folder, Path(room))
            words = [*self.words, "--incremental", kept, *(word for name in only for word in ("--only", name))]
            ran = subprocess.run(words, cwd=room, stdin=subprocess.DEVNULL, stdout=subprocess.PIPE, stderr=subprocess.STDOUT, text=True, errors="replace")
            return ran.returncode, ran.stdout.split("\n")

    def path_of(self, body: WrongBody) -> str:
        """The function of a wrong body as the prover names it, below the crate: a method stands where its type is declared."""
        file = self.declared.get(body.owner.partition("+")[0], body.file)
        modules = re.sub(r"^src/|/mod(?=\.rt$)|\.rt$", "", file)
        parts = [*([] if modules in ("lib", "main") else modules.split("/")), body.owner, body.function]
        return "::".join(part for part in parts if part)

    def goals_of(self, body: WrongBody, said: list[str]) -> list[str]:
        """The goals of a wrong body's function that aren't proved; of a proof file that doesn't read, what it says."""
        path = self.path_of(body)
        closures = f"fn::{path.rpartition(f'{body.owner}::')[1]}{body.function}" if body.owner else f"fn::{body.function}"
        modules = path.removesuffix(body.function).removesuffix(f"{body.owner}::")
        folders = [f"proofs/{it.replace('::', '/')}/" for it in (path, f"{modules}{closures}")]
        found = []
        for line in said:
            if line.startswith(f"fn {self.name}::{path}: no proof: expected answers"):
                found += re.findall(r"`search` did not prove `([^`]*)`", line)[:1]
            at = GOAL.match(line)
            if not at or not OPEN.search(at["said"]):
                continue
            is_own = any(at["file"].startswith(it) for it in folders) or body.cycle and f"/+{body.cycle}/" in at["file"]
            if is_own or body.is_at(at):
                goal = re.search(r"`([^`]*)`", at["said"])
                found.append(at["said"] if NAMELESS.search(at["said"]) or not goal else goal[1])
        return found

    def judge(self, body: WrongBody, said: list[str]) -> bool:
        """Whether a check decided on a wrong body, and if so, what refused it."""
        for line in said:
            at = UNREAD.match(line)
            if at and body.is_at(at):
                body.fault = f"BAD EDIT: {line}"
                return True
        goals = self.goals_of(body, said)
        if goals:
            kinds = [(kind_of(goal), goal) for goal in goals]
            body.kind, body.refused_by = min(kinds, key=lambda it: (it[0] != "clause", it[0] == "name"))
            return True
        if f"fn {self.name}::{self.path_of(body)}: proved" in said:
            body.fault = "NOT REFUSED: its function is still proved"
            return True
        return False

    def judge_alone(self, body: WrongBody, kept: str) -> None:
        """Tries a wrong body by itself: what isn't proved then isn't proved by its doing."""
        status, said = self.check([body], kept, [self.path_of(body)] if body.function else [])
        if self.judge(body, said):
            return
        told = [line for line in said if GOAL.match(line) and ": error" in line]
        if status == 1 and re.match(r"logic=not-proved|only=", said[-2] if len(said) > 1 else ""):
            body.refused_by = re.sub(r".*?: error: ", "", told[0])[:120] if told else "its function isn't proved"
            body.kind = kind_of(body.refused_by)
        elif status == 3 and any(LIMIT.search(line) for line in said):
            body.refused_by, body.kind = "a limit of the prover", "limit"
        else:
            body.fault = f"NO VERDICT, status {status}: " + "; ".join(told[:2] or said[:4])

    def try_all(self, singly: bool) -> None:
        """Tries each wrong body, together where that decides."""
        left = [body for body in self.bodies if not body.fault]
        with tempfile.TemporaryDirectory(prefix="wrong-bodies-kept-") as kept:
            is_whole = len(left) > FEW
            while left and not singly:
                together = list({body.site: body for body in reversed(left)}.values())
                _, said = self.check(together, kept, [] if is_whole else [self.path_of(body) for body in together])
                decided = [body for body in together if self.judge(body, said)]
                left = [body for body in left if body not in decided]
                is_whole = False
                if not decided:
                    break
            for body in left:
                self.judge_alone(body, kept)


def kind_of(goal: str) -> str:
    if NAMELESS.search(goal):
        return "name"
    return next((kind for kind, pattern in KINDS if re.search(pattern, goal)), "proof")


def write_page(bodies: list[WrongBody], kept: set[str]) -> None:
    """Writes the page anew: of each crate its functions, each with its wrong bodies; those that no clause refuses with what refuses them.
    The parts of the crates that are kept stay as they stand."""
    parts = {part.partition("\n")[0]: part for part in PAGE.read_text().removeprefix(HEAD).strip("\n").split("\n\n")} if kept else {}
    parts = {crate: part for crate, part in parts.items() if crate in kept}
    for crate in {body.crate for body in bodies}:
        rows: dict[str, list[WrongBody]] = {}
        for body in (it for it in bodies if it.crate == crate):
            rows.setdefault(body.name.rpartition(".")[0] or body.name, []).append(body)
        lines = [crate]
        for function, row in sorted(rows.items()):
            row = sorted(row, key=lambda body: body.kind != "clause")
            told = [("{}" if body.is_in_gate else "*{}*").format(body.name.split(".")[-1].replace("_", " ")) for body in row]
            told = [name if body.kind == "clause" else f"{name} ({body.kind} {body.refused_by})" for body, name in zip(row, told)]
            lines.append(f"  {function}: {'; '.join(told)}")
        parts[crate] = "\n".join(lines)
    PAGE.write_text(HEAD + "\n" + "\n\n".join(parts[crate] for crate in sorted(parts)) + "\n")


def lanes() -> int:
    """How many checks run side by side: one on each processor, if memory holds them."""
    available = re.search(r"MemAvailable:\s+(\d+)", Path("/proc/meminfo").read_text())
    return max(1, min(len(os.sched_getaffinity(0)), int(available[1]) // CHECK_KIB))


def bodies_of(name: str, given: argparse.Namespace) -> list[WrongBody]:
    """The wrong bodies of a crate that are to be tried, each with the function that it changes."""
    folder = crates.ROOT / "crates" / name
    paths = [path for part in ([BESIDE] if given.beside else [GATE, BESIDE]) for path in (folder / part).glob("*.edit")]
    bodies = [read(path) for path in sorted(paths, key=lambda path: path.name)]
    bodies = [body for body in bodies if given.only in body.name and (not given.crates or name in given.crates)]
    for body in bodies:
        locate(body, folder)
    return bodies


def try_crates(tried: list[Crate], rows: dict[str, list[str]], given: argparse.Namespace) -> None:
    """Tries the wrong bodies of these crates side by side, the greatest crate first."""
    below = {library for crate in tried for library in crates.libraries(rows, crate.name)}
    stale = sorted(library for library in below if not crates.is_left(library) and not crates.is_built(library))
    if stale:
        sys.exit(f"there is no library of the files as they stand for {' '.join(stale)}: run rt ci first, or rt check in a crate above")
    size = lambda crate: sum(path.stat().st_size for path in crates.files(crate.name) if path.suffix == ".antt")
    with ThreadPoolExecutor(given.jobs) as pool:
        for _ in pool.map(lambda crate: crate.try_all(given.singly), sorted(tried, key=size, reverse=True)):
            pass


def main() -> int:
    words = argparse.ArgumentParser(description="Tries wrong bodies: the prover must refuse each.")
    words.add_argument("crates", nargs="*")
    words.add_argument("--only", default="")
    words.add_argument("--beside", action="store_true")
    words.add_argument("--singly", action="store_true")
    words.add_argument("--read", action="store_true")
    words.add_argument("--page", action="store_true")
    words.add_argument("--jobs", type=int, default=lanes())
    given = words.parse_args()
    if given.page and (given.only or given.beside or given.read):
        words.error("--page tries all of a crate, so it takes no --only, no --beside and no --read")
    rows = crates.rows()
    tried = [Crate(name, rows, bodies) for name in rows if (bodies := bodies_of(name, given))]
    if not given.read:
        try_crates(tried, rows, given)
    bodies = [body for crate in tried for body in crate.bodies]
    for body in bodies:
        if body.fault or not given.read:
            print(f"{body.crate}/{body.name}: {body.fault or f'refused, by {body.kind} {body.refused_by}'}")
    failed = [body for body in bodies if body.fault]
    if given.page and not failed:
        write_page(bodies, set(rows) - set(given.crates) if given.crates else set())
    print(f"{len(bodies) - len(failed)} {'read' if given.read else 'passed'}, {len(failed)} failed")
    return 1 if failed or not bodies else 0


if __name__ == "__main__":
    sys.exit(main())
