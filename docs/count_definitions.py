"""Counts the definitions that a reader of a function's clauses must believe: python3 docs/count_definitions.py [--list] FILE FUNCTION [CLAUSE ..]

They are those of crates/*/specs that the clauses name, those that these name, and so on; std's and the code's own types aren't counted. With
--check it compares the numbers that README.md and docs/DEFINITIONS.md give, each in a comment `count: FILE FUNCTION CLAUSE ..`, and the exit
status is 1 if one differs.
"""

import re
import sys
from pathlib import Path

TOP = Path(__file__).resolve().parent.parent
USE = re.compile(r"^(?:ghost )?use Rattle\.(\w+)\.specs\.([\w.]+?)(?:\.\{(.*?)\}| as (\w+));?$", re.M)
HEAD = re.compile(r"^ *(?:(?:abbrev|unfoldable|pub|record|data) )*([^\s:(){]+) ")
WORD = re.compile(r"[^\s(){}\[\],;.λ→×]+(?:\.[^\s(){}\[\],;.→×]+)*")
COUNT = re.compile(r"(\d[\d,]*) definitions, (\d[\d,]*) lines <!-- count: (\S+) (\w+) ([\w ]+?) -->")


class Module:
    """A file of definitions: what it takes from others, and the lines of each that it has."""

    def __init__(self, path: Path) -> None:
        text = path.read_text(encoding="utf-8")
        self.taken, self.aliases = taken_by(text)
        self.blocks: dict[str, list[str]] = {}
        block: list[str] | None = None
        for line in text.split("\n"):
            if not line.strip() or line.lstrip().startswith(("--", "use ", "module ")):
                block = None
            elif block is None and (head := HEAD.match(line)):
                block = self.blocks.setdefault(head[1], [line])
            elif block is not None:
                block.append(line)


def taken_by(text: str) -> tuple[dict[str, tuple[str, str, str]], dict[str, tuple[str, str]]]:
    """The names that a file takes from modules, and those of whole modules."""
    taken, aliases = {}, {}
    for crate, module, names, alias in USE.findall(text):
        if alias:
            aliases[alias] = (crate, module)
        for name in filter(None, (part.strip() for part in names.split(","))):
            own, _, other = name.partition(" as ")
            taken[other or own] = (crate, module, own)
    return taken, aliases


class Specs:
    def __init__(self) -> None:
        self.modules: dict[tuple[str, str], Module] = {}

    def module(self, crate: str, name: str) -> Module | None:
        path = TOP / "crates" / crate / "specs" / (name.replace(".", "/") + ".antt")
        if not path.is_file():
            return None
        return self.modules.setdefault((crate, name), Module(path))

    def named(self, words: set[str], taken: dict, aliases: dict, own: tuple[str, str] | None):
        """The definitions that words of a text stand for."""
        for word in words:
            first, _, rest = word.partition(".")
            if word in taken or first in taken:
                yield taken.get(word) or taken[first]
            elif first in aliases and rest:
                yield (*aliases[first], rest)
            elif own and first in self.modules[own].blocks:
                yield (*own, first)

    def closure(self, words: set[str], taken: dict, aliases: dict) -> dict[tuple[str, str, str], int]:
        """Each definition that these words lead to, with its lines."""
        found: dict[tuple[str, str, str], int] = {}
        left = list(self.named(words, taken, aliases, None))
        while left:
            crate, name, own = left.pop()
            module = self.module(crate, name)
            if (crate, name, own) in found or module is None or own not in module.blocks:
                continue
            lines = module.blocks[own]
            found[crate, name, own] = len(lines)
            left += self.named(set(WORD.findall("\n".join(lines))), module.taken, module.aliases, (crate, name))
        return found


def clauses_of(path: Path, function: str, wanted: list[str]) -> tuple[str, str]:
    """The text of a function's clauses, and of its file."""
    text = path.read_text(encoding="utf-8")
    rest = text[re.search(rf"fn {function}\b", text).end() :]
    head = rest[: re.search(r"^ *\{$", rest, re.M).start()]
    clauses = re.split(r"^ *ensures\*? ", head, flags=re.M)[1:]
    return "\n".join(c for c in clauses if not wanted or c.split()[0] in wanted), text


def count(file: str, function: str, wanted: list[str]) -> dict[tuple[str, str, str], int]:
    clauses, text = clauses_of(TOP / "crates" / file, function, wanted)
    return Specs().closure(set(WORD.findall(clauses)), *taken_by(text.replace("    ghost use", "ghost use")))


def main() -> int:
    words = sys.argv[1:]
    if words == ["--check"]:
        faults = 0
        for page in ("README.md", "docs/DEFINITIONS.md"):
            for definitions, lines, file, function, wanted in COUNT.findall((TOP / page).read_text(encoding="utf-8")):
                found = count(file, function, wanted.split())
                now = (len(found), sum(found.values()))
                if now != (int(definitions.replace(",", "")), int(lines.replace(",", ""))):
                    print(f"{page}: {function} names {now[0]} definitions, {now[1]} lines")
                    faults += 1
        return int(faults > 0)
    listed = words[:1] == ["--list"]
    file, function, *wanted = words[listed:]
    found = count(file, function, wanted)
    if listed:
        for (crate, name, own), lines in sorted(found.items()):
            print(f"{crate}/specs/{name}: {own}, {lines}")
    print(f"{len(found)} definitions, {sum(found.values())} lines, {len({key[:2] for key in found})} files")
    return 0


if __name__ == "__main__":
    sys.exit(main())
