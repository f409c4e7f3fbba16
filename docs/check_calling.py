"""Compares what README.md, docs/PROVED.md and the pages crates/*/CALLING.md quote with the source: python3 docs/check_calling.py

A block ```text holds functions with their clauses, ```rust and ```antt hold lines of the file that the text before them names last, and
```crates holds lines for crates.txt. Blocks of C, of Python and of a console aren't compared. The functions and clauses that the table of PROVED.md names
have to be there. Each difference is told, and the exit status is 1 if there is one.
"""

import re
import sys
from difflib import get_close_matches
from pathlib import Path

TOP = Path(__file__).resolve().parent.parent
BLOCK = re.compile(r"^```(\w*)\n(.*?)^```$", re.M | re.S)
FILE = re.compile(r"`(crates/[\w/]+\.(rt|antt))`")
SUFFIX = {"rust": "rt", "antt": "antt"}
ITEM = re.compile(
    r"^(?:impl(?:<[^\n]*?>)? (?:[^\n]* for )?|pub trait )(?P<owner>\w+)|^\}"
    r"|^(?: {4})?(?:pub(?:\(crate\))? )?fn (?P<name>\w+)(?P<rest>.*?)(?:\n *\{\}?|(?<!record) \{|;)$",
    re.M | re.S,
)
CLAUSE = re.compile(r"^ *(?=(?:requires|ensures)\*?(?: \w+)? \{)", re.M)
QUOTED_CLAUSE = re.compile(r"^  (?=requires|ensures|\.\.)", re.M)
ALIAS = re.compile(r"^pub type (\w+)<.*> = (\w+)<", re.M)


def folded(text):
    return " ".join(text.split())


def read_functions():
    """The functions by name, after that of the type and after each other name of it: signature and clauses as pages have them."""
    functions = {}
    for path in sorted(TOP.glob("crates/*/src/*.rt")):
        source = re.sub(r"^ *//.*\n", "", path.read_text(encoding="utf-8"), flags=re.M)
        source = re.sub(r"(record(?: [\w.]+)?) \{\n([^{}]*?);?\s*\}", lambda m: f"{m[1]} {{ {folded(m[2])} }}", source)
        aliases = {owner: alias for alias, owner in ALIAS.findall(source)}
        owners = [""]
        for item in ITEM.finditer(source):
            if not item["name"]:
                owner = item["owner"]
                owners = [f"{shown}::" for shown in (owner, aliases.get(owner)) if shown] or [""]
                continue
            signature, *clauses = CLAUSE.split(item["rest"])
            signature = re.sub(r"(?<=\() |,? (?=\))", "", folded(signature)).rstrip(",")
            clauses = [re.match(r"(.*?) \{(.*)\}", clause, re.S).groups() for clause in clauses]
            for owner in owners:
                function = (f"fn {owner}{item['name']}{signature}", [(head, folded(said)) for head, said in clauses])
                functions.setdefault(owner + item["name"], []).append(function)
    return functions


def function_faults(quoted, signature, clauses):
    """What differs in a quoted function, each with what the source says."""
    told, *told_clauses = [folded(part) for part in QUOTED_CLAUSE.split(quoted)]
    if told != signature:
        yield told, signature
    for clause in told_clauses:
        head, _, said = clause.partition(": ")
        if clause != ".." and not any(said == text and head in (name, name.split()[0]) for name, text in clauses):
            yield clause, dict(clauses).get(head, "no such clause")
    if ".." not in told_clauses and len(told_clauses) != len(clauses):
        yield told, f"it has {len(clauses)} clauses"


def line_faults(quoted, source):
    """The first quoted line that doesn't stand in the source after the others, with the line there that is most like it."""
    rest = iter(source)
    missing = [line for line in quoted if line and line not in rest]
    return [(line, "".join(get_close_matches(line, source, 1))) for line in missing[:1]]


def block_faults(kind, quoted, named, functions, crates):
    """What differs in a block, each with what the source says."""
    if kind == "crates":
        return [(name, "no such crate") for name in re.findall(r"\w+\b(?!:)", quoted) if name not in crates]
    if kind != "text" and not (named and named[-1].is_file()):
        return [(f"```{kind}", "the text before it names no such file")]
    if kind != "text":
        return line_faults(quoted.splitlines(), named[-1].read_text(encoding="utf-8").splitlines())
    faults = []
    for function in re.split(r"^(?=fn )", quoted, flags=re.M)[1:]:
        same_named = functions.get(re.match(r"fn ([\w:]+)", function)[1], [])
        compared = [list(function_faults(function, *other)) for other in same_named]
        faults += min(compared, key=len, default=[(function.splitlines()[0], "no such function")])
    return faults


def missing_claims(page, functions):
    """The functions that the table of a page names and that aren't there, and the clauses that none of the functions before them has."""
    for row in re.findall(r"^\| [^|]* \| (`[^|]*|law `[^|]*) \|", page, re.M):
        for part in row.split("; "):
            names, _, heads = (re.findall(r"`([\w:]+)`", half) for half in re.sub(r"\([^)]*\)", "", part).partition(": "))
            found = [(name, same) for name in names for key, same in functions.items() if key == name or key.endswith(f"::{name}")]
            clauses = {head for _, same in found for _, all_of in same for head, _ in all_of}
            yield from (name for name in names if name not in {one for one, _ in found})
            yield from (f"{part}: {head}" for head in heads if f"ensures {head}" not in clauses)


def main():
    functions, clauses, lines, differences = read_functions(), 0, 0, 0
    crates = set(re.findall(r"\w+", re.sub(r"#.*", "", (TOP / "crates.txt").read_text(encoding="utf-8"))))
    for page in [TOP / "README.md", *sorted(TOP.glob("crates/*/CALLING.md"))]:
        text = page.read_text(encoding="utf-8")
        for block in BLOCK.finditer(text):
            kind, quoted = block.groups()
            if kind in ("c", "python", "console"):
                continue
            named = [TOP / file for file, suffix in FILE.findall(text, 0, block.start()) if suffix == SUFFIX.get(kind)]
            for said, source in block_faults(kind, quoted, named, functions, crates):
                line = text.count("\n", 0, max(text.find(said[:40], block.start()), block.start())) + 1
                print(f"{page.relative_to(TOP)}:{line}: {said}\n  source: {source}")
                differences += 1
            clauses += len(re.findall(r"^  (?:requires|ensures)", quoted, re.M))
            lines += sum(kind in SUFFIX and line != "" for line in quoted.splitlines())
    for name in missing_claims((TOP / "docs/PROVED.md").read_text(encoding="utf-8"), functions):
        print(f"docs/PROVED.md: not there: {name}")
        differences += 1
    print(f"{clauses} clauses and {lines} lines were compared; {differences} differ")
    return 1 if differences else 0


if __name__ == "__main__":
    sys.exit(main())
