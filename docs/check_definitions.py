"""Changes one word of a definition at a time, and of the code alike, and tells which row or test refuses it.

A row is computed from definitions alone: so the definitions that the rows stand on are copied into one small crate, with the types of the code
that they name, and the rows are proved there. It needs no other crate, and a change of a definition is tried in seconds. A change of the code is
built with the tests of one crate, by `rt try --test`, which proves nothing.
"""

import argparse
import os
import re
import shutil
import subprocess
from concurrent.futures import ThreadPoolExecutor

# The modules whose contracts are rows.
ROWS = [
    ("lol_css", "rows"),
    ("lol_reasons", "worked_keys"),
    ("lol_reasons", "rows"),
    ("lol_script", "laws"),
    ("lol_tags", "rows"),
    ("lol_vectors", "caseless_names"),
    ("lol_vectors", "void_names"),
    ("lol_vectors", "worked_answers"),
    ("lol_vectors", "worked_runs"),
    ("lol_vectors", "worked_texts"),
]

CRATE = r"Rattle\.((?:lol|test)_\w+)"
SPEC = re.compile(CRATE + r"\.specs\.(?!declared)(\w+)")
DECLARED = re.compile(CRATE + r"\.specs\.declared\.([\w.]+)")
# A row or a test, as definition_refusals.txt names it, and a clause of it.
NAMED = re.compile(r"`((?:lol|test)_\w+)::((?:\w+::)*)(\w+)(?:, (\w+))?`")
DECLARATION = re.compile(
    r"^(?:pub(?:\(crate\))? )?(?:(?:enum|struct) (\w+)[^;{]*\{.*?^\}|type (\w+)[^;]*;)", re.M | re.S
)


def read(path):
    with open(path, encoding="utf-8") as file:
        return file.read()


def write(path, text):
    os.makedirs(os.path.dirname(path), exist_ok=True)
    with open(path, "w", encoding="utf-8") as file:
        file.write(text)


def renamed(text):
    """The same text, where each crate's definitions and proofs stand in a folder of the one crate `definitions`."""
    text = re.sub(CRATE + r"\.specs\.declared\.", r"Rattle.definitions.specs.declared.\1.", text)
    text = re.sub(CRATE + r"\.specs\.(?!declared)", r"Rattle.definitions.specs.\1.", text)
    return re.sub(CRATE + r"\.proofs\.", r"Rattle.definitions.proofs.\1.", text)


class Definitions:
    """The crate of the definitions that the rows stand on."""

    def __init__(self, repository, folder):
        self.crates = f"{repository}/crates"
        self.names = sorted(name for name in os.listdir(self.crates) if name.startswith("lol_"))
        self.folder = f"{folder}/crates/definitions"
        self.specs = set()
        self.types = {}
        self.sources = {}
        self.declarations = {}
        write(f"{folder}/crates.txt", "definitions:\n")
        self.pending = []
        for crate, module in ROWS:
            self.add_rows(crate, module)
        while self.pending:
            crate, name = self.pending.pop()
            text = read(f"{self.crates}/{crate}/specs/{name}.antt")
            self.cite(text)
            write(self.spec_path(crate, name), renamed(text))
        self.write_modules()

    def spec_path(self, crate, name):
        return f"{self.folder}/specs/{crate}/{name}.antt"

    def add_rows(self, crate, module):
        text = read(f"{self.crates}/{crate}/src/{module}.rt")
        self.cite(text)
        self.add_source(crate, (module,), renamed(text))
        proofs = f"{self.crates}/{crate}/proofs"
        for base, _, files in os.walk(f"{proofs}/{module}"):
            for file in files:
                text = read(f"{base}/{file}")
                self.cite(text)
                write(f"{self.folder}/proofs/{crate}/{os.path.relpath(base, proofs)}/{file}", renamed(text))

    def cite(self, text):
        """Takes in what a text names: files of definitions, and types of the code."""
        for match in SPEC.finditer(text):
            cited = (match[1], match[2])
            if cited not in self.specs:
                self.specs.add(cited)
                self.pending.append(cited)
        for match in DECLARED.finditer(text):
            names = [name for name in match[2].split(".") if name[:1].isupper()]
            self.add_type(match[1], names[0])

    def types_of(self, crate):
        """The types of a crate: the module of each, and its declaration. Of two with one name the public one is meant."""
        if crate not in self.declarations:
            found = self.declarations[crate] = {}
            root = f"{self.crates}/{crate}/src"
            for base, _, files in os.walk(root):
                for file in sorted(files):
                    module = tuple(os.path.relpath(f"{base}/{file}", root)[: -len(".rt")].split("/"))
                    for match in DECLARATION.finditer(read(f"{base}/{file}")):
                        name = match[1] or match[2]
                        if name not in found or match[0].startswith("pub"):
                            found[name] = (module, match[0])
        return self.declarations[crate]

    def add_type(self, crate, name):
        """Copies a type's declaration, without comments and derives, and those of the repository's types that it names."""
        if (crate, name) in self.types:
            return
        module, text = self.types_of(crate)[name]
        self.types[crate, name] = module
        text = re.sub(r"^\s*(//|#\[).*\n", "", text, flags=re.M)
        file = read(f"{self.crates}/{crate}/src/{'/'.join(module)}.rt")
        imports = ""
        for other in sorted(set(re.findall(r"\b[A-Z]\w+", text)) - {name}):
            named = re.search(rf"^use [^;]*\b{other}\b|^pub \w+ {other}\b", file, re.M)
            home = next((c for c in [crate, *self.names] if other in self.types_of(c)), None)
            if named and home:
                self.add_type(home, other)
                there = self.types[home, other]
                if (home, there) != (crate, module):
                    imports += f"use crate::{home}::{'::'.join(there)}::{other};\n"
        self.add_source(crate, module, imports + text + "\n")

    def add_source(self, crate, module, text):
        modules = self.sources.setdefault(crate, {})
        modules[module] = modules.get(module, "") + text

    def write_modules(self):
        """Writes the files that name the others."""
        crates = sorted({crate for crate, _ in self.specs})
        write(f"{self.folder}/specs/Lib.antt", "".join(f"pub mod {crate}\n" for crate in crates))
        for crate in crates:
            names = sorted(name for home, name in self.specs if home == crate)
            write(f"{self.folder}/specs/{crate}.antt", "".join(f"pub mod {name}\n" for name in names))
        root = "#![tactic(auto)]\n" + "".join(f"pub mod {crate};\n" for crate in sorted(self.sources))
        write(f"{self.folder}/src/lib.rt", root)
        for crate, modules in self.sources.items():
            below = {}
            for module, text in modules.items():
                write(f"{self.folder}/src/{crate}/{'/'.join(module)}.rt", text)
                for length in range(len(module)):
                    below.setdefault(module[:length], set()).add(module[length])
            for module, names in below.items():
                path = f"{self.folder}/src/{'/'.join((crate, *module))}.rt"
                text = modules.get(module, "")
                write(path, "".join(f"pub mod {name};\n" for name in sorted(names)) + text)


class Change:
    """One word of a definition, and of the code alike."""

    def __init__(self, block):
        self.edits = {"definition": [], "code": []}
        self.tests = None
        kind = None
        for line in block.splitlines():
            key, _, text = line.partition(": ") if ": " in line else (line.rstrip(":"), "", "")
            if key in ("section", "change", "tests"):
                setattr(self, key, text)
            elif key in self.edits:
                kind = key
                self.edits[kind].append([text])
            else:
                self.edits[kind][-1].append(text)

    def apply(self, kind, crates, target):
        """Writes the changed files, each where `target` of its path and text says."""
        changed = {}
        for path, *pairs in self.edits[kind]:
            text = changed.get(path) or read(f"{crates}/{path}")
            for old, new in zip(pairs[::2], pairs[1::2]):
                if text.count(old) != 1:
                    raise SystemExit(f"{self.change}: {text.count(old)} times in {path}: {old}")
                text = text.replace(old, new)
            changed[path] = text
        for path, text in changed.items():
            target(path, text)


def rt(folder, *words):
    done = subprocess.run(["rt", *words], cwd=folder, capture_output=True, text=True)
    return done.stdout + done.stderr


def clause_at(folder, path, line):
    """The clause that stands on a line of a proof file: its name, or nothing where the file has one answer alone."""
    text = read(f"{folder}/{path}").splitlines()[line - 1]
    field = re.match(r"\s+(\w+) = ", text) or re.match(r"returns-clause-(\w+)", text)
    return field[1] if field else None


def rows_that_refuse(change, repository, base, folder):
    """The rows that a changed definition makes false."""
    shutil.copytree(base, folder, symlinks=True)
    crate = f"{folder}/crates/definitions"

    def put(path, text):
        home, name = re.match(r"(\w+)/specs/(\w+)\.antt", path).groups()
        write(f"{crate}/specs/{home}/{name}.antt", renamed(text))

    change.apply("definition", f"{repository}/crates", put)
    told = rt(crate, "check", "--jobs", "1")
    broken = re.findall(r"^\./specs/.*error.*", told, re.M)
    if broken:
        raise SystemExit(f"{change.change}: the changed definition doesn't read: {broken[0]}")
    refused = {}
    for match in re.finditer(r"^fn definitions::([\w:]+): not proved", told, re.M):
        refused.setdefault(match[1], [])
    for match in re.finditer(r"^\./(proofs/([\w/]+)/Answers\.antt):(\d+):\d+: error", told, re.M):
        name = clause_at(crate, match[1], int(match[3]))
        clauses = refused.setdefault(match[2].replace("/", "::"), [])
        if name and name not in clauses:
            clauses.append(name)
    shutil.rmtree(folder)
    # after the first clause of a record that fails, the others aren't judged
    return [f"{function}, {clauses[0]}" if clauses else function for function, clauses in sorted(refused.items())]


def tests_that_refuse(change, repository, folder):
    """The tests that changed code fails."""
    crates = f"{folder}/crates"
    shutil.copytree(f"{repository}/crates", crates, ignore=shutil.ignore_patterns("out", "must-fail", "wrong-bodies"))
    shutil.copy(f"{repository}/crates.txt", folder)
    change.apply("code", f"{repository}/crates", lambda path, text: write(f"{crates}/{path}", text))
    told = rt(f"{crates}/{change.tests}", "try", "--test")
    if "test result" not in told:
        raise SystemExit(f"{change.change}: the changed code isn't built: {told[-600:]}")
    shutil.rmtree(folder)
    return [f"{change.tests}::{name}" for name in re.findall(r"^test ([\w:]+) \.\.\. FAILED", told, re.M)]


def prove_unchanged(repository, folder):
    told = rt(Definitions(repository, folder).folder, "check")
    if "logic=proved" not in told:
        raise SystemExit(f"the rows aren't proved before any change:\n{told[-3000:]}")


def unresolved(repository, scratch, changes):
    """What is named and isn't there: modules of rows, definitions that no row stands on, crates of tests, and rows and tests in definition_refusals.txt."""
    crates = f"{repository}/crates"
    absent = [f"{crate}::{module}" for crate, module in ROWS if not os.path.isfile(f"{crates}/{crate}/src/{module}.rt")]
    if absent:
        return absent
    specs = Definitions(repository, scratch).specs
    for change in changes:
        for path, *_ in change.edits["definition"]:
            if tuple(path.removesuffix(".antt").split("/specs/")) not in specs:
                absent.append(f"a row on {path}")
        if change.tests and not os.path.isdir(f"{crates}/{change.tests}"):
            absent.append(change.tests)
    for match in NAMED.finditer(read(f"{repository}/docs/definition_refusals.txt")):
        crate, modules, function, clause = match.groups()
        module = modules.strip(":").replace("::", "/")
        files = [f"{crates}/{crate}/src/{module}.rt", f"{crates}/{crate}/proofs/{module}/{function}/Answers.antt"]
        text, proof = (read(path) if os.path.isfile(path) else "" for path in files)
        contract = re.search(rf"\bfn {function}\b.*?^\{{" if clause else rf"\bfn {function}\b", text, re.M | re.S)
        of_clause = rf"ensures {clause} |returns-clause-{clause} |^\s+{clause} =" if clause else ""
        if not contract or not re.search(of_clause, f"{contract[0]}\n{proof}", re.M):
            absent.append(match[0])
    return absent


def line(change, found, passes):
    named = "; ".join(name for names in found for name in names)
    return f"{'refused' if passes else 'NOT REFUSED'}: {change.section}: {change.change}: {named}"


def table_row(change, found):
    named = ", ".join(f"`{names[0]}`" for names in found if names)
    return f"| {change.section} | {change.change} | {named} |"


def main():
    arguments = argparse.ArgumentParser()
    arguments.add_argument("repository")
    arguments.add_argument("changes")
    arguments.add_argument("scratch")
    arguments.add_argument("--jobs", type=int, default=os.cpu_count())
    arguments.add_argument("--only", default="")
    arguments.add_argument("--rows", action="store_true")
    arguments.add_argument("--tests", action="store_true")
    arguments.add_argument("--table", action="store_true")
    arguments.add_argument("--read", action="store_true")
    given = arguments.parse_args()
    blocks = re.split(r"\n\s*\n", read(given.changes).strip())
    changes = [Change(block) for block in blocks if not block.startswith("#")]
    changes = [change for change in changes if given.only in f"{change.section} {change.change}"]
    if given.read:
        for change in changes:
            for kind in change.edits:
                change.apply(kind, f"{given.repository}/crates", lambda path, text: None)
        absent = unresolved(given.repository, given.scratch, changes)
        if absent:
            raise SystemExit(f"not there: {', '.join(absent)}")
        print(f"{len(changes)} changes can be made")
        return
    base = f"{given.scratch}/unchanged"
    if given.tests:
        changes = [change for change in changes if change.tests]
    else:
        prove_unchanged(given.repository, base)

    def refusals(numbered):
        """What refuses a change: a row and a test, where it has both."""
        number, change = numbered
        found = []
        if not given.tests:
            found.append(rows_that_refuse(change, given.repository, base, f"{given.scratch}/rows{number}"))
        if change.tests and not given.rows:
            found.append(tests_that_refuse(change, given.repository, f"{given.scratch}/tests{number}"))
        return change, found

    refused = 0
    with ThreadPoolExecutor(given.jobs) as jobs:
        for change, found in jobs.map(refusals, enumerate(changes)):
            passes = all(found)
            refused += passes
            print(table_row(change, found) if given.table else line(change, found, passes), flush=True)
    print(f"{refused} of {len(changes)} refused")
    raise SystemExit(0 if refused == len(changes) else 1)


main()
