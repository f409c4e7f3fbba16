"""The crates of crates.txt, and how the prover is called for one of them over the libraries that `rt ci` left."""

import re
import subprocess
from pathlib import Path

ROOT = Path(__file__).resolve().parent.parent
KIT = Path(subprocess.run(["rt", "doc"], check=True, stdout=subprocess.PIPE, text=True).stdout.strip()).parent
PARTS = ("src", "specs", "proofs")


def rows() -> dict[str, list[str]]:
    """What each crate of crates.txt stands on."""
    found = re.findall(r"^(\w+)[^:#\n]*:(.*)", (ROOT / "crates.txt").read_text(), re.M)
    return {name: libraries.split() for name, libraries in found}


def libraries(rows: dict[str, list[str]], name: str) -> list[str]:
    """The repository's libraries below a crate."""
    own = [library for library in rows[name] if library in rows]
    return list(dict.fromkeys(below for library in own for below in [*libraries(rows, library), library]))


def files(name: str) -> list[Path]:
    """All that a crate is proved and built from, with its folders."""
    folders = [ROOT / "crates" / name / part for part in PARTS]
    return sorted(path for folder in folders if folder.is_dir() for path in [folder, *folder.rglob("*")])


def begun(folder: Path) -> int:
    """When a folder was made, in nanoseconds, or 0 where the file system doesn't say."""
    said = subprocess.run(["stat", "-c", "%.9W", folder], check=True, stdout=subprocess.PIPE, text=True).stdout
    return int(re.sub(r"\D", "", said) or 0)


def is_left(name: str) -> bool:
    """Whether `rt ci` left a library here, and its build began after the last change of the crate's files. A library that another command
    built has a stamp, by which `rt lib` tells whether it is still good."""
    out = ROOT / "crates" / name / "out"
    if not (out / f"rlib/{name}.rlib/format").is_file() or (out / "rlib/stamp").exists():
        return False
    changes = [time for path in [ROOT / "crates.txt", *files(name)] for time in (path.stat().st_mtime_ns, path.stat().st_ctime_ns)]
    return max(changes) < min(begun(out), begun(out / "rlib"))


def is_built(name: str) -> bool:
    """Whether there is a library of the crate, by whatever command, that is younger than each of the crate's files."""
    made = ROOT / "crates" / name / f"out/rlib/{name}.rlib/format"
    return made.is_file() and all(path.stat().st_mtime_ns < made.stat().st_mtime_ns for path in files(name))


def rattle(command: str, rows: dict[str, list[str]], name: str) -> list[str]:
    """The words that call the prover for a crate, in a folder that has its src, specs and proofs."""
    is_program = (ROOT / "crates" / name / "src/main.rt").is_file()
    words = [f"{KIT}/bin/rattle", command, "--crate-name", name, "src/main.rt" if is_program else "src/lib.rt"]
    if re.search(rf"^{name} staticlib:", (ROOT / "crates.txt").read_text(), re.M):
        words += ["--crate-type", "staticlib"]
    words += ["--links", f"{name}=", "--extern", f"std={KIT}/rlibs/std.rlib", "-L", f"dependency={KIT}/rlibs"]
    for library in rows[name]:
        folder = ROOT / "crates" / library / "out/rlib" if library in rows else KIT / "rlibs"
        words += ["--extern", f"{library}={folder}/{library}.rlib"]
    for library in libraries(rows, name):
        words += ["-L", f"dependency={ROOT}/crates/{library}/out/rlib"]
    return [*words, "--antt-project", f"{KIT}/rattle/logic/antt-project.json", "--logic-built", f"{KIT}/logic_built"]
