"""Makes the archive bindings/out/libzugrenja_c.a of the files as they stand.

An archive whose sum of all that it was made from is still theirs stays. Else it is built: over the libraries that `rt ci` has just left, if
each of their files is older than they are, which takes a minute or two; or by `rt lib`, which first builds each library that isn't built.
"""

import hashlib
import shutil
import subprocess
import sys
from pathlib import Path

sys.path.insert(0, str(Path(__file__).resolve().parent.parent / "docs"))

import crates

CRATE = "zugrenja_c"
ARCHIVE = crates.ROOT / "bindings/out/libzugrenja_c.a"
STAMP = ARCHIVE.with_suffix(".sum")


def sum_of(names: list[str]) -> str:
    """The sum of all that these crates are built from: the kit's name, crates.txt and their files."""
    paths = [crates.KIT / "WHAT", crates.ROOT / "crates.txt", *(path for name in names for path in crates.files(name))]
    told = [(str(path), path.read_bytes() if path.is_file() else b"") for path in paths]
    return hashlib.sha256(repr(told).encode()).hexdigest()


def stamp_of(names: list[str]) -> str:
    """The sum of what the archive is made from, and its own."""
    return f"{sum_of(names)} {hashlib.sha256(ARCHIVE.read_bytes()).hexdigest()}"


def build_over(rows: dict[str, list[str]]) -> bool:
    """Proves and compiles the crate over the libraries that are there, and returns whether it could."""
    words = [*crates.rattle("build", rows, CRATE), "--jobs", "4", "--toolchain", f"{crates.KIT}/toolchain", "--backend", "llvm", "-o", ARCHIVE]
    ran = subprocess.run(words, cwd=crates.ROOT / "crates" / CRATE, stdout=subprocess.PIPE, stderr=subprocess.STDOUT, text=True)
    print("\n".join(ran.stdout.splitlines()[-1:] if ran.returncode == 0 else ran.stdout.splitlines()), flush=True)
    return ran.returncode == 0


def main() -> None:
    table = crates.rows()
    below = crates.libraries(table, CRATE)
    names = [*below, CRATE]
    ARCHIVE.parent.mkdir(exist_ok=True)
    if ARCHIVE.is_file() and STAMP.is_file() and STAMP.read_text() == stamp_of(names):
        print(f"{ARCHIVE.name} is of the files as they stand")
        return
    STAMP.unlink(missing_ok=True)
    before = sum_of(names)
    others = [name for name in below if not crates.is_left(name)]
    if others or not build_over(table):
        why = f"rt ci left no library of the files as they stand for {' '.join(others)}" if others else "that build failed"
        print(f"{why}: rt lib makes {ARCHIVE.name}", flush=True)
        subprocess.run(["rt", "lib"], cwd=crates.ROOT / "crates" / CRATE, check=True)
        shutil.copyfile(crates.ROOT / "crates" / CRATE / "out" / ARCHIVE.name, ARCHIVE)
    if sum_of(names) != before:
        sys.exit("a file has changed meanwhile: run this again")
    STAMP.write_text(stamp_of(names))


if __name__ == "__main__":
    main()
