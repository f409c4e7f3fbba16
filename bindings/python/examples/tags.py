"""Reads a script of selectors and tags (docs/SCRIPT.md), tells a matcher of the tags one by one, and writes what lol_match writes.

Each line has to be of the right form.
"""

import sys
from collections.abc import Iterable, Iterator
from pathlib import Path

sys.path.insert(0, str(Path(__file__).resolve().parent.parent))
from zugrenja import LIMIT, ROWS_PAY_FROM, Matcher, SelectorError, TagError  # noqa: E402

BEFORE = (b"limit", b"esi", b"tries", b"explain", b"rows", b"select")


def joined(numbers: Iterable[object]) -> str:
    return ",".join(map(str, numbers)) or "-"


def attributes_of(fields: list[bytes]) -> Iterator[tuple[bytes, bytes | None]]:
    for field in fields:
        name, sign, value = field.partition(b"=")
        yield name, value if sign else None


def answer(matcher: Matcher, number: int, fields: list[bytes], shows_tries: bool) -> str:
    """The line that answers a tag."""
    if fields[0] == b"end":
        return f"end\t{joined(matcher.end(fields[1]))}\n"
    namespace, closes = fields[1].removesuffix(b"/").decode(), fields[1].endswith(b"/")
    attributes = None if fields[0] == b"drop" else attributes_of(fields[3:])
    ids = matcher.start(fields[2], attributes, namespace, closes)
    if matcher.asked and attributes is None:
        return "dropped\n"
    mark = "" if matcher.has_opened else "/"
    matcher.set_value(number)
    asked = "\tasked" if matcher.asked else ""
    tries = "\ttries {} {}".format(*matcher.tries()) if shows_tries else ""
    return f"start\t{joined(f'{number}{mark}' for number in ids)}{asked}{tries}\n"


def why(matcher: Matcher, numbers: list[int]) -> str:
    """The lines that say why the last tag was reported; `numbers` are those of the lines of the texts."""
    reasons = ((one, joined(one.witness)) for one in matcher.explain())
    return "".join(f"why\t{one.id}\t{numbers[one.text]}\t{one.item}\t{witness}\n" for one, witness in reasons)


def run(script: bytes) -> tuple[str, int]:
    """The output of a script, and lol_match's exit status."""
    lines = [line.split(b"\t") for line in script.split(b"\n")]
    limits = [int(fields[1]) for fields in lines if fields[0] == b"limit"]
    texts = [number for number, fields in enumerate(lines, 1) if fields[0] == b"select"]
    rows = [int(fields[1]) if fields[1:] else ROWS_PAY_FROM for fields in lines if fields[0] == b"rows"]
    explain, out = [b"explain"] in lines, []
    with Matcher(max_memory=limits[-1] if limits else None, esi=[b"esi"] in lines, explain=explain) as matcher:
        for number, fields in enumerate(lines, 1):
            if fields[0] == b"select":
                try:
                    matcher.add(int(fields[1]), b"\t".join(fields[2:]))
                except SelectorError as error:
                    return f"bad line {number}: {error.cause}\n", 2
        if rows and not explain:  # a matcher that explains has none
            matcher.with_rows(rows[-1])
        for fields in lines:
            if fields[0] and fields[0] not in BEFORE:
                try:
                    line = answer(matcher, len(out), fields, [b"tries"] in lines)
                    out.append(line + why(matcher, texts) if explain else line)
                except TagError as error:
                    return "".join(out) + f"refused {'limit' if error.status == LIMIT else 'counter'}\n", 3
    return "".join(out), 0


def main() -> None:
    output, status = run(sys.stdin.buffer.read())
    sys.stdout.write(output)
    sys.exit(status)


if __name__ == "__main__":
    main()
