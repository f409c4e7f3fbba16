"""Reads the table of calls (calls.txt), and asks a program that runs scripts, as lol_match does, for each answer in it that a script has:
calls.py PROGRAM..
"""

import re
import subprocess
import sys
from collections.abc import Iterator
from pathlib import Path
from typing import NamedTuple

TABLE = Path(__file__).resolve().parent / "calls.txt"
WORD = re.compile(rb'((?:"(?:[^"\\]|\\.)*"(?:\*\d+)?)+)|(\S+)')
PIECE = re.compile(rb'"((?:[^"\\]|\\.)*)"(?:\*(\d+))?')


class Call(NamedTuple):
    """A call: its kind, its arguments (a text as bytes, a number or a name as str), and what it has to answer."""

    kind: str
    arguments: list[str | bytes]
    answer: str
    line: str


class Case(NamedTuple):
    name: str
    calls: list[Call]


class Reason(NamedTuple):
    """A reason in words: its numbers with commas between."""

    id: str
    text: str
    item: str
    numbers: str


ASIDES = ("ids", "ids_in", "tries", "explain", "explain_in", "explain_text")


def number(word: str | bytes) -> int:
    return 2**64 - 1 if word == "max" else int(word)


def _text(word: bytes) -> bytes:
    """The bytes of a word in quotes."""
    escaped = rb"\\(?:x(..)|(.))"
    pieces = PIECE.findall(word)
    return b"".join(re.sub(escaped, lambda e: bytes.fromhex(e[1].decode()) if e[1] else e[2], piece) * int(times or 1) for piece, times in pieces)


def _call(line: bytes) -> Call:
    words, place = [], 0
    while (found := WORD.match(line, place)) and found[0] != b"=":
        words.append(_text(found[1]) if found[1] else found[2].decode())
        place = found.end() + line[found.end() :].startswith(b" ")
    return Call(words[0], words[1:], line[place + 2 :].decode(), line.decode("utf-8", "replace"))


def cases(table: Path = TABLE) -> list[Case]:
    every = []
    for line in table.read_bytes().splitlines():
        if line.startswith(b"case "):
            every.append(Case(line[5:].decode(), []))
        elif line and not line.startswith(b"#"):
            every[-1].calls.append(_call(line))
    return every


def limit_of(max_memory: int, element_bytes: int) -> int:
    """The limit of a script, whose elements are charged 64 bytes, under which as many elements have room (TESTED.md, "A limit")."""
    charged = max(element_bytes, 1)
    slots = max(8, 128 // charged)
    if slots * charged > max_memory:
        return 0
    while slots * charged * 2 <= max_memory:
        slots *= 2
    return min(slots * 64, 2**64 - 1)


def answer_of(program: list[str], script: bytes) -> list[str]:
    done = subprocess.run(program, input=script, stdout=subprocess.PIPE)
    return done.stdout.decode().splitlines()


def select_line(add: Call) -> bytes:
    """The line of a selector. A text in it has no LF, and a form feed means the same (docs/SELECTORS.md, "Text and tokens")."""
    return b"select\t%s\t%s" % (add.arguments[0].encode(), add.arguments[1].replace(b"\n", b"\f"))


class Life:
    """A matcher from `new` on, as a script, and what its tags were answered."""

    def __init__(self, new: Call) -> None:
        max_memory, element_bytes, esi = map(number, new.arguments)
        self.lines = [b"tries", b"limit\t%d" % limit_of(max_memory, element_bytes)] + [b"esi"] * (esi != 0)
        self.lines += [b"explain"] * (new.kind == "new_explaining")
        self.settings = len(self.lines)
        self.tags: list[tuple[Call, str]] = []
        self.waits: Call | None = None
        self.asides: list[tuple[int, Call]] = []
        self.values: dict[int, int] = {}
        self.is_sayable, self.is_refused = True, False
        self.rows_from: int | None = None

    def _tell(self, call: Call, kind: bytes, fields: list[bytes], answer: str) -> None:
        names = fields[:1] if kind == b"end" else [fields[1], *(field.split(b"=")[0] for field in fields[2:])]
        self.is_sayable &= all(names) and not re.search(rb"[\t\n]", b"".join(fields))
        self.lines.append(b"\t".join([kind, *fields]))
        self.tags.append((call, answer))

    def _drop(self) -> None:
        if self.waits:
            self._tell(self.waits, b"drop", fields_of(self.waits), "dropped")
        self.waits = None

    def note(self, call: Call) -> None:
        """Notes a call that was answered as the table says."""
        status, _, rest = call.answer.partition(" ")
        told = status in ("GOOD", "NEEDS_ATTRIBUTES", "LIMIT")
        if self.is_refused or not told:
            return
        if call.kind == "add":
            # For its rows a script counts the nodes of all selectors, and the call those of the selectors before it.
            self.is_sayable &= not self.rows_from
            self.lines.append(select_line(call))
        elif call.kind == "with_rows":
            fewest = number(call.arguments[0])
            self.rows_from = fewest if self.rows_from is None else min(self.rows_from, fewest)
            self.lines.append(b"rows\t%d" % self.rows_from)
        elif call.kind in ("start", "end", "end_in"):
            self._drop()
            if status == "NEEDS_ATTRIBUTES":
                self.waits = call
            elif call.kind == "start":
                self._tell(call, b"start", fields_of(call), f"start\t{rest}")
            else:
                self._tell(call, b"end", call.arguments[:1], f"end\t{rest}")
        elif call.kind in ("finish", "finish_in"):
            self._tell(call, b"start", fields_of(self.waits, call), f"start\t{rest}\tasked")
            self.waits = None
        elif call.kind == "value":
            self.values[len(self.tags) - 1] = number(call.arguments[0])
        elif call.kind in ASIDES and not self.waits and self.tags:
            self.asides.append((len(self.tags) - 1, call))
        self.is_refused = status == "LIMIT"

    def wrong(self, program: list[str]) -> Iterator[str]:
        """What a program answers otherwise."""
        self._drop()
        answers, reasons = self.told(answer_of(program, b"\n".join(self.lines) + b"\n"))
        if len(answers) != len(self.tags):
            yield f"{self.lines}: {answers}"
            return
        for (call, wanted), answer in zip(self.tags, answers):
            if self.is_refused and call is self.tags[-1][0]:
                wanted = "refused limit"
            elif answer.startswith("end"):
                answer = "end\t" + self._values(answer, call)
            if answer.split("\ttries")[0] != wanted:
                yield f"{call.line}: {answer}"
        for place, call in self.asides:
            wanted, answer = call.answer.removeprefix("GOOD "), answers[place].split("\t")
            if call.kind.startswith("explain"):
                if wanted != (said := explained(call, reasons[place])):
                    yield f"{call.line}: {said}"
                continue
            if call.kind == "tries" and answer[0] == "start" and answer[-1] != "tries " + wanted:
                yield f"{call.line}: {answer[-1]}"
            ids = answer[1].replace("/", "") if answer[0] == "start" else "-"
            if call.kind != "tries" and wanted != (ids if call.kind == "ids" else _cut(ids, call.arguments[0])):
                yield f"{call.line}: {ids}"

    def told(self, output: list[str]) -> tuple[list[str], list[list[Reason]]]:
        """The lines of tags, and for each the reasons in the lines after it."""
        answers, reasons = [], []
        for line in output:
            kind, *fields = line.split("\t")
            if kind == "why":
                reasons[-1].append(Reason(fields[0], str(int(fields[1]) - self.settings - 1), *fields[2:]))
            else:
                answers.append(line)
                reasons.append([])
        return answers, reasons

    def _values(self, answer: str, call: Call) -> str:
        closed = [int(digits) for digits in answer.split("\t")[1].split(",") if digits != "-"]
        values = ",".join(str(self.values.get(element, 0)) for element in closed) or "-"
        return values if call.kind == "end" else _cut(values, call.arguments[1])


def explained(call: Call, reasons: list[Reason]) -> str:
    """What a call that asks for reasons is answered."""
    if call.kind == "explain":
        return "|".join(map(" ".join, reasons)) or "-"
    room = number(call.arguments[0])
    if call.kind == "explain_text":
        text = "".join(f"why {' '.join(reason)}|" for reason in reasons)
        return f"{len(text)} {text[:room] or '-'}"
    numbers = [reason.numbers.split(",") for reason in reasons]
    starts = [sum(map(len, numbers[:place])) for place in range(len(reasons))]
    shown = [f"{one.id}/{one.text}/{one.item}/{at}+{len(own)}" for one, at, own in zip(reasons, starts, numbers)]
    joined = ",".join(reason.numbers for reason in reasons) or "-"
    counts, told = _cut(joined, call.arguments[1]).split(" ")
    return f"{len(reasons)} {counts} {','.join(shown[:room]) or '-'} {told}"


def _cut(numbers: str, room: str | bytes) -> str:
    """How many numbers there are, and those that there is room for."""
    all_of_them = [] if numbers == "-" else numbers.split(",")
    return f"{len(all_of_them)} {','.join(all_of_them[: number(room)]) or '-'}"


def places(word: str) -> tuple[int, int, int, int, bool]:
    """The places of a name and a value, and whether there is one."""
    name, is_valued, value = word.partition(":")
    return *map(int, name.split("-")), *map(int, value.split("-") if is_valued else (0, 0)), bool(is_valued)


def fields_of(start: Call, finish: Call | None = None) -> list[bytes]:
    """The fields of a start tag in a script."""
    space = {"0": "html", "1": "svg", "2": "mathml"}.get(start.arguments[0], start.arguments[0])
    if finish is None:
        return [space.encode(), start.arguments[1]]
    slash = "/" if number(finish.arguments[finish.kind == "finish_in"]) else ""
    return [(space + slash).encode(), start.arguments[1], *attributes_of(finish)]


def attributes_of(call: Call) -> list[bytes]:
    """The attributes of a call of finish or of finish_in, as a script has them."""
    if call.kind == "finish":
        return call.arguments[1:]
    given = (places(word) for word in call.arguments[2:])
    text = call.arguments[0]
    return [text[a:b] + (b"=" + text[c:d] if valued else b"") for a, b, c, d, valued in given]


def wrong_refusals(program: list[str], call: Call) -> Iterator[str]:
    """What a program answers otherwise to a text that isn't accepted."""
    cause = call.answer.split(" ")[1] if call.answer.startswith("NOT_ACCEPTED") else "form"
    answer = answer_of(program, select_line(call) + b"\n")
    if answer != [f"bad line 1: {cause}"]:
        yield f"{call.line}: {answer}"


def lives(every: list[Case], program: list[str], wrong: list[str]) -> Iterator[Life]:
    """The matchers of the cases. What is answered otherwise to texts and scripts is put into a list."""
    for case in every:
        life = None
        for call in case.calls:
            if call.kind in ("new", "new_explaining") and call.answer == "GOOD":
                life = Life(call)
            elif call.kind == "add" and call.answer.startswith(("NOT_ACCEPTED", "NOT_UTF8")):
                wrong += wrong_refusals(program, call)
            elif call.kind == "script" and (answer := "".join(line + "|" for line in answer_of(program, call.arguments[0])).replace("\t", " ")):
                wrong += [f"{call.line}: {answer}"] * (answer != call.answer.partition(" ")[2])
            elif call.kind == "free" and call.answer == "GOOD":
                yield life
                life = None
            elif life:
                life.note(call)
        if life:
            yield life


def main() -> None:
    every, program = cases(), sys.argv[1:]
    wrong: list[str] = []
    tags = unsayable = 0
    for life in lives(every, program, wrong):
        if life.is_sayable:
            wrong += life.wrong(program)
            tags += len(life.tags)
        else:
            unsayable += 1
    for answer in wrong:
        print(answer)
    print(f"{len(every)} cases of the table: {tags} tags asked of the program, {len(wrong)} wrong, {unsayable} matchers that no script says")
    sys.exit(bool(wrong) or not tags)


if __name__ == "__main__":
    main()
