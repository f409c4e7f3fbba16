"""Stored cases: how they are written and read, and which ones are chosen.

A file in diff/cases has cases one after another. `case, exit status S` begins one; a line of its script has `< `
before it, and a line of its answer `> `. Bytes that can't be read are written in hexadecimal, as in `‹0d›`. What occurs
often in a row is written once: `‹9 times a›` stands for nine times `a`, `‹9 times› ` before a line for nine such lines.
`‹no line end›` ends a text that lacks its last LF.
"""

import collections
import glob
import os
import re

import lines

FOLDER = os.path.join(os.path.dirname(os.path.abspath(__file__)), "cases")
NO_END = "‹no line end›"
AGAIN = re.compile(r"([^‹›]{1,16}?)\1{9,}")
MARK = re.compile(r"‹(?:(\d+) times ([^‹›]+)|([0-9a-f ]+))›")
ROW = re.compile(r"‹(\d+) times›(?: |$)")
WANTED, BYTES, COLUMNS = 3000, 1_600_000, 116
OPERATOR = re.compile(r"\[[^]=]*?([~|^$*]?=)\s*(\"|'|)[^]]*?(\2\s*[iIsS])?\s*(\]|$)")
FORMS = {"comment": r"/\*", "escape in hexadecimal": r"\\[0-9a-fA-F]", "escape": r"\\[^0-9a-fA-F]", "child": r">",
         "list": r",", "no namespace": r"(^|[\s>,(])\|", "any namespace": r"\*\|", "universal": r"(^|[\s>,(])\*",
         "descendant": r"[\w\])*] +[\w.#:\[*]", "class": r"\.[^\d]", "id": r"#", "exists": r"\[[^=\]]*\]",
         "left open": r"[\[(][^\])]*$", "tab": r"\t", "text": r"[^\x00-\x7f]", "not": r":not\(", "is": r":is\(",
         "where": r":where\(", "nested": r":\w+\([^)]*:\w+\(", "nth-child": r":nth-child\(",
         "nth-of-type": r":nth-of-type\(", "first-child": r":first-child", "first-of-type": r":first-of-type",
         "keyword": r"\((odd|even|[+-]?n)\)", "step": r"\dn", "no step": r"\([+-]?\d+\)", "greater": r"-\d*n",
         "capital": r":[A-Z]"}


def byte_marks(text: str) -> str:
    """The text with marks in place of what can't be read."""
    out = ""
    for c in text:
        if c == "\t" or c.isprintable() and c not in "‹›":
            out += c
        else:
            out += "‹" + c.encode("utf-8", "surrogateescape").hex(" ") + "›"
    return out[:-1] + f"‹{ord(out[-1]):02x}›" if out.endswith((" ", "\t")) else out


def line_of(line: bytes) -> str:
    text = line.decode("utf-8", "surrogateescape")
    out, place = "", 0
    for again in AGAIN.finditer(text if len(text) > 60 else ""):
        piece = again[1]
        if piece == byte_marks(piece) and "\t" not in piece:
            count = len(again[0]) // len(piece)
            out += byte_marks(text[place:again.start()]) + f"‹{count} times {piece}›"
            place = again.start() + count * len(piece)
    return out + byte_marks(text[place:])


def written(text: bytes, before: str):
    """The lines by which a text is written, each with `before` before it."""
    lines = text.split(b"\n")
    end = NO_END if lines[-1] else ""
    if not lines[-1]:
        lines.pop()
    place = 0
    while place < len(lines):
        last = place
        while last + 1 < len(lines) and lines[last + 1] == lines[place]:
            last += 1
        count = last + 1 - place
        line = line_of(lines[place])
        shown = [f"‹{count} times› {line}"] if count > 2 else [line] * count
        if end and last + 1 == len(lines):
            shown[-1] += end
        yield from ((before + line).rstrip(" ") for line in shown)
        place = last + 1


def read_line(line: str) -> bytes:
    """What a written line stands for, with its LF."""
    row = ROW.match(line)
    count, line = (int(row[1]), line[row.end():]) if row else (1, line)
    end, line = (b"", line.removesuffix(NO_END)) if line.endswith(NO_END) else (b"\n", line)
    out, place = b"", 0
    for mark in MARK.finditer(line):
        out += line[place:mark.start()].encode()
        out += mark[2].encode() * int(mark[1]) if mark[1] else bytes.fromhex(mark[3])
        place = mark.end()
    return b"\n".join([out + line[place:].encode()] * count) + end


def cases():
    """The stored cases: where each is, its script, and its answer."""
    for path in sorted(glob.glob(os.path.join(FOLDER, "*.txt"))):
        with open(path, encoding="utf-8", newline="\n") as page:
            lines = page.read().split("\n")
        starts = [number for number, line in enumerate(lines) if line.startswith("case, ")] + [len(lines)]
        for start, end in zip(starts, starts[1:]):
            texts = {"<": b"", ">": b""}
            for line in lines[start + 1:end]:
                if line:
                    texts[line[0]] += read_line(line[2:])
            status = int(lines[start].removeprefix("case, exit status "))
            yield f"{os.path.basename(path)}, line {start + 1}", texts["<"], (texts[">"], status)


def selector_features(text: str) -> set:
    features = {operator[1] + operator[2] + (operator[3] or "")[-1:] for operator in OPERATOR.finditer(text)}
    features |= {name for name, form in FORMS.items() if re.search(form, text)}
    return features | {f"{text.count('(')} parentheses" if text.count("(") < 5 else "many parentheses"}


def tag_features(fields: list) -> set:
    attributes = fields[3:]
    features = {f"{fields[0]} {fields[1] if len(fields) > 1 else ''} {min(len(attributes), 3)}"}
    features |= {"attribute " + one.split("=")[0].lower() for one in attributes}
    values = [one.partition("=")[1:] for one in attributes]
    features |= {"value" if value else "empty value" if sign else "no value" for sign, value in values}
    return features | {"name " + one.lower() for one in fields[2:3]}


def answer_features(answer: tuple) -> set:
    features = {f"exit status {answer[1]}"}
    for line in answer[0].decode("utf-8", "replace").split("\n")[:400]:
        fields = line.split("\t")
        numbers = fields[1].count(",") + 1 if len(fields) > 1 and fields[1] != "-" else 0
        void = "/" if len(fields) > 1 and "/" in fields[1] else ""
        features.add(f"{fields[0]} {min(numbers, 6)}{void} {' '.join(fields[2:3])[:5]}")
        features |= {field for field in fields[2:] if len(field) < 11}
    return features


def features_of(script: bytes, answer: tuple) -> set:
    """What a case has: forms of lines and of selectors, each with how the case is answered, and forms of answers."""
    forms = set()
    for line in script.decode("utf-8", "surrogateescape").split("\n")[:400]:
        fields = line.split("\t")
        if fields[0] == "select":
            forms |= selector_features("\t".join(fields[2:])) | {f"id of {len(''.join(fields[1:2]))} digits"}
        else:
            forms |= tag_features(fields) if fields[0] in ("start", "drop") else {" ".join(fields)[:24]}
    answers = answer_features(answer)
    kind = "reported" if any(re.match(r"start [1-9]", one) for one in answers) else "not reported"
    if answer[1] == 2:
        number, kind = re.match(r"bad line (\d+): (.*)", answer[0].decode("utf-8", "replace")).groups()
        line = script.split(b"\n")[int(number) - 1].decode("utf-8", "replace")
        forms.add(line[:30] if kind == "form" else "refused")
    return answers | {f"{form} | {kind}" for form in forms}


def block_of(script: bytes, answer: tuple) -> str:
    return "\n".join([f"case, exit status {answer[1]}", *written(script, "< "), *written(answer[0], "> ")]) + "\n"


def file_of(script: bytes, answer: tuple) -> str:
    if answer[1] == 2:
        return "lines.txt" if answer[0].endswith(b": form\n") else "refused.txt"
    if answer[1] == 3:
        return "limits.txt"
    return "selectors.txt" if len(re.findall(rb"^(start|drop|end)\t", script, re.M)) < 4 else "documents.txt"


def size_of(pair: tuple) -> tuple:
    script, answer = pair
    return len(script) + len(answer[0]), script


def chosen(pool: list, kept: dict) -> dict:
    """The kept cases, and small ones of the pool: as many as are wanted, and each that shows what none shows yet."""
    out, seen, size = dict(kept), collections.Counter(), 0
    for script, answer in kept.items():
        seen.update(features_of(script, answer) | lines.lines_of_script(script))
        size += len(block_of(script, answer).encode())
    fitting = []
    for script, answer in sorted(pool, key=size_of):
        block = block_of(script, answer) if len(script) < 20000 else " " * 20000
        if len(block) < 6000 and max(map(len, block.split("\n"))) <= COLUMNS:
            features = features_of(script, answer) | lines.lines_of_script(script)
            fitting.append((script, answer, features, len(block.encode())))
    for times in range(1, 40):
        for script, answer, features, count in fitting:
            if len(out) >= WANTED and times > 1 or size + count > BYTES:
                return out
            if script not in out and any(seen[feature] < times for feature in features):
                out[script] = answer
                seen.update(features)
                size += count
    return out


def store(pool: list) -> int:
    """Adds cases of the pool to the stored ones; returns how many are stored then."""
    os.makedirs(FOLDER, exist_ok=True)
    files = collections.defaultdict(list)
    kept = chosen(pool, {script: answer for _, script, answer in cases()})
    for script, answer in sorted(kept.items(), key=size_of):
        files[file_of(script, answer)].append(block_of(script, answer))
    for name, blocks in files.items():
        with open(os.path.join(FOLDER, name), "w", encoding="utf-8", newline="\n") as page:
            page.write("\n".join(blocks))
    return len(kept)
