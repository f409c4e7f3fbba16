"""What the program zugrenja reports of pages, asked by selectors: of names, attributes, values and namespaces."""

import json
import os
import re
import socket
import subprocess
import tempfile
from typing import Iterable, NamedTuple

from page_peers import Tag
from programs import ROOT

PORT = os.path.join(ROOT, "crates", "zugrenja", "out", "zugrenja")
LINE_END = re.compile(rb"\r\n|\r|\n")


class Found(NamedTuple):
    """A start tag that the program reports: the bytes that it takes, and the numbers of the selectors that match it."""

    start: int
    end: int
    ids: frozenset[int]


def is_askable(text: str) -> bool:
    """Whether a selector can have it, neither NUL nor bytes that aren't UTF-8, and all parsers tell it as it is written, which CR isn't."""
    try:
        text.encode("latin-1").decode()
    except UnicodeError:
        return False
    return "\0" not in text and "\r" not in text


def identifier(text: str) -> str:
    text = text.encode("latin-1").decode()
    return "".join(c if c.isascii() and c.isalpha() or c == "_" or ord(c) > 0x9f else f"\\{ord(c):x} " for c in text)


def string(text: str) -> str:
    text = text.encode("latin-1").decode()
    return '"' + "".join(f"\\{ord(c):x} " if ord(c) < 32 or c in "\"\\\x7f" else c for c in text) + '"'


# `type` is compared without case on elements of HTML alone (HTML Standard, 4.16.2). So these tell whether a tag is HTML.
PROBE, ANY = "[type=zz]", "*"


class Selectors:
    """Selectors for all that parsers tell of some tags, each once, with its number."""

    def __init__(self, tags: Iterable[Tag]):
        self.numbers, self.known = {ANY: 1, PROBE: 2}, {}
        for tag in tags:
            if tag[2:4] not in self.known:
                texts = self.texts(tag)
                self.known[tag[2:4]] = frozenset(self.numbers.setdefault(text, len(self.numbers) + 1) for text in texts)

    def texts(self, tag: Tag) -> list[str]:
        """The selectors that match a tag, but for the probe."""
        texts = [ANY] + ([identifier(tag.name)] if is_askable(tag.name) else [])
        for name, value in tag.attributes:
            if name and is_askable(name):
                texts.append(f"[{identifier(name)}]")
                if is_askable(value):
                    texts.append(f"[{identifier(name)}={string(value)} s]")
        return texts

    def ids(self, tag: Tag) -> frozenset[int]:
        """The numbers of the selectors that match a tag."""
        value = dict(tag.attributes).get("type", "")
        is_probed = value == "zz" or value.lower() == "zz" and tag.namespace == "html"
        return self.known[tag[2:4]] | {self.numbers[PROBE]} if is_probed else self.known[tag[2:4]]

    def names(self, ids: Iterable[int]) -> list[str]:
        texts = list(self.numbers)
        return [texts[number - 1] for number in sorted(ids)]

    def write(self, folder: str) -> str:
        path = os.path.join(folder, "selectors")
        with open(path, "w", encoding="utf-8", newline="\n") as file:
            file.write("".join(f"{text}\n" for text in self.numbers))
        return path


def found_in(line: bytes, page: bytes) -> Found:
    """What a line of the program says of a page; ends with an error where places don't agree with the page."""
    said = json.loads(line)
    start, end = said["offset"], said["offset"] + said["length"]
    ends = [match.end() for match in LINE_END.finditer(page, 0, start)] if said["line"] > 1 else []
    ends = [place for place in ends if place <= start and page[place - 1:place + 1] != b"\r\n"]
    expected = len(ends) + 1, start - (ends[-1] if ends else 0) + 1
    if (said["line"], said["column"]) != expected or said["tag"] != page[start:end].decode("utf-8", "replace"):
        raise RuntimeError(f"{said} isn't at line {expected[0]}, column {expected[1]} of {page[:2000]!r}")
    return Found(start, end, frozenset(said["selectors"]))


class Port:
    """The program, with a folder for what it reads."""

    def __init__(self, program: str):
        self.program = program
        self.folder = tempfile.TemporaryDirectory(dir="/dev/shm" if os.path.isdir("/dev/shm") else None)

    def ask(self, selectors: Selectors, pages: list[bytes]) -> list[list[Found]]:
        """The tags of some pages, read from files."""
        for number, page in enumerate(pages):
            with open(os.path.join(self.folder.name, str(number)), "wb") as file:
                file.write(page)
        found = [[] for _ in pages]
        for line in self.lines(["-f", selectors.write(self.folder.name), "--", *map(str, range(len(pages)))]):
            number = int(json.loads(line)["page"])
            found[number].append(found_in(line, pages[number]))
        return found

    def lines(self, words: list[str]) -> list[bytes]:
        done = subprocess.run([self.program, "--raw", "--json", *words], cwd=self.folder.name, stdout=subprocess.PIPE,
                              stdin=subprocess.DEVNULL, stderr=subprocess.PIPE)
        if done.returncode not in (0, 1):
            raise RuntimeError(f"the program ends with {done.returncode}: {done.stderr.decode(errors='replace')}")
        return done.stdout.splitlines()

    def ask_in_chunks(self, page: bytes, size: int) -> list[Found]:
        """The tags of a page that comes in chunks of so many bytes, by the selectors that were written last. Each packet of
        the socket is one read."""
        ours, theirs = socket.socketpair(socket.AF_UNIX, socket.SOCK_SEQPACKET)
        with ours, tempfile.TemporaryFile() as written:
            with theirs:
                words = [self.program, "--raw", "--json", "-f", "selectors"]
                process = subprocess.Popen(words, cwd=self.folder.name, stdin=theirs, stdout=written)
            try:
                for start in range(0, len(page), size):
                    ours.send(page[start:start + size])
            except OSError:
                pass
            ours.close()
            if process.wait() not in (0, 1):
                raise RuntimeError(f"the program ends with {process.returncode} for {page!r}")
            written.seek(0)
            return [found_in(line, page) for line in written.read().splitlines()]
