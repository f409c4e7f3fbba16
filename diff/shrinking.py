"""Makes a script smaller, as long as a condition holds: lines, then attributes, then parts of selectors."""

import os
import re
import time
from typing import Callable

TOKEN = re.compile(r"/\*.*?\*/|\\[0-9a-fA-F]{1,6}[ \t]?|\\.|\"[^\"]*\"?|'[^']*'?|[:.#|]*[\w-]+\(?|\s+|.", re.S)
OPENING = {"(": ")", "[": "]"}


def processor_time() -> float:
    """Seconds that this process and the programs that it ran have taken."""
    return sum(os.times()[:4])


class Shrinking:
    """A script as lines, which is made smaller while `holds` is true of it and there is time."""

    def __init__(self, script: bytes, holds: Callable[[bytes], bool], seconds: float):
        self.lines, self.tried = script.split(b"\n"), {hash(script)}
        self.holds, self.until, self.last = holds, processor_time() + seconds, time.monotonic() + 10 * seconds

    def script(self, lines=None) -> bytes:
        return b"\n".join(self.lines if lines is None else lines)

    def is_over(self) -> bool:
        return processor_time() > self.until or time.monotonic() > self.last

    def try_lines(self, lines: list) -> bool:
        script = self.script(lines)
        if hash(script) in self.tried or self.is_over():
            return False
        self.tried.add(hash(script))
        if not self.holds(script):
            return False
        self.lines = lines
        return True

    def replace(self, old: bytes, new: bytes) -> bool:
        """Puts a line in the place of each that is like the old one."""
        return self.try_lines([new if line == old else line for line in self.lines])

    def replace_some(self, old: bytes, new: bytes) -> bool:
        """Puts a line in the place of each that is like the old one, or of each but the first or the last."""
        places = [place for place, line in enumerate(self.lines) if line == old]
        kept = [None] if len(places) < 3 else [None, places[0], places[-1]]
        return any(self.try_lines([new if line == old and place != one else line
                                   for place, line in enumerate(self.lines)]) for one in kept)

    def drop_lines(self, least: int):
        """Drops rows of lines, long ones first."""
        count = max(len(self.lines) // 2, 1)
        while count >= least and not self.is_over():
            place = len(self.lines)
            while place > 0 and not self.is_over():
                place = max(place - count, 0)
                self.try_lines(self.lines[:place] + self.lines[place + count:])
            count //= 2

    def shorten_rows(self):
        """Of equal lines in a row, keeps as few as can be."""
        place = 0
        while place < len(self.lines) and not self.is_over():
            end = place + 1
            while end < len(self.lines) and self.lines[end] == self.lines[place]:
                end += 1
            count = (end - place) // 2
            while count > 0 and not self.is_over():
                if end - place >= count and self.try_lines(self.lines[:place] + self.lines[place + count:]):
                    end -= count
                else:
                    count //= 2
            place = max(end, place + 1)

    def distinct(self, *kinds: bytes) -> list:
        return [line for line in dict.fromkeys(self.lines) if line.split(b"\t")[0] in kinds]

    def drop_all_attributes(self):
        def bare(line):
            return b"\t".join(line.split(b"\t")[:3]) if line.startswith((b"start\t", b"drop\t")) else line

        self.try_lines([bare(line) for line in self.lines])

    def join_lines(self):
        """Makes tags equal to others."""
        for kinds in ((b"start", b"drop"), (b"end",)):
            for old in self.distinct(*kinds)[:12]:
                others = sorted(self.distinct(*kinds)[:12], key=lambda line: (len(line), line))
                any(self.replace_some(old, new) for new in others if old != new)

    def drop_attributes(self):
        for line in self.distinct(b"start", b"drop"):
            fields = line.split(b"\t")
            place = len(fields) - 1
            while place > 2 and not self.is_over():
                fewer = fields[:place] + fields[place + 1:]
                if self.replace(b"\t".join(fields), b"\t".join(fewer)):
                    fields = fewer
                place -= 1
            self.shorten_fields(fields)

    def shorten_fields(self, fields: list):
        """Shortens a tag's values, and makes its kind and namespace plain."""
        for place in range(3, len(fields)):
            count = len(fields[place]) // 2
            while count > 0 and not self.is_over():
                field = fields[place]
                starts = range(0, len(field), count)[:100]
                fewer = [field[:start] + field[start + count:] for start in starts]
                tries = [fields[:place] + [one] + fields[place + 1:] for one in fewer]
                shorter = next((one for one in tries if self.replace(b"\t".join(fields), b"\t".join(one))), None)
                fields, count = (shorter, count) if shorter else (fields, count // 2)
        for first in ([b"start", b"html"], [fields[0], fields[1].rstrip(b"/")]):
            plain = first + fields[2:]
            if self.replace(b"\t".join(fields), b"\t".join(plain)):
                fields = plain

    def drop_parts(self):
        """Drops tokens of selectors, and parentheses round what they hold."""
        for line in self.distinct(b"select"):
            fields = line.split(b"\t", 2)
            if len(fields) < 3:
                continue
            try:
                tokens = TOKEN.findall(fields[2].decode())
            except UnicodeDecodeError:
                continue

            def keep(fewer, fields=fields):
                return self.replace(b"\t".join(fields), b"\t".join(fields[:2] + ["".join(fewer).encode()]))

            tokens = self.drop_tokens(tokens, keep, fields)
            if self.replace(b"\t".join(fields), b"select\t0\t" + fields[2]):
                fields[1] = b"0"

    def drop_tokens(self, tokens: list, keep: Callable, fields: list) -> list:
        count = max(len(tokens) // 2, 1)
        while count > 0 and not self.is_over():
            place = 0
            while place < len(tokens) and not self.is_over():
                tries = [tokens[:place] + tokens[place + count:]]
                if count == 1:
                    tries += without_pair(tokens, place)
                for fewer in tries:
                    if keep(fewer, fields):
                        tokens, fields[2] = fewer, "".join(fewer).encode()
                        break
                else:
                    place += count
            count //= 2
        return tokens

    def shorten_names(self):
        """Renames tags, in selectors too."""
        for name in dict.fromkeys(line.split(b"\t")[2] for line in self.distinct(b"start", b"drop")
                                  if line.count(b"\t") > 1):
            if len(name) > 1:
                word = re.compile(rb"(?<![\w-])" + re.escape(name) + rb"(?![\w-])")
                any(self.try_lines([word.sub(new, line) for line in self.lines]) for new in (b"a", b"b", b"p"))


def without_pair(tokens: list, place: int) -> list:
    """The tokens without the pair that opens at a place, and without it and what is inside."""
    close = OPENING.get(tokens[place][-1])
    depth = 0
    for end in range(place, len(tokens)):
        depth += (tokens[end][-1] in OPENING) - (tokens[end] in OPENING.values())
        if close and depth == 0:
            return [tokens[:place] + tokens[end + 1:], tokens[:place] + tokens[place + 1:end] + tokens[end + 1:]]
    return []


def shrink(script: bytes, holds: Callable[[bytes], bool], seconds: float = 20) -> bytes:
    """A smaller script of which `holds` is true too."""
    state = Shrinking(script, holds, seconds)
    state.drop_lines(max(len(state.lines) // 8, 1))
    before = None
    while before != state.lines and not state.is_over():
        before = state.lines
        state.drop_all_attributes()
        state.join_lines()
        state.shorten_rows()
        state.drop_lines(1)
        state.drop_attributes()
        state.drop_parts()
        state.shorten_names()
    return state.script()
