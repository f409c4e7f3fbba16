"""Zugrenja from Python, by ctypes over libzugrenja.so (docs/BINDINGS.md says how that is made).

    with Matcher(["main a[href]", "img:not([alt])"]) as matcher:
        matcher.start("main")
        matcher.start("a", {"href": "/"})   # (0,)
        matcher.end("main")

A matcher with `explain=True` says why the last tag was reported: `matcher.explain()`.
"""

from __future__ import annotations

import ctypes
import os
from collections.abc import Callable, Iterable, Mapping
from functools import partial
from pathlib import Path
from typing import NamedTuple

from page_tags import PageTags

GOOD, NEEDS_ATTRIBUTES, BAD_LINE, REFUSED, OUT_OF_MEMORY, NO_MATCHER = range(6)
BUILT, NOT_UTF8, NOT_ACCEPTED, LIMIT, COUNTER, NOT_EXPLAINING, EXPLAINS = 8, 9, 10, 12, 13, 19, 21
ROWS_PAY_FROM = 256
NAMESPACES = {"html": 0, "svg": 1, "mathml": 2}
CAUSES = (
    "UnexpectedToken", "UnexpectedEnd", "MissingAttributeName", "EmptySelector", "DanglingCombinator", "UnexpectedTokenInAttribute",
    "UnsupportedPseudoClassOrElement", "NestedNegation", "NamespacedSelector", "InvalidClassName", "EmptyNegation",
    "UnsupportedCombinator", "UnsupportedSyntax",
)


class SelectorError(ValueError):
    """A text isn't accepted as a selector: the cause, and where, as the item of the list and the character, both from 0. As a str it is what
    people are told: the cause, the text's line, a caret under the place, and for some causes what to write in its place."""

    def __init__(self, text: str, cause: str, message: str, item: int, offset: int) -> None:
        super().__init__(message)
        self.text, self.cause, self.item, self.offset = text, cause, item, offset


class TagError(RuntimeError):
    """A tag wasn't answered: its status is LIMIT or COUNTER for one that is refused, after which no start tag is answered."""

    def __init__(self, status: int) -> None:
        self.status = status
        super().__init__(_text(status))


class ScriptError(ValueError):
    """A line of a script was bad: its number, from 1, and the cause."""

    def __init__(self, line: int, cause: str) -> None:
        super().__init__(f"line {line}: {cause}")
        self.line, self.cause = line, cause


class Refused(RuntimeError):
    """A tag was refused, for the limit or for a full counter. `output` has the lines of the tags before it."""

    def __init__(self, output: str) -> None:
        super().__init__(output.splitlines()[-1])
        self.output = output


class Match(NamedTuple):
    """A start tag that selectors match: its place in the page, both from 1, the selectors' numbers, its text and its attributes, of one name
    the first."""

    line: int
    column: int
    selectors: tuple[int, ...]
    tag: str
    attributes: dict[str, str | None]


class Reason(NamedTuple):
    """Why a tag was reported: the id, the number of the text that was added under it, in the order of adding, and of the item of its list
    that matches, both from 0; and for each compound of the item the number of the start tag whose element it is passed by, the outermost
    first, that of the tag itself last."""

    id: int
    text: int
    item: int
    witness: tuple[int, ...]

    def __str__(self) -> str:
        """Its line in `Matcher.explain_text`, without the line's end."""
        return f"why\t{self.id}\t{self.text}\t{self.item}\t{','.join(map(str, self.witness))}"


class _Handle(ctypes.Structure):
    _fields_ = [("at", ctypes.c_void_p), ("live", ctypes.c_uint8)]


class _Refusal(ctypes.Structure):
    _fields_ = [("cause", ctypes.c_uint32), ("combinator", ctypes.c_uint32), ("item", ctypes.c_size_t), ("offset", ctypes.c_size_t)]


class _Attribute(ctypes.Structure):
    _fields_ = [
        ("name_start", ctypes.c_size_t), ("name_end", ctypes.c_size_t), ("value_start", ctypes.c_size_t),
        ("value_end", ctypes.c_size_t), ("has_value", ctypes.c_uint32),
    ]


class _Reason(ctypes.Structure):
    _fields_ = [
        ("text", ctypes.c_size_t), ("item", ctypes.c_size_t), ("numbers_start", ctypes.c_size_t), ("numbers_len", ctypes.c_size_t),
        ("id", ctypes.c_uint32),
    ]


def _library() -> ctypes.CDLL:
    path = os.environ.get("ZUGRENJA_LIBRARY", Path(__file__).parent / "libzugrenja.so")
    library = ctypes.CDLL(str(path))
    number, size, text, out = ctypes.c_uint32, ctypes.c_size_t, ctypes.c_char_p, ctypes.c_void_p
    for name, arguments in {
        "new": [out, size, size, number],
        "new_explaining": [out, size, size, number],
        "add": [out, number, text, size, out],
        "with_rows": [out, size],
        "build": [out],
        "start": [out, text, size, number, out],
        "finish": [out, text, size, out, size, number, out],
        "end": [out, text, size, out, size, out],
        "set_value": [out, ctypes.c_uint64],
        "ids": [out, out, size, out],
        "has_opened": [out, out],
        "tries": [out, out, out],
        "explain": [out, out, size, out, size, out, out],
        "explain_text": [out, text, size, out],
        "free": [out],
        "run_script": [text, size, text, size, out],
        "text": [number, number, number, text, size],
        "message": [text, size, out, text, size],
    }.items():
        call = getattr(library, f"zugrenja_{name}")
        call.restype, call.argtypes = size if name in ("text", "message") else number, arguments
    return library


_LIBRARY = _library()


def _bytes(text: str | bytes) -> bytes:
    return text if isinstance(text, bytes) else text.encode("utf-8", "surrogateescape")


def _text(status: int, cause: int = 0, combinator: int = 0) -> str:
    """What a status says, or a cause if the status is NOT_ACCEPTED."""
    text = ctypes.create_string_buffer(96)
    length = _LIBRARY.zugrenja_text(status, cause, combinator, text, len(text))
    return text.raw[:length].decode()


def _message(text: bytes, refusal: _Refusal) -> str:
    """What people are told of a text that isn't accepted."""
    at = ctypes.addressof(refusal)
    message = ctypes.create_string_buffer(_LIBRARY.zugrenja_message(text, len(text), at, None, 0))
    _LIBRARY.zugrenja_message(text, len(text), at, message, len(message))
    return message.raw.decode()


def _written(write: Callable[..., int], room: int) -> tuple[int, str]:
    """The status of a call that writes the beginning of a text that fits, and all of the text."""
    written = ctypes.c_size_t()
    while True:
        out = ctypes.create_string_buffer(room)
        status = write(out, room, ctypes.addressof(written))
        if written.value <= room:
            return status, out.raw[: written.value].decode()
        room = written.value


class Matcher:
    """Matches selectors against the start tags of a document, as its tags come. It is built by the first tag.

    A list of selectors gets the ids 0, 1, .., and a text alone the id 0. Close it by `close`, or use it in a `with` block. It stays on its thread.

    With `explain` it says of each tag why it was reported. That takes more memory and time at each tag.
    """

    def __init__(
        self,
        selectors: str | Iterable[str] = (),
        *,
        max_memory: int | None = None,
        element_bytes: int = 64,
        esi: bool = False,
        explain: bool = False,
    ) -> None:
        self._handle, self._built, self._open = _Handle(), False, 0
        self._at = ctypes.addressof(self._handle)
        limit = ctypes.c_size_t(-1).value if max_memory is None else max_memory
        new = _LIBRARY.zugrenja_new_explaining if explain else _LIBRARY.zugrenja_new
        self._check(new(self._at, limit, element_bytes, esi))
        self._count, self._opened = ctypes.c_size_t(), ctypes.c_uint32()
        self._values = (ctypes.c_uint64 * 0)()
        self._explains, self._reasons, self._numbers = explain, (_Reason * 8)(), (ctypes.c_size_t * 64)()
        self.ids: tuple[int, ...] = ()
        self.asked = False
        for number, selector in enumerate([selectors] if isinstance(selectors, (str, bytes)) else selectors):
            self.add(number, selector)

    def __enter__(self) -> Matcher:
        return self

    def __exit__(self, *_error: object) -> None:
        self.close()

    def __del__(self) -> None:
        if getattr(self, "_at", None) and _LIBRARY:
            self.close()

    def close(self) -> None:
        """Frees the matcher; a second time it does nothing."""
        _LIBRARY.zugrenja_free(self._at)

    @staticmethod
    def _check(status: int) -> None:
        if status in (OUT_OF_MEMORY, 14):
            raise MemoryError
        if status != GOOD:
            raise TagError(status)

    def add(self, id: int, selector: str | bytes) -> None:
        """Adds the selectors of a text, a list of them with commas, under an id below 2 ** 32. Before the first tag.

        Raises SelectorError with cause and place, TagError after the first tag, and MemoryError.
        """
        if not 0 <= id < 1 << 32:
            raise ValueError(f"no id: {id}")
        text, refusal = _bytes(selector), _Refusal()
        status = _LIBRARY.zugrenja_add(self._at, id, text, len(text), ctypes.addressof(refusal))
        if status == NOT_UTF8:
            raise SelectorError(text.decode("utf-8", "replace"), "not UTF-8", _text(status), 0, 0)
        if status == NOT_ACCEPTED:
            combinator = f"({chr(refusal.combinator)})" if refusal.combinator else ""
            offset = len(text[: refusal.offset].decode())
            raise SelectorError(text.decode(), CAUSES[refusal.cause] + combinator, _message(text, refusal), refusal.item, offset)
        self._check(status)

    def with_rows(self, fewest: int = ROWS_PAY_FROM) -> None:
        """Has the matcher made with rows if at least so many nodes were added, always with 0: it spares the nodes that a tag's name, id,
        classes and attributes rule out. It answers the same, and tries fewer nodes. Call it after the selectors were added, before the
        first tag. A selector gives as many nodes as it has compounds, but for those that begin as another one does.

        Raises TagError if the matcher was made with `explain`, which has no rows, and after the first tag.
        """
        if not 0 <= fewest < 1 << 64:
            raise ValueError(f"no number of nodes: {fewest}")
        self._check(_LIBRARY.zugrenja_with_rows(self._at, fewest))

    def _begin(self) -> None:
        if not self._built:
            self._check(_LIBRARY.zugrenja_build(self._at))
            self._built = True

    def start(
        self,
        name: str | bytes,
        attributes: Mapping[str, str | None] | Iterable[tuple[str | bytes, str | bytes | None]] | None = (),
        namespace: str = "html",
        self_closing: bool = False,
    ) -> tuple[int, ...]:
        """A start tag: the ids that it is reported under, ascending.

        With `None` for attributes they aren't handed over: if they are asked for (`asked`), the tag is dropped by the next one.
        Raises TagError if the tag is refused, and MemoryError.
        """
        self._begin()
        self.ids, self._opened.value = (), 0
        tag = _bytes(name)
        status = _LIBRARY.zugrenja_start(self._at, tag, len(tag), NAMESPACES[namespace], ctypes.addressof(self._count))
        self.asked = status == NEEDS_ATTRIBUTES
        if self.asked:
            if attributes is None:
                return ()
            status = self._finish(attributes, self_closing)
        self._check(status)
        _LIBRARY.zugrenja_has_opened(self._at, ctypes.addressof(self._opened))
        self._open += self._opened.value
        if matched := self._count.value:
            ids = (ctypes.c_uint32 * matched)()
            _LIBRARY.zugrenja_ids(self._at, ctypes.addressof(ids), matched, ctypes.addressof(self._count))
            self.ids = tuple(ids)
        return self.ids

    def _finish(self, attributes: Mapping | Iterable, self_closing: bool) -> int:
        given = list(attributes.items() if isinstance(attributes, Mapping) else attributes)
        places, text = (_Attribute * len(given))(), bytearray()
        for place, (name, value) in zip(places, given):
            place.name_start = len(text)
            text += _bytes(name)
            place.name_end = place.value_start = len(text)
            text += _bytes(value or "")
            place.value_end, place.has_value = len(text), value is not None
        return _LIBRARY.zugrenja_finish(
            self._at, bytes(text), len(text), ctypes.addressof(places), len(given), self_closing, ctypes.addressof(self._count)
        )

    @property
    def has_opened(self) -> bool:
        """Whether the last tag opened its element, which has content then."""
        return bool(self._opened.value)

    def set_value(self, value: int) -> bool:
        """Gives a number below 2 ** 64 to the element that the last tag opened. Returns whether it opened one."""
        return _LIBRARY.zugrenja_set_value(self._at, value) == GOOD

    def tries(self) -> tuple[int, int]:
        """How many nodes were tried for the last start tag, by their names and by their attributes."""
        names, attributes = ctypes.c_uint64(), ctypes.c_uint64()
        _LIBRARY.zugrenja_tries(self._at, ctypes.addressof(names), ctypes.addressof(attributes))
        return names.value, attributes.value

    def explain(self) -> list[Reason]:
        """Why the last tag was reported: a reason for each item of a text that matches its element, in the order of adding and of the list.

        Tags are numbered from 0 in the order of the calls, end tags and dropped tags too; one that was refused has no number. There are
        no reasons after an end tag, where the tag was dropped or refused, and before the first tag.
        Raises TagError if the matcher was made without `explain`, and MemoryError.
        """
        if self._explains and not self._built:
            return []
        reasons, numbers = ctypes.c_size_t(), ctypes.c_size_t()
        while True:
            status = _LIBRARY.zugrenja_explain(
                self._at, ctypes.addressof(self._reasons), len(self._reasons), ctypes.addressof(self._numbers), len(self._numbers),
                ctypes.addressof(reasons), ctypes.addressof(numbers),
            )
            self._check(status)
            if reasons.value <= len(self._reasons) and numbers.value <= len(self._numbers):
                break
            self._reasons, self._numbers = (_Reason * (2 * reasons.value))(), (ctypes.c_size_t * (2 * numbers.value))()
        told, witnesses = self._reasons[: reasons.value], self._numbers[: numbers.value]
        return [
            Reason(one.id, one.text, one.item, tuple(witnesses[one.numbers_start : one.numbers_start + one.numbers_len])) for one in told
        ]

    def explain_text(self) -> str:
        """The same as text: for each reason a line of `why`, the id, the text's number, the item's and the witness, with TABs between.

        It is what a script's `explain` writes (docs/SCRIPT.md), with the text's number in the place of its line's. It raises what `explain`
        raises.
        """
        if self._explains and not self._built:
            return ""
        status, text = _written(partial(_LIBRARY.zugrenja_explain_text, self._at), 256)
        self._check(status)
        return text

    def end(self, name: str | bytes) -> list[int]:
        """An end tag: the values of the elements that it closes, the outermost first, 0 if none was given. Raises MemoryError."""
        self._begin()
        if len(self._values) < self._open:
            self._values = (ctypes.c_uint64 * (2 * self._open))()
        tag, values = _bytes(name), self._values
        status = _LIBRARY.zugrenja_end(
            self._at, tag, len(tag), ctypes.addressof(values), self._open, ctypes.addressof(self._count)
        )
        self._check(status)
        closed = min(self._count.value, self._open)
        self._open -= closed
        self.ids, self._opened.value = (), 0
        return values[:closed]


def run_script(script: bytes) -> str:
    """The output of a script (docs/SCRIPT.md).

    Raises ScriptError for a bad line, Refused for a refused tag, and MemoryError.
    """
    status, text = _written(partial(_LIBRARY.zugrenja_run_script, script, len(script)), len(script) + 64)
    if status == BAD_LINE:
        head, _, cause = text.rstrip("\n").partition(": ")
        raise ScriptError(int(head.rsplit(" ", 1)[1]), cause)
    if status == REFUSED:
        raise Refused(text)
    if status == OUT_OF_MEMORY:
        raise MemoryError
    return text


class _Selecting(PageTags):
    """Tells a matcher of the tags of a page, and keeps what matches."""

    def __init__(self, matcher: Matcher) -> None:
        super().__init__()
        self.matcher, self.matches = matcher, []

    def start(self, name: str, attributes: dict[str, str | None], namespace: str, self_closing: bool) -> None:
        if ids := self.matcher.start(name, attributes, namespace, self_closing):
            line, column = self.getpos()
            self.matches.append(Match(line, column + 1, ids, self.get_starttag_text() or "", attributes))

    def end(self, name: str) -> None:
        self.matcher.end(name)


def select(html: str | bytes, selectors: str | Iterable[str]) -> list[Match]:
    """The start tags of a page that selectors match, in their order. Bytes are UTF-8, and a text alone is one selector.

    `PageTags` reads the page: tags that a browser would add or move stay as they are written.
    Raises SelectorError for a selector that isn't accepted.
    """
    with Matcher(selectors) as matcher:
        selecting = _Selecting(matcher)
        selecting.read(html)
        return selecting.matches
