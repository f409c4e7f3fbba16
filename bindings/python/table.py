"""Makes the calls of the table of calls (calls.txt): by the functions of the shared library, and by Matcher as far as it can."""

import ctypes
import sys
from pathlib import Path

import zugrenja
from zugrenja import NAMESPACES, Matcher, SelectorError, TagError

sys.path.insert(0, str(Path(__file__).resolve().parent.parent))
from calls import Call, attributes_of, number, places  # noqa: E402

STATUSES = (
    "GOOD", "NEEDS_ATTRIBUTES", "BAD_LINE", "REFUSED", "OUT_OF_MEMORY", "NO_MATCHER", "IN_USE", "NOT_BUILT", "BUILT", "NOT_UTF8",
    "NOT_ACCEPTED", "NO_NAMESPACE", "LIMIT", "COUNTER", "TAG_OUT_OF_MEMORY", "FAILED", "NOT_ASKED", "OUTSIDE", "NOT_OPENED",
    "NOT_EXPLAINING", "TOO_MANY_ITEMS", "EXPLAINS",
)
ROOM = 4096


def joined(numbers: list[int] | tuple[int, ...], mark: str = "") -> str:
    return ",".join(f"{one}{mark}" for one in numbers) or "-"


def in_a_row(text: str) -> str:
    return text.replace("\n", "|").replace("\t", " ") or "-"


class Functions:
    """A handle that is given to the functions."""

    def __init__(self) -> None:
        self.handle, self.count = zugrenja._Handle(), ctypes.c_size_t()
        self.at, self.counted = ctypes.addressof(self.handle), ctypes.addressof(self.count)

    def call(self, call: Call) -> str:
        """What a call is answered, as the table writes it."""
        if call.kind == "text":
            return zugrenja._text(*map(number, call.arguments))
        if call.kind == "script":
            return self.script(*call.arguments)
        status, given = getattr(self, call.kind)(*call.arguments)
        return " ".join([STATUSES[status], *map(str, given if status in (zugrenja.GOOD, zugrenja.NOT_ACCEPTED) else [])])

    def function(self, name: str, *arguments: object) -> int:
        return getattr(zugrenja._LIBRARY, f"zugrenja_{name}")(self.at, *arguments)

    def new(self, max_memory: str, element_bytes: str, esi: str) -> tuple[int, list]:
        return self.function("new", number(max_memory), number(element_bytes), number(esi)), []

    def new_explaining(self, max_memory: str, element_bytes: str, esi: str) -> tuple[int, list]:
        return self.function("new_explaining", number(max_memory), number(element_bytes), number(esi)), []

    def add(self, id: str, text: bytes) -> tuple[int, list]:
        why = zugrenja._Refusal()
        status = self.function("add", number(id), text, len(text), ctypes.addressof(why))
        combinator = f"({chr(why.combinator)})" if why.combinator else ""
        return status, [zugrenja.CAUSES[why.cause] + combinator, why.item, why.offset] if status == zugrenja.NOT_ACCEPTED else []

    def with_rows(self, fewest: str) -> tuple[int, list]:
        return self.function("with_rows", number(fewest)), []

    def build(self) -> tuple[int, list]:
        return self.function("build"), []

    def free(self) -> tuple[int, list]:
        return self.function("free"), []

    def start(self, space: str, name: bytes) -> tuple[int, list]:
        number_of_space = NAMESPACES[space] if space in NAMESPACES else number(space)
        return self.reported(self.function("start", name, len(name), number_of_space, self.counted))

    def finish(self, self_closing: str, *attributes: bytes) -> tuple[int, list]:
        text, outlines, start = b"".join(attributes), [], 0
        for attribute in attributes:
            name, equals, _ = attribute.partition(b"=")
            outlines.append((start, start + len(name), start + len(name + equals), start + len(attribute), bool(equals)))
            start += len(attribute)
        return self.finish_at(text, self_closing, outlines)

    def finish_in(self, text: bytes, self_closing: str, *words: str) -> tuple[int, list]:
        return self.finish_at(text, self_closing, [places(word) for word in words])

    def finish_at(self, text: bytes, self_closing: str, outlines: list) -> tuple[int, list]:
        array = (zugrenja._Attribute * len(outlines))(*outlines)
        return self.reported(
            self.function("finish", text, len(text), ctypes.addressof(array), len(array), number(self_closing), self.counted)
        )

    def reported(self, status: int) -> tuple[int, list]:
        matched = self.count.value
        if status != zugrenja.GOOD:
            return status, []
        mark = "" if self.opened()[1] == [1] else "/"
        _, count, ids = self.ids_within(ROOM)
        return status, [joined(ids, mark)] if count == matched else ["matched isn't how many ids there are"]

    def ids_within(self, room: int) -> tuple[int, int, list[int]]:
        array = (ctypes.c_uint32 * room)()
        status = self.function("ids", ctypes.addressof(array), room, self.counted)
        return status, self.count.value, array[: self.count.value]

    def ids(self) -> tuple[int, list]:
        status, _, ids = self.ids_within(ROOM)
        return status, [joined(ids)]

    def ids_in(self, room: str) -> tuple[int, list]:
        status, count, ids = self.ids_within(number(room))
        return status, [count, joined(ids)]

    def end(self, name: bytes) -> tuple[int, list]:
        status, (_, values) = self.end_in(name, str(ROOM))
        return status, [values]

    def end_in(self, name: bytes, room: str) -> tuple[int, list]:
        array = (ctypes.c_uint64 * number(room))()
        status = self.function("end", name, len(name), ctypes.addressof(array), len(array), self.counted)
        return status, [self.count.value, joined(array[: self.count.value])]

    def value(self, value: str) -> tuple[int, list]:
        return self.function("set_value", number(value)), []

    def opened(self) -> tuple[int, list]:
        opened = ctypes.c_uint32()
        return self.function("has_opened", ctypes.addressof(opened)), [opened.value]

    def tries(self) -> tuple[int, list]:
        tries = (ctypes.c_uint64 * 2)()
        status = self.function("tries", ctypes.addressof(tries), ctypes.addressof(tries) + 8)
        return status, tries[:]

    def explained(self, reasons_room: int, numbers_room: int) -> tuple[int, list, list, list[int]]:
        """The status, the counts, and the reasons and numbers that there is room for."""
        reasons, numbers = (zugrenja._Reason * reasons_room)(), (ctypes.c_size_t * numbers_room)()
        counts = (ctypes.c_size_t * 2)(99, 99)
        at = ctypes.addressof(counts)
        status = self.function("explain", ctypes.addressof(reasons), reasons_room, ctypes.addressof(numbers), numbers_room, at, at + 8)
        return status, counts[:], reasons[: counts[0]], numbers[: counts[1]]

    def explain(self) -> tuple[int, list]:
        status, _, reasons, numbers = self.explained(ROOM, ROOM)
        witnesses = (numbers[one.numbers_start :][: one.numbers_len] for one in reasons)
        shown = (f"{one.id} {one.text} {one.item} {joined(witness)}" for one, witness in zip(reasons, witnesses))
        return status, ["|".join(shown) or "-"]

    def explain_in(self, reasons_room: str, numbers_room: str) -> tuple[int, list]:
        status, counts, reasons, numbers = self.explained(number(reasons_room), number(numbers_room))
        shown = (f"{one.id}/{one.text}/{one.item}/{one.numbers_start}+{one.numbers_len}" for one in reasons)
        return status, [*counts, joined(list(shown)), joined(numbers)]

    def explain_text(self, room: str) -> tuple[int, list]:
        out = ctypes.create_string_buffer(number(room))
        status = self.function("explain_text", out, len(out), self.counted)
        return status, [self.count.value, in_a_row(out.raw[: self.count.value].decode())]

    def script(self, text: bytes) -> str:
        status, output = "GOOD", ""
        try:
            output = zugrenja.run_script(text)
        except zugrenja.ScriptError as bad:
            status, output = "BAD_LINE", f"bad line {bad.line}: {bad.cause}\n"
        except zugrenja.Refused as refused:
            status, output = "REFUSED", refused.output
        return in_a_row(f"{status} {output}")


class Typed:
    """A Matcher, which is handed a tag's attributes with the tag."""

    def __init__(self) -> None:
        self.matcher: Matcher | None = None
        self.waiting: Call | None = None

    def call(self, call: Call, rest: list[Call]) -> str | None:
        """What a call is answered, or `None` if Matcher can't make it. `rest` are the calls after it."""
        if call.kind in ("new", "new_explaining") and self.matcher is None:
            max_memory, element_bytes, esi = map(number, call.arguments)
            explain = call.kind == "new_explaining"
            self.matcher = Matcher(max_memory=max_memory, element_bytes=element_bytes, esi=bool(esi), explain=explain)
            return "GOOD"
        if call.kind == "start" and call.answer == "NEEDS_ATTRIBUTES" and is_finished(rest):
            self.waiting = call
            return None
        if call.kind in ("finish", "finish_in") and self.waiting and call.answer.startswith(("GOOD", "LIMIT")):
            return self.answer(self.start, self.waiting, call)
        if self.matcher is None or self.waiting or call.kind not in MATCHER_CALLS or call.answer in ("NOT_BUILT", "NO_NAMESPACE"):
            return None
        if call.kind == "build" and call.answer == "BUILT":
            return None
        return self.answer(getattr(self, call.kind), call)

    def answer(self, function, *calls: Call) -> str:
        try:
            return function(*calls)
        except SelectorError as refused:
            byte = len(refused.text[: refused.offset].encode())
            return "NOT_UTF8" if refused.cause == "not UTF-8" else f"NOT_ACCEPTED {refused.cause} {refused.item} {byte}"
        except TagError as refused:
            return STATUSES[refused.status]

    def add(self, call: Call) -> str:
        self.matcher.add(number(call.arguments[0]), call.arguments[1])
        return "GOOD"

    def with_rows(self, call: Call) -> str:
        self.matcher.with_rows(number(call.arguments[0]))
        return "GOOD"

    def build(self, _call: Call) -> str:
        self.matcher._begin()
        return "GOOD"

    def free(self, _call: Call) -> str:
        self.matcher.close()
        self.matcher = None
        return "GOOD"

    def start(self, call: Call, finish: Call | None = None) -> str:
        given, self_closing, self.waiting = None, False, None
        if finish:
            pairs = (attribute.partition(b"=") for attribute in attributes_of(finish))
            given = [(name, value if equals else None) for name, equals, value in pairs]
            self_closing = number(finish.arguments[finish.kind == "finish_in"]) > 0
        space = call.arguments[0]
        ids = self.matcher.start(call.arguments[1], given, space if space in NAMESPACES else list(NAMESPACES)[number(space)], self_closing)
        if self.matcher.asked and not finish:
            return "NEEDS_ATTRIBUTES"
        return f"GOOD {joined(ids, '' if self.matcher.has_opened else '/')}" + " but isn't asked" * (finish is not None and not self.matcher.asked)

    def end(self, call: Call) -> str:
        return f"GOOD {joined(self.matcher.end(call.arguments[0]))}"

    def end_in(self, call: Call) -> str:
        values = self.matcher.end(call.arguments[0])
        return f"GOOD {len(values)} {joined(values[: number(call.arguments[1])])}"

    def value(self, call: Call) -> str:
        return "GOOD" if self.matcher.set_value(number(call.arguments[0])) else "NOT_OPENED"

    def ids(self, _call: Call) -> str:
        return f"GOOD {joined(self.matcher.ids)}"

    def ids_in(self, call: Call) -> str:
        return f"GOOD {len(self.matcher.ids)} {joined(self.matcher.ids[: number(call.arguments[0])])}"

    def opened(self, _call: Call) -> str:
        return f"GOOD {int(self.matcher.has_opened)}"

    def tries(self, _call: Call) -> str:
        return "GOOD %d %d" % self.matcher.tries()

    def explain(self, _call: Call) -> str:
        reasons = (f"{one.id} {one.text} {one.item} {joined(one.witness)}" for one in self.matcher.explain())
        return f"GOOD {'|'.join(reasons) or '-'}"

    def explain_text(self, call: Call) -> str:
        text = self.matcher.explain_text()
        return f"GOOD {len(text)} {in_a_row(text[: number(call.arguments[0])])}"


MATCHER_CALLS = (
    "add", "with_rows", "build", "free", "start", "end", "end_in", "value", "ids", "ids_in", "opened", "tries", "explain", "explain_text",
)


def is_finished(rest: list[Call]) -> bool:
    """Whether one of the calls hands attributes over to the tag before them."""
    for call in rest:
        if call.kind in ("finish", "finish_in") and call.answer.startswith(("GOOD", "LIMIT")):
            return True
        if call.kind in ("start", "end", "end_in", "free") and call.answer != "NO_NAMESPACE":
            return False
    return False
