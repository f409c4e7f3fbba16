"""Faults that are put into copies of the Rattle source, and small cases that find them.

A copy is built and run unproved, by `rt try`, on one selection of small cases for all faults. Its answers are compared
with those of the model.
"""

import os
import re
import shutil
import subprocess
import sys
import tempfile
from typing import Iterator, NamedTuple

import stored
from programs import ROOT, run_model
from selector_texts import WITHOUT_CASE

LINES, LONGEST = 6, 40
OF_A_FORM, DEEP, DEPTH = 4, 8, 200
TAG = re.compile(rb"(start|drop|end)\t")
SHOWING = {rb"start\t\d": 80, rb"end\t\d": 16}
FORMS = ("drop", "list", "child", "descendant", "not", "nth-child", "nth-of-type", "exists", "class", "id")
ANSWER = re.compile(rb"^== case(\d+)\n", re.M)
ENDED = re.compile(rb"^case=case(\d+) run=(\w+) status=(\d+)", re.M)


class Edit(NamedTuple):
    """A text of a source file, which is there once, and what is in its place."""

    file: str
    sound: str
    faulty: str


class SourceFault(NamedTuple):
    """A fault, the crate and the function whose body has it, and the edits that make it."""

    name: str
    body: str
    edits: list


STACK, VM = "lol_stack/src/stack.rt", "lol_machine/src/vm.rt"
CONTEXT = "lol_stack/src/execution_ctx.rt"

NO_FAULT = SourceFault("no fault", "", [])

# lol_match drops each request that exec_for_start_tag makes; the counters by type stay as they are.
SOURCE_FAULTS = [
    SourceFault("a dropped start tag isn't counted", "lol_machine: exec_for_start_tag", [
        Edit(VM, "            return self.request(ctx, point);",
             "            self.stack.uncount_child();\n            return self.request(ctx, point);"),
        Edit(STACK, "    /// Counts one more child of the last open element, or of the root.\n",
             "    pub fn uncount_child(&mut self) {\n"
             "        match self.items.last_mut() {\n"
             "            Some(item) => item.child_counter.uncount(),\n"
             "            None => self.root_child_counter.uncount(),\n"
             "        }\n"
             "    }\n\n"
             "    /// Counts one more child of the last open element, or of the root.\n"),
        Edit("lol_instructions/src/child_counter.rt", "    /// Counts one more. A full counter",
             "    pub fn uncount(&mut self) {\n        self.cumulative -= 1;\n    }\n\n"
             "    /// Counts one more. A full counter"),
    ]),
    SourceFault("values of rev are compared with case", "lol_css: is_caseless",
                [Edit("lol_css/src/selectors/attributes.rt", '    "rev",\n', '    "rel",\n')]),
    SourceFault("names of attributes are compared with case", "lol_instructions: is_lower_case_of",
                [Edit("lol_instructions/src/attribute_matcher.rt", "actual.to_ascii_lowercase() == byte", "false")]),
    SourceFault("the outermost of equal names is closed", "lol_stack: element_to_close",
                [Edit(STACK, "let (depth, _) = self.names.open_names.depths_at(at).split_last()?;",
                      "let (depth, _) = self.names.open_names.depths_at(at).split_first()?;")]),
    SourceFault("an id is reported once for each of two paths", "lol_stack: handle_matched_ids", [
        Edit(CONTEXT, "    pub enable_esi_tags: bool,\n}",
             "    pub enable_esi_tags: bool,\n    again: DenseHashSet,\n}"),
        Edit(CONTEXT, "with_content: true,", "with_content: true,\n            again: DenseHashSet::new(alloc),"),
        Edit(CONTEXT, "            enable_esi_tags,\n        } = self;",
             "            enable_esi_tags,\n            again,\n        } = self;"),
        Edit(CONTEXT, "stack_item: stack_item.into_owned(alloc)?,",
             "again,\n            stack_item: stack_item.into_owned(alloc)?,"),
        Edit(CONTEXT, "        let item = &mut self.stack_item;\n        if self.with_content {",
             "        let item = &mut self.stack_item;\n"
             "        for id in branch.matched_ids.iter() {\n"
             "            let held = item.element_data.matched_ids_mut();\n"
             "            if held.iter().any(|other| other == id) {\n"
             "                self.again.insert(id)?;\n"
             "            }\n"
             "        }\n"
             "        if self.with_content {"),
        Edit(CONTEXT, "    for match_id in ids.iter() {\n",
             "    for match_id in ids.iter() {\n"
             "        if again.iter().any(|other| other == match_id) {\n"
             "            handler(MatchInfo {\n"
             "                match_id,\n"
             "                with_content,\n"
             "            });\n"
             "        }\n"),
        Edit(CONTEXT, "fn report_ids<F: FnMut(MatchInfo)>(ids: &DenseHashSet,",
             "fn report_ids<F: FnMut(MatchInfo)>(ids: &DenseHashSet, again: &DenseHashSet,"),
        Edit(CONTEXT, "report_ids(item.element_data.matched_ids_mut(), with",
             "report_ids(item.element_data.matched_ids_mut(), &self.again, with"),
    ]),
    SourceFault("the 130th of elements one inside the other loses a range", "lol_stack: push_item", [
        Edit(STACK, "        let active = self.active_hereditary_jumps.len();\n",
             "        let active = self.active_hereditary_jumps.len();\n"
             "        if place == 129 {\n"
             "            self.active_hereditary_jumps.truncate(active.saturating_sub(1));\n"
             "        }\n"),
    ]),
]


def lines_of(script: bytes) -> int:
    return len(list(stored.written(script, "")))


def size_of(script: bytes) -> tuple:
    return lines_of(script), len(script), script


def last_answer(lines: list) -> tuple:
    answer, status = run_model(b"\n".join(lines) + b"\n")
    return answer.split(b"\n")[-2:], status


def cut_down(lines: list) -> bytes:
    """The script without the lines on which the answer to its last one doesn't rest."""
    wanted = last_answer(lines)
    for place in range(len(lines) - 2, -1, -1):
        fewer = lines[:place] + lines[place + 1:]
        if last_answer(fewer) == wanted:
            lines = fewer
    return b"\n".join(lines) + b"\n"


def beginning(script: bytes, answer: tuple, showing: bytes) -> list:
    """The lines up to the last tag whose answer is as this pattern says; none if there is no such tag."""
    lines = [line for line in script.split(b"\n") if line and line != b"tries"]
    tags = [place for place, line in enumerate(lines) if TAG.match(line)]
    places = [place for place, told in zip(tags, answer[0].split(b"\n")) if re.match(showing, told)]
    return lines[:places[-1] + 1] if places else []


def short_scripts(showing: bytes) -> list:
    """Stored scripts that are cut down to what one answer rests on, and then are small; the smallest first."""
    good = [(script, answer) for _, script, answer in stored.cases()
            if answer[1] == 0 and script.count(b"\n") <= LONGEST]
    beginnings = [beginning(script, answer, showing) for script, answer in good]
    cut = {cut_down(lines) for lines in beginnings if lines}
    return sorted((script for script in cut if lines_of(script) <= LINES), key=size_of)


def shape_of(script: bytes) -> tuple:
    """How many selectors a script has, the kinds of its tags and which of their names are equal; its forms."""
    names, tags, forms, selectors = {}, [], set(), 0
    for line in script.decode("utf-8", "surrogateescape").split("\n"):
        fields = line.split("\t")
        if fields[0] == "select":
            selectors += 1
            forms |= {form for form in FORMS[1:] if re.search(stored.FORMS[form], "\t".join(fields[2:]))}
        elif fields[0] in ("start", "drop", "end"):
            name = fields[1] if fields[0] == "end" else fields[2]
            tags.append((fields[0], names.setdefault(name.lower(), len(names))))
            forms |= {"drop"} & {fields[0]}
    return (selectors, *tags), forms


def varied(scripts: list, count: int) -> list:
    """So many of the scripts: the first of each shape, and some of each form."""
    chosen, shapes, counts = [], set(), dict.fromkeys(FORMS, 0)
    for script in scripts:
        shape, forms = shape_of(script)
        if len(chosen) < count and (shape not in shapes or any(counts[form] < OF_A_FORM for form in forms)):
            chosen.append(script)
            shapes.add(shape)
            counts.update((form, counts[form] + 1) for form in forms)
    return chosen


def deep_cases(scripts: list) -> list:
    """Some of the scripts that have a selector of elements inside others, each with many more round the last one."""
    deep = []
    for script in scripts:
        *before, last, _ = script.split(b"\n")
        opened = any(line.startswith(b"start\thtml\t") for line in before)
        if opened and "descendant" in shape_of(script)[1] and lines_of(script) < LINES:
            deep.append(b"\n".join([*before, *[b"start\thtml\tx"] * DEPTH, last, b""]))
    return deep[:DEEP]


def caseless_cases() -> list:
    """For each name whose values compare without case, a value in the other case."""
    return [f"select\t0\t[{name}=a]\nstart\thtml\tb\t{name}=A\n".encode() for name in WITHOUT_CASE]


def small_cases() -> list:
    """The cases on which each faulty copy is run, the smallest first."""
    cases = set(caseless_cases())
    for showing, count in SHOWING.items():
        scripts = short_scripts(showing)
        cases.update(varied(scripts, count), deep_cases(scripts))
    return sorted(cases, key=size_of)


def copy_source(fault: SourceFault, folder: str) -> None:
    """Copies what `rt try` reads, and puts the fault into the copy."""
    for name in ("crates.txt", "HANDLES"):
        shutil.copy(os.path.join(ROOT, name), folder)
    unread = shutil.ignore_patterns("out", "specs", "proofs", "must-fail", "wrong-bodies")
    shutil.copytree(os.path.join(ROOT, "crates"), os.path.join(folder, "crates"), ignore=unread)
    for edit in fault.edits:
        path = os.path.join(folder, "crates", edit.file)
        with open(path, encoding="utf-8") as page:
            text = page.read()
        if text.count(edit.sound) != 1:
            sys.exit(f"{edit.file} has {text.count(edit.sound)} times, not once: {edit.sound}")
        with open(path, "w", encoding="utf-8") as page:
            page.write(text.replace(edit.sound, edit.faulty))


def faulty_answers(fault: SourceFault, scripts: list) -> list:
    """What the source with the fault answers to each script, output and exit status: -1 if it doesn't end by itself."""
    with tempfile.TemporaryDirectory() as folder:
        copy_source(fault, folder)
        cases = os.path.join(folder, "cases")
        os.mkdir(cases)
        for number, script in enumerate(scripts):
            with open(os.path.join(cases, f"case{number}"), "wb") as page:
                page.write(script)
        words = ["rt", "try", "--steps", "1", "--cases", cases]
        done = subprocess.run(words, cwd=os.path.join(folder, "crates", "lol_match"), capture_output=True)
    texts = ANSWER.split(done.stdout)[1:]
    outputs = {int(number): text for number, text in zip(texts[::2], texts[1::2])}
    statuses = {int(number): int(status) if how == b"ended" else -1
                for number, how, status in ENDED.findall(done.stderr)}
    if len(statuses) != len(scripts):
        sys.exit(f"rt try doesn't answer all cases: {done.stderr.decode(errors='replace')[-2000:]}")
    return [(outputs.get(number, b""), statuses[number]) for number in range(len(scripts))]
