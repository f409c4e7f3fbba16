#!/usr/bin/env python3
"""Times lol_match on hostile scripts, and zugrenja on hostile pages, of three sizes each, and prints a table of the growth.

Run it at the top of the repository once both are built:

    (cd crates/lol_match && rt run < /dev/null)
    (cd crates/zugrenja && rt run < /dev/null)
    python3 hostile/growth.py [--instructions] [ROW ..]

Each size is twice the one before; the times are processor seconds, the least of three runs. With --instructions there are
millions of instructions in their place, counted by valgrind. A word picks the rows whose name has it.
"""

import os
import re
import resource
import subprocess
import sys
import tempfile

SCRIPTS = ["crates/lol_match/out/lol_match"]
PAGES = ["crates/zugrenja/out/zugrenja", "--count", "p", "svg a", "[a='&x']", ":nth-child(2)"]
RUNS = 3


def script(selectors, tags):
    lines = [f"select\t{match_id}\t{text}" for match_id, text in enumerate(selectors)]
    return "\n".join(lines + tags) + "\n"


def start(name, *attributes, ns="html"):
    return "\t".join(["start", ns, name, *attributes])


def end(name):
    return f"end\t{name}"


def repeated(pattern, last=""):
    """A selector that repeats a pattern up to a size in bytes."""
    return lambda size: script([pattern * (size // len(pattern)) + last], [start("a")])


def distinct_items(size):
    return script([",".join(f"x{number}" for number in range(size // 7))], [start("x1")])


def selectors_of(pattern):
    """So many selectors, each with a name of its own."""
    return lambda count: script([pattern.format(number) for number in range(count)], [start("a")])


# Two paths of (index among siblings, step), to lists that one product of 64 bits a step gave the same number.
PATHS_OF_ONE_PRODUCT = [
    [(10, " "), (15, " > "), (62, " > "), (0, " > "), (0, " > ")],
    [(39, " "), (9, " "), (20, " > "), (61, " > "), (2_021, " > ")],
]


def two_lists_of_one_product(count):
    """So many equal compounds in each of two lists, whose numbers agreed when a list was known by a product and not by its path."""
    selectors = []
    for path in PATHS_OF_ONE_PRODUCT:
        above = ""
        for index, step in path:
            selectors += [f"{above}x{number}" for number in range(index + 1)]
            above += f"x{index}{step}"
        selectors += [f"{above}.k{number}" for number in range(count)]
    return script(selectors, [start("a")])


def falling_ids(count):
    """A selector under so many ids that lie far apart, the greatest first."""
    lines = [f"select\t{4_200_000_000 - 32_000 * number}\tp" for number in range(count)]
    return "\n".join([*lines, start("p")]) + "\n"


def siblings(count):
    selectors = ["p", "ul > li:nth-child(2n+1)", "li:nth-of-type(3n)", "ul li", ".a", "li.b", ":not(li)", "a[href]"]
    return script(selectors, [start("ul")] + [start("li", "class=b"), end("li")] * count)


def nested(count):
    selectors = [f"div x{number}" for number in range(100)] + [f"div > y{number}" for number in range(100)]
    return script(selectors, [start("div")] * count + [end("div")] * count)


def stray_ends(count):
    return script(["div"], [start("div")] * count + [end("table")] * count)


def distinct_names_open(count):
    return script([":nth-of-type(2)"], [start(f"x{number}") for number in range(count)])


def distinct_names_beside(count):
    return script([":nth-of-type(2)"], [start(f"x{number}", ns="svg/") for number in range(count)])


def names_in_one_slot(count):
    """Names of letters whose codes leave the same remainder, so that a map keeps them in the same slot; one end tag closes all."""
    letters = "abcdefghijklmnopqrstuvwxyz"
    names = ["".join(letters[number // 26**place % 26] for place in range(4)) + "aa" for number in range(count)]
    return script([":nth-of-type(2)"], [start(name) for name in names] + [end(names[0])])


def names_with_equal_ends(count):
    """Names of equal length, alike up to their last letters."""
    return script([":nth-of-type(2)"], [start("x" * 40 + f"{number:07}") for number in range(count)])


def hereditary_ranges(count):
    return script([f"x{number} y" for number in range(count)], [start(f"x{number}") for number in range(count)])


def long_path(compounds, depth):
    """One element whose reason is a path of so many compounds, inside so many that match all but its last."""
    return "explain\n" + script(["div " * (compounds - 1) + "p"], [start("div")] * depth + [start("p")])


def matching_items(count):
    """One element that so many items of a list match."""
    return "explain\n" + script([",".join(f"p:not(x{number})" for number in range(count))], [start("p")])


def value(selector):
    """One tag whose attribute is a value up to a size in bytes."""
    return lambda size: script([selector], [start("p", "a=" + "a" * size)])


def words(size):
    return script([".b", "[class~=c]"], [start("p", "class=" + "a " * (size // 2))])


def many_attributes(count):
    selectors = [f"[x{number}=v]" for number in range(200)]
    return script(selectors, [start("p", *(f"a{number}=v" for number in range(count)))])


# With rows, whatever the number of selectors.

def with_rows(make):
    return lambda size: "rows\t0\n" + make(size)


def places_of_a_class(asking):
    """So many selectors of one class and of distinct places, and before them one that asks for attributes, or none; 2,000 tags,
    half of which have the class."""
    def make(count):
        selectors = [".b"] * asking + [f".a:nth-child({number + 2}n+1)" for number in range(count)]
        return script(selectors, [start("br", "class=a"), start("br", "class=c")] * 1_000)

    return make


def keyed(selector, attribute):
    """1,000 selectors, and 20 tags whose attributes have so many names: 1,000 are those of the selectors, or none is."""
    return lambda count: script([selector.format(number) for number in range(1_000)], [start("br", *attribute(count))] * 20)


def class_words(first):
    return lambda count: ["class=" + " ".join(f"k{number + first}" for number in range(count))]


def attribute_names(first):
    return lambda count: [f"a{number + first}=v" for number in range(count)]


def case_of(word, number):
    """The word with capitals where the number has a bit."""
    return "".join(letter.upper() if number >> place & 1 else letter for place, letter in enumerate(word))


def found_by(selector, tag, word):
    """So many selectors of distinct words, and 10,000 tags, each of which has one of 20,000 words."""
    return lambda count: script(
        [selector.format(word(number)) for number in range(count)], [tag(word(7_919 * number % 20_000)) for number in range(10_000)])


def tags_of_many(count):
    """So many tags with three classes each, and 10,000 selectors of classes."""
    classes = lambda number: " ".join(f"k{(number * factor) % 20_000}" for factor in (7_919, 6_007, 4_001))
    return script([f".k{number}" for number in range(10_000)], [start("br", "class=" + classes(number)) for number in range(count)])


def tags_inside_many(count):
    """So many tags inside 100 elements, each of which adds a hereditary range of 100 selectors."""
    selectors = [f".o{outer} .k{outer}-{inner}" for outer in range(100) for inner in range(100)]
    around = [start("div", f"class=o{outer}") for outer in range(100)]
    return script(selectors, around + [start("br", f"class=k{number % 100}-{number % 89}") for number in range(count)])


def value_of(text):
    """1,000 selectors whose operands end alike, and a tag with a value of so many bytes, which repeats a text."""
    return lambda size: script([f'[a*="{number}bbbb"]' for number in range(1_000)], [start("br", "a=" + (text * (size // len(text) + 1))[:size])])


KB = "a" * 1023 + "b"
MB = 1 << 20
ROWS = [(f"selector: {name}", MB // 4, repeated(pattern, last)) for name, pattern, last in [
    ("`a `", "a ", ""), ("`a,`", "a,", "a"), ("`a>`", "a>", "a"), ("`.a`", ".a", ""), ("`#a`", "#a", ""), ("`[a]`", "[a]", ""),
    ("`[a=\"b\"]`", '[a="b"]', ""), ("`:not(a)`", ":not(a)", ""), ("`:not(`", ":not(", "a"), ("`:is(a,`", ":is(a,", "a"),
    ("`:not(a),`", ":not(a),", "a"), ("`:nth-child(n)`", ":nth-child(n)", ""), ("`\\61 `", "\\61 ", ""), ("`a`", "a", ""), ("`/**/`", "/**/", "a"),
    ("`(`", "(", ""), ("`[`", "[", ""), ("`\"`", '"', ""), ("`a|`", "a|", ""), ("`:is(a b),`", ":is(a b),", "a"),
    ("`a+`", "a+", ""), ("`a~`", "a~", ""), ("`*`", "*", ""), ("`/*`", "/*", ""), ("`'`", "'", ""), ("`:is(`", ":is(", "a"), ("`:where(`", ":where(", "a"),
    ("`-`", "-", ""), ("`1`", "1", ""), ("`\\`", "\\", ""), ("`|`", "|", "")]]
ROWS += [
    ("selector: a list of distinct names", MB // 64, distinct_items),
    ("selectors of a class", 40_000, selectors_of(".k{}")),
    ("selectors of `:not`", 40_000, selectors_of(":not(x{})")),
    ("selectors of two steps", 40_000, selectors_of("main .k{} > a")),
    ("selectors in two lists that one product named alike", 5_000, two_lists_of_one_product),
    ("one selector, ids far apart, the greatest first", 25_000, falling_ids),
    ("siblings", 25_000, siblings),
    ("nested elements, 200 selectors", 25_000, nested),
    ("nested elements and stray end tags", 25_000, stray_ends),
    ("distinct names, one inside the other", 25_000, distinct_names_open),
    ("distinct names side by side", 25_000, distinct_names_beside),
    ("distinct names that begin alike", 25_000, names_with_equal_ends),
    ("distinct names in one slot, closed by one end tag", 25_000, names_in_one_slot),
    ("open elements that each add a hereditary range", 1_250, hereditary_ranges),
    ("explained, a path of 1,000 compounds, elements around", 25_000, lambda depth: long_path(1_000, depth)),
    ("explained inside 100,000 elements, compounds of a path", 250, lambda compounds: long_path(compounds, 100_000)),
    ("explained, items that all match", 2_500, matching_items),
    ("value, `*=` with 1 KB", MB // 4, value(f'[a*="{KB}"]')),
    ("value, `*=` with 1 KB, without case", MB // 4, value(f'[a*="{KB.upper()}" i]')),
    ("value, `~=` with 1 KB", MB // 4, value(f'[a~="{KB}"]')),
    ("value, `$=` with 1 KB", MB // 4, value(f'[a$="{KB}"]')),
    ("words of `class`", MB // 4, words),
    ("attributes of one tag, 200 selectors", 2_500, many_attributes),
]
PREFIX, LETTERS = "x" * 200, "abcdefghijklmnopqrstuvwxyz"
ROWS += [(f"rows: {name}", size, with_rows(make)) for name, size, make in [
    ("selectors of one class and of places", 2_500, places_of_a_class(1)),
    ("selectors of one class and of places, none that asks at once", 2_500, places_of_a_class(0)),
    ("words of `class`, 1,000 selectors, none of these", 25_000, keyed(".k{}", class_words(1_000))),
    ("words of `class`, 1,000 selectors, all of these", 25_000, keyed(".k{}", class_words(0))),
    ("attributes of a tag, 1,000 selectors, none of these", 2_500, keyed("[a{}]", attribute_names(1_000))),
    ("attributes of a tag, 1,000 selectors, all of these", 2_500, keyed("[a{}]", attribute_names(0))),
    ("bytes of a value, 1,000 selectors of its part", 25_000, value_of("b")),
    ("bytes of a value, 1,000 selectors of another part", 25_000, value_of("".join(map(str, range(50_000))))),
    ("selectors of names with 200 equal letters", 10_000, found_by("{}", start, lambda number: f"{PREFIX}{number}")),
    ("selectors of classes with 200 equal letters", 10_000, found_by(".{}", lambda word: start("br", f"class={word}"), lambda number: f"{PREFIX}{number}")),
    ("selectors of ids that differ in case", 10_000, found_by("#{}", lambda word: start("br", f"id={word}"), lambda number: case_of(LETTERS, number))),
    ("tags, 10,000 selectors of classes", 12_500, tags_of_many),
    ("tags inside 100 elements, 10,000 selectors of two steps", 12_500, tags_inside_many),
    ("open elements that each add a hereditary range", 1_250, hereditary_ranges),
]]

# Pages, for zugrenja. A tag of more than 1,048,576 bytes is refused where it ends.

def page(pattern, first="", last=""):
    """A page that repeats a pattern up to a size in bytes."""
    return lambda size: first + pattern * (size // len(pattern)) + last


def tags_with(pattern):
    """Tags with a value of 1,000,000 bytes, which repeats a pattern."""
    value = pattern * (1_000_000 // len(pattern))
    return page(f"<p a='{value}'>")


ROWS += [(f"page: {name}", size, make) for name, size, make in [
    ("`<`", 25 * MB, page("<")),
    ("`<a`", 25 * MB, page("<a")),
    ("`</`", 25 * MB, page("</")),
    ("quotes in a tag", 25 * MB, page("\"'", "<p ")),
    ("`<!--`", 25 * MB, page("<!--")),
    ("`<!`", 25 * MB, page("<!")),
    ("`--!` in a comment", 25 * MB, page("--!", "<!--")),
    ("a name that never ends", 25 * MB, page("a", "<a")),
    ("a tag that never ends", 25 * MB, page("=", "<p a=")),
    ("attributes of a tag that never ends", 25 * MB, page(" a=b", "<p")),
    ("distinct attributes of one tag", MB // 8, lambda size: "<p" + "".join(f" a{number:07}" for number in range(size // 9)) + ">"),
    ("tags `<p a=b>`", 25 * MB // 4, page("<p a=b>")),
    ("`<p></p>`", 25 * MB // 2, page("<p></p>")),
    ("nested `<svg>`", 5 * MB // 2, page("<svg>")),
    ("nested `<svg><desc>` and stray end tags", 5 * MB // 2, page("<svg><desc></svg></p>")),
    ("`<svg><p>`, which leaves the svg", 5 * MB // 2, page("<svg><p>")),
    ("`]]` in a CDATA section", 25 * MB, page("]]", "<svg><![CDATA[")),
    ("`<!--<script>` in a script", 25 * MB, page("<!--<script>", "<script>")),
    ("`<!--<script></script>-->` in a script", 25 * MB, page("<!--<script></script>-->", "<script>")),
    ("`</scrip` in a script", 25 * MB, page("</scrip", "<script>")),
    ("`</title` in a title", 25 * MB, page("</title", "<title>")),
    ("`&` in values", 25 * MB, tags_with("&")),
    ("`&No` in values", 25 * MB, tags_with("&No")),
    ("CRs", 25 * MB, page("\r", last="<p>")),
]]


def program_of(name):
    return PAGES if name.startswith("page: ") else SCRIPTS


def seconds(program, path):
    best = None
    for _ in range(RUNS):
        before = resource.getrusage(resource.RUSAGE_CHILDREN)
        with open(path, "rb") as source:
            ended = subprocess.run(program, stdin=source, stdout=subprocess.DEVNULL, check=False)
        after = resource.getrusage(resource.RUSAGE_CHILDREN)
        if ended.returncode not in (0, 1, 2):
            sys.exit(f"{path}: status {ended.returncode}")
        spent = after.ru_utime + after.ru_stime - before.ru_utime - before.ru_stime
        best = spent if best is None else min(best, spent)
    return best


def millions(program, path):
    """The instructions of a run by valgrind's callgrind, in millions."""
    with tempfile.TemporaryDirectory() as folder, open(path, "rb") as source:
        words = ["valgrind", "--tool=callgrind", f"--callgrind-out-file={folder}/out", *program]
        ended = subprocess.run(words, stdin=source, stdout=subprocess.DEVNULL, stderr=subprocess.PIPE, check=False)
    return int(re.search(rb"Collected : (\d+)", ended.stderr)[1]) / 1e6


def main(words_wanted, cost):
    print("| Input | Size | Twice | Four times | Growth |")
    print("|---|---|---|---|---|")
    with tempfile.TemporaryDirectory() as folder:
        path = os.path.join(folder, "script")
        for name, size, make in ROWS:
            if words_wanted and not any(word in name for word in words_wanted):
                continue
            times = []
            for factor in (1, 2, 4):
                with open(path, "w", encoding="utf-8", newline="\n") as target:
                    target.write(make(size * factor))
                times.append(cost(program_of(name), path))
            growth = ", ".join(f"{after / max(before, 0.001):.1f}" for before, after in zip(times, times[1:]))
            cells = " | ".join(f"{time:.3f}" for time in times)
            shown = name.replace("|", "\\|")
            print(f"| {shown}, {size:,} | {cells} | {growth} |", flush=True)


asked = [word for word in sys.argv[1:] if word != "--instructions"]
main(asked, seconds if asked == sys.argv[1:] else millions)
