"""The scripts that the programs are measured with, made from fixed seeds: each a function that gives a script as bytes."""
import pathlib
import random

TAGS = "div p span a ul li section table tr td h1 article custom-element img br input".split()
VOID = {"img", "br", "input"}
CLASSES = "a b c nav item active wide header".split()
IDS = "main top x1 x2 x3 footer".split()
PAGE_TAGS = 100_000


def script(selectors, tags):
    """A script of selectors under the ids 0, 1, .. and of tags."""
    lines = [f"select\t{match_id}\t{text}" for match_id, text in enumerate(selectors)]
    return "\n".join([*lines, *tags, ""]).encode()


def start(name, *attributes, namespace="html"):
    return "\t".join(["start", namespace, name, *attributes])


def nested(draw, count, depth, closing, make):
    """So many tags: an end tag of the last open element where `depth` are open, or by chance, else a start tag of `make()`."""
    tags, open_names = [], []
    for _ in range(count):
        if open_names and (len(open_names) >= depth or draw.random() < closing):
            tags.append("end\t" + open_names.pop())
            continue
        name, attributes = make()
        tags.append(start(name, *attributes))
        if name not in VOID:
            open_names.append(name)
    return tags


# Selectors of every kind over a page of mixed tags.

def compound(draw):
    return draw.choice([
        lambda: draw.choice(TAGS),
        lambda: "." + draw.choice(CLASSES),
        lambda: "#" + draw.choice(IDS),
        lambda: '[href^="http:"]',
        lambda: '[href$=".png"]',
        lambda: f'[data-k*="v{draw.randrange(9)}"]',
        lambda: "[title]",
        lambda: f"{draw.choice(TAGS)}.{draw.choice(CLASSES)}",
        lambda: f'{draw.choice(TAGS)}[type="text"]',
        lambda: f"{draw.choice(TAGS)}:nth-child({draw.randrange(1, 4)}n+1)",
        lambda: f"{draw.choice(TAGS)}:not(.{draw.choice(CLASSES)})",
    ])()


def complex_selector(draw):
    text = compound(draw)
    for _ in range(draw.choice([0, 0, 1, 1, 1, 2])):
        text += draw.choice([" ", " > "]) + compound(draw)
    return text


def mixed_tag(draw):
    name, attributes = draw.choice(TAGS), []
    if draw.random() < 0.6:
        attributes.append("class=" + " ".join(draw.sample(CLASSES, draw.randrange(1, 4))))
    if draw.random() < 0.15:
        attributes.append("id=" + draw.choice(IDS))
    if draw.random() < 0.3:
        scheme, number = draw.choice(["http:", "https:"]), draw.randrange(1000)
        attributes.append(f"href={scheme}//example.test/{number}{draw.choice(['', '.png'])}")
    if draw.random() < 0.2:
        attributes.append(f"data-k=some v{draw.randrange(20)} text")
    if draw.random() < 0.1:
        attributes.append("type=" + draw.choice(["text", "TEXT", "submit"]))
    return name, attributes


def mixed(count, tags=PAGE_TAGS):
    draw = random.Random(5)
    selectors = [complex_selector(draw) for _ in range(count)]
    return script(selectors, nested(draw, tags, 20, 0.44, lambda: mixed_tag(draw)))


# One thing each.

def names():
    draw, tags = random.Random(3), ["div", "p", "span", "ul", "li", "a"]
    selectors = [a + combinator + b for a in tags[:4] for combinator in (" ", " > ") for b in tags[2:5]]
    return script(selectors, nested(draw, 200_000, 16, 0.45, lambda: (draw.choice(tags), [])))


def depth(count=100_000):
    tags = [start("div")] * count + ["end\ttable"] * count + ["end\tdiv"] * count
    return script(["div div", "div > p"], tags)


def siblings(count=100_000):
    selectors = ["li:nth-child(2n+1)", "li:nth-of-type(3n)", "ul > li:first-child"]
    return script(selectors, [start("ul")] + [start("li"), "end\tli"] * count)


def long_values():
    value = "x" * 2000 + "needle" + "y" * 2000
    words = " ".join(f"c{number}" for number in range(50))
    selectors = ['[data-a*="needle"]', '[data-a*="NEEDLE" i]', '[class~="c40"]', '[data-a$="y"]']
    return script(selectors, [start("br", f"data-a={value}", f"class={words}")] * 5000)


def reading(count=20_000):
    draw = random.Random(4)
    types = ["div", "a:first-child"]
    parts = [".item", "#main", "[href^='http']", ":nth-child(2n+1)", ":not(.x)", '[data-k="v" i]']

    def selector():
        compounds = [draw.choice(types) + draw.choice(parts) + draw.choice([" > ", " "]) for _ in range(draw.randrange(1, 5))]
        return "".join(compounds) + "p"

    return script([selector() for _ in range(count)], [start("br")])


WORKLOADS = {
    "10 selectors, a page of mixed tags": lambda: mixed(10),
    "50 selectors": lambda: mixed(50),
    "200 selectors": lambda: mixed(200),
    "selectors of names alone": names,
    "100,000 open elements": depth,
    "100,000 siblings, with tests by type": siblings,
    "attributes with long values": long_values,
    "20,000 selectors read": reading,
}


# How the cost grows with the number of selectors.

def many_classes(draw, count):
    return [f".c{number}" for number in range(count)]


def many_names(draw, count):
    other = ["x" + "".join("abcdefgh"[int(digit)] for digit in format(number, "o")) for number in range(count)]
    return (TAGS + other)[:count]


def many_mixed(draw, count):
    def one(number):
        some = lambda: f"c{draw.randrange(2 * count + 9)}"
        return draw.choice([
            lambda: f".{some()}",
            lambda: f"#{some()}",
            lambda: f"{draw.choice(TAGS)}.{some()}",
            lambda: f"{draw.choice(TAGS)} > .{some()}",
            lambda: f".{some()} .{some()}",
            lambda: f'a[href^="http://x{number}"]',
        ])()

    return [one(number) for number in range(count)]


def ad_list(draw, count):
    """As lists of a content blocker have them: six in ten a class, three an id, one an attribute."""
    def one(number):
        kind = draw.randrange(10)
        if kind < 6:
            return f".ad-{number}"
        if kind < 9:
            return f"#ad{number}"
        return draw.choice([f'div[id^="ad{number}"]', f'a[href*="ads{number}"]', f'[data-ad="{number}"]'])

    return [one(number) for number in range(count)]


LISTS = {"classes": many_classes, "names": many_names, "mixed": many_mixed, "ad list": ad_list}


def listed_tag(draw):
    name, attributes = draw.choice(TAGS), []
    if draw.random() < 0.6:
        attributes.append("class=" + " ".join(f"c{draw.randrange(2000)}" for _ in range(draw.randrange(1, 4))))
    if draw.random() < 0.15:
        attributes.append(f"id=c{draw.randrange(3000)}")
    if draw.random() < 0.3:
        attributes.append(f"href=http://example.test/{draw.randrange(1000)}")
    return name, attributes


def listed(kind, count, tags=20_000):
    """A list of so many selectors of a kind, over a page of so many tags."""
    draw = random.Random(f"{kind} {count}")
    selectors = LISTS[kind](draw, count)
    return selectors, nested(draw, tags, 20, 0.45, lambda: listed_tag(draw))


EXAMPLE = "examples/filters.txt"


def listed_example():
    """The selectors and the tags of the example, whose first line is `rows`."""
    lines = (pathlib.Path(__file__).resolve().parent.parent / EXAMPLE).read_text(encoding="utf-8").splitlines()[1:]
    selectors = [line.split("\t", 2)[2] for line in lines if line.startswith("select")]
    return selectors, lines[len(selectors):]


def wide(count):
    """One start tag with so many attributes, 200 times."""
    attributes = [f"data-{number}=value" for number in range(count)]
    return script(["[data-0]", "[data-none]", '[data-1^="v"]'], [start("br", *attributes)] * 200)
