"""Texts of selectors for random scripts: accepted ones from a small vocabulary, and refused ones of each cause."""

import random

NAMES = ["a", "b", "div", "p", "span", "ul", "li", "h1", "1a", "custom-element", "circle", "averyveryverylongname"]
VOID = ["br", "img", "input", "link", "meta", "wbr", "area", "base", "basefont", "bgsound", "col", "embed", "hr"]
ODD_NAMES = ["esi:include", "esi:comment", "ESI:include", "image", "é", "a:b", "A", "Div", "x_y", "p ", "param",
             "track"]
WITHOUT_CASE = """accept accept-charset align alink axis bgcolor charset checked clear codetype color compact declare
defer dir direction disabled enctype face frame hreflang http-equiv lang language link media method multiple nohref
noresize noshade nowrap readonly rel rev rules scope scrolling selected shape target text type valign valuetype
vlink""".split()
NEAR_MISSES = ["accepts", "bg-color", "hrefs", "href", "relation", "types", "typ", "id", "xtype", "value", "rel-",
               "lang-"]
ATTRIBUTES = ["a", "b", "c", "class", "id", "type", "rel", "data-x", "xlink:href", "é"]
WORDS = ["a", "b", "A", "B", "ab", "aB", "x1", "x-y", "é", "É", "1", "-", "k", "\u212a", "a.b", "it's", '"']
OPERATORS = ["=", "=", "~=", "|=", "^=", "$=", "*="]
NUMBERS = [0, 1, 1, 2, 2, 3, 4, 5, 7]
EDGES = [2147483647, 2147483646, -2147483648, -2147483647, 2147483648, -2147483649, 99999999999]
KEYWORDS = ["odd", "even", "ODD", "eVeN", "n", "-n", "+n", "N", "0n", "-0n"]

REFUSED = {
    "EmptySelector": ["", " ", "/**/", "*|", "|", "#1a", "#", "!", "1", '"a"', "-->", "@a", "a,", ",a", ":not()",
                      ")", "]"],
    "DanglingCombinator": ["a >", "a > ", "a >> b", "a > *|", "a > , b", "a > 1", "a >)", "a +", "a ~ ~ b", "a > |"],
    "UnexpectedEnd": ["a.", "a:", "a::", "[", "[a=", "[a=]", "[a= ", ":nth-child(", ":nth-child()", ":nth-child(+)",
                      ":nth-child(3n-)", "[a|]", ":not(:)", ".a, .", "[*", "[|", "a.,b", ":,a", ":nth-child(n -"],
    "UnexpectedToken": ["a@", "a)", "a/**/b", "*|.a", "|.a", "[a=b x]", "[a=b i i]", "[a=b i", ":nth-child(+ n)", "a]",
                        ":nth-child(2147483648)", ":nth-child(n+ -1)", ":nth-child(n 1)", ":nth-child(1.0)", "a b)",
                        ":nth-child(2n+1 of a)", ":nth-child(a)", ":nth-child(2e1)", ":nth-child(5%)", "*|a|b", "a*",
                        ":nth-of-type(n-2147483649)", ":nth-child(--n)", ":nth-child(+ 1)", "a b c {}", "a #1"],
    "MissingAttributeName": ["[=a]", '["a"]', "[1]", "[.a]", "[:a]", "[[a]]", "[#a]"],
    "UnexpectedTokenInAttribute": ["[a~b]", "[a==b]", "[a=1]", "[a~/**/=b]", "[a b]", "[*a]", "[a=#b]", "[|1]",
                                   "[a!=b]", "[|*]", "[a=.b]", "[*|1]", "[a,b]", "[a=,]", "[a(b)]"],
    "InvalidClassName": [".1", ". a", ".foo()", "..a", ".#a", ".[a]", ".*", ".-1", ".|a", "a.>b"],
    "NamespacedSelector": ["a|b", "a|*", "[a|b]", "[*|a]", "[a|b=c]", "[*|a=b]", "svg|circle", ":not([*|a])", "a|",
                           "[a|=b|c]"],
    "UnsupportedPseudoClassOrElement": [
        ":hover", "::before", ":before", "a: b", ":is", ":not", "::is(a)", ":not(a b)", ":is(a > b)", ":last-child",
        ":1", ":only-child", ":last-of-type", ":only-of-type", ":root", ":empty", ":scope", ":nth-last-child(1)",
        ":where(a + b)", ":nth-last-of-type(2n)", ":has(a)", ":lang(en)", ":focus", ":checked", ":first-line",
        ":contains(a)", ":.a", ":nth-child", ":first-child()", ":matches(a)", ":any(a)", ":ROOT", ":not/**/(a)",
        ":-a", ":not(:hover)", ":is(:first-line)"],
    "UnsupportedCombinator(+)": ["a + b", "a+b", "a b + c", "a ~ b + c", "a/**/+/**/b"],
    "UnsupportedCombinator(~)": ["a ~ b", "a~b", "a > b ~ c", "a + b ~ c"],
}
CAUSES = list(REFUSED)
FRAGMENTS = ("a b * | > + ~ , . # [ ] ( ) : :: = ~= |= ^= $= *= \" ' \\ \\31 \\0 - -- --> /* */ /**/ @ ! ; { } i s 1 n "
             "2n -1 :not( :is( :where( :nth-child( :first-child [a] [a=b] .a #a odd +1 n-1 é \u00a0 \x01 \x00 \r \x0c "
             "\\\r &").split(" ") + [" ", "\t"]


class Vocabulary:
    """The few names, attributes and values that one script uses, in its selectors and in its tags."""

    def __init__(self, r: random.Random, names: list, attributes: list):
        self.names = r.sample(names, min(len(names), r.choice((1, 2, 2, 3, 4))))
        self.attributes = r.sample(attributes, min(len(attributes), r.choice((1, 2, 2, 3))))
        if r.random() < 0.5:
            self.attributes.append(r.choice(("class", "id", "class")))
        words = r.sample(WORDS, r.choice((2, 3, 4)))
        self.values = words[:2] + [self.joined(r, words) for _ in range(3)]
        self.words = words

    @staticmethod
    def joined(r, words) -> str:
        joint = r.choice((" ", " ", "-", "", "  ", "\x0c", " - "))
        return joint.join(r.choice(words) for _ in range(r.choice((1, 2, 2, 3))))


def other_case(r: random.Random, text: str) -> str:
    """The text with some of its ASCII letters in the other case."""
    return "".join(c.swapcase() if c.isascii() and r.random() < 0.5 else c for c in text)


def escaped(r: random.Random, c: str) -> str:
    if r.random() < 0.3 and c not in "0123456789abcdefABCDEF\n\r\x0c":
        return "\\" + c
    return "\\" + r.choice(("%x ", "%06x", "%X ", "%06x ")) % ord(c)


def identifier(r: random.Random, text: str) -> str:
    """A way to write the text as a CSS identifier."""
    out = ""
    for place, c in enumerate(text):
        plain = c.isalnum() or c in "_-" or ord(c) >= 0x80
        if c.isascii() and c.isdigit() and text[:place] in ("", "-") or text == "-":
            plain = False
        out += c if plain and r.random() > 0.01 else escaped(r, c)
    return out


def quoted(r: random.Random, text: str) -> str:
    """A way to write the text as a CSS string."""
    quote = r.choice("\"'")
    return quote + "".join(escaped(r, c) if c in quote + "\\\n\r\x0c" else c for c in text) + quote


class Selectors:
    """Draws selectors over a vocabulary. `alike` keeps to what lol_html means in the same way."""

    def __init__(self, r: random.Random, words: Vocabulary, alike: bool):
        self.r, self.words, self.alike = r, words, alike

    def blank(self) -> str:
        return self.r.choice(("",) * 12 + (" ", "/**/", "\t", " /* , */ "))

    def name(self) -> str:
        text = identifier(self.r, self.r.choice(self.words.names))
        return other_case(self.r, text) if "\\" not in text and self.r.random() < 0.1 else text

    def operand(self) -> str:
        """A value of the vocabulary, or a part of one."""
        value = self.r.choice(self.words.values)
        start, end = sorted((self.r.randrange(len(value) + 1), self.r.randrange(len(value) + 1)))
        part = self.r.choice((value, value, self.r.choice(self.words.words), value[start:], value[:end],
                             value[start:end]))
        return other_case(self.r, part) if self.r.random() < 0.3 else part

    def attribute(self) -> str:
        r = self.r
        name = r.choice(self.words.attributes)
        name = identifier(r, other_case(r, name) if r.random() < 0.1 else name)
        name = r.choice(("",) * 15 + ("|",)) + name
        if r.random() < 0.25:
            return f"[{self.blank()}{name}{self.blank()}]"
        value = self.operand()
        text = identifier(r, value) if value and r.random() < 0.4 else quoted(r, value)
        flag = r.choice(("", "", "", " i", " s", " I", " S"))
        if text[0] in "\"'" and r.random() < 0.3:
            flag = flag.strip()
        end = r.choice(("]",) * 40 + ("",))
        return f"[{self.blank()}{name}{r.choice(OPERATORS)}{self.blank()}{text}{flag}{self.blank()}{end}"

    def progression(self) -> str:
        r = self.r
        if r.random() < 0.25:
            return r.choice(KEYWORDS)
        edge = r.random() < (0.01 if self.alike else 0.08)
        step, offset = r.choice(NUMBERS), r.choice(NUMBERS + EDGES if edge else NUMBERS)
        zeros = "" if r.random() < 0.8 else r.choice(("0", "00"))
        offset_text = f"{offset:+d}"[0] + zeros + f"{offset:+d}"[1:]
        if r.random() < 0.3:
            return r.choice((f"{offset}", offset_text))
        sign = r.choice(("", "", "-", "+"))
        joint = r.choice(("", "", " "))
        sign_of_offset = r.choice("+-") + r.choice(("", " "))
        return r.choice((f"{sign}{step}n{joint}{offset_text}", f"{sign}{step}n{joint}{sign_of_offset}{abs(offset)}",
                         f"{sign}n{joint}{offset_text}", f"{sign}{step}N"))

    def pseudo(self, depth: int) -> str:
        r = self.r
        if depth < 3 and r.random() < 0.45:
            return self.logical(depth)
        if r.random() < 0.25:
            return r.choice((":first-child", ":first-of-type", ":First-Child", ":first-\\6ff-type"))
        name = r.choice(("nth-child", "nth-of-type", "nth-child", "nth-of-type", "NTH-child"))
        space = r.choice(("", "", "", " "))
        return f":{name}({space}{self.progression()}{space})"

    def logical(self, depth: int) -> str:
        r = self.r
        if self.alike:
            return f":not({', '.join(self.part(3) for _ in range(r.choice((1, 1, 2))))})"
        name = r.choice(("not", "not", "is", "where", "NOT", "Is"))
        compounds = [self.compound(depth + 1) for _ in range(r.choice((1, 1, 2, 3)))]
        inside = r.choice((",", ", ", " , ", "/**/,")).join(compounds)
        return f":{name}({inside}" + r.choice((")",) * 30 + (" )", ""))

    def part(self, depth: int) -> str:
        """One simple selector that isn't a name."""
        kind = self.r.randrange(12)
        if kind < 2:
            return "." + identifier(self.r, self.r.choice(self.words.words))
        if kind == 2:
            return "#" + identifier(self.r, self.r.choice(self.words.words))
        return self.attribute() if kind < 8 else self.pseudo(depth)

    def compound(self, depth: int = 0) -> str:
        r = self.r
        name = r.choice(("", "", self.name(), self.name(), self.name(), "*"))
        if name and r.random() < 0.04:
            name = r.choice(("|", "*|")) + name
        count = r.choice((0, 0, 0, 0, 1, 1, 1, 2) if depth == 0 else (0, 0, 1, 1, 2))
        parts = [self.part(depth) for _ in range(count if name else max(count, 1))]
        return name + "".join(part + r.choice(("",) * 30 + ("/**/",)) for part in parts)

    def item(self, longest: int = 4) -> str:
        r = self.r
        text = self.compound()
        for _ in range(r.choice((0, 0, 1, 1, 2, longest))):
            text += r.choice((" ", " ", " ", " > ", " > ", ">", "  ", "/**/ ", "\t>\t", "> ")) + self.compound()
        return text

    def text(self) -> str:
        """A list, mostly of one item."""
        r = self.r
        out = r.choice((",", ", ", " , ")).join(self.item() for _ in range(r.choice((1, 1, 1, 1, 2, 3))))
        return r.choice(("",) * 30 + (" ", "/* */")) + out + r.choice(("",) * 30 + (" ", "\r", "\f"))

    def refused(self) -> str:
        """A text that is refused for a cause drawn among all, alone or beside what is accepted."""
        r = self.r
        text = r.choice(REFUSED[r.choice(CAUSES)])
        return r.choice((text, text, f"{self.item()}, {text}", f"{text}, {self.item()}", f"{self.item()} {text}",
                         f"{self.compound()} > {text}", f":not({text})", f":is({self.compound()}, {text})",
                         f"{self.compound()}{text}"))

    def disturbed(self) -> str:
        """A selector with a few pieces put in or left out."""
        r = self.r
        text = self.text() if r.random() < 0.6 else "".join(r.choice(FRAGMENTS) for _ in range(r.randrange(1, 7)))
        for _ in range(r.choice((1, 1, 2, 3))):
            place = r.randrange(len(text) + 1)
            text = text[:place] + r.choice(FRAGMENTS + [""] * 20) + text[place + r.choice((0, 0, 1, 3)):]
        return text.replace("\n", " ")

    def great(self) -> str:
        """A text at one of the bounds: parts inside one another, compounds of an item, items of a list, a long name."""
        r = self.r
        kind = r.randrange(5)
        if kind == 0:
            depth = r.choice((126, 127, 128, 128, 129, 130))
            names = [":not("] if r.random() < 0.5 else [":not(", ":is(", ":where("]
            return "".join(r.choice(names) for _ in range(depth)) + "a" + ")" * r.choice((depth, depth, 0))
        if kind == 1:
            compounds = ["a"] * r.choice((1022, 1023, 1024, 1025))
            return r.choice((" ", ">", " > ")).join(compounds) + r.choice(("", "", ">", " b"))
        if kind == 2:
            return ",".join(self.compound() for _ in range(r.choice((20, 100, 300))))
        if kind == 3:
            return "a" + "".join(self.part(2) for _ in range(r.choice((10, 50))))
        return r.choice(("", ".", "#")) + r.choice("ab") * r.choice((12, 13, 100, 3000))
