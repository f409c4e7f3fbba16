"""Tests of what reads pages, which need no library: page_tests.py

The trees are those that html5lib makes of the pages, with scripts turned on, without the elements that it adds; those of end tags in SVG are the
HTML Standard's (13.2.6.5), where html5lib 1.1 keeps an older rule.
"""

import os
import pty
import subprocess
import sys
import time
import unittest
from pathlib import Path

from page_tags import PageTags

EXAMPLE = Path(__file__).resolve().parents[2] / "examples" / "tags.py"


class Tree(PageTags):
    """The elements of a page, each with its namespace if that isn't HTML, and those in it in braces. An end tag closes as the matcher does."""

    VOID = "br img".split()

    def __init__(self, page: str | bytes) -> None:
        super().__init__()
        self.root: list = []
        self.open: list[tuple[str | None, list]] = [(None, self.root)]
        self.attributes: list[dict[str, str | None]] = []
        self.read(page)

    def start(self, name: str, attributes: dict[str, str | None], namespace: str, self_closing: bool) -> None:
        inner: list = []
        self.attributes.append(attributes)
        self.open[-1][1].append((name if namespace == "html" else f"{namespace}:{name}", inner))
        if not (name in self.VOID if namespace == "html" else self_closing):
            self.open.append((name, inner))

    def end(self, name: str) -> None:
        for place in range(len(self.open) - 1, 0, -1):
            if self.open[place][0] == name:
                del self.open[place:]
                return


def shown(elements: list) -> str:
    return " ".join(f"{name}{{{shown(inner)}}}" if inner else name for name, inner in elements)


class Pages(unittest.TestCase):
    def check(self, rows: dict[str, str]) -> None:
        for page, tree in rows.items():
            with self.subTest(page=page):
                self.assertEqual(shown(Tree(page).root), tree)

    def test_mark_of_a_tag_that_closes_itself(self) -> None:
        self.check({
            "<div/><p>x</p>": "div{p}",
            "<br/><img /><p>x</p>": "br img p",
            "<svg><g/><path /><g></g></svg><p>x</p>": "svg:svg{svg:g svg:path svg:g} p",
            "<svg/><math/><p>x</p>": "svg:svg mathml:math p",
            "<svg><desc/><g/></svg>": "svg:svg{svg:desc svg:g}",
            "<a href=/b/><i></i></a>": "a{i}",
        })

    def test_text_has_no_tags(self) -> None:
        for name in "textarea title iframe xmp noembed noframes noscript script style".split():
            self.check({
                f"<{name}><b></{name}x><i></ {name}></{name.upper()}><p></p>": f"{name} p",
                f"<{name}/><b></{name} a=b><p></p>": f"{name} p",
                f"<{name}><!-- </{name}\n><p>--></p>": f"{name} p",
                f"<{name}><b></b><!--": name,
            })
        self.check({"<p></p><plaintext><b></b></plaintext><i></i>": "p plaintext"})

    def test_svg_and_mathml(self) -> None:
        self.check({
            "<SVG><G></G></SVG><g></g>": "svg:svg{svg:g} g",
            "<svg><math></math></svg><math><svg></svg></math>": "svg:svg{svg:math} mathml:math{mathml:svg}",
            "<svg><style><g></g></style><textarea><g/></textarea><script/></svg>": "svg:svg{svg:style{svg:g} svg:textarea{svg:g} svg:script}",
            "<div><svg></div><g></g>": "div{svg:svg} g",
            "<svg><![CDATA[<g>]]><path/></svg>": "svg:svg{svg:path}",
            "<![CDATA[x><b></b>]]><![x[<p>]]><i></i>": "b i",
        })

    def test_html_inside_of_them(self) -> None:
        for name in "foreignObject desc title".split():
            inner = f"svg:{name.lower()}"
            self.check({f"<svg><{name}><p></p><svg><a/></svg></{name}><a/></svg>": f"svg:svg{{{inner}{{p svg:svg{{svg:a}}}} svg:a}}"})
        for name in "mi mo mn ms mtext".split():
            page = f"<math><{name}><p></p><svg></svg><mglyph/><malignmark/></{name}><mglyph/></math>"
            self.check({page: f"mathml:math{{mathml:{name}{{p svg:svg mathml:mglyph mathml:malignmark}} mathml:mglyph}}"})
        for encoding in ("text/html", "'Application/XHTML+xml'", "TEXT/HTML encoding=x"):
            page = f"<math><annotation-xml encoding={encoding}><p></p><math/></annotation-xml><mi/></math>"
            self.check({page: "mathml:math{mathml:annotation-xml{p mathml:math} mathml:mi}"})
        for attribute in ("", " encoding", " encoding=x encoding=text/html", " encoding='text/html '"):
            page = f"<div><math><annotation-xml{attribute}><svg><g/></svg><a></a><p></p></annotation-xml></math></div>"
            self.check({page: "div{mathml:math{mathml:annotation-xml{svg:svg{svg:g} mathml:a}} p}"})
        self.check({"<div><svg><annotation-xml encoding=text/html><p></p></div>": "div{svg:svg{svg:annotation-xml} p}"})

    def test_tags_that_end_them(self) -> None:
        for name in "b blockquote code div em h1 h6 i li p pre span table ul var".split():
            self.check({f"<div><svg><g><{name}></{name}></g></svg><a></a></div>": f"div{{svg:svg{{svg:g}} {name} a}}"})
        self.check({
            "<div><math><mrow><br></mrow></math></div>": "div{mathml:math{mathml:mrow} br}",
            "<div><svg><foreignObject><svg><g><p></p><a></a></foreignObject></svg></div>": "div{svg:svg{svg:foreignobject{svg:svg{svg:g} p a}}}",
            "<div><svg><font></font><font SIZE=1></font></svg></div>": "div{svg:svg{svg:font} font}",
            "<div><svg></br><a></a></div>": "div{svg:svg a}",
            "<div><svg><g></p><a></a></div>": "div{svg:svg{svg:g} a}",
        })

    def test_first_attribute_of_a_name(self) -> None:
        self.assertEqual(Tree("<p a=1 b A=2 =c>").attributes, [{"a": "1", "b": None, "=c": None}])

    def test_bytes(self) -> None:
        page = b"\xef\xbb\xbf<p a='\xc3\xa9' b='\xff' c='x\r\ny\rz'>"
        self.assertEqual(Tree(page).attributes, [{"a": "é", "b": "\ufffd", "c": "x\ny\nz"}])

    def test_time_of_end_tags_that_close_nothing(self) -> None:
        began = time.process_time()
        PageTags().read("<b>" * 50_000 + "</i>" * 50_000)
        self.assertLess(time.process_time() - began, 20)


class Example(unittest.TestCase):
    def script(self, *words: str, page: bytes = b"") -> tuple[str, int]:
        done = subprocess.run([sys.executable, EXAMPLE, *words], input=page, stdout=subprocess.PIPE, stderr=subprocess.STDOUT)
        return done.stdout.decode(), done.returncode

    def test_script(self) -> None:
        page = "<textarea><b></textarea><svg><g a='\t' b=c=d /></svg><p é='ü'>".encode()
        tags = "start\thtml\ttextarea\nend\ttextarea\nstart\tsvg\tsvg\nstart\tsvg/\tg\ta= \tb=c=d\nend\tsvg\nstart\thtml\tp\té=ü\n"
        self.assertEqual(self.script("p", page=page), (f"select\t0\tp\n{tags}", 0))

    def test_attribute_that_no_script_holds(self) -> None:
        self.assertEqual(self.script("p", page=b"<p =a=b c = = =>"), ("select\t0\tp\nstart\thtml\tp\tc==\n", 0))

    def test_without_selectors(self) -> None:
        self.assertEqual(self.script(), ("usage: tags.py SELECTOR.. < page.html\n", 2))

    def test_at_a_terminal(self) -> None:
        ours, its = pty.openpty()
        example = subprocess.Popen([sys.executable, EXAMPLE, "p"], stdin=its, stdout=subprocess.PIPE, stderr=subprocess.PIPE)
        os.close(its)
        self.assertEqual(example.stderr.readline(), b"tags.py waits for a page on standard input\n")
        os.write(ours, b"<p>\n\x04")
        self.assertEqual(example.communicate(timeout=60)[0], b"select\t0\tp\nstart\thtml\tp\n")
        os.close(ours)


if __name__ == "__main__":
    unittest.main()
