"""Tests of the Python module, on the stored examples and on small pages."""

import re
import subprocess
import sys
import unittest
from pathlib import Path

import zugrenja
from zugrenja import Match, Matcher, Reason, Refused, ScriptError, SelectorError, TagError, run_script, select

HERE = Path(__file__).resolve().parent
EXAMPLES = HERE.parent.parent / "examples"
sys.path[:0] = [str(HERE.parent), str(HERE / "examples")]
import calls  # noqa: E402
import cases  # noqa: E402
import table  # noqa: E402
import tags  # noqa: E402
import why  # noqa: E402


class RunScript(unittest.TestCase):
    def test_stored_examples(self) -> None:
        for script in EXAMPLES.glob("*.txt"):
            self.assertEqual(run_script(script.read_bytes()), script.with_suffix(".out").read_text())

    def test_output_longer_than_its_script(self) -> None:
        ids = "".join(f"select\t{4294960000 + number}\t*\n" for number in range(100))
        output = run_script((ids + "start\thtml\tp\n").encode())
        self.assertEqual(len(output.split(",")), 100)

    def test_bad_line(self) -> None:
        with self.assertRaises(ScriptError) as raised:
            run_script(b"select\t0\tp\nselect\t1\ta + b\n")
        self.assertEqual((raised.exception.line, raised.exception.cause), (2, "UnsupportedCombinator(+)"))

    def test_refused_tag(self) -> None:
        with self.assertRaises(Refused) as raised:
            run_script(b"limit\t0\nselect\t0\tbr\nstart\thtml\tbr\nstart\thtml\tp\n")
        self.assertEqual(raised.exception.output, "start\t0/\nrefused limit\n")


class StoredCases(unittest.TestCase):
    def test_are_answered_tag_by_tag(self) -> None:
        for script, answer, status in cases.cases():
            with self.subTest(script=script):
                self.assertEqual(tags.run(script), (answer.decode(), status))

    def test_are_explained_as_the_model_does(self) -> None:
        explained = 0
        for script, answer, status in cases.explained(cases.cases()):
            with self.subTest(script=script):
                self.assertEqual(tags.run(script), (answer.decode(), status))
                explained += self.compounds_of(script, answer.decode())
        self.assertGreater(explained, 5000)

    def compounds_of(self, script: bytes, output: str) -> int:
        """How many reasons there are: each has a number for each compound that the example cuts its item into, and the compounds together
        are read as the text is."""
        lines, reasons = script.split(b"\n"), re.findall(r"^why\t.*\t(.*)\t(.*)\t(.*)$", output, re.M)
        for line, item, numbers in reasons:
            text = lines[int(line) - 1].split(b"\t", 2)[2].decode()
            items = why.items_of(text)
            self.assertEqual(len(items[int(item)]), len(numbers.split(",")), text)
            self.assertEqual(cases.model.accept(", ".join(map(" ".join, items))), cases.model.accept(text), text)
        return len(reasons)


class TableOfCalls(unittest.TestCase):
    def test_by_the_functions(self) -> None:
        for case in calls.cases():
            handle = table.Functions()
            for call in case.calls:
                with self.subTest(case=case.name, call=call.line):
                    self.assertEqual(handle.call(call), call.answer)
            handle.free()

    def test_by_matcher(self) -> None:
        made = every = 0
        for case in calls.cases():
            typed = table.Typed()
            for place, call in enumerate(case.calls):
                with self.subTest(case=case.name, call=call.line):
                    answer = typed.call(call, case.calls[place + 1 :])
                    self.assertIn(answer, (None, call.answer))
                made, every = made + (answer is not None), every + 1
        print(f"\n{every - made} of {every} calls of the table aren't for Matcher to make")
        self.assertGreater(made, 2000)


class Tags(unittest.TestCase):
    def test_goes_tag_by_tag(self) -> None:
        with Matcher(["div > p, div a", "a[href]"]) as matcher:
            self.assertEqual(matcher.start("div"), ())
            self.assertEqual(matcher.start("A", {"href": None}), (0, 1))
            self.assertTrue(matcher.asked and matcher.has_opened)
            self.assertEqual(matcher.tries(), (4, 1))
            self.assertTrue(matcher.set_value(2**64 - 1))
            self.assertEqual(matcher.end("div"), [0, 2**64 - 1])
            self.assertEqual(matcher.ids, ())

    def test_tag_that_is_dropped(self) -> None:
        with Matcher(["b:nth-child(2)", "i.a"]) as matcher:
            self.assertEqual((matcher.start("i", None), matcher.asked), ((), True))
            self.assertEqual(matcher.start("b"), (0,))

    def test_namespaces(self) -> None:
        with Matcher(["svg > rect"]) as matcher:
            matcher.start("svg", namespace="svg")
            self.assertEqual(matcher.start("rect", namespace="svg", self_closing=True), (0,))
            self.assertFalse(matcher.has_opened or matcher.set_value(1))

    def test_refusals(self) -> None:
        matcher = Matcher(["p"], max_memory=0)
        for status in (12, 15):
            with self.assertRaises(TagError) as raised:
                matcher.start("p")
            self.assertEqual(raised.exception.status, status)
        self.assertEqual(str(raised.exception), "an earlier start tag was refused: no other is answered")
        with self.assertRaises(TagError):
            matcher.add(1, "p")
        matcher.close()
        matcher.close()
        with self.assertRaises(TagError) as raised:
            matcher.start("p")
        self.assertEqual(str(raised.exception), "the handle has no matcher")

    def test_selectors_that_are_not_accepted(self) -> None:
        with Matcher() as matcher:
            with self.assertRaises(SelectorError) as raised:
                matcher.add(2**32 - 1, "img, a + img")
            self.assertEqual((raised.exception.cause, raised.exception.item, raised.exception.offset), ("UnsupportedCombinator(+)", 1, 7))
            lines = str(raised.exception).split("\n")
            self.assertEqual(lines[:2], ["Unsupported combinator `+` in selector.", "    img, a + img"])
            self.assertTrue(lines[2].startswith("           ^ `+` steps to a sibling"))
            with self.assertRaises(SelectorError) as raised:
                matcher.add(0, "ü > ö + a")
            self.assertEqual(raised.exception.text[raised.exception.offset :], "+ a")
            for text in (b"\xff", "\udcff"):
                with self.assertRaises(SelectorError):
                    matcher.add(0, text)
            with self.assertRaises(ValueError):
                matcher.add(2**32, "p")


class Reasons(unittest.TestCase):
    def test_tell_the_elements_of_the_compounds(self) -> None:
        with Matcher(["div p", "div > p"], explain=True) as matcher:
            for name in ("div", "section", "p"):
                matcher.start(name)
            self.assertEqual(matcher.explain(), [Reason(id=0, text=0, item=0, witness=(0, 2))])
            self.assertEqual(matcher.explain_text(), "why\t0\t0\t0\t0,2\n")
            self.assertEqual(str(matcher.explain()[0]), "why\t0\t0\t0\t0,2")
            matcher.end("section")
            self.assertEqual((matcher.explain(), matcher.explain_text()), ([], ""))
            matcher.start("p")
            self.assertEqual(matcher.explain(), [(0, 0, 0, (0, 4)), (1, 1, 0, (0, 4))])

    def test_name_each_item_of_each_text(self) -> None:
        with Matcher(explain=True) as matcher:
            for text in ("em, p.new, p", "body > p, [class], body [class=new]"):
                matcher.add(7, text)
            self.assertEqual((matcher.explain(), matcher.explain_text()), ([], ""))
            matcher.start("body")
            self.assertEqual(matcher.start("p", {"class": "new"}), (7,))
            items = [(0, 1, (1,)), (0, 2, (1,)), (1, 0, (0, 1)), (1, 1, (1,)), (1, 2, (0, 1))]
            self.assertEqual(matcher.explain(), [Reason(7, *item) for item in items])
            self.assertEqual(matcher.explain_text(), "".join(f"{reason}\n" for reason in matcher.explain()))

    def test_of_elements_without_content(self) -> None:
        with Matcher(["br", "br > p", "* p"], explain=True) as matcher:
            matcher.start("br")
            self.assertEqual(matcher.explain(), [Reason(0, 0, 0, (0,))])
            matcher.start("p")
            self.assertEqual(matcher.explain(), [])

    def test_count_dropped_tags(self) -> None:
        with Matcher(["p[id]", "b"], explain=True) as matcher:
            self.assertEqual((matcher.start("p", None), matcher.explain()), ((), []))
            matcher.start("b")
            self.assertEqual(matcher.explain(), [Reason(1, 1, 0, (1,))])

    def test_are_none_after_a_refusal(self) -> None:
        with Matcher(["p, br"], max_memory=8 * 64, explain=True) as matcher:
            for _ in range(8):
                matcher.start("p")
            self.assertEqual(matcher.explain(), [Reason(0, 0, 0, (7,))])
            with self.assertRaises(TagError):
                matcher.start("p")
            self.assertEqual(matcher.explain(), [])

    def test_as_many_and_as_long_as_they_come(self) -> None:
        with Matcher([" ".join(["p"] * 100), "p, " * 30 + "p"], explain=True) as matcher:
            for _ in range(100):
                matcher.start("p")
            reasons = [Reason(0, 0, 0, tuple(range(100))), *(Reason(1, 1, item, (99,)) for item in range(31))]
            self.assertEqual(matcher.explain(), reasons)
            self.assertEqual(matcher.explain_text(), "".join(f"{reason}\n" for reason in reasons))

    def test_are_not_told_unless_it_was_made_so(self) -> None:
        with Matcher(["p"]) as matcher:
            for tells in (matcher.explain, matcher.explain_text):
                with self.assertRaises(TagError):
                    tells()
                matcher.start("p")
                with self.assertRaises(TagError) as raised:
                    tells()
                self.assertEqual(raised.exception.status, zugrenja.NOT_EXPLAINING)
        with self.assertRaises(TagError):
            matcher.explain()


class Rows(unittest.TestCase):
    def test_spare_tries_alone(self) -> None:
        with Matcher(["div p"]) as without, Matcher(["div p"]) as never, Matcher(["div p"]) as always:
            never.with_rows(3)
            always.with_rows(2)
            for name, ids, tries, spared in (("div", (), 1, 1), ("section", (), 2, 0), ("p", (0,), 2, 1)):
                for matcher, tried in ((without, tries), (never, tries), (always, spared)):
                    self.assertEqual((matcher.start(name), matcher.has_opened), (ids, True))
                    self.assertEqual(matcher.tries(), (tried, 0))

    def test_pay_from_256_nodes(self) -> None:
        for nodes, tries in ((255, 1), (256, 0)):
            with Matcher([" ".join(["p"] * nodes)]) as matcher:
                matcher.with_rows()
                matcher.start("a")
                self.assertEqual(matcher.tries(), (tries, 0))

    def test_are_none_where_they_are_refused(self) -> None:
        with Matcher(["p"], explain=True) as matcher:
            with self.assertRaises(TagError) as raised:
                matcher.with_rows()
            self.assertEqual(raised.exception.status, zugrenja.EXPLAINS)
            self.assertEqual(str(raised.exception), "the matcher explains, and has no rows")
            self.assertEqual(matcher.start("p"), (0,))
            with self.assertRaises(TagError) as raised:
                matcher.with_rows(0)
            self.assertEqual(raised.exception.status, zugrenja.BUILT)
        for fewest in (-1, 2**64):
            with Matcher() as matcher, self.assertRaises(ValueError):
                matcher.with_rows(fewest)


class Select(unittest.TestCase):
    PAGE = '<div>\n<p id="a">x</p>\n<a href="https://b">y</a><br></div>'

    def test_matches_in_order(self) -> None:
        self.assertEqual(
            select(self.PAGE, ["div > p", 'a[href^="https:"], br', "#a"]),
            [
                Match(2, 1, (0, 2), '<p id="a">', {"id": "a"}),
                Match(3, 1, (1,), '<a href="https://b">', {"href": "https://b"}),
                Match(3, 26, (1,), "<br>", {}),
            ],
        )

    def found(self, page: str | bytes, *selectors: str) -> list[tuple]:
        """Each match's line:column and selectors."""
        return [(f"{match.line}:{match.column}", *match.selectors) for match in select(page, selectors)]

    def test_reads_pages_as_html_is_read(self) -> None:
        self.assertEqual(self.found("<div/><p>x</p>", "div p"), [("1:7", 0)])
        self.assertEqual(self.found("<textarea><p></textarea><p><script/><p></script>", "p, textarea p"), [("1:25", 0)])
        self.assertEqual(self.found("<svg><g/><path/><a/></svg><p>", "g *, path *", "svg > *", "svg p"), [("1:6", 1), ("1:10", 1), ("1:17", 1)])
        self.assertEqual(self.found("<div><svg><g><p></p></g></svg></div><p>", "svg p, g p", "div > p", "div p"), [("1:14", 1, 2)])

    def test_tells_namespaces(self) -> None:
        for page, is_in_html in {
            "<a type=B>": True,
            "<svg><a type=B></a></svg>": False,
            "<svg><desc><a type=B></a></desc></svg>": True,
            "<math><a type=B></a></math>": False,
            "<math><mi><a type=B></a></mi></math>": True,
        }.items():
            with self.subTest(page=page):
                self.assertEqual(len(select(page, ["a[type=b]"])), is_in_html)

    def test_first_attribute_of_a_name(self) -> None:
        (match,) = select('<a href="b" HREF="c">', ["a[href=b]", "a[href=c]"])
        self.assertEqual((match.selectors, match.attributes), ((0,), {"href": "b"}))

    def test_one_selector(self) -> None:
        self.assertEqual(self.found(self.PAGE, "div > p"), [("2:1", 0)])
        self.assertEqual(select(self.PAGE, "div > p"), select(self.PAGE, ["div > p"]))
        with Matcher("div > p, em") as matcher:
            self.assertEqual(matcher.start("em"), (0,))

    def test_bytes(self) -> None:
        page = '<p title="é">\r\n<p>'.encode()
        self.assertEqual(self.found(page, "[title=é]", "p"), [("1:1", 0, 1), ("2:1", 1)])
        self.assertEqual(self.found(b"<p title='\xff'>", "[title=\ufffd]"), [("1:1", 0)])

    def test_selector_that_is_not_accepted(self) -> None:
        with self.assertRaises(SelectorError) as raised:
            select(self.PAGE, ["p", "p::before"])
        self.assertEqual(raised.exception.text, "p::before")

    def test_selector_over_two_lines(self) -> None:
        self.assertEqual(len(select(self.PAGE, ["div\n>\tp"])), 1)

    def test_example_prints_places(self) -> None:
        example = Path(__file__).resolve().parent / "examples" / "select.py"
        done = subprocess.run([sys.executable, example, "br"], input=self.PAGE, stdout=subprocess.PIPE, text=True, check=True)
        self.assertEqual(done.stdout, "3:26\t0\t<br>\n")

    def test_example_says_why(self) -> None:
        example = HERE / "examples" / "why.py"
        selectors = ["main .card > a", 'nav > a[href="/"], .sold-out .card a.more', "img:not([alt]), br"]
        page, wanted = (example.with_suffix(suffix).read_text() for suffix in (".html", ".out"))
        done = subprocess.run([sys.executable, example, *selectors], input=page, stdout=subprocess.PIPE, text=True, check=True)
        self.assertEqual(done.stdout, wanted)
        done = subprocess.run([sys.executable, example, "a + b"], input=page, capture_output=True, text=True)
        self.assertEqual((done.stdout, done.returncode), ("", 1))
        self.assertTrue(done.stderr.startswith("Unsupported combinator `+` in selector.\n    a + b\n      ^ `+` steps to a sibling"))

    def test_example_cuts_selectors(self) -> None:
        for text, items in {
            "p": [["p"]],
            " a\tb\n.c>d , *|e>\f#f ": [["a", "b", ".c", "> d"], ["*|e", "> #f"]],
            "/* a */ a/* > b, */.c /**/ > /**/d": [["a/* > b, */.c", "> d"]],
            """[a="] > ,"]:not( .b, [c='\\' )'] ) d""": [["""[a="] > ,"]:not( .b, [c='\\' )'] )""", "d"]],
            r".a\,b \31  c.\>.\(d \31/**/ e": [[r".a\,b", r"\31 ", r"c.\>.\(d", r"\31/**/", "e"]],
            "a [b = 'c": [["a", "[b = 'c"]],
            "a /* b": [["a"]],
        }.items():
            self.assertEqual(why.items_of(text), items)

    def test_example_checks_links(self) -> None:
        example = Path(__file__).resolve().parent / "examples" / "links.py"
        page = '<a href="#b">x</a>\n<a name=b href="tests.py">y</a><img src="none.png"><a href="#c">z</a><link href="//c/d">'
        done = subprocess.run([sys.executable, example, example.parent.parent], input=page, stdout=subprocess.PIPE, stderr=subprocess.PIPE, text=True)
        self.assertEqual(done.stdout, "2:32\tno such file\tnone.png\n2:52\tno such place in the page\t#c\n")
        self.assertEqual((done.stderr, done.returncode), ("2 wrong, 1 of other hosts\n", 1))
        page = '<a href="#b" href="none.png">x</a><textarea><img src="none.png"></textarea><p id="b" id="c"><a href="#c">y</a>'
        done = subprocess.run([sys.executable, example, example.parent.parent], input=page, stdout=subprocess.PIPE, stderr=subprocess.PIPE, text=True)
        self.assertEqual(done.stdout, "1:93\tno such place in the page\t#c\n")

    def test_example_numbers_tags_that_html_ends(self) -> None:
        page = b"<div><svg><g><p>x</p></g></svg><br/><i></i></div>"
        lines = ["1:14 <p>", "  selector 0: div > p", "    1:1   div  <div>", "    1:14  > p  <p>"]
        lines += ["1:37 <i>", "  selector 1: div i", "    1:1   div  <div>", "    1:37  i    <i>"]
        self.assertEqual(list(why.explained(page, ["div > p", "div i", "svg p"])), lines)


if __name__ == "__main__":
    unittest.main()
