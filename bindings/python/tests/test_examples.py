"""Runs the examples of bindings/examples. What they write is written here as the Standard has it."""
import contextlib
import io
import itertools
import os
import re
import runpy
import sys
import textwrap
import unittest
from unittest import mock

from owlantimony.dom import Document, SyntaxErr
from owlantimony.dom.errors import refusal
from owlantimony.dom.extension import engine_module

try:
    import html5lib
except ImportError:
    html5lib = None

PAGE_OF_DOCS = os.path.join(os.path.dirname(os.path.abspath(__file__)), "..", "..", "..", "docs", "FROM-PYTHON.md")
EXAMPLES = os.path.join(os.path.dirname(os.path.abspath(__file__)), "..", "..", "examples")
PAGE = '<!DOCTYPE html><title>t</title><h1>Good <b>news</b></h1><p>one word more<h2 :id="x">Bad ones</h2><p>two'


def run(name, words=(), text=""):
    """Run an example as a program, and give its exit status, what it writes, and what it writes to standard error."""
    out, err, status = io.StringIO(), io.StringIO(), 0
    with contextlib.redirect_stdout(out), contextlib.redirect_stderr(err), mock.patch.object(sys, "argv", [name, *words]):
        with mock.patch.object(sys, "stdin", io.StringIO(text)):
            try:
                runpy.run_path(os.path.join(EXAMPLES, name), run_name="__main__")
            except SystemExit as ending:
                status = ending.code or 0
    return status, out.getvalue(), err.getvalue()

# Which classes the extension writes in C, so that they hold copies of what a class in Python has from this base
COPIED = {} if engine_module is None else {"Node": "EventTarget", "Document": "NodeFactory"}


def rows_of(heading):
    """The cells of the table under a heading of the page of docs, without the table's head."""
    with open(PAGE_OF_DOCS, encoding="utf-8") as page:
        part = page.read().split(f"## {heading}\n", 1)[1].split("\n## ", 1)[0]
    return [[cell.strip() for cell in line.strip("|").split("|")] for line in part.splitlines() if line.startswith("|")][2:]


def names_of(kind):
    """The names that a class itself has for its users, without constants and what every node has of `xml.dom`."""
    fields = getattr(kind, "__slots__", ()), getattr(kind, "_fields", ()), vars(kind)
    own = {name for part in fields for name in part if not name.startswith("_") and not name.isupper()}
    return own - {"nodeType", "namespaceURI", "prefix", "mode"}


def selectors_in(cells):
    """The selectors that stand in cells, of which a sign that joins two is none."""
    return [code.replace("\\", "") for code in re.findall("`([^`]+)`", "|".join(cells)) if re.search(r"[\w*]", code) and code != "SyntaxErr"]


class PageOfDocs(unittest.TestCase):
    def test_each_class_has_the_names_of_its_row_and_no_others(self):
        modules = [module for name, module in sys.modules.items() if name.startswith("owlantimony.dom")]
        rows = {title.strip("`"): set(cell.replace("`", "").split()) for title, cell in rows_of("What is there")}
        self.assertGreater(len(rows), 15)
        for title, told in rows.items():
            kind = next(vars(module)[title] for module in modules if title in vars(module))
            self.assertEqual([name for name in told if name not in {*dir(kind), "nodeType"}], [], title)
            self.assertEqual(names_of(kind) - told - rows.get(COPIED.get(title), set()), set(), title)

    def test_selectors_are_taken_and_refused_as_their_rows_say(self):
        (_, *taken), (_, *refused) = rows_of("Selectors")
        with Document() as document:
            for selector in selectors_in(taken):
                self.assertEqual(document.querySelectorAll(selector), [], selector)
            for selector in selectors_in(refused):
                self.assertRaises(SyntaxErr, document.querySelector, selector)

    def test_each_refusal_raises_what_its_row_says(self):
        told = {}
        for refusals, exception in rows_of("What is raised"):
            for name in re.findall("`([a-z-]+)`", refusals):
                told.setdefault(name, exception.strip("`"))
        self.assertEqual(len(told), 13)
        for name, exception in told.items():
            self.assertEqual(type(refusal(name, "p .")).__name__, exception)
        self.assertEqual(type(refusal("syntax", "p" * 65_537)).__name__, "DomstringSizeErr")


class Examples(unittest.TestCase):
    def test_the_first_example_of_the_page_of_docs_prints_what_stands_beside_it(self):
        with open(PAGE_OF_DOCS, encoding="utf-8") as page:
            behind = page.read().split("## A document\n\n", 1)[1]
        block = itertools.takewhile(lambda line: not line or line.startswith("    "), behind.splitlines())
        program = textwrap.dedent("\n".join(block))
        expected = [line.split("# ", 1)[1] for line in program.splitlines() if "# " in line]
        out = io.StringIO()
        with contextlib.redirect_stdout(out):
            exec(program, {})
        self.assertEqual(out.getvalue().splitlines(), expected)
        self.assertEqual(len(expected), 2)

    def test_the_widget_of_the_page_of_docs_cancels_a_submit(self):
        with open(PAGE_OF_DOCS, encoding="utf-8") as page:
            _, after = page.read().split("keeps each submit from being sent. Put it into a file and run it:\n\n", 1)
        block = itertools.takewhile(lambda line: not line or line.startswith("    "), after.splitlines())
        out = io.StringIO()
        with contextlib.redirect_stdout(out):
            exec(textwrap.dedent("\n".join(block)), {})
        self.assertEqual(out.getvalue().splitlines(), ["a submit was cancelled, of form", "False", "True"])

    @unittest.skipIf(html5lib is None, "html5lib is not there")
    def test_the_document_tool_moves_headings_and_keeps_marks(self):
        status, out, err = run("document_tool.py", ["word", "news", "ones"], PAGE)
        self.assertEqual((status, err), (0, "word in p\nnews in b\nones in h2\n"))
        nav = '<nav><h1>Good <b><mark>news</mark></b></h1><h2 :id="x">Bad <mark>ones</mark></h2></nav>'
        head = "<!DOCTYPE html><html><head><title>t</title></head>"
        self.assertEqual(out, f"{head}<body>{nav}<p>one <mark>word</mark> more</p><p>two</p></body></html>\n")
        self.assertIn("😀 a <mark>😀b</mark>c", run("document_tool.py", ["😀b"], "<p>😀 a 😀bc")[1])
        self.assertEqual(run("document_tool.py", ["absent"], PAGE)[0], "document_tool: the page has no 'absent'")

    def test_the_widget_is_seen_from_both_sides(self):
        status, out, _ = run("widget.py")
        lines = [
            "notice sees slotchange at slot, by the path slot < #shadow-root",
            "the page has None and finds []",
            "notice sees press at button, by the path button < #shadow-root",
            "page sees close at article, by the path article < #document",
            "the page is left with []",
        ]
        self.assertEqual((status, out.splitlines()), (0, lines))

    def test_the_harness_finds_the_differences_that_are_known(self):
        status, out, _ = run("harness.py")
        self.assertIs(status, 0)
        self.assertEqual(sum(line.startswith("same ") for line in out.splitlines()), 7)
        self.assertEqual(sum(line.startswith("differs ") for line in out.splitlines()), 3)
