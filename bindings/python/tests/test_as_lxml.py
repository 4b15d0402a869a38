"""The table of the guide for those who know lxml: each call in it runs here, and gives what lxml gives for the call beside it. Skipped where html5lib
is not there; the comparison where lxml or cssselect is not there."""
import copy
import re
import unittest

from owlantimony.dom import Document, NodeFilter
from test_examples import rows_of

try:
    from owlantimony import html
except ImportError:
    html = None
try:
    import cssselect  # noqa: F401
    import lxml.html
    from lxml import etree
except ImportError:
    lxml = None

PAGE = (
    '<html><head></head><body><ul id="x"><li class="c"><a href="u">one</a> two</li></ul>'
    '<p class="d" title="t">before<i>in<b>deep</b></i>after</p>x</body></html>'
)
UNLIKE = {"for child in el", "el.attrib", "el.classes", "copy.deepcopy(el)", "el.append(other)", "el.insert(0, other)", "lxml.html.fromstring(page)"}
"""What gives something else in lxml than a name, a text, a truth or a list of these."""


def expressions():
    """Give the rows of the table, each as the expressions of both sides."""
    for left, right, _ in rows_of("From lxml"):
        yield re.findall("`([^`]+)`", left), re.findall("`([^`]+)`", right)


def value_of(code, names):
    """Give what an expression gives, and None for a statement."""
    try:
        return eval(code, names)
    except SyntaxError:
        exec(f"{code}: pass" if code.startswith("for ") else code, names)
        return None


def plain(value):
    """Give a node as its name, an iterable as a list, and another value as it is."""
    name = getattr(value, "tag", None) or getattr(value, "nodeName", None)
    if name is not None or value is None or isinstance(value, (str, int)):
        return name or value
    return [plain(each) for each in value]


def in_lxml():
    """Give the names of the left side."""
    root = lxml.html.fromstring(PAGE)
    el = root.find(".//p")
    names = {"tree": root.getroottree(), "el": el, "child": el[0], "other": root.find(".//ul"), "page": PAGE}
    return {**names, "root": root, "lxml": lxml, "etree": etree, "copy": copy}


@unittest.skipIf(html is None, "html5lib is not there")
class Table(unittest.TestCase):
    def here(self):
        """Give the names of the right side."""
        document = html.parse(PAGE)
        self.addCleanup(document.close)
        root = document.documentElement
        el, other = root.querySelectorAll("p, ul")[::-1]
        names = {"document": document, "root": root, "el": el, "other": other, "child": el.children[0], "page": PAGE}
        return {**names, "html": html, "Document": Document, "NodeFilter": NodeFilter, "copy": copy}

    def test_each_call_of_the_right_side_runs(self):
        tried = 0
        for _, rights in expressions():
            for code in rights:
                with self.subTest(code):
                    made = value_of(code, self.here())
                    if isinstance(made, Document):
                        self.addCleanup(made.close)
                    tried += 1
        self.assertGreater(tried, 35)

    @unittest.skipIf(lxml is None, "lxml or cssselect is not there")
    def test_both_sides_give_the_same(self):
        compared = 0
        for lefts, rights in expressions():
            if rights and not UNLIKE & set(lefts):
                for left, right in zip(lefts, rights):
                    with self.subTest(left):
                        self.assertEqual(plain(value_of(right, self.here())), plain(value_of(left, in_lxml())))
                        compared += 1
        self.assertGreater(compared, 20)


if __name__ == "__main__":
    unittest.main()
