"""HTML in and out, beside html5lib's own trees of the same pages. Skipped where html5lib is not there."""
import os
import subprocess
import sys
import tempfile
import unittest
from unittest import mock

from owlantimony import ClosedError
from owlantimony.dom import Document, DomstringSizeErr, ForeignNode, HierarchyRequestErr
from support import outline

try:
    import html5lib
    from html5lib.constants import prefixes
    from html5lib.serializer import HTMLSerializer

    from owlantimony import fastparser, html
    from owlantimony.markup import Walker
except ImportError:
    html = fastparser = html5lib = None

PAGES = os.path.join(os.path.dirname(os.path.abspath(__file__)), "..", "..", "..", "examples", "pages")


def pages_in(folder):
    """Give the names and the contents of the pages in a folder."""
    for file in sorted(os.listdir(folder)):
        if file.endswith(".html"):
            with open(os.path.join(folder, file), encoding="utf-8", newline="") as page:
                yield file, page.read()


def theirs(page):
    """Give html5lib's own tree of a page, in minidom, as the tokens of its walker."""
    tree = html5lib.HTMLParser(tree=html5lib.getTreeBuilder("dom")).parse(page, scripting=True)
    tree.normalize()
    return joined(html5lib.getTreeWalker("dom")(tree))


def ours(node):
    """Give a tree of ours as such tokens."""
    return joined(Walker(node))


def qualified(space, name):
    """Give the name of an attribute as HTML writes it."""
    return f"{prefixes[space]}:{name}" if space and ":" not in name and name != "xmlns" else name


def joined(tokens):
    """Give tokens in one form: texts in one piece, attributes under the names that HTML writes, and an empty name of a doctype that has none."""
    plain = []
    for token in tokens:
        kind, data = token["type"], token.get("data")
        if kind in ("Characters", "SpaceCharacters") and plain and plain[-1][0] == "text":
            plain[-1] = ("text", plain[-1][1] + data)
        elif kind in ("Characters", "SpaceCharacters"):
            plain.append(("text", data))
        elif kind in ("StartTag", "EmptyTag"):
            plain.append((kind, token["namespace"], token["name"], {qualified(*key): value for key, value in data.items()}))
        elif kind == "Doctype":
            plain.append((kind, token["name"] or "", token["publicId"], token["systemId"]))
        else:
            plain.append(tuple(token.get(key) for key in ("type", "name", "namespace", "data", "publicId", "systemId")))
    return plain


@unittest.skipIf(html is None, "html5lib is not there")
class Pages(unittest.TestCase):
    def check(self, name, page):
        with self.subTest(name), html.parse(page) as document:
            expected = theirs(page)
            self.assertEqual(without_added_line_feeds(ours(document)), expected)
            self.assertGreater(len(expected), 8)
            written = html.serialize(document)
            writer = HTMLSerializer(omit_optional_tags=False, quote_attr_values="always", minimize_boolean_attributes=False)
            self.assertEqual(written, writer.render(Walker(document)).replace("\r", "&#13;"))
            with html.parse(written) as again:
                self.assertEqual(ours(again), ours(document))
                self.assertEqual(html.serialize(again), written)

    def test_pages_are_read_as_html5lib_reads_them_and_come_back(self):
        tried = 0
        for name, page in pages_in(PAGES):
            self.check(name, page)
            tried += 1
        self.assertGreater(tried, 6)

    def test_large_pages(self):
        with tempfile.TemporaryDirectory() as folder:
            subprocess.run([sys.executable, os.path.join(PAGES, "make"), folder], check=True)
            large = list(pages_in(folder))
        self.assertEqual(len(large), 4)
        for name, page in large:
            self.check(name, page)


def without_added_line_feeds(tokens):
    """Take away the line feed that is written behind the start tags that lose one."""
    plain = list(tokens)
    for at, token in enumerate(plain[:-1]):
        following = plain[at + 1]
        is_added = following[0] == "text" and following[1].startswith("\n\n")
        if token[0] == "StartTag" and token[2] in ("pre", "textarea", "listing") and is_added:
            plain[at + 1] = ("text", following[1][1:])
    return plain


@unittest.skipIf(html is None, "html5lib is not there")
class Reading(unittest.TestCase):
    def test_html5libs_own_builder_and_walker_take_our_documents(self):
        """The tree builder and the walker for any implementation of `xml.dom`, as they are, on a page that the engine can hold."""
        import owlantimony.dom

        builder = html5lib.getTreeBuilder("dom", implementation=owlantimony.dom)
        page = "<title>t</title><p id=a>one<b>two</b><!--c--><table>x<tr><td>y</table>"
        document = html5lib.HTMLParser(tree=builder, namespaceHTMLElements=False).parse(page)
        self.addCleanup(document.close)
        document.normalize()
        plain = html5lib.HTMLParser(tree=html5lib.getTreeBuilder("dom"), namespaceHTMLElements=False).parse(page)
        plain.normalize()
        walk = html5lib.getTreeWalker("dom")
        self.assertEqual(joined(walk(document)), joined(walk(plain)))
        self.assertEqual(builder.testSerializer(None, document), builder.testSerializer(None, plain))

    def test_what_is_carried_is_listed_and_written_back(self):
        with html.parse('<!--c--><!DOCTYPE html PUBLIC "p" "s"><p @click="go" id=x>a<o:p>b</o:p><svg xlink:href="u"></svg>') as document:
            things = [(repr(thing.node), thing.what, thing.value) for thing in html.carried(document)]
            p, o, svg = document.querySelectorAll("p, o_p, svg")
            expected = [
                (repr(document), "doctype", "html"),
                (repr(p), "attribute @click", "go"),
                (repr(o), "name", "o:p"),
                (repr(svg), "namespace", "http://www.w3.org/2000/svg"),
                (repr(svg), "attribute xlink:href", "u"),
            ]
            self.assertEqual(things, expected)
            self.assertEqual(html.doctype_of(document), ("html", "p", "s", 1))
            written = html.serialize(document)
            self.assertTrue(written.startswith('<!--c--><!DOCTYPE html PUBLIC "p" "s"><html>'), written)
            self.assertIn('<p @click="go" id="x">a<o:p>b</o:p><svg xlink:href="u"></svg></p>', written)

    def test_what_is_set_or_removed_is_carried_no_longer(self):
        """As an element has at most one attribute of a name (#concept-element-attributes-set, #concept-element-attributes-remove)."""
        long = "x" * 70_000
        with html.parse(f'<p title="{long}" xml:lang=de v-on:x=3 onload="{long}">a</p>') as document:
            p = document.querySelector("p")
            p.setAttribute("title", "new")
            left = [thing.what for thing in html.carried(document)]
            self.assertEqual(left, ["attribute xml:lang", "attribute v-on:x", "attribute onload"])
            p.removeAttribute("title")
            self.assertNotIn("title", html.serialize(p))
            p.removeAttribute("onload")
            p.removeAttribute("v-on:x")
            self.assertEqual(html.serialize(p), '<p xml:lang="de">a</p>')
            self.assertEqual(html.serialize(p.cloneNode(True)), '<p xml:lang="de">a</p>')

    def test_a_value_that_is_refused_drops_nothing(self):
        long = "x" * 70_000
        with html.parse(f'<p title="{long}">a</p>') as document:
            p = document.querySelector("p")
            self.assertRaises(DomstringSizeErr, p.setAttribute, "title", "y" * 70_000)
            self.assertEqual(html.serialize(p), f'<p title="{long}">a</p>')

    def test_what_is_carried_is_dropped_by_its_name_or_all_at_once(self):
        with html.parse('<!DOCTYPE html><p @click="go" v-on:x=3>a<o:p>b</o:p><svg xlink:href="u"></svg>') as document:
            p, svg = document.querySelectorAll("p, svg")
            html.drop_carried(p, "v-on:x")
            html.drop_carried(p, "absent")
            html.drop_carried(svg, "xlink:href")
            self.assertEqual(html.serialize(p), '<p @click="go">a<o:p>b</o:p><svg></svg></p>')
            for thing in html.carried(document):
                html.drop_carried(thing.node)
            html.drop_carried(p)
            self.assertEqual(html.carried(document), [])
            self.assertEqual(html.serialize(document), "<html><head></head><body><p>a<o_p>b</o_p><svg></svg></p></body></html>")

    def test_a_hook_is_told_how_far_a_page_was_read(self):
        page = "<p>" + (f"{'x' * 250}<b>two</b> \u00e9") * 200
        for text in (page, page.encode()):
            for faster in (True, False):
                told = []
                with self.subTest(type(text), faster=faster), mock.patch.object(html, "_TOLD_EACH", 100), Document() as document:
                    html.parse(text, document, progress=lambda *how: told.append(how), faster=faster)
                    self.assertEqual(told[-1], (len(text), len(text)))
                    self.assertEqual(told, sorted(set(told)))
                    self.assertEqual({total for _, total in told}, {len(text)})
                    self.assertGreater(len(told), 4)
                    self.assertEqual(len(document.querySelectorAll("b")), 200)

    def test_what_a_hook_raises_ends_the_parse(self):
        class Enough(Exception):
            pass

        def hook(done, total):
            raise Enough

        for faster in (True, False):
            made = []
            with mock.patch.object(html.dom, "Document", side_effect=lambda: made.append(Document()) or made[-1]) as kind:
                kind.__class__ = type
                self.assertRaises(Enough, html.parse, "<p>one", progress=hook, faster=faster)
            self.assertRaises(ClosedError, made[0].createElement, "p")
        with Document() as document:
            self.assertRaises(Enough, html.parse, "<p>one", document, progress=hook)
            self.assertTrue(document.createElement("p"))

    def test_what_is_no_page_document_or_node_is_refused(self):
        with html.parse("<p>x") as document:
            for text in (None, 5, ["<p>"]):
                self.assertRaises(TypeError, html.parse, text)
                self.assertRaises(TypeError, html.parse_fragment, text, document)
            self.assertRaises(TypeError, html.parse, "<p>x", document.querySelector("p"))
            self.assertRaises(TypeError, html.parse_fragment, "<p>x", document.querySelector("p"))
            self.assertRaises(TypeError, html.serialize, "<p>x")
            self.assertRaises(TypeError, html.drop_carried, None)

    def test_clones_carry_the_same(self):
        with html.parse('<o:p :a="1">x</o:p>') as document:
            copy = document.querySelector("o_p").cloneNode(True)
            self.assertEqual(html.serialize(copy), '<o:p :a="1">x</o:p>')
            self.assertEqual(len(html.carried(document)), 4)

    def test_what_a_range_takes_out_carries_the_same(self):
        with html.parse("<p><o:p :a=1>one<x:y>two</x:y></o:p><i>three</i><o:p :b=2>four</o:p></p>") as document:
            o, last = document.querySelectorAll("o_p")
            made = document.createRange()
            made.setStart(o.querySelector("x_y").firstChild, 1)
            made.setEnd(last.firstChild, 2)
            taken = '<o:p :a="1"><x:y>wo</x:y></o:p><i>three</i><o:p :b="2">fo</o:p>'
            self.assertEqual(html.serialize(made.cloneContents()), taken)
            self.assertEqual(html.serialize(made.extractContents()), taken)
            left = '<p><o:p :a="1">one<x:y>t</x:y></o:p><o:p :b="2">ur</o:p></p>'
            self.assertEqual(html.serialize(document.querySelector("p")), left)

    def test_a_part_of_a_page_for_a_component(self):
        with html.parse("<div>x</div>") as document:
            widget = document.querySelector("div").attachShadow()
            widget.root.append(html.parse_fragment("<b>in</b> <slot></slot>", widget))
            self.assertEqual(html.serialize(widget.root), "<b>in</b> <slot></slot>")
            self.assertIsInstance(widget.root.querySelector("slot").assignedNodes()[0], ForeignNode)
            self.assertEqual(html.serialize(document.querySelector("div")), "<div>x</div>")

    def test_a_part_is_read_as_its_container_has_it(self):
        with Document() as document:
            self.assertEqual(outline(html.parse_fragment("<td>x", document, "tr")), "#document-fragment(td('x'))")
            self.assertEqual(outline(html.parse_fragment("<td>x", document)), "#document-fragment('x')")

    def test_a_page_goes_into_an_empty_document(self):
        with Document() as document:
            self.assertIs(html.parse("<p>x", document), document)
            self.assertEqual(outline(document), "#document(html(head(),body(p('x'))))")
            self.assertRaises(HierarchyRequestErr, html.parse, "<!--c--><p>y", document)
            self.assertEqual(outline(document), "#document(html(head(),body(p('x'))))")

    def test_what_html_can_not_write_is_refused(self):
        with html.parse("<plaintext>all the rest") as document:
            self.assertRaises(ValueError, html.serialize, document)
        with html.parse("<br><script></script>") as document:
            document.querySelector("br").append("x")
            self.assertRaises(ValueError, html.serialize, document)
            document.querySelector("br").textContent = ""
            document.querySelector("script").textContent = "a = '</SCRIPT>'"
            self.assertRaises(ValueError, html.serialize, document)
        with html.parse("<svg><style>a</style></svg>") as document:
            for element, text in (("style", "a<b"), ("style", "\r"), ("body", "\x00")):
                document.querySelector(element).textContent = text
                self.assertRaises(ValueError, html.serialize, document.querySelector(element))
            for data in (">", "->", "a-->", "--!>", "\r"):
                self.assertRaises(ValueError, html.serialize, document.createComment(data))

    def test_what_is_seldom_written_comes_back(self):
        page = "<!-- a -- b - --><p title='&#13;a\n'>&#13;x&nbsp;</p><script>if (a --> b) '</p>'</script>"
        with html.parse(page) as document:
            written = html.serialize(document)
            with html.parse(written) as again:
                self.assertEqual(ours(again), ours(document))
                self.assertEqual(again.querySelector("p").textContent, "\rx\u00a0")
