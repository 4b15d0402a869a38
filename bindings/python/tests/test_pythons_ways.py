"""What a program in Python looks for that knows lxml or BeautifulSoup: loops, `len`, `in`, copies, what is printed, and that nothing is pickled."""
import copy
import inspect
import pickle
import unittest

from owlantimony import Session
from owlantimony.dom import Document, Element, Node, NotSupportedErr
from support import DocumentTest, outline

try:
    from owlantimony import html
except ImportError:
    html = None


class Collections(DocumentTest):
    def setUp(self):
        super().setUp()
        self.ul = self.put(("ul", ("li", "one"), ("!", "no"), ("li", ("b", "two"), "three")))

    def test_a_loop_over_a_node_goes_over_its_children(self):
        self.assertEqual(list(self.ul), list(self.ul.childNodes))
        self.assertEqual([outline(child) for child in self.ul], ["li('one')", "<!--no-->", "li(b('two'),'three')"])
        self.assertEqual(list(self.document), [self.ul])
        for child in self.ul:
            child.remove()
        self.assertEqual(list(self.ul), [])

    def test_a_text_has_no_children_to_loop_over(self):
        for call in (iter, len):
            self.assertRaises(TypeError, call, self.ul.firstChild.firstChild)

    def test_the_length_is_the_count_of_children(self):
        self.assertEqual((len(self.ul), len(self.ul.lastChild), len(self.document.createElement("p"))), (3, 2, 0))
        self.assertTrue(self.document.createElement("p"))

    def test_in_asks_for_children_alone(self):
        self.assertIn(self.ul.lastChild, self.ul)
        self.assertNotIn(self.ul.lastChild.firstChild, self.ul)
        self.assertNotIn(self.ul, self.ul)
        for thing in (None, "li", 1):
            self.assertNotIn(thing, self.ul)

    def test_in_asks_nothing_of_another_owner(self):
        component = self.document.createElement("div").attachShadow()
        inner = component.root.appendChild(component.createElement("b"))
        self.document.queueMicrotask(lambda: self.told.append("the page's turn ended"))
        self.assertNotIn(inner, self.ul)
        self.assertEqual(self.told, [])

    def test_iter_gives_the_elements_in_tree_order(self):
        self.assertEqual([node.nodeName for node in self.document.iter()], ["ul", "li", "li", "b"])
        self.assertEqual([node.nodeName for node in self.ul.iter("b", "ul")], ["ul", "b"])
        self.assertEqual(list(self.ul.lastChild.iter("li")), [self.ul.lastChild])
        self.assertEqual(list(self.ul.iter("p")), [])
        for element in self.ul.iter("li"):
            element.remove()
        self.assertEqual(outline(self.ul), "ul(<!--no-->)")

    def test_itertext_gives_the_texts(self):
        self.assertEqual(list(self.ul.itertext()), ["one", "two", "three"])
        self.assertEqual("".join(self.ul.itertext()), self.ul.textContent)


class Copies(DocumentTest):
    def test_copies_are_clones(self):
        ul = self.put(("ul", ("li", "one")))
        ul.setAttribute("id", "a")
        deep, alone = copy.deepcopy(ul), copy.copy(ul)
        self.assertTrue(deep.isEqualNode(ul))
        self.assertIsNot(deep, ul)
        self.assertIsNone(deep.parentNode)
        self.assertIs(deep.ownerDocument, self.document)
        self.assertEqual((outline(alone), alone.id), ("ul()", "a"))

    def test_a_copy_of_a_document_is_one_more_of_the_session(self):
        self.put(("ul", "x"))
        other = copy.deepcopy(self.document)
        self.assertEqual(outline(other), outline(self.document))
        self.assertIs(other.firstChild.ownerDocument, other)
        self.document.firstChild.append(other.firstChild)
        self.assertEqual(outline(self.document), "#document(ul('x',ul('x')))")

    def test_closed_trees_are_not_copied(self):
        component = self.put(("div",)).attachShadow()
        self.assertRaises(NotSupportedErr, copy.deepcopy, component.root)
        self.assertRaises(TypeError, copy.deepcopy, component)

    def test_pickling_is_refused_in_words(self):
        div = self.put(("div", "x"))
        held = [self.document, div, div.firstChild, div.attributes, div.childNodes, self.document.createRange(), div.attachShadow(), {"a": div}]
        for thing in held:
            with self.subTest(thing), self.assertRaisesRegex(TypeError, "is not pickled, as it is a part of an open session: .*html.serialize"):
                pickle.dumps(thing)
        with Session() as session:
            self.assertRaisesRegex(TypeError, "Session is not pickled", pickle.dumps, session)


class Printed(DocumentTest):
    def test_a_node_shows_by_what_one_knows_it(self):
        p = self.put(("p", "a" * 41, ("!", "b'c")))
        p.setAttribute("title", "t")
        self.assertEqual(repr(p), "<Element p n1>")
        p.className, p.id = "b c", "a"
        self.assertEqual(repr(p), "<Element p n1 id='a' class='b c'>")
        self.assertEqual(repr(p.childNodes), f"[<Text n2 {'a' * 40!r}..>, <Comment n3 \"b'c\">]")
        self.assertEqual((repr(self.document), repr(self.document.createDocumentFragment())), ("<Document n0>", "<DocumentFragment n4>"))

    def test_what_is_printed_ends_no_turn(self):
        """To ask another owner for the data would end the page's turn, and begin its own."""
        div = self.put(("div",))
        component = div.attachShadow()
        text = component.createTextNode("x")
        self.assertEqual(repr(text), "<Text c1:m1 'x'>")
        self.document.queueMicrotask(lambda: self.told.append("the page's turn ended"))
        self.assertEqual(repr(text), "<Text c1:m1>")
        self.assertEqual(self.told, [])

    def test_nodes_of_a_closed_document_are_still_printed(self):
        with Document() as document:
            text = document.createTextNode("x")
        self.assertEqual(repr(text), "<Text n1>")


class Typing(unittest.TestCase):
    def test_each_public_name_says_what_it_is(self):
        """`help` has a text for each class, and each of its calls and properties."""
        import owlantimony.dom

        for kind in (getattr(owlantimony.dom, name) for name in owlantimony.dom.__all__):
            if isinstance(kind, type) and kind.__module__.startswith("owlantimony"):
                self.assertTrue(kind.__doc__, kind)
                for name, value in vars(kind).items():
                    if not name.startswith("_") and (callable(value) or isinstance(value, property)):
                        self.assertTrue(value.__doc__, f"{kind.__name__}.{name}")

    def test_calls_take_the_same_in_c_and_in_python(self):
        """Those that the extension module has in C."""
        expected = {
            (Node, "appendChild"): "self node /", (Node, "insertBefore"): "self node child", (Node, "replaceChild"): "self node child",
            (Node, "removeChild"): "self child /", (Node, "hasChildNodes"): "self", (Element, "getAttribute"): "self name /",
            (Element, "hasAttribute"): "self name /", (Element, "setAttribute"): "self name value", (Element, "remove"): "self",
            (Document, "createElement"): "self name /", (Document, "createTextNode"): "self data /", (Document, "createComment"): "self data /",
        }  # fmt: skip
        for (kind, name), words in expected.items():
            *names, last = inspect.signature(getattr(kind, name)).parameters.values()
            is_positional = last.kind is inspect.Parameter.POSITIONAL_ONLY and last.name != "self"
            self.assertEqual(" ".join([each.name for each in [*names, last]] + ["/"] * is_positional), words, name)


@unittest.skipIf(html is None, "html5lib is not there")
class Reading(unittest.TestCase):
    def test_a_document_is_made_of_a_page(self):
        with Document.fromstring("<p>one") as document:
            self.assertEqual(outline(document), "#document(html(head(),body(p('one'))))")
            self.assertIs(type(document), Document)
            self.assertIsNone(document.doctype)


if __name__ == "__main__":
    unittest.main()
