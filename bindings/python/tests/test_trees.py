"""Trees: what the Standard says of each call, with the ids of its definitions."""
import gc
import xml.dom
from xml.dom import HierarchyRequestErr, IndexSizeErr, InvalidCharacterErr, NotFoundErr, NotSupportedErr

import owlantimony
from owlantimony.dom import Document, Node, getDOMImplementation
from support import DocumentTest, outline


class Insertion(DocumentTest):
    def test_nodes_are_appended_inserted_replaced_and_removed(self):
        ul = self.put(("ul", ("a",), ("b",)))
        a, b = ul.childNodes
        c = self.document.createElement("c")
        self.assertIs(ul.insertBefore(c, b), c)
        self.assertEqual(outline(ul), "ul(a(),c(),b())")
        self.assertIs(ul.appendChild(a), a)
        self.assertEqual(outline(ul), "ul(c(),b(),a())")
        self.assertIs(ul.replaceChild(a, c), c)
        self.assertEqual(outline(ul), "ul(a(),b())")
        self.assertIs(ul.removeChild(b), b)
        self.assertEqual(outline(self.document), "#document(ul(a()))")

    def test_an_ancestor_is_refused_before_a_child_that_is_not_there(self):
        """#concept-node-ensure-pre-insertion-validity: step 2 comes before step 3, which would raise NotFoundErr."""
        div = self.put(("div", ("p",)))
        text = self.document.createTextNode("")
        with self.assertRaises(HierarchyRequestErr) as caught:
            div.firstChild.insertBefore(div, text)
        self.assertIn("p insert n2 n1 n3", str(caught.exception))
        self.assertEqual(outline(self.document), "#document(div(p()))")

    def test_a_child_that_is_not_there_is_not_found(self):
        div, other = self.put(("div",)), self.build(("p",))
        self.assertRaises(NotFoundErr, div.insertBefore, self.build("x"), other)
        self.assertRaises(NotFoundErr, div.replaceChild, self.build("x"), other)
        self.assertRaises(NotFoundErr, div.removeChild, other)

    def test_a_document_takes_one_element_and_no_text(self):
        """#concept-node-ensure-pre-insertion-validity, steps 5 and 6."""
        self.put(("html",))
        self.assertRaises(HierarchyRequestErr, self.document.appendChild, self.build(("p",)))
        self.assertRaises(HierarchyRequestErr, self.document.appendChild, self.build("text"))
        self.assertRaises(HierarchyRequestErr, self.document.appendChild, self.document.createDocument())
        self.document.appendChild(self.build(("!", "note")))
        self.assertEqual(outline(self.document), "#document(html(),<!--note-->)")

    def test_a_text_has_no_children(self):
        self.assertRaises(HierarchyRequestErr, self.build("x").appendChild, self.build("y"))

    def test_a_fragment_gives_its_children(self):
        fragment = self.document.createDocumentFragment()
        fragment.append("a", self.build(("b",)), "c")
        div = self.put(("div", "z"))
        div.insertBefore(fragment, div.firstChild)
        self.assertEqual(outline(div), "div('a',b(),'c','z')")
        self.assertEqual(len(fragment.childNodes), 0)

    def test_what_is_no_node_is_a_type_error(self):
        self.assertRaises(TypeError, self.document.appendChild, "text")
        self.assertRaises(TypeError, self.document.appendChild, None)


class ManyNodes(DocumentTest):
    """The mixins ParentNode and ChildNode (#interface-parentnode, #interface-childnode)."""

    def setUp(self):
        super().setUp()
        self.div = self.put(("div", ("a",), ("b",), ("c",)))
        self.a, self.b, self.c = self.div.childNodes

    def test_append_and_prepend_take_strings(self):
        self.div.append("x", self.a)
        self.div.prepend(self.c, "y")
        self.assertEqual(outline(self.div), "div(c(),'y',b(),'x',a())")

    def test_before_and_after_pass_by_the_given_siblings(self):
        self.b.before(self.a, "x")
        self.assertEqual(outline(self.div), "div(a(),'x',b(),c())")
        self.b.after(self.c, self.b)
        self.assertEqual(outline(self.div), "div(a(),'x',c(),b())")

    def test_a_node_may_be_replaced_by_nodes_with_itself_among_them(self):
        self.b.replaceWith("x", self.b, "y")
        self.assertEqual(outline(self.div), "div(a(),'x',b(),'y',c())")
        self.a.replaceWith(self.c)
        self.assertEqual(outline(self.div), "div(c(),'x',b(),'y')")

    def test_without_a_parent_nothing_happens(self):
        self.a.remove()
        self.a.remove()
        self.a.before("x")
        self.a.after("x")
        self.a.replaceWith("x")
        self.assertEqual(outline(self.div), "div(b(),c())")

    def test_replace_children_is_refused_before_anything_leaves(self):
        """#dom-parentnode-replacechildren: step 2 ensures validity before step 3 replaces all."""
        self.assertRaises(HierarchyRequestErr, self.a.replaceChildren, self.div)
        self.assertRaises(HierarchyRequestErr, self.document.replaceChildren, self.build(("p",)))
        self.assertRaises(HierarchyRequestErr, self.document.replaceChildren, "text")
        self.assertEqual(outline(self.document), "#document(div(a(),b(),c()))")
        self.div.replaceChildren("x", self.b)
        self.assertEqual(outline(self.div), "div('x',b())")
        self.div.replaceChildren()
        self.assertEqual(outline(self.div), "div()")

    def test_children_are_the_elements_alone(self):
        self.div.append("x")
        self.assertEqual(self.div.children, [self.a, self.b, self.c])
        self.assertEqual((self.div.firstElementChild, self.div.lastElementChild, self.div.childElementCount), (self.a, self.c, 3))
        self.assertIs(self.document.documentElement, self.div)


class Reading(DocumentTest):
    def test_neighbours(self):
        ul = self.put(("ul", ("a",), "x", ("b",)))
        a, x, b = ul.childNodes
        self.assertEqual((a.nextSibling, x.nextSibling, b.nextSibling), (x, b, None))
        self.assertEqual((a.previousSibling, x.previousSibling, b.previousSibling), (None, a, x))
        self.assertEqual((ul.firstChild, ul.lastChild, x.firstChild), (a, b, None))
        self.assertEqual((ul.parentNode, ul.parentElement, a.parentElement), (self.document, None, ul))
        self.assertEqual((x.nodeType, a.nodeType, self.document.nodeType), (3, 1, 9))

    def test_a_node_is_one_object_while_it_is_held(self):
        ul = self.put(("ul", ("a",)))
        self.assertIs(ul.firstChild.parentNode, ul)
        self.assertEqual(len({ul.firstChild, ul.childNodes[0]}), 1)
        key = hash(ul.firstChild)
        gc.collect()
        self.assertEqual(hash(ul.firstChild), key)

    def test_positions(self):
        """#dom-node-comparedocumentposition."""
        div = self.put(("div", ("a", "x"), ("b",)))
        a, b = div.childNodes
        self.assertEqual(a.compareDocumentPosition(b), Node.DOCUMENT_POSITION_FOLLOWING)
        self.assertEqual(b.compareDocumentPosition(a.firstChild), Node.DOCUMENT_POSITION_PRECEDING)
        self.assertEqual(div.compareDocumentPosition(a), Node.DOCUMENT_POSITION_FOLLOWING | Node.DOCUMENT_POSITION_CONTAINED_BY)
        self.assertEqual(a.firstChild.compareDocumentPosition(div), Node.DOCUMENT_POSITION_PRECEDING | Node.DOCUMENT_POSITION_CONTAINS)
        self.assertEqual(a.compareDocumentPosition(a), 0)
        alone = self.build(("p",))
        there, back = a.compareDocumentPosition(alone), alone.compareDocumentPosition(a)
        self.assertEqual(there & 33, 33)
        self.assertEqual({there & 6, back & 6}, {2, 4})

    def test_contains_connected_and_root(self):
        div = self.put(("div", ("a",)))
        a = div.removeChild(div.firstChild)
        self.assertFalse(a.isConnected)
        self.assertIs(a.getRootNode(), a)
        div.appendChild(a)
        self.assertTrue(a.isConnected)
        self.assertIs(a.getRootNode(), self.document)
        self.assertTrue(div.contains(a) and div.contains(div))
        self.assertFalse(a.contains(div) or a.contains(None))

    def test_equal_nodes(self):
        """#concept-node-equals: attributes are compared without their order."""
        one, other = self.build(("p", "x", ("b",))), self.build(("p", "x", ("b",)))
        for key, name in ("one", "a"), ("two", "b"):
            one.setAttribute(name, key)
        for key, name in ("two", "b"), ("one", "a"):
            other.setAttribute(name, key)
        self.assertTrue(one.isEqualNode(other))
        self.assertNotEqual(one, other)
        other.firstChild.data = "y"
        self.assertFalse(one.isEqualNode(other) or one.isEqualNode(None))

    def test_text_content(self):
        div = self.put(("div", "a", ("!", "no"), ("b", "c")))
        self.assertEqual(div.textContent, "ac")
        self.assertIsNone(self.document.textContent)
        div.textContent = "\u00e9\U0001f600\ud800"
        self.assertEqual(outline(div), repr("\u00e9\U0001f600\ud800").join(("div(", ")")))
        div.textContent = ""
        self.assertFalse(div.hasChildNodes())
        self.document.textContent = "nothing happens"
        self.assertEqual(outline(self.document), "#document(div())")

    def test_long_texts_go_in_by_pieces(self):
        text = "0123456789\u00e9" * 20_000
        node = self.document.createTextNode(text)
        self.assertEqual(node.data, text)
        node.data = text[5:]
        self.assertEqual(node.data, text[5:])
        div = self.put(("div", ("b",)))
        div.textContent = text
        self.assertEqual([child.data for child in div.childNodes], [text])


class Clones(DocumentTest):
    def test_a_clone_has_attributes_and_deep_what_is_below(self):
        """#concept-node-clone."""
        div = self.put(("div", "x", ("b", ("!", "c"))))
        div.setAttribute("id", "d")
        self.assertTrue(div.cloneNode(True).isEqualNode(div))
        self.assertEqual(outline(div.cloneNode()), "div()")
        self.assertEqual(div.cloneNode().id, "d")
        self.assertIsNone(div.cloneNode().parentNode)

    def test_deep_trees_are_cloned_and_read(self):
        top = at = self.build(("a",))
        for _ in range(300):
            at = at.appendChild(self.document.createElement("a"))
        at.append("x")
        clone = top.cloneNode(True)
        self.assertEqual((clone.textContent, clone.isEqualNode(top)), ("x", True))

    def test_documents(self):
        self.put(("html", "x"))
        other = self.document.createDocument()
        made = other.createElement("p")
        self.assertIs(made.ownerDocument, other)
        self.assertIs(made.cloneNode().ownerDocument, other)
        copy = other.importNode(self.document.firstChild, True)
        self.assertIs(copy.ownerDocument, other)
        self.assertEqual(outline(copy), "html('x')")
        self.assertIs(self.document.adoptNode(made).ownerDocument, self.document)
        self.assertEqual(outline(self.document.cloneNode(True)), "#document(html('x'))")
        self.assertRaises(NotSupportedErr, other.importNode, self.document)
        self.assertRaises(NotSupportedErr, other.adoptNode, self.document)


class Data(DocumentTest):
    """Character data (#interface-characterdata): offsets count code units, counts are clamped."""

    def test_data_are_replaced(self):
        text = self.build("a\U0001f600bc")
        self.assertEqual(text.length, 5)
        self.assertEqual(text.substringData(1, 2), "\U0001f600")
        self.assertEqual(text.substringData(4, 99), "c")
        text.appendData("d")
        text.insertData(0, "_")
        text.deleteData(2, 2)
        self.assertEqual(text.data, "_abcd")
        text.replaceData(1, 99, "!")
        self.assertEqual(text.data, "_!")

    def test_offsets_past_the_length_are_refused(self):
        text = self.build("abc")
        for call in (text.insertData, text.replaceData, text.deleteData, text.substringData):
            with self.subTest(call.__name__), self.assertRaises(IndexSizeErr):
                call(*{"insertData": (4, "x"), "replaceData": (4, 0, "x")}.get(call.__name__, (4, 1)))
        self.assertRaises(IndexSizeErr, text.splitText, 4)
        self.assertRaises(IndexSizeErr, text.splitText, -1)
        self.assertEqual(text.data, "abc")

    def test_split_and_normalize(self):
        div = self.put(("div", "abcd", ("b",), ""))
        tail = div.firstChild.splitText(1)
        self.assertEqual(outline(div), "div('a','bcd',b(),'')")
        self.assertIs(tail, div.childNodes[1])
        self.assertEqual(tail.wholeText, "abcd")
        div.normalize()
        self.assertEqual(outline(div), "div('abcd',b())")


class Making(DocumentTest):
    def test_names_that_are_none_are_refused(self):
        for name in ("", "1a", "a b", "a:b", "\u00e9", '"', "a>"):
            self.assertRaises(InvalidCharacterErr, self.document.createElement, name)

    def test_nodes_have_no_maker_of_their_own(self):
        self.assertRaises(TypeError, Node)

    def test_the_implementation_makes_a_document_with_an_element(self):
        with getDOMImplementation().createDocument(None, "html", None) as document:
            self.assertIsInstance(document, Document)
            self.assertEqual(outline(document), "#document(html())")
        self.assertRaises(NotSupportedErr, getDOMImplementation().createDocumentType, "html", "", "")

    def test_the_implementation_may_be_registered_with_xml_dom(self):
        xml.dom.registerDOMImplementation("owlantimony", getDOMImplementation)
        with xml.dom.getDOMImplementation("owlantimony").createDocument(None, "p", None) as document:
            self.assertEqual(outline(document), "#document(p())")

    def test_a_document_takes_another_way_to_the_engine(self):
        class Counting:
            def __init__(self, session):
                self.session, self.lines = session, []
                self.finish, self.view, self.close = session.finish, session.view, session.close

            def line(self, text):
                self.lines.append(text)
                return self.session.line(text)

        counting = Counting(owlantimony.Session())
        with Document(counting) as document:
            document.append(document.createElement("p"))
        self.assertEqual(counting.lines, ["p new element p", "p append n0 n1", "p ."])
