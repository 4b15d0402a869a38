"""The extension module: its types stand in place of the classes, and wrong arguments raise Python's own exceptions, and never end the process."""
import contextlib
import gc
import random
import unittest
import weakref
from xml.dom import DOMException

from support import DocumentTest, outline

from owlantimony import ClosedError, OutOfMemoryError, WrongThreadError
from owlantimony.dom import Document, Element, Event, MutationObserver, Node, Text
from owlantimony.dom.extension import engine_module

CALLS = 10_000


@unittest.skipIf(engine_module is None, "there is no extension module")
class Types(DocumentTest):
    def test_nodes_are_of_types_in_c(self):
        self.assertIs(Element, engine_module.Element)
        self.assertIs(type(self.document.createElement("p")), Element)
        self.assertTrue(issubclass(Text, Node))
        self.assertEqual(Element.__module__, "owlantimony.dom.element")
        self.assertIn("appendChild", dir(Element))

    def test_a_node_can_not_be_made_alone(self):
        self.assertRaises(TypeError, Element)
        self.assertRaises(TypeError, Node)

    def test_a_node_is_one_object_while_it_is_held(self):
        div = self.document.createElement("div")
        self.document.appendChild(div)
        self.assertIs(self.document.firstChild, div)
        self.assertIs(self.document.childNodes[0], div)
        self.assertIs(self.document.querySelector("div"), div)
        seen = weakref.ref(div)
        del div
        gc.collect()
        self.assertIsNone(seen())
        self.assertEqual(outline(self.document), "#document(div())")

    def test_a_document_that_is_dropped_with_a_callback_that_holds_its_nodes_goes(self):
        document = Document()
        div = document.createElement("div")
        div.addEventListener("click", lambda event, node=div: node)
        seen = weakref.ref(div)
        del document, div
        gc.collect()
        self.assertIsNone(seen())

    def test_links_follow_each_change(self):
        ul = self.document.appendChild(self.document.createElement("ul"))
        items = [ul.appendChild(self.document.createElement("li")) for _ in range(100)]
        while items:
            self.assertIs(ul.firstChild, items[0])
            self.assertIs(ul.lastChild, items[-1])
            self.assertIs(items[0].nextSibling, items[1] if len(items) > 1 else None)
            ul.removeChild(items.pop(0))
        self.assertFalse(ul.hasChildNodes())


class Closed(DocumentTest):
    def test_a_closed_document_says_so(self):
        div = self.document.createElement("div")
        self.document.appendChild(div)
        self.document.close()
        for call in (lambda: div.parentNode, lambda: div.firstChild, lambda: div.appendChild(div), lambda: div.setAttribute("a", "b"),
                     lambda: div.getAttribute("a"), lambda: self.document.createElement("p"), lambda: div.childNodes[0]):
            self.assertRaises(ClosedError, call)
        self.assertEqual(div.nodeName, "div")


class Odd:
    """A session that answers each line, or raises for it, as it is told."""

    def __init__(self, answer):
        self.answer = answer

    def line(self, text):
        if isinstance(self.answer, Exception):
            raise self.answer
        return self.answer

    def finish(self):
        return []

    def close(self):
        pass


class Sessions(unittest.TestCase):
    """Documents over an object with the methods of a Session."""

    def test_what_a_session_raises_is_raised(self):
        for fault in (OutOfMemoryError("refused"), KeyError("else")):
            document = Document(Odd(fault))
            for call in (lambda: document.createElement("p"), lambda: document.firstChild, lambda: document.querySelector("p")):
                self.assertRaises(type(fault), call)

    @unittest.skipIf(engine_module is None, "there is no extension module")
    def test_answers_that_are_none_end_no_process(self):
        answers = (["p ok"], ["p ok ["], ["p ok [n"], ['p ok "'], ['p ok "\\u12'], ["p ok (n1"], ["p ok (n1 element"], ["p"], [""], [], ["p ! odd"], ["p ok [n1,"])
        for answer in answers:
            document = Document(Odd(answer))
            for call in (lambda: document.firstChild, lambda: document.querySelector("p"), lambda: document.createElement("p").getAttribute("a"),
                         lambda: document.createElement("p").childNodes[0].nodeName, lambda: document.childNodes[0].tagName,
                         lambda: document.appendChild(document.createTextNode("a"))):
                with contextlib.suppress(Exception):
                    call()


# What is passed where something else is wanted.
WRONG = (None, True, 0, -1, 2**40, 1.5, "", "li", "a b", "\ud800", "é", "x" * 70_000, b"bytes", [], {}, object(), Exception, print, Ellipsis)
METHODS = ("appendChild", "insertBefore", "replaceChild", "removeChild", "hasChildNodes", "getAttribute", "setAttribute", "hasAttribute",
           "removeAttribute", "remove", "createElement", "createTextNode", "createComment", "querySelectorAll", "matches", "append", "contains",
           "addEventListener", "removeEventListener", "dispatchEvent", "replaceData", "splitText", "normalize", "cloneNode", "attachShadow",
           "iter", "itertext", "__iter__", "__len__", "__contains__", "__copy__", "__deepcopy__", "__reduce_ex__", "importNode", "before", "replaceWith")
PROPERTIES = ("parentNode", "firstChild", "lastChild", "previousSibling", "nextSibling", "nodeName", "childNodes", "tagName", "data", "textContent", "id")


class WrongArguments(DocumentTest):
    def a_node(self, chance):
        """Any node: of this document, of a component, or of another session."""
        return chance.choice(self.nodes)

    def test_random_calls_raise_exceptions_alone(self):
        """What a call may raise: the exceptions of the DOM, and Python's own for a wrong argument."""
        chance = random.Random(1)
        other = Document()
        self.addCleanup(other.close)
        component = self.document.appendChild(self.document.createElement("div")).attachShadow()
        self.nodes = [self.document, self.document.firstChild, component.root, component.createElement("slot"), other, other.createElement("p")]
        self.nodes += [self.document.createElement("p"), self.document.createTextNode("a"), self.document.createComment("b"),
                       self.document.createDocumentFragment()]
        done = refused = 0
        for _ in range(CALLS):
            node = self.a_node(chance)
            words = [self.a_node(chance) if chance.random() < 0.4 else chance.choice(WRONG) for _ in range(chance.randrange(4))]
            try:
                if chance.random() < 0.2:
                    name = chance.choice(PROPERTIES)
                    getattr(node, name) if not words else setattr(node, name, words[0])
                else:
                    getattr(node, chance.choice(METHODS))(*words)
                done += 1
            except (TypeError, ValueError, AttributeError, OverflowError, DOMException):
                refused += 1
        self.assertEqual(done + refused, CALLS)
        self.assertGreater(done, CALLS // 20)
        self.assertGreater(refused, CALLS // 4)
        self.nodes[1].setAttribute("still", "there")
        self.assertEqual(self.nodes[1].getAttribute("still"), "there")

    def test_random_calls_on_what_is_no_node(self):
        """Ranges, iterators, walkers, observers, attributes and classes, and a component: each call and property that one may use."""
        chance = random.Random(3)
        div = self.document.appendChild(self.document.createElement("div"))
        text = div.appendChild(self.document.createTextNode("some text"))
        self.nodes = [self.document, div, text, div.attachShadow().root, self.document.createComment("b")]
        kinds = [self.document.createRange, lambda: self.document.createNodeIterator(div), lambda: self.document.createTreeWalker(div),
                 lambda: div.classList, lambda: div.attributes, lambda: div.childNodes, lambda: MutationObserver(lambda *told: None),
                 lambda: Event("e"), lambda: self.document.createElement("p").attachShadow()]
        refused = 0
        for _ in range(CALLS // 4):
            thing = chance.choice(kinds)()
            name = chance.choice([name for name in dir(thing) if not name.startswith("_") and name != "end_turn"])
            words = [self.a_node(chance) if chance.random() < 0.4 else chance.choice(WRONG) for _ in range(chance.randrange(4))]
            try:
                found = getattr(thing, name)
                found(*words) if callable(found) else setattr(thing, name, (words or [None])[0])
            except (TypeError, ValueError, AttributeError, OverflowError, IndexError, KeyError, DOMException):
                refused += 1
        self.assertGreater(refused, CALLS // 20)
        self.assertEqual(text.length, len(text.data))

    @unittest.skipIf(engine_module is None, "there is no extension module")
    def test_the_module_itself_takes_no_wrong_arguments(self):
        chance = random.Random(2)
        table = self.document._owner.table
        methods = [name for name in dir(table) if not name.startswith("_")]
        for _ in range(CALLS // 10):
            words = [chance.choice(WRONG) for _ in range(chance.randrange(3))]
            try:
                getattr(table, chance.choice(methods))(*words)
            except (TypeError, ValueError, AttributeError, OverflowError, IndexError, DOMException):
                pass
        for words in ((), (None,), (1, 2, 3, 4), (object(), object(), "p", {})):
            self.assertRaises(TypeError, engine_module.Nodes, *words)
        self.assertRaises(OSError, engine_module.Session, "/nowhere/library.so")
        self.assertRaises(TypeError, engine_module.Session, 1, 2)


@unittest.skipIf(engine_module is None, "there is no extension module")
class Threads(DocumentTest):
    def test_another_thread_is_refused(self):
        from concurrent.futures import ThreadPoolExecutor

        div = self.document.createElement("div")
        with ThreadPoolExecutor(1) as pool:
            for call in (lambda: div.firstChild, lambda: div.appendChild(div), lambda: self.document.createElement("p")):
                self.assertRaises(WrongThreadError, pool.submit(call).result)


if __name__ == "__main__":
    unittest.main()
