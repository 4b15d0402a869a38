"""Selectors and what is found without them."""
from xml.dom import SyntaxErr

from support import DocumentTest


class Queries(DocumentTest):
    def setUp(self):
        super().setUp()
        self.ul = self.put(("ul", ("li", "one"), ("li", "two", ("b", "x")), ("p", ("b", "y"))))
        self.one, self.two, self.p = self.ul.childNodes
        self.two.id, self.two.className = "two", "big red"
        self.p.className = "red"

    def test_selectors(self):
        self.assertIs(self.document.querySelector("li:first-child"), self.one)
        self.assertEqual(self.document.querySelectorAll("li"), [self.one, self.two])
        self.assertEqual(self.ul.querySelectorAll("li.big > b, p b"), [self.two.lastChild, self.p.firstChild])
        self.assertIsNone(self.document.querySelector("ul > b"))
        self.assertRaises(SyntaxErr, self.document.querySelector, "li >")

    def test_matches_and_closest(self):
        b = self.two.lastChild
        self.assertTrue(b.matches("#two b"))
        self.assertIs(b.closest("li"), self.two)
        self.assertIs(b.closest("b"), b)
        self.assertIsNone(b.closest("p"))
        self.assertRaises(SyntaxErr, b.closest, "!")

    def test_by_name_class_and_id(self):
        self.assertEqual(self.ul.getElementsByTagName("b").length, 2)
        self.assertEqual(self.document.getElementsByTagName("*")[0], self.ul)
        self.assertEqual(self.document.getElementsByTagName("a:b"), [])
        self.assertEqual(self.ul.getElementsByClassName("red"), [self.two, self.p])
        self.assertEqual(self.ul.getElementsByClassName(" red big "), [self.two])
        self.assertEqual(self.ul.getElementsByClassName(" "), [])
        self.assertIs(self.document.getElementById("two"), self.two)
        self.assertIsNone(self.document.getElementById("three"))
        self.assertIsNone(self.document.getElementById(""))

    def test_ids_and_classes_that_no_selector_can_write(self):
        for value in ("a\"b'c", "back\\slash", "\"'", "a'b", "1:2"):
            self.p.id, self.p.className = value, f"x {value} y"
            self.assertIs(self.document.getElementById(value), self.p)
            self.assertEqual(self.document.getElementsByClassName(f"{value} x"), [self.p])
        self.p.id = "line\nfeed"
        self.assertIs(self.document.getElementById("line\nfeed"), self.p)
