"""Attributes (#interface-element) and sets of words (#interface-domtokenlist)."""
from xml.dom import DomstringSizeErr, InvalidCharacterErr, SyntaxErr

from support import DocumentTest


class Attributes(DocumentTest):
    def setUp(self):
        super().setUp()
        self.p = self.put(("p",))

    def test_values_are_set_read_and_removed(self):
        self.assertIsNone(self.p.getAttribute("lang"))
        self.p.setAttribute("lang", "\u00e9\"'\\\ud800")
        self.p.setAttribute("title", "")
        self.assertEqual((self.p.getAttribute("lang"), self.p.getAttribute("title")), ("\u00e9\"'\\\ud800", ""))
        self.p.setAttribute("lang", "en")
        self.assertEqual(self.p.getAttributeNames(), ["lang", "title"])
        self.p.removeAttribute("lang")
        self.p.removeAttribute("lang")
        self.assertEqual((self.p.hasAttribute("lang"), self.p.hasAttribute("title"), self.p.hasAttributes()), (False, True, True))

    def test_a_name_that_is_none_is_refused_and_is_not_there(self):
        for name in ("", "a:b", "@click", "1", "a b"):
            self.assertRaises(InvalidCharacterErr, self.p.setAttribute, name, "x")
            self.assertFalse(self.p.hasAttribute(name))
            self.assertIsNone(self.p.getAttribute(name))

    def test_a_value_that_no_line_has_room_for_is_refused(self):
        self.p.setAttribute("title", "x")
        self.assertRaises(DomstringSizeErr, self.p.setAttribute, "title", "y" * 70_000)
        self.assertEqual(self.p.getAttribute("title"), "x")

    def test_the_length_of_a_value_is_what_the_page_of_docs_says(self):
        """docs/PROTOCOL.md, 'Lines': a line of 65,536 bytes, and six bytes for a code unit that is not ASCII."""
        for text, count in (("y", 65_500), ('"', 32_750), ("\n", 10_900), ("\u6f22", 10_900), ("\U0001f600", 5_450)):
            self.p.setAttribute("title", text * count)
            self.assertRaises(DomstringSizeErr, self.p.setAttribute, "title", text * (count + count // 100))
            self.assertEqual(self.p.getAttribute("title"), text * count)

    def test_toggle(self):
        """#dom-element-toggleattribute."""
        self.assertTrue(self.p.toggleAttribute("hidden"))
        self.assertEqual(self.p.getAttribute("hidden"), "")
        self.assertTrue(self.p.toggleAttribute("hidden", True))
        self.assertFalse(self.p.toggleAttribute("hidden"))
        self.assertFalse(self.p.toggleAttribute("hidden", False))
        self.assertFalse(self.p.hasAttribute("hidden"))

    def test_the_mapping_has_the_form_of_xml_dom(self):
        attributes = self.p.attributes
        attributes["id"] = "x"
        attributes["class"] = "a b"
        self.assertEqual((len(attributes), list(attributes), "id" in attributes), (2, ["id", "class"], True))
        self.assertEqual(attributes.items(), [("id", "x"), ("class", "a b")])
        self.assertEqual((attributes["id"].value, attributes.item(1).name, attributes.item(2)), ("x", "class", None))
        attributes["id"].value = "y"
        self.assertEqual(self.p.id, "y")
        made = self.document.createAttribute("lang")
        made.value = "en"
        attributes["lang"] = made
        self.assertEqual(self.p.getAttributeNode("lang").value, "en")
        del attributes["lang"]
        self.assertRaises(KeyError, attributes.__getitem__, "lang")
        self.assertRaises(KeyError, attributes.__delitem__, "lang")

    def test_reflected_attributes(self):
        self.assertEqual((self.p.id, self.p.className, self.p.slot), ("", "", ""))
        self.p.id, self.p.className, self.p.slot = "i", "c", "s"
        self.assertEqual(self.p.attributes.items(), [("id", "i"), ("class", "c"), ("slot", "s")])


class Words(DocumentTest):
    def setUp(self):
        super().setUp()
        self.p = self.put(("p",))
        self.words = self.p.classList

    def test_as_a_string_they_are_the_attribute(self):
        """#dom-domtokenlist-stringifier: the stringifier is the attribute's value."""
        self.p.className = " a  b a"
        self.assertEqual(str(self.words), " a  b a")

    def test_words_are_added_and_removed_in_order_and_once(self):
        """#concept-ordered-set-serializer: a change writes the words with one space between them."""
        self.p.className = " b\ta  b "
        self.assertEqual((list(self.words), self.words.length, self.words.item(1), self.words.item(2)), (["b", "a"], 2, "a", None))
        self.words.add("c", "a")
        self.assertEqual(self.p.className, "b a c")
        self.words.remove("b", "z")
        self.assertEqual(self.p.className, "a c")

    def test_nothing_is_set_where_nothing_is_left_and_nothing_was(self):
        """#concept-dtl-update: no attribute and no words leave no attribute."""
        self.words.remove("a")
        self.assertFalse(self.p.hasAttribute("class"))
        self.words.add("a")
        self.words.remove("a")
        self.assertEqual(self.p.getAttribute("class"), "")

    def test_toggle_and_replace(self):
        self.assertEqual([self.words.toggle("a"), self.words.toggle("b", False), self.words.toggle("a", True)], [True, False, True])
        self.assertEqual((self.words.replace("a", "z"), self.words.replace("a", "y"), self.p.className), (True, False, "z"))
        self.assertFalse(self.words.toggle("z"))

    def test_words_that_are_none_are_refused(self):
        self.assertRaises(SyntaxErr, self.words.add, "")
        self.assertRaises(InvalidCharacterErr, self.words.add, "a b")
        self.assertRaises(SyntaxErr, self.words.toggle, "")
        self.assertFalse(self.words.contains(""))
