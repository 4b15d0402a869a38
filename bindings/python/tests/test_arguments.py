"""What is no argument of a call is refused at once, in words, and browsers' ways to give options are taken."""
from xml.dom import IndexSizeErr, InvalidCharacterErr, NotSupportedErr, SyntaxErr, WrongDocumentErr, minidom

from owlantimony.dom import Event, MutationObserver, NodeFilter, NodeNameFilter
from support import DocumentTest, outline


class Arguments(DocumentTest):
    def setUp(self):
        super().setUp()
        self.div = self.put(("div", ("p", "abc"), "!"))
        self.p, self.text = self.div.firstChild, self.div.firstChild.firstChild

    def refused(self, words, call, *arguments, **options):
        """Check that a call raises TypeError with these words, and changes nothing."""
        before = outline(self.document)
        with self.assertRaisesRegex(TypeError, words):
            call(*arguments, **options)
        self.assertEqual(outline(self.document), before)

    def test_callbacks_that_can_not_be_called(self):
        for callback in (5, "f", object()):
            self.refused("a callback is called, or has a method handleEvent", self.p.addEventListener, "e", callback)
            self.refused("this can't be called", self.document.queueMicrotask, callback)
            self.refused("this can't be called", MutationObserver, callback)
        self.refused("this can't be called", self.document.queueMicrotask, None)
        self.refused("this can't be called", MutationObserver, None)

    def test_no_callback_adds_no_listener(self):
        """#add-an-event-listener: where the callback is null, return."""
        self.p.addEventListener("e", None)
        self.assertTrue(self.p.dispatchEvent(Event("e")))
        self.p.removeEventListener("e", None)

    def test_a_callback_may_be_an_object_with_handle_event(self):
        """An EventListener is a callback interface (#callbackdef-eventlistener); its method is looked for at each call."""

        class Handler:
            told = []

            def handleEvent(self, event):
                self.told.append(event.type)

        handler = Handler()
        self.p.addEventListener("e", handler)
        self.p.dispatchEvent(Event("e"))
        self.p.removeEventListener("e", handler)
        self.p.dispatchEvent(Event("e"))
        self.assertEqual(handler.told, ["e"])

    def test_options_of_a_listener_in_a_mapping(self):
        """#dom-eventtarget-addeventlistener: the third argument is a boolean, or options."""
        self.p.addEventListener("e", self.told.append, {"once": True, "capture": True})
        self.p.removeEventListener("e", self.told.append)
        for _ in range(2):
            self.p.dispatchEvent(Event("e"))
        self.assertEqual(len(self.told), 1)
        self.p.addEventListener("e", self.told.append, {"capture": True})
        self.p.removeEventListener("e", self.told.append, {"capture": True, "once": True})
        self.assertTrue(self.p.dispatchEvent(Event("e")))
        self.assertEqual(len(self.told), 1)
        self.refused("a listener's options are capture, once, passive, action", self.p.addEventListener, "e", print, {"signal": None})

    def test_what_is_dispatched_is_an_event(self):
        for event in ("click", None, 5):
            self.refused("an Event is dispatched", self.p.dispatchEvent, event)
        self.refused("an event's type is a string", Event, None)

    def test_the_mode_of_a_closed_tree_in_a_mapping(self):
        """#dictdef-shadowrootinit."""
        self.assertEqual(self.p.attachShadow({"mode": "closed"}).root.nodeName, "#shadow-root")
        for options in ({"mode": "open"}, {"mode": "closed", "delegatesFocus": True}, {}, "open"):
            self.assertRaises(NotSupportedErr, self.div.attachShadow, options)

    def test_offsets_are_integers(self):
        made = self.document.createRange()
        for offset in ("1", 1.5, None):
            self.refused("integer", self.text.splitText, offset)
            self.refused("integer", self.text.substringData, offset, 1)
            self.refused("integer", self.text.deleteData, 0, offset)
            self.refused("integer", made.setStart, self.text, offset)
            self.refused("integer", made.comparePoint, self.text, offset)
        self.assertEqual(self.text.splitText(True).data, "bc")

    def test_counts_below_0_and_counts_past_the_end(self):
        """As minidom has the first; #concept-cd-substring and #concept-cd-replace have the second."""
        peer = minidom.Document().createTextNode("abc")
        for text in (self.text, peer):
            self.assertRaises(IndexSizeErr, text.deleteData, 0, -1)
            self.assertRaises(IndexSizeErr, text.substringData, 0, -1)
            self.assertEqual(text.substringData(1, 2**40), "bc")
        self.text.deleteData(1, 2**40)
        self.assertEqual(self.text.data, "a")

    def test_what_is_no_node_is_not_put_in(self):
        made = self.document.createRange()
        for thing in (made, 5, None, self.document.createTreeWalker(self.div)):
            self.refused("no node", self.div.append, thing)
            self.refused("no node", self.div.insertBefore, self.p, 0)
        self.refused("a range is compared with a range", made.compareBoundaryPoints, 0, self.p)
        self.refused("no node", MutationObserver(print).observe, None, childList=True)

    def test_filters(self):
        self.refused("a filter is NodeNameFilter.skip", self.document.createNodeIterator, self.div, NodeFilter.SHOW_TEXT, lambda node: 1)
        self.refused("a filter is NodeNameFilter.skip", self.document.createTreeWalker, self.div, filter=print)
        for name in ("a b", "a\np remove n1", "", "1"):
            self.assertRaises(InvalidCharacterErr, NodeNameFilter.skip, name)
            self.assertRaises(InvalidCharacterErr, NodeNameFilter.reject, name)

    def test_names(self):
        for name in ("a b", "1a", "a.b", "\u00e9", ""):
            self.assertRaises(InvalidCharacterErr, self.document.createElement, name)
            self.assertRaises(InvalidCharacterErr, self.document.createAttribute, name)
            self.assertRaises(InvalidCharacterErr, self.p.setAttribute, name, "x")
        self.refused("a name is a string", self.document.createElement, 5)
        self.refused("a string is wanted", self.p.setAttribute, "a", 5)
        self.refused("an attribute is a string or an Attr", self.p.attributes.__setitem__, "a", 5)
        self.assertEqual(self.document.createElementNS("", "a").namespaceURI, None)
        self.assertRaises(NotSupportedErr, self.document.createElementNS, "x", "a")

    def test_what_an_observer_is_to_observe(self):
        """#dom-mutationobserver-observe; a filter is empty, or has a name that no attribute has, where no record comes of it."""
        observer = MutationObserver(print)
        self.refused("childList, attributes or characterData", observer.observe, self.p)
        self.refused("childList, attributes or characterData", observer.observe, self.p, {"subtree": True})
        self.refused("an attributeFilter is a list of names", observer.observe, self.p, attributeFilter="class")
        self.refused("the options of an observer are childList", observer.observe, self.p, {"childlist": True})
        self.assertRaises(NotSupportedErr, observer.observe, self.p, attributeFilter=[])
        observer.observe(self.p, {"childList": True}, attributes=True, attributeOldValue=True, attributeFilter=[])
        self.p.setAttribute("class", "x")
        self.p.append("x")
        self.assertEqual([record.type for record in observer.takeRecords()], ["childList"])
        observer.observe(self.p, {"attributeFilter": ["xlink:href", "class"]})
        self.p.setAttribute("class", "y")
        self.p.append("x")
        self.assertEqual([record.attributeName for record in observer.takeRecords()], ["class"])

    def test_a_foreign_node_is_told_from_what_is_no_node(self):
        component = self.div.attachShadow()
        self.assertRaises(WrongDocumentErr, MutationObserver(print).observe, component.createElement("b").ownerDocument, childList=True)

    def test_a_refusal_says_which_nodes_the_line_names(self):
        with self.assertRaisesRegex(Exception, r"^hierarchy: p append (\S+) (\S+) \(\1 is p, \2 is div\)$"):
            self.p.appendChild(self.div)


class Adjacent(DocumentTest):
    """#insert-adjacent and #interface-nondocumenttypechildnode."""

    def setUp(self):
        super().setUp()
        self.div = self.put(("div", ("p", "a")))
        self.p = self.div.firstChild

    def test_elements_and_texts_go_where_the_word_says(self):
        for number, where in enumerate(("beforebegin", "afterbegin", "beforeEnd", "AFTEREND")):
            element = self.document.createElement(f"h{number}")
            self.assertIs(self.p.insertAdjacentElement(where, element), element)
        self.assertEqual(outline(self.div), "div(h0(),p(h1(),'a',h2()),h3())")
        for where in ("beforebegin", "afterbegin", "beforeend", "afterend"):
            self.assertIsNone(self.p.insertAdjacentText(where, where[0]))
        self.assertEqual(outline(self.div), "div(h0(),'b',p('a',h1(),'a',h2(),'b'),'a',h3())")

    def test_without_a_parent_nothing_is_put_beside(self):
        alone, element = self.build(("p",)), self.build(("b",))
        self.assertIsNone(alone.insertAdjacentElement("beforebegin", element))
        alone.insertAdjacentText("afterend", "x")
        self.assertIsNone(alone.parentNode)
        self.assertIsNone(element.parentNode)

    def test_what_is_refused(self):
        self.assertRaises(SyntaxErr, self.p.insertAdjacentElement, "inside", self.build(("b",)))
        self.assertRaises(SyntaxErr, self.p.insertAdjacentText, "inside", "x")
        self.assertRaises(TypeError, self.p.insertAdjacentElement, "beforeend", self.build("x"))
        self.assertEqual(outline(self.div), "div(p('a'))")

    def test_neighbours_that_are_elements(self):
        self.p.before("x", ("a", self.document.createComment("c"))[1])
        self.p.after("y", self.document.createElement("b"), "z")
        x, comment, p, y, b, z = self.div.childNodes
        self.assertEqual([node.nextElementSibling for node in (x, comment, p, y, b, z)], [p, p, b, b, None, None])
        self.assertEqual([node.previousElementSibling for node in (x, comment, p, y, b, z)], [None, None, None, p, p, b])

    def test_no_text_shows_its_slot(self):
        """#find-a-slot with its flag "open": in a closed tree the answer is null."""
        component = self.p.attachShadow()
        component.root.append(component.createElement("slot"))
        self.assertIsNone(self.p.firstChild.assignedSlot)
