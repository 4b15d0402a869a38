"""Closed trees: who reaches them, and who sees what."""
from xml.dom import HierarchyRequestErr, NotSupportedErr, WrongDocumentErr

from owlantimony.dom import Component, Event, ForeignNode, MutationObserver
from support import DocumentTest, outline


class Closed(DocumentTest):
    def setUp(self):
        super().setUp()
        self.host = self.put(("div", ("span", "x")))
        self.span = self.host.firstChild
        self.widget = self.host.attachShadow()
        self.slot = self.widget.createElement("slot")
        self.widget.root.appendChild(self.slot)

    def test_the_component_alone_reaches_the_tree(self):
        self.assertIsNone(self.host.shadowRoot)
        self.assertIsNone(self.span.assignedSlot)
        self.assertEqual(outline(self.document), "#document(div(span('x')))")
        self.assertIs(self.slot.getRootNode(), self.widget.root)
        self.assertTrue(self.slot.isConnected)
        self.assertEqual(self.document.querySelectorAll("slot"), [])
        self.assertRaises(TypeError, Component)

    def test_a_node_of_another_owner_is_refused_before_a_line_is_sent(self):
        lines, made = [], self.document.createRange()
        session = self.document._owner.engine.session
        self.document._owner.engine.session = Noting(session, lines)
        for call in (
            lambda: self.host.appendChild(self.slot),
            lambda: self.slot.insertBefore(self.span, None),
            lambda: self.host.contains(self.slot),
            lambda: self.host.isEqualNode(self.slot),
            lambda: self.widget.importNode(self.span),
            lambda: self.widget.createTreeWalker(self.span),
            lambda: self.document.adoptNode(self.slot),
            lambda: self.host.append("x", self.slot),
            lambda: self.span.before("x", self.slot),
            lambda: self.span.after(self.slot),
            lambda: self.span.replaceWith(self.slot),
            lambda: self.host.compareDocumentPosition(self.slot),
            lambda: made.intersectsNode(self.slot),
            lambda: MutationObserver(print).observe(ForeignNode(self.document._owner.engine, "n2"), childList=True),
        ):
            self.assertRaises(WrongDocumentErr, call)
        self.assertEqual(lines, [])
        self.document._owner.engine.session = session

    def test_the_engine_refuses_it_too(self):
        self.assertRaises(WrongDocumentErr, self.document._owner.ask, "append n1 m1")
        self.assertRaises(WrongDocumentErr, self.widget._owner.ask, "append m0 n1")

    def test_hosts(self):
        """#dom-element-attachshadow."""
        self.assertRaises(NotSupportedErr, self.host.attachShadow)
        self.assertRaises(NotSupportedErr, self.document.createElement("ul").attachShadow)
        self.assertRaises(NotSupportedErr, self.span.attachShadow, mode="open")
        self.assertRaises(NotSupportedErr, self.widget.root.cloneNode)
        self.assertRaises(HierarchyRequestErr, self.slot.appendChild, self.widget.root)
        self.assertFalse(self.host.cloneNode(True).isConnected)

    def test_slots_show_foreign_nodes(self):
        (shown,) = self.slot.assignedNodes()
        self.assertIsInstance(shown, ForeignNode)
        self.assertEqual((shown, repr(shown), shown == self.host), (self.span, "<ForeignNode n2>", False))
        self.assertEqual(len({shown, self.span}), 1)
        self.assertFalse(hasattr(shown, "parentNode"))
        self.assertIsInstance(self.slot.ownerDocument, ForeignNode)
        self.assertRaises(WrongDocumentErr, self.slot.appendChild, shown)

    def test_an_event_seen_from_both_sides(self):
        self.host.addEventListener("pick", lambda event: self.told.append(("page", event)))
        self.slot.addEventListener("pick", lambda event: self.told.append(("widget", event)))
        self.span.dispatchEvent(Event("pick", bubbles=True))
        (first, inner), (second, outer) = self.told
        self.assertEqual((first, second), ("widget", "page"))
        self.assertEqual((inner.target, inner.currentTarget, outer.target), (self.span, self.slot, self.span))
        self.assertEqual(outer.composedPath(), [self.span, self.host, self.document])
        self.assertEqual(inner.composedPath()[1:3], [self.slot, self.widget.root])

    def test_an_event_from_inside_has_the_host_as_its_target(self):
        """#retarget."""
        self.host.addEventListener("pick", self.told.append)
        self.slot.dispatchEvent(Event("pick", bubbles=True))
        self.assertEqual(self.told, [])
        self.slot.dispatchEvent(Event("pick", composed=True))
        self.assertEqual([(event.target, event.composedPath()) for event in self.told], [(self.host, [self.host, self.document])])
        other = self.widget.createElement("b")
        self.assertRaises(TypeError, self.slot.dispatchEvent, Event("pick", relatedTarget=other))

    def test_slotchange_is_told_at_the_end_of_a_turn(self):
        self.widget.end_turn()
        self.slot.addEventListener("slotchange", lambda event: self.told.append((event.type, event.target)))
        self.span.remove()
        self.assertEqual(self.told, [])
        self.document.end_turn()
        self.assertEqual(self.told, [("slotchange", self.slot)])

    def test_who_acts_ends_the_turn_of_the_other(self):
        observer = MutationObserver(lambda records, _: self.told.append([record.target for record in records]))
        observer.observe(self.host, attributes=True)
        self.host.id = "h"
        self.assertEqual(self.told, [])
        self.slot.setAttribute("name", "s")
        self.assertEqual(self.told, [[self.host]])
        self.widget.queueMicrotask(lambda: self.told.append("inner"))
        self.host.id = "i"
        self.assertEqual(self.told[1:], ["inner"])

    def test_what_is_remembered_is_not_used_before_the_other_turn_has_ended(self):
        """The callback of the widget's microtask moves the page's node, after the page asked where it stands."""
        other = self.host.appendChild(self.document.createElement("b"))
        self.assertIs(self.span.nextSibling, other)
        self.widget.queueMicrotask(self.span.remove)
        self.assertIsNone(self.span.nextSibling)
        self.assertIs(self.host.firstChild, other)

    def test_a_dropped_range_opens_a_turn_that_is_ended(self):
        made = self.document.createRange()
        self.document.end_turn()
        del made
        self.assertRaises(HierarchyRequestErr, self.host.appendChild, self.host)
        self.slot.setAttribute("name", "s")
        self.assertEqual(self.slot.getAttribute("name"), "s")

    def test_a_component_in_a_component(self):
        section = self.widget.createElement("section")
        self.widget.root.appendChild(section)
        inner = section.attachShadow()
        b = inner.root.appendChild(inner.createElement("b"))
        for name, node in ("inner", b), ("outer", section), ("page", self.host):
            node.addEventListener("e", lambda event, name=name: self.told.append((name, event.target, len(event.composedPath()))))
        b.dispatchEvent(Event("e", composed=True))
        self.assertEqual(self.told, [("inner", b, 6), ("outer", section, 4), ("page", self.host, 2)])
        self.assertRaises(WrongDocumentErr, section.appendChild, b)
        self.assertEqual(repr(inner), "<Component c1.1>")
        self.assertIs(inner.getElementById("x"), None)


class Noting:
    """A session that notes the lines it is given."""

    def __init__(self, session, lines):
        self.session, self.lines = session, lines

    def line(self, text):
        self.lines.append(text)
        return self.session.line(text)
