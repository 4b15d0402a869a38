"""Observers (#interface-mutationobserver) and microtasks."""
from xml.dom import NotSupportedErr, WrongDocumentErr

from owlantimony.dom import MutationObserver
from support import DocumentTest


class Observers(DocumentTest):
    def setUp(self):
        super().setUp()
        self.div = self.put(("div", ("p",), "x"))
        self.p, self.x = self.div.childNodes
        self.observer = MutationObserver(lambda records, observer: self.told.append((records, observer)))

    def told_records(self):
        self.document.end_turn()
        records = [record for told, observer in self.told for record in told]
        self.told.clear()
        return records

    def test_records_come_at_the_end_of_the_turn_and_in_one_call(self):
        self.observer.observe(self.div, childList=True, attributes=True)
        b = self.document.createElement("b")
        self.div.replaceChild(b, self.p)
        self.div.id = "d"
        self.assertEqual(self.told, [])
        self.document.end_turn()
        self.assertEqual(len(self.told), 1)
        (first, second), observer = self.told[0]
        self.assertIs(observer, self.observer)
        self.assertEqual((first.type, first.target, first.addedNodes, first.removedNodes), ("childList", self.div, [b], [self.p]))
        self.assertEqual((first.previousSibling, first.nextSibling, first.attributeName), (None, self.x, None))
        self.assertEqual((second.type, second.attributeName, second.attributeNamespace, second.oldValue), ("attributes", "id", None, None))

    def test_old_values_filters_and_subtrees(self):
        self.observer.observe(self.div, subtree=True, characterDataOldValue=True, attributeOldValue=True, attributeFilter=["id", "class"])
        self.x.data = "say \"y\" \u00e9"
        self.x.data = "z"
        self.p.id = "1"
        self.p.id = "2"
        self.p.setAttribute("lang", "en")
        told = [(record.type, record.target, record.oldValue) for record in self.told_records()]
        expected = [("characterData", self.x, "x"), ("characterData", self.x, "say \"y\" \u00e9")]
        self.assertEqual(told, [*expected, ("attributes", self.p, None), ("attributes", self.p, "1")])

    def test_one_child_is_replaced_by_others_with_one_record(self):
        """#concept-node-replace-all."""
        self.x.remove()
        self.observer.observe(self.div, childList=True)
        self.div.replaceChildren("a", "b")
        (record,) = self.told_records()
        self.assertEqual((record.addedNodes, record.removedNodes), (list(self.div.childNodes), [self.p]))
        self.div.textContent = "c"
        (record,) = self.told_records()
        self.assertEqual((len(record.addedNodes), len(record.removedNodes)), (1, 2))

    def test_take_and_disconnect(self):
        self.observer.observe(self.div, attributes=True)
        self.div.id = "a"
        self.assertEqual([record.attributeName for record in self.observer.takeRecords()], ["id"])
        self.assertEqual(self.observer.takeRecords(), [])
        self.div.id = "b"
        self.observer.disconnect()
        self.assertEqual(self.told_records(), [])
        self.observer.observe(self.div, attributes=True)
        self.div.id = "c"
        self.assertEqual(len(self.told_records()), 1)
        self.assertEqual(MutationObserver(print).takeRecords(), [])

    def test_options_that_do_not_go_together(self):
        """#dom-mutationobserver-observe, steps 3 to 6."""
        observe = self.observer.observe
        self.assertRaises(TypeError, observe, self.div, subtree=True)
        self.assertRaises(TypeError, observe, self.div, childList=True, attributes=False, attributeOldValue=True)
        self.assertRaises(TypeError, observe, self.div, childList=True, attributes=False, attributeFilter=["a"])
        self.assertRaises(TypeError, observe, self.div, childList=True, characterData=False, characterDataOldValue=True)
        self.assertRaises(NotSupportedErr, observe, self.div, attributeFilter=[])

    def test_an_observer_is_one_owners(self):
        self.observer.observe(self.div, childList=True)
        component = self.div.attachShadow()
        self.assertRaises(WrongDocumentErr, self.observer.observe, component.root, childList=True)


class Microtasks(DocumentTest):
    def test_first_in_first_out_until_nothing_is_left(self):
        def first():
            self.told.append("first")
            self.document.queueMicrotask(lambda: self.told.append("third"))

        self.document.queueMicrotask(first)
        self.document.queueMicrotask(lambda: self.told.append("second"))
        self.assertEqual(self.told, [])
        self.document.end_turn()
        self.assertEqual(self.told, ["first", "second", "third"])

    def test_all_are_called_and_the_first_exception_is_raised_then(self):
        def fail():
            raise KeyError("from a callback")

        self.document.queueMicrotask(fail)
        self.document.queueMicrotask(lambda: self.told.append("called"))
        self.assertRaises(KeyError, self.document.end_turn)
        self.assertEqual(self.told, ["called"])

    def test_closing_ends_the_turn(self):
        self.document.queueMicrotask(lambda: self.told.append("called"))
        self.document.close()
        self.assertEqual(self.told, ["called"])
