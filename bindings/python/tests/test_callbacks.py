"""What callbacks raise, and who is called after a removal (#concept-event-listener-inner-invoke, #notify-mutation-observers).

The Standard reports an exception of a callback and goes on: no call is kept from being done, and all others are called.
"""
import copy
import gc
import runpy
import sys
from unittest import mock

from owlantimony.dom import CallbackErrors, Document, Event, MutationObserver, errors
from support import DocumentTest


class Fault(Exception):
    """What the callbacks of these tests raise."""


def raises(word):
    """Give a callback that raises a fault with a word."""

    def callback(*told):
        raise Fault(word)

    return callback


def words_of(raised):
    """Give the words of a fault, or of a group of faults."""
    return [str(fault) for fault in getattr(raised, "exceptions", [raised])]


class Raising(DocumentTest):
    def setUp(self):
        super().setUp()
        self.div = self.put(("div",))
        self.component = self.div.attachShadow()

    def test_another_owners_call_is_done_and_gives_its_value(self):
        b = self.component.createElement("b")
        self.document.queueMicrotask(raises("page"))
        self.component.root.append(b)
        self.assertIs(b.parentNode, self.component.root)
        self.document.queueMicrotask(raises("page again"))
        self.assertEqual(self.component.createElement("i").nodeName, "i")
        with self.assertRaises(CallbackErrors) as caught:
            self.document.end_turn()
        self.assertEqual(words_of(caught.exception), ["page", "page again"])
        self.document.end_turn()

    def test_a_dispatch_raises_what_its_own_callbacks_raised_and_nothing_else(self):
        b = self.component.createElement("b")
        self.component.root.append(b)
        b.addEventListener("e", self.told.append)
        b.addEventListener("f", raises("listener"))
        self.document.queueMicrotask(raises("page"))
        self.assertTrue(b.dispatchEvent(Event("e")))
        self.assertEqual(len(self.told), 1)
        with self.assertRaisesRegex(Fault, "listener"):
            b.dispatchEvent(Event("f"))
        with self.assertRaisesRegex(Fault, "page"):
            self.document.close()

    def test_a_call_that_reads_is_done(self):
        slot = self.component.createElement("slot")
        self.component.root.append(slot)
        slot.addEventListener("slotchange", raises("slot"))
        text = self.document.createTextNode("x")
        self.div.append(text)
        self.assertEqual(slot.assignedNodes(), [text])
        with self.assertRaises(Fault):
            self.component.end_turn()

    def test_all_listeners_are_called_and_all_exceptions_are_raised(self):
        for word in ("one", "two"):
            self.div.addEventListener("e", raises(word))
        self.div.addEventListener("e", self.told.append)
        with self.assertRaises(CallbackErrors) as caught:
            self.div.dispatchEvent(Event("e"))
        self.assertEqual(words_of(caught.exception), ["one", "two"])
        self.assertEqual(len(self.told), 1)

    def test_python_before_3_11_has_a_group_as_well(self):
        with mock.patch.object(sys, "version_info", (3, 9, 0)):
            before = runpy.run_path(errors.__file__)
        faults = [Fault("one"), Fault("two")]
        together = before["together"](faults)
        self.assertIsInstance(together, before["CallbackErrors"])
        self.assertNotIsInstance(together, CallbackErrors)
        self.assertEqual(words_of(together), ["one", "two"])
        self.assertEqual(str(together), "2 callbacks raised an exception: Fault('one'); Fault('two')")
        self.assertIs(before["together"](faults[:1]), faults[0])

    def test_one_exception_is_raised_as_it_is(self):
        self.div.addEventListener("e", raises("alone"))
        with self.assertRaisesRegex(Fault, "alone"):
            self.div.dispatchEvent(Event("e"))

    def test_a_hook_gets_them_at_once_and_nothing_is_raised(self):
        self.assertIsNone(self.document.onerror)
        self.document.onerror = lambda fault: self.told.append(str(fault))
        self.div.addEventListener("e", raises("one"), action="cancel")
        self.div.addEventListener("e", lambda event: self.told.append("between"))
        self.div.addEventListener("e", raises("two"))
        self.assertFalse(self.div.dispatchEvent(Event("e", cancelable=True)))
        self.component.queueMicrotask(raises("component"))
        self.document.end_turn()
        self.assertEqual(self.told, ["one", "between", "two", "component"])
        self.document.onerror = None
        self.assertRaises(TypeError, setattr, self.document, "onerror", 1)

    def test_what_the_hook_raises_is_kept(self):
        self.document.onerror = raises("hook")
        self.document.queueMicrotask(raises("page"))
        with self.assertRaisesRegex(Fault, "hook"):
            self.document.end_turn()

    def test_a_callback_is_told_of_its_own_dispatch_alone(self):
        def dispatches(event):
            self.told.append(self.div.dispatchEvent(Event("quiet")))
            try:
                self.div.dispatchEvent(Event("loud"))
            except Fault as fault:
                self.told.append(str(fault))

        self.div.addEventListener("loud", raises("loud"))
        self.div.addEventListener("e", raises("first"))
        self.div.addEventListener("e", dispatches)
        with self.assertRaisesRegex(Fault, "first"):
            self.div.dispatchEvent(Event("e"))
        self.assertEqual(self.told, [True, "loud"])

    def test_a_callback_that_ends_a_turn_is_told_of_that_end_alone(self):
        def ends():
            self.document.end_turn()
            self.told.append("quiet")
            self.component.queueMicrotask(raises("loud"))
            try:
                self.document.end_turn()
            except Fault as fault:
                self.told.append(str(fault))

        self.document.queueMicrotask(raises("first"))
        self.document.queueMicrotask(ends)
        with self.assertRaisesRegex(Fault, "first"):
            self.document.end_turn()
        self.assertEqual(self.told, ["quiet", "loud"])

    def test_the_end_of_a_with_block_raises_what_is_kept(self):
        with self.assertRaisesRegex(Fault, "last"):
            with Document() as document:
                document.queueMicrotask(raises("last"))

    def test_what_is_kept_when_a_document_is_dropped_is_warned_of(self):
        document = Document()
        component = document.appendChild(document.createElement("div")).attachShadow()
        document.queueMicrotask(raises("never"))
        component.createElement("b")
        del document, component
        with self.assertWarnsRegex(RuntimeWarning, "never raised.*Fault.'never'"):
            gc.collect()

    def test_a_copy_that_is_refused_leaves_nothing_to_warn_of(self):
        with mock.patch.object(sys, "unraisablehook") as hook:
            self.assertRaises(TypeError, copy.deepcopy, self.document.createElement("div").attachShadow())
            gc.collect()
        hook.assert_not_called()

    def test_microtasks_are_run_also_where_the_body_raised(self):
        """As a microtask checkpoint follows a script that threw (HTML Standard, #clean-up-after-running-script)."""
        with self.assertRaisesRegex(Fault, "body"):
            with Document() as document:
                document.queueMicrotask(lambda: self.told.append("microtask"))
                raise Fault("body")
        self.assertEqual(self.told, ["microtask"])

    def test_an_exception_of_a_microtask_keeps_that_of_the_body(self):
        with self.assertRaisesRegex(Fault, "microtask") as caught:
            with Document() as document:
                document.queueMicrotask(raises("microtask"))
                raise Fault("body")
        self.assertEqual(str(caught.exception.__context__), "body")

    def test_an_interrupted_body_calls_nobody(self):
        with self.assertRaises(KeyboardInterrupt):
            with Document() as document:
                document.queueMicrotask(lambda: self.told.append("microtask"))
                raise KeyboardInterrupt
        self.assertEqual(self.told, [])


class Removing(DocumentTest):
    def setUp(self):
        super().setUp()
        self.div = self.put(("div",))

    def log(self, event):
        self.told.append(event.type)

    def dispatch_after(self, first, **options):
        """Dispatch an event to a callback, and then to `log`."""
        self.div.addEventListener("e", lambda event: first(), once=True)
        self.div.addEventListener("e", self.log, **options)
        self.div.dispatchEvent(Event("e"))
        return self.told

    def test_a_listener_removed_by_an_earlier_one_is_not_called(self):
        self.assertEqual(self.dispatch_after(lambda: self.div.removeEventListener("e", self.log)), [])

    def test_nor_one_that_is_called_once(self):
        self.assertEqual(self.dispatch_after(lambda: self.div.removeEventListener("e", self.log), once=True), [])

    def test_nor_one_that_is_added_again(self):
        def again():
            self.div.removeEventListener("e", self.log)
            self.div.addEventListener("e", self.log)

        self.assertEqual(self.dispatch_after(again), [])
        self.div.dispatchEvent(Event("e"))
        self.assertEqual(self.told, ["e"])

    def test_another_listener_removed_changes_nothing(self):
        self.assertEqual(self.dispatch_after(lambda: self.div.removeEventListener("e", self.log, capture=True)), ["e"])

    def test_a_listener_called_once_may_add_itself_again(self):
        def again(event):
            self.told.append(event.type)
            self.div.addEventListener("e", again, once=True)

        self.div.addEventListener("e", again, once=True)
        for _ in range(2):
            self.div.dispatchEvent(Event("e"))
        self.assertEqual(self.told, ["e", "e"])

    def test_an_observer_disconnected_by_an_earlier_one_is_not_called(self):
        first = MutationObserver(lambda records, observer: second.disconnect())
        second = MutationObserver(lambda records, observer: self.told.append(len(records)))
        for observer in (first, second):
            observer.observe(self.div, childList=True)
        self.div.append("x")
        self.document.end_turn()
        self.assertEqual(self.told, [])

    def test_records_taken_by_an_earlier_callback_are_not_told(self):
        first = MutationObserver(lambda records, observer: self.told.append([record.type for record in second.takeRecords()]))
        second = MutationObserver(lambda records, observer: self.told.append("told"))
        for observer in (first, second):
            observer.observe(self.div, childList=True)
        self.div.append("x")
        self.document.end_turn()
        self.assertEqual(self.told, [["childList"]])
