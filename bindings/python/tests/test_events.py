"""Events (#interface-eventtarget, #concept-event-dispatch)."""
from xml.dom import NotSupportedErr

from owlantimony.dom import Event
from support import DocumentTest


class Dispatching(DocumentTest):
    def setUp(self):
        super().setUp()
        self.div = self.put(("div", ("p",)))
        self.p = self.div.firstChild

    def log(self, word):
        """Give a callback of its own that notes a word and the phase."""
        return lambda event: self.told.append((word, event.eventPhase))

    def test_capture_target_and_bubble(self):
        self.div.addEventListener("click", self.log("in"), capture=True)
        self.div.addEventListener("click", self.log("out"))
        self.p.addEventListener("click", self.log("at"))
        self.assertTrue(self.p.dispatchEvent(Event("click", bubbles=True)))
        self.assertEqual(self.told, [("in", Event.CAPTURING_PHASE), ("at", Event.AT_TARGET), ("out", Event.BUBBLING_PHASE)])
        self.told.clear()
        self.p.dispatchEvent(Event("click"))
        self.assertEqual([word for word, _ in self.told], ["in", "at"])

    def test_what_a_callback_gets(self):
        self.div.addEventListener("e.x", self.told.append)
        self.p.dispatchEvent(Event("e.x", bubbles=True, relatedTarget=self.document))
        (event,) = self.told
        self.assertEqual((event.type, event.target, event.currentTarget, event.relatedTarget), ("e.x", self.p, self.div, self.document))
        self.assertEqual(event.composedPath(), [self.p, self.div, self.document])
        for call in (event.preventDefault, event.stopPropagation, event.stopImmediatePropagation):
            self.assertRaises(NotSupportedErr, call)

    def test_actions(self):
        self.p.addEventListener("e", self.log("cancels"), action="cancel")
        self.assertFalse(self.p.dispatchEvent(Event("e", cancelable=True)))
        self.assertTrue(self.p.dispatchEvent(Event("e")))
        self.p.addEventListener("f", self.log("stops"), action="stop")
        self.p.addEventListener("f", self.log("beside"), action="stop-now")
        self.p.addEventListener("f", self.log("never"))
        self.div.addEventListener("f", self.log("never"))
        self.told.clear()
        self.p.dispatchEvent(Event("f", bubbles=True))
        self.assertEqual([word for word, _ in self.told], ["stops", "beside"])
        self.assertRaises(ValueError, self.p.addEventListener, "e", print, action="halt")

    def test_passive_listeners_do_not_cancel(self):
        self.p.addEventListener("e", self.log("passive"), passive=True, action="cancel")
        self.assertTrue(self.p.dispatchEvent(Event("e", cancelable=True)))

    def test_a_listener_is_added_once_and_called_once_where_it_says_so(self):
        callback = self.log("x")
        self.p.addEventListener("e", callback)
        self.p.addEventListener("e", callback, once=True)
        self.p.addEventListener("e", callback, capture=True, once=True)
        for _ in range(2):
            self.p.dispatchEvent(Event("e"))
        self.assertEqual(len(self.told), 3)
        self.p.removeEventListener("e", callback, capture=True)
        self.p.removeEventListener("e", callback)
        self.p.removeEventListener("e", callback)
        self.p.dispatchEvent(Event("e"))
        self.assertEqual(len(self.told), 3)
        self.p.addEventListener("e", callback, once=True)
        for _ in range(2):
            self.p.dispatchEvent(Event("e"))
        self.assertEqual(len(self.told), 4)

    def test_a_callback_may_change_the_tree_after_the_dispatch(self):
        self.p.addEventListener("e", lambda event: event.currentTarget.remove())
        self.div.addEventListener("e", lambda event: self.told.append((event.target, event.target.parentNode)))
        self.p.dispatchEvent(Event("e", bubbles=True))
        self.assertEqual(self.told, [(self.p, None)])

    def test_types_that_are_none(self):
        for kind in ("", "a b", "\u00e9", "x" * 65):
            self.assertRaises(ValueError, Event, kind)
            self.assertRaises(ValueError, self.p.addEventListener, kind, print)
