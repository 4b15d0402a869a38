"""Iterators (#interface-nodeiterator) and walkers (#interface-treewalker)."""
from xml.dom import NotSupportedErr

from owlantimony.dom import NodeFilter, NodeNameFilter
from support import DocumentTest


class Cursors(DocumentTest):
    def setUp(self):
        super().setUp()
        self.div = self.put(("div", ("a", "x", ("b",)), ("!", "note"), ("c", "y")))
        self.a, self.note, self.c = self.div.childNodes
        self.x, self.b = self.a.childNodes
        self.y = self.c.firstChild


class Iterators(Cursors):
    def test_all_nodes_in_tree_order_and_back(self):
        iterator = self.document.createNodeIterator(self.div)
        self.assertEqual(list(iterator), [self.div, self.a, self.x, self.b, self.note, self.c, self.y])
        self.assertIsNone(iterator.nextNode())
        self.assertEqual((iterator.previousNode(), iterator.previousNode()), (self.y, self.c))
        self.assertEqual((iterator.root, iterator.referenceNode, iterator.pointerBeforeReferenceNode), (self.div, self.c, True))

    def test_what_is_shown(self):
        shown = NodeFilter.SHOW_TEXT | NodeFilter.SHOW_COMMENT
        self.assertEqual(list(self.document.createNodeIterator(self.document, shown)), [self.x, self.note, self.y])
        only = self.document.createNodeIterator(self.div, NodeFilter.SHOW_ELEMENT, NodeNameFilter.reject("a"))
        self.assertEqual(list(only), [self.div, self.b, self.c])
        self.assertRaises(NotSupportedErr, self.document.createNodeIterator, self.div, NodeFilter.SHOW_ATTRIBUTE)

    def test_an_iterator_stands_by_what_is_left(self):
        """#nodeiterator-pre-removing-steps."""
        iterator = self.document.createNodeIterator(self.div)
        while iterator.nextNode() is not self.b:
            pass
        self.a.remove()
        self.assertEqual((iterator.referenceNode, iterator.pointerBeforeReferenceNode), (self.div, False))
        self.assertIs(iterator.nextNode(), self.note)


class Walkers(Cursors):
    def test_moves(self):
        walker = self.document.createTreeWalker(self.div, NodeFilter.SHOW_ELEMENT)
        moves = [walker.firstChild, walker.nextSibling, walker.firstChild, walker.previousSibling, walker.lastChild, walker.parentNode]
        self.assertEqual([move() for move in moves], [self.a, self.c, None, self.a, self.b, self.a])
        self.assertEqual([walker.nextNode(), walker.nextNode(), walker.nextNode(), walker.previousNode()], [self.b, self.c, None, self.b])
        walker.currentNode = self.div
        self.assertIs(walker.currentNode, self.div)
        self.assertIsNone(walker.parentNode())

    def test_skip_opens_what_reject_closes(self):
        for name, expected in (("skip", [self.b, self.c]), ("reject", [self.c])):
            made = getattr(NodeNameFilter, name)("a")
            walker = self.document.createTreeWalker(self.div, NodeFilter.SHOW_ELEMENT, made)
            found = []
            while walker.nextNode() is not None:
                found.append(walker.currentNode)
            self.assertEqual(found, expected)
