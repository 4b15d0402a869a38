"""Live ranges (#interface-range)."""
from xml.dom import HierarchyRequestErr, IndexSizeErr, InvalidStateErr, NotSupportedErr, WrongDocumentErr

from owlantimony.dom import InvalidNodeTypeErr, Range
from support import DocumentTest, outline


class Ranges(DocumentTest):
    def setUp(self):
        super().setUp()
        self.p = self.put(("p", "abc", ("b", "def", ("i", "g")), "hij"))
        self.abc, self.b, self.hij = self.p.childNodes
        self.range = self.document.createRange()

    def ends(self, made=None):
        made = made or self.range
        return (made.startContainer, made.startOffset, made.endContainer, made.endOffset)

    def cover(self, start, first, end, last):
        self.range.setStart(start, first)
        self.range.setEnd(end, last)


class Ends(Ranges):
    def test_a_new_range_is_at_the_start_of_the_document(self):
        self.assertEqual(self.ends(), (self.document, 0, self.document, 0))
        self.assertTrue(self.range.collapsed)

    def test_an_end_on_the_wrong_side_goes_there_too(self):
        """#concept-range-bp-set."""
        self.cover(self.abc, 1, self.hij, 2)
        self.range.setStart(self.hij, 3)
        self.assertEqual(self.ends(), (self.hij, 3, self.hij, 3))
        self.range.setEnd(self.abc, 0)
        self.assertEqual(self.ends(), (self.abc, 0, self.abc, 0))
        alone = self.build("z")
        self.range.setEnd(alone, 1)
        self.assertEqual(self.ends(), (alone, 1, alone, 1))

    def test_ends_beside_a_node(self):
        self.range.selectNode(self.b)
        self.assertEqual(self.ends(), (self.p, 1, self.p, 2))
        self.range.selectNodeContents(self.hij)
        self.assertEqual(self.ends(), (self.hij, 0, self.hij, 3))
        self.range.setStartAfter(self.abc)
        self.range.setEndBefore(self.hij)
        self.assertEqual(self.ends(), (self.p, 1, self.p, 2))
        self.range.setStartBefore(self.abc)
        self.range.setEndAfter(self.hij)
        self.assertEqual(self.ends(), (self.p, 0, self.p, 3))
        self.range.collapse()
        self.assertEqual(self.ends(), (self.p, 3, self.p, 3))
        for call in (self.range.selectNode, self.range.setStartBefore, self.range.setEndAfter):
            self.assertRaises(InvalidNodeTypeErr, call, self.document)

    def test_an_offset_past_the_length_is_refused(self):
        self.cover(self.abc, 1, self.abc, 2)
        for offset in (4, -1, 10**12):
            self.assertRaises(IndexSizeErr, self.range.setStart, self.abc, offset)
            self.assertRaises(IndexSizeErr, self.range.setEnd, self.abc, offset)
        self.assertEqual(self.ends(), (self.abc, 1, self.abc, 2))

    def test_ranges_follow_changes(self):
        """#concept-live-range: data and nodes that go in front of an end take it along."""
        self.cover(self.abc, 2, self.p, 3)
        self.abc.insertData(0, "xy")
        self.p.prepend("z")
        self.assertEqual(self.ends(), (self.abc, 4, self.p, 4))
        self.abc.remove()
        self.assertEqual(self.ends(), (self.p, 1, self.p, 3))

    def test_common_ancestor(self):
        self.cover(self.abc, 0, self.b.firstChild, 1)
        self.assertIs(self.range.commonAncestorContainer, self.p)
        self.range.selectNodeContents(self.abc)
        self.assertIs(self.range.commonAncestorContainer, self.abc)

    def test_a_range_that_nobody_holds_is_dropped(self):
        dropped = self.document.createRange()
        self.assertEqual(repr(dropped), "<Range r1>")
        del dropped
        self.document.createRange()
        self.assertRaises(InvalidStateErr, self.document._owner.ask, "range-get r1")


class Comparing(Ranges):
    def test_boundary_points(self):
        """#dom-range-compareboundarypoints: START_TO_END compares this end with the other's start."""
        self.cover(self.abc, 1, self.b, 1)
        other = self.document.createRange()
        other.setStart(self.b.firstChild, 0)
        other.setEnd(self.p, 3)
        answers = [self.range.compareBoundaryPoints(how, other) for how in range(4)]
        self.assertEqual(answers, [-1, 1, -1, -1])
        self.assertEqual([other.compareBoundaryPoints(how, self.range) for how in range(4)], [1, 1, 1, -1])
        self.assertEqual([self.range.compareBoundaryPoints(how, self.range.cloneRange()) for how in (0, 2)], [0, 0])
        self.assertRaises(NotSupportedErr, self.range.compareBoundaryPoints, 4, other)
        other.selectNodeContents(self.build("z"))
        self.assertRaises(WrongDocumentErr, self.range.compareBoundaryPoints, Range.START_TO_START, other)

    def test_points_and_nodes(self):
        self.cover(self.abc, 1, self.b, 1)
        points = [(self.abc, 0), (self.abc, 1), (self.p, 1), (self.b.firstChild, 3), (self.b, 2), (self.hij, 0)]
        self.assertEqual([self.range.comparePoint(*point) for point in points], [-1, 0, 0, 0, 1, 1])
        self.assertEqual([self.range.isPointInRange(*point) for point in points], [False, True, True, True, False, False])
        self.assertRaises(IndexSizeErr, self.range.comparePoint, self.abc, 4)
        self.assertFalse(self.range.isPointInRange(self.build("z"), 0))
        self.assertRaises(WrongDocumentErr, self.range.comparePoint, self.build("z"), 0)
        nodes = [self.document, self.p, self.abc, self.b, self.b.firstChild, self.b.lastChild, self.hij, self.build("z")]
        self.assertEqual([self.range.intersectsNode(node) for node in nodes], [True] * 5 + [False] * 3)


class Contents(Ranges):
    def test_text(self):
        self.cover(self.abc, 1, self.hij, 2)
        self.assertEqual((self.range.toString(), str(self.range)), ("bcdefghi", "bcdefghi"))

    def test_delete(self):
        self.cover(self.abc, 1, self.b.firstChild, 2)
        self.range.deleteContents()
        self.assertEqual(outline(self.p), "p('a',b('f',i('g')),'hij')")
        self.assertEqual(self.ends(), (self.p, 1, self.p, 1))

    def test_extract(self):
        self.cover(self.b.lastChild.firstChild, 0, self.hij, 1)
        self.b.id = "k"
        fragment = self.range.extractContents()
        self.assertEqual(outline(fragment), "#document-fragment(b(i('g')),'h')")
        self.assertEqual(fragment.firstChild.id, "k")
        self.assertEqual(outline(self.p), "p('abc',b('def',i('')),'ij')")
        made = self.document.createElement("u")
        self.p.append(made)
        self.assertEqual((made.nodeName, self.p.lastChild.nodeName), ("u", "u"))

    def test_clone_contents(self):
        """#concept-range-clone: the tree stays as it is, and a Text at an end has there a clone with its part."""
        self.cover(self.abc, 2, self.b.lastChild.firstChild, 1)
        self.assertEqual(outline(self.range.cloneContents()), "#document-fragment('c',b('def',i('g')))")
        self.cover(self.b.firstChild, 3, self.p, 3)
        self.assertEqual(outline(self.range.cloneContents()), "#document-fragment(b('',i('g')),'hij')")
        self.cover(self.abc, 1, self.abc, 2)
        self.assertEqual(outline(self.range.cloneContents()), "#document-fragment('b')")
        self.range.collapse()
        self.assertEqual(outline(self.range.cloneContents()), "#document-fragment()")
        self.assertEqual(outline(self.p), "p('abc',b('def',i('g')),'hij')")

    def test_clone_contents_clones_what_extract_would_take(self):
        """#concept-range-clone and #concept-range-extract make equal fragments."""
        texts = [self.abc, self.b.firstChild, self.b.lastChild.firstChild, self.hij]
        points = [(node, offset) for node in [self.p, self.b, *texts] for offset in range(2)]
        tried = 0
        for first in points:
            for last in points:
                self.cover(*first, *last)
                before = outline(self.document)
                cloned = outline(self.range.cloneContents())
                self.assertEqual(outline(self.document), before)
                copy = self.p.cloneNode(True)
                taken = self.same_place(copy).extractContents()
                self.assertEqual(cloned, outline(taken), (first, last))
                tried += 1
        self.assertEqual(tried, 144)

    def same_place(self, copy):
        """Give a range of a clone of `p` with the ends where this range has them."""
        made = self.document.createRange()
        for node, offset, put in ((*self.ends()[:2], made.setStart), (*self.ends()[2:], made.setEnd)):
            path, at = [], node
            while at is not self.p:
                path.append(list(at.parentNode.childNodes).index(at))
                at = at.parentNode
            at = copy
            for index in reversed(path):
                at = at.childNodes[index]
            put(at, offset)
        return made

    def test_insert(self):
        self.range.setStart(self.abc, 1)
        self.range.insertNode(self.build(("u",)))
        self.assertEqual(outline(self.p), "p('a',u(),'bc',b('def',i('g')),'hij')")
        self.assertRaises(HierarchyRequestErr, self.range.insertNode, self.p)

    def test_surround(self):
        """#dom-range-surroundcontents."""
        self.cover(self.abc, 1, self.abc, 2)
        u = self.build(("u", "old"))
        self.range.surroundContents(u)
        self.assertEqual(outline(self.p), "p('a',u('b'),'c',b('def',i('g')),'hij')")
        self.assertEqual(self.ends(), (self.p, 1, self.p, 2))
        self.cover(self.abc, 0, self.hij, 1)
        self.range.surroundContents(self.build(("s",)))
        self.assertEqual(outline(self.p), "p('',s('a',u('b'),'c',b('def',i('g')),'h'),'ij')")

    def test_surround_is_refused_where_an_element_is_in_the_range_in_part(self):
        self.cover(self.abc, 1, self.b.firstChild, 1)
        self.assertRaises(InvalidStateErr, self.range.surroundContents, self.build(("u",)))
        self.range.selectNodeContents(self.p)
        self.assertRaises(InvalidNodeTypeErr, self.range.surroundContents, self.document)
        self.assertEqual(outline(self.p), "p('abc',b('def',i('g')),'hij')")
