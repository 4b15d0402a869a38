"""The same calls on `xml.dom.minidom` and on a document here: the trees, the answers and the exceptions are the same."""
import random
import unittest
from xml.dom import DOMException, NotFoundErr, minidom

from owlantimony.dom import Document
from support import shape

CALLS = 250


class Pair:
    """Two documents and the nodes made in them, in the same order."""

    def __init__(self, ours):
        self.documents = [minidom.Document(), ours]
        self.nodes = [[], []]

    def both(self, call):
        """Do the same with both, and give what each answers: a value, the index of a node, or the class of the exception."""
        return [self.one(side, call) for side in (0, 1)]

    def one(self, side, call):
        try:
            answer = call(self.documents[side], self.nodes[side])
        except DOMException as fault:
            return type(fault)
        if hasattr(answer, "nodeType"):
            places = [at for at, node in enumerate(self.nodes[side]) if node is answer]
            if not places:
                self.nodes[side].append(answer)
                return "a new node"
            return places
        return answer


def is_below(node, other):
    """Give whether a node is `other` or below it: minidom does not refuse what would make a ring."""
    while node is not None:
        if node is other:
            return True
        node = node.parentNode
    return False


class AsMinidom(unittest.TestCase):
    def test_random_calls(self):
        for seed in range(3):
            with self.subTest(seed=seed), Document() as ours:
                self.try_calls(random.Random(seed), Pair(ours))

    def try_calls(self, dice, pair):
        for _ in range(12):
            self.make(dice, pair)
        for _ in range(CALLS):
            self.change(dice, pair) if dice.random() < 0.9 else self.make(dice, pair)
            for node, other in zip(*pair.nodes):
                if node.parentNode is None:
                    self.assertEqual(shape(node), shape(other))
        for side in (0, 1):
            self.assertGreater(sum(len(node.childNodes) for node in pair.nodes[side]), 5)

    def make(self, dice, pair):
        kind, name = dice.choice(["createElement", "createElement", "createTextNode", "createComment"]), dice.choice(["a", "b", "p"])
        pair.both(lambda document, nodes: getattr(document, kind)(name))

    def change(self, dice, pair):
        ours = pair.nodes[1]
        one, two, three = (dice.randrange(len(ours)) for _ in range(3))
        number, text = dice.randrange(4), dice.choice(["", "x", "yz"])
        is_free = not is_below(ours[one], ours[two]) and hasattr(ours[one], "append")
        calls = {
            "nextSibling": lambda document, nodes: nodes[one].nextSibling,
            "previousSibling": lambda document, nodes: nodes[one].previousSibling,
            "parentNode": lambda document, nodes: nodes[one].parentNode,
            "firstChild": lambda document, nodes: nodes[one].firstChild,
            "lastChild": lambda document, nodes: nodes[one].lastChild,
            "hasChildNodes": lambda document, nodes: nodes[one].hasChildNodes(),
        }
        if is_free:
            calls["appendChild"] = lambda document, nodes: nodes[one].appendChild(nodes[two])
            calls["removeChild"] = lambda document, nodes: nodes[one].removeChild(nodes[two])
            # where minidom does not find the child, it has taken the node out of its parent already
            if three != two and (ours[three].parentNode is ours[one] or ours[two].parentNode is None):
                calls["insertBefore"] = lambda document, nodes: nodes[one].insertBefore(nodes[two], nodes[three])
                calls["replaceChild"] = lambda document, nodes: nodes[one].replaceChild(nodes[two], nodes[three])
            calls["normalize"] = lambda document, nodes: nodes[one].normalize()
            calls["setAttribute"] = lambda document, nodes: nodes[one].setAttribute("k", text)
            calls["hasAttribute"] = lambda document, nodes: nodes[one].hasAttribute("k")
        if not hasattr(ours[one], "append"):
            calls["appendData"] = lambda document, nodes: nodes[one].appendData(text)
            if number < ours[one].length:  # minidom refuses an offset at the very end, which the Standard allows
                calls["insertData"] = lambda document, nodes: nodes[one].insertData(number, text)
                calls["replaceData"] = lambda document, nodes: nodes[one].replaceData(number, 1, text)
                calls["substringData"] = lambda document, nodes: nodes[one].substringData(number, 2)
        calls["cloneNode"] = lambda document, nodes: nodes[one].cloneNode(number == 0) if len(nodes) < 40 else None
        name = dice.choice(sorted(calls))
        mini, own = pair.both(calls[name])
        self.assertEqual(own, mini, name)


class Differences(unittest.TestCase):
    """The rows of docs/FROM-PYTHON.md, 'A document': the Standard's answer here, and another one of minidom."""

    def answers(self, call):
        """Give what a call on a document with an element `r` and its children `a` and `b` answers in minidom, and here."""
        told = []
        with Document() as ours:
            for document in (minidom.Document(), ours):
                root = document.appendChild(document.createElement("r"))
                a, b = (root.appendChild(document.createElement(name)) for name in "ab")
                try:
                    answer = call(root, a, b)
                except Exception as fault:
                    answer = type(fault)
                told.append(answer if answer is not a else "a")
        return told

    def test_rows(self):
        self.assertEqual(self.answers(lambda root, a, b: root.getAttribute("k")), ["", None])
        self.assertEqual(self.answers(lambda root, a, b: root.removeAttribute("k")), [NotFoundErr, None])
        self.assertEqual(self.answers(lambda root, a, b: root.insertBefore(a, a)), [NotFoundErr, "a"])
        self.assertEqual(self.answers(lambda root, a, b: root.replaceChild(a, a)), [None, "a"])
        self.assertEqual(self.answers(lambda root, a, b: root.setAttribute("k", 5)), [None, TypeError])
        self.assertEqual(self.answers(lambda root, a, b: root.appendChild(None)), [AttributeError, TypeError])
        loop = self.answers(lambda root, a, b: [root.removeChild(child).nodeName for child in root.childNodes])
        self.assertEqual(loop, [["a"], ["a", "b"]])
