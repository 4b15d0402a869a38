"""What is remembered is what the engine would answer: random changes, and all reads beside the text of the whole tree."""
import random

from owlantimony.dom import Document
from owlantimony.dom.treetext import tokens
from support import DocumentTest


def links_by_text(node):
    """Give each node below as its parent and index, by the one text that the command `tree` answers."""
    links, above = {}, []
    for token in tokens(node._owner.ask(f"tree {node._name}")):
        if token.what == "open":
            parent = above[-1] if above else None
            links[token.name] = (parent, [])
            if parent:
                links[parent][1].append(token.name)
            above.append(token.name)
        elif token.what == "close":
            above.pop()
    return links


class Remembered(DocumentTest):
    def check(self, root):
        owner = root._owner
        for name, (parent, children) in links_by_text(root).items():
            node = owner.node(name)
            self.assertEqual([child._name for child in node.childNodes], children)
            if parent:
                self.assertEqual(node.parentNode._name, parent)
            firsts = [node.firstChild, node.lastChild]
            self.assertEqual([child and child._name for child in firsts], [children[0], children[-1]] if children else [None, None])
            for at, child in enumerate(map(owner.node, children)):
                following = child.nextSibling
                self.assertEqual(following and following._name, children[at + 1] if at + 1 < len(children) else None)

    def test_random_changes(self):
        for seed in range(2):
            with self.subTest(seed=seed), Document() as document:
                self.try_changes(random.Random(seed), document)

    def try_changes(self, dice, document):
        root = document.appendChild(document.createElement("r"))
        for step in range(60):
            below = [node for node in document.querySelectorAll("*")]
            node = dice.choice(below)
            dice.choice([self.grow, self.grow, self.move, self.text, self.cut, self.fragment, self.split])(dice, document, node, below)
            if step % 3 == 0:
                self.check(root)
        self.check(root)

    def grow(self, dice, document, node, below):
        node.insertBefore(document.createElement("e"), dice.choice([None, node.firstChild]))

    def move(self, dice, document, node, below):
        other = dice.choice(below)
        if not other.contains(node) and other is not below[0]:
            node.appendChild(other)

    def text(self, dice, document, node, below):
        if node.childElementCount == 0:
            node.textContent = dice.choice(["", "some", "more"])

    def cut(self, dice, document, node, below):
        placed = document.createRange()
        placed.setStart(node, dice.randrange(len(node.childNodes) + 1))
        placed.setEnd(node, len(node.childNodes))
        part = placed.extractContents() if dice.random() < 0.7 else None
        if part is not None:
            below[0].appendChild(part)

    def fragment(self, dice, document, node, below):
        node.append("x", document.createElement("f"), "y")
        node.normalize()

    def split(self, dice, document, node, below):
        for child in node.childNodes:
            if child.nodeType == child.TEXT_NODE and child.length > 1:
                child.splitText(1)

    def test_long_lists_that_change_while_they_are_walked(self):
        root = self.put(("r",))
        for number in range(100):
            root.appendChild(self.document.createElement("a" if number % 3 else "b"))
        self.check(root)
        node, seen = root.firstChild, 0
        while node is not None:
            following = node.nextSibling
            if node.nodeName == "b":
                root.removeChild(node)
            seen, node = seen + 1, following
        self.assertEqual((seen, len(root.childNodes)), (100, 66))
        while root.firstChild is not None:
            root.removeChild(root.lastChild)
        self.check(root)
