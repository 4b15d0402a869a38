"""The same random calls in jsdom and here, for what is built of commands here. Skipped where jsdom is not there."""
import json
import os
import random
import shutil
import subprocess
import unittest
from xml.dom import DOMException

from owlantimony.dom import Document
from support import outline

HERE = os.path.dirname(os.path.abspath(__file__))
ENVIRONMENT = {**os.environ, "NODE_PATH": "/usr/share/nodejs"}
SCRIPTS, CALLS = 12, 40
ON_CHILDREN = ("before", "after", "replaceWith")
ON_PARENTS = ("append", "prepend", "replaceChildren")
ON_PAIRS = ("compareDocumentPosition", "contains", "isEqualNode")
RANGES = (10, 11)
ON_NODES = ("setStartBefore", "setStartAfter", "setEndBefore", "setEndAfter", "selectNode", "selectNodeContents", "intersectsNode")
ON_POINTS = ("setStart", "setEnd", "setStart", "setEnd", "comparePoint", "isPointInRange")


def has_jsdom():
    """Give whether node is there and finds jsdom."""
    if shutil.which("node") is None:
        return False
    return subprocess.run(["node", "-e", "require('jsdom')"], env=ENVIRONMENT, capture_output=True, check=False).returncode == 0


def made_script(dice):
    """Give random calls: the method, the number of the node or range, and the words: a number is a node's, one in a list itself."""
    script = changes(dice)
    for _ in range(CALLS):
        made, node, kind = dice.choice(RANGES), dice.randrange(10), dice.randrange(10)
        if kind < 5:
            script.append([dice.choice(ON_POINTS), made, [node, [dice.randrange(3)]]])
        elif kind < 7:
            script.append([dice.choice(ON_NODES), made, [node]])
        elif kind < 8:
            script.append(["compareBoundaryPoints", made, [[dice.randrange(4)], dice.choice(RANGES)]])
        else:
            script.append([dice.choice(["cloneContents", "toString"]), made, []])
    return script


def changes(dice):
    """Give random calls that change the trees and read them."""
    script = []
    for _ in range(CALLS):
        node = dice.randrange(10)
        nodes = [dice.choice([dice.randrange(10), f"t{dice.randrange(3)}"]) for _ in range(dice.randrange(4))]
        kind = dice.randrange(10)
        if kind < 6:
            script.append([dice.choice(ON_CHILDREN + ON_PARENTS), node, nodes])
        elif kind < 8:
            script.append([dice.choice(ON_PAIRS), node, [dice.randrange(10)]])
        elif kind < 9:
            script.append(["cloneNode", node, [True] if dice.random() < 0.5 else []])
        else:
            script.append(["normalize", dice.randrange(7), []])  # of a Text itself jsdom joins the siblings, which the Standard does not
    return script


class Ours:
    """Ten nodes in a document, which the calls are made on: the root `r`, elements, Texts and a Comment. And two ranges."""

    def __init__(self, document):
        self.nodes = [document.appendChild(document.createElement("r"))]
        self.nodes += [document.createElement(name) for name in "abcdef"]
        self.nodes += [document.createTextNode("x"), document.createTextNode("y"), document.createComment("c")]
        self.ranges = [document.createRange() for _ in RANGES]

    def call(self, method, node, words):
        """Make a call, and give what it answers and the trees that are left."""
        things = [*self.nodes, *self.ranges]
        words = [things[word] if type(word) is int else word[0] if type(word) is list else word for word in words]
        if not hasattr(things[node], method):
            return ["no such call", []]
        try:
            answer = getattr(things[node], method)(*words)
        except DOMException as fault:
            answer = type(fault).__name__ + "or"
        if hasattr(answer, "nodeType"):
            answer = outline(answer)
        if method == "compareDocumentPosition" and answer & 1:
            answer = 33  # the order of two trees is the implementation's own
        roots = {outline(node.getRootNode()) for node in self.nodes}
        return [answer, sorted(roots)]


@unittest.skipUnless(has_jsdom(), "jsdom is not there")
class AsJsdom(unittest.TestCase):
    def test_random_calls(self):
        scripts = [made_script(random.Random(seed)) for seed in range(SCRIPTS)]
        words = ["node", os.path.join(HERE, "jsdom_calls.js")]
        ran = subprocess.run(words, input=json.dumps(scripts), capture_output=True, text=True, env=ENVIRONMENT, check=True)
        tried = silent = 0
        for script, theirs in zip(scripts, json.loads(ran.stdout)):
            with Document() as document:
                ours = Ours(document)
                for call, answer in zip(script, theirs):
                    self.assertEqual(ours.call(*call), answer, call)
                    tried += 1
                    silent += answer[0] is None
        self.assertEqual(tried, 2 * SCRIPTS * CALLS)
        self.assertGreater(silent, 200)
