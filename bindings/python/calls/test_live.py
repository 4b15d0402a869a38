"""Random listeners that stop, cancel, add and remove each other, dispatch, change trees and throw, here over the stand-in and in jsdom.

Usage: test_live.py [PLANS] [SEED]     (PYTHONPATH names the package with its extension over the stand-in)
"""
import json
import os
import random
import subprocess
import sys

sys.dont_write_bytecode = True
import over_standin  # noqa: E402, F401

from owlantimony.dom import Document, Event, HierarchyRequestErr, MutationObserver, WrongDocumentErr  # noqa: E402

HERE = os.path.dirname(os.path.abspath(__file__))
PAGE, COMPONENT, TYPES = ("document", "a", "b", "c", "d"), ("root", "slot", "in"), ("e", "f")
IDS = [f"l{number}" for number in range(8)]
MOST_DEPTH = 3


class Run:
    """A plan as it is run here: what jsdom's Run does."""

    def __init__(self, plan):
        self.plan, self.told, self.depth, self.functions = plan, [], 0, {}
        document = Document()
        nodes = self.nodes = {"document": document}
        for name, tag in (("a", "div"), ("b", "section"), ("c", "p"), ("d", "span")):
            nodes[name] = document.createElement(tag)
        for parent, child in (("document", "a"), ("a", "b"), ("b", "c"), ("c", "d")):
            nodes[parent].appendChild(nodes[child])
        component = nodes["b"].attachShadow()
        nodes["root"] = component.root
        nodes["slot"] = component.root.appendChild(component.createElement("slot"))
        nodes["in"] = component.root.appendChild(component.createElement("i"))
        document.end_turn()
        document.onerror = self.failed
        self.observer = MutationObserver(lambda records, _: self.told.append(["records", *map(self.record, records)]))
        self.observer.observe(document, childList=True, attributes=True, subtree=True, attributeOldValue=True)

    def failed(self, fault):
        """A callback raised an exception."""
        if not isinstance(fault, ZeroDivisionError):
            raise fault
        self.told.append(["error"])

    def name(self, node):
        """The name of a node, an own one or a foreign one."""
        return next((name for name, each in self.nodes.items() if node is not None and each == node), None)

    def record(self, record):
        """What is compared of a record."""
        return [record.type, self.name(record.target), record.attributeName, record.oldValue, [*map(self.name, record.addedNodes)],
                [*map(self.name, record.removedNodes)]]

    def listener(self, id):
        """The callback with a name."""
        return self.functions.setdefault(id, lambda event: self.heard(id, event))

    def heard(self, id, event):
        """A listener is called."""
        path = [*map(self.name, event.composedPath())]
        self.told.append([id, event.type, event.eventPhase, self.name(event.target), self.name(event.currentTarget), self.name(event.relatedTarget), path,
                          event.bubbles, event.cancelable, event.composed, event.defaultPrevented])
        for action in self.plan["listeners"][id]:
            self.act(action, event)
        self.told.append([id, event.defaultPrevented])

    def act(self, action, event=None):
        """One thing that a listener, or the plan, does."""
        what, *words = action
        if what in ("stop", "stop-now", "prevent"):
            {"stop": event.stopPropagation, "stop-now": event.stopImmediatePropagation, "prevent": event.preventDefault}[what]()
        elif what == "listen":
            node, kind, id, capture, once, passive = words
            self.nodes[node].addEventListener(kind, self.listener(id), {"capture": capture, "once": once, "passive": passive})
        elif what == "unlisten":
            node, kind, id, capture = words
            self.nodes[node].removeEventListener(kind, self.listener(id), {"capture": capture})
        elif what == "dispatch":
            self.dispatch(*words)
        elif what == "remove":
            self.nodes[words[0]].remove()
        elif what == "append":
            try:
                self.nodes[words[0]].appendChild(self.nodes[words[1]])
            except HierarchyRequestErr:
                self.told.append(["refused"])
        elif what == "set":
            self.nodes[words[0]].setAttribute("k", words[1])
        elif what == "micro":
            self.nodes["document"].queueMicrotask(lambda: self.told.append(["micro", words[0]]))
        elif what == "throw":
            raise ZeroDivisionError

    def dispatch(self, node, kind, bubbles, cancelable, composed):
        """An event is fired."""
        if self.depth == MOST_DEPTH:
            return
        self.depth += 1
        event = Event(kind, bubbles=bubbles, cancelable=cancelable, composed=composed)
        self.told.append(["result", self.nodes[node].dispatchEvent(event), event.defaultPrevented, event.eventPhase, event.currentTarget is None])
        self.depth -= 1

    def run(self):
        """Give what was told."""
        for step in self.plan["steps"]:
            self.act(step)
            self.nodes["document"].end_turn()
        self.nodes["document"].close()
        return self.told


def a_flag(chance):
    return chance.random() < 0.5


def a_listening(chance, own):
    return ["listen", chance.choice(own), chance.choice(TYPES), chance.choice(IDS), a_flag(chance), chance.random() < 0.2, chance.random() < 0.2]


def an_action(chance):
    """What a listener may do: an owner acts on its own nodes, but the plan is one program, as in jsdom. The host's children stay, and its slot, as in jsdom
    alone a node that left its host keeps its slot. One node without attributes or children leaves alone: jsdom tells nothing of what changes below a node
    that has left, which the Standard's transient registered observers are for."""
    kind = chance.random()
    if kind < 0.3:
        return [chance.choice(("stop", "stop-now", "prevent", "prevent"))]
    if kind < 0.45:
        return a_listening(chance, PAGE + COMPONENT)
    if kind < 0.55:
        return ["unlisten", chance.choice(PAGE + COMPONENT), chance.choice(TYPES), chance.choice(IDS), a_flag(chance)]
    if kind < 0.7:
        return ["dispatch", chance.choice(PAGE + COMPONENT), chance.choice(TYPES), a_flag(chance), a_flag(chance), a_flag(chance)]
    if kind < 0.78:
        return ["append", chance.choice(("a", "c")), chance.choice(("b", "d"))]
    if kind < 0.84:
        return ["remove", "d"]
    if kind < 0.9:
        return ["set", chance.choice(("a", "b", "c")), str(chance.randrange(9))]
    return ["micro", chance.randrange(9)] if kind < 0.96 else ["throw"]


def a_plan(chance):
    """A plan: what each listener does, and what is done at first."""
    listeners = {id: [an_action(chance) for _ in range(chance.choice((0, 0, 1, 1, 2)))] for id in IDS}
    steps = [a_listening(chance, PAGE + COMPONENT) for _ in range(chance.randrange(4, 12))]
    steps += [["dispatch", chance.choice(PAGE + COMPONENT), chance.choice(TYPES), a_flag(chance), a_flag(chance), a_flag(chance)] for _ in range(3)]
    return {"listeners": listeners, "steps": steps}


def main():
    count, seed = int(sys.argv[1]) if sys.argv[1:] else 300, sys.argv[2] if sys.argv[2:] else "1"
    chance = random.Random(seed)
    plans = [a_plan(chance) for _ in range(count)]
    environment = {**os.environ, "NODE_PATH": "/usr/share/nodejs"}
    answer = subprocess.run(["node", os.path.join(HERE, "live_calls.js")], input=json.dumps(plans), capture_output=True, text=True, env=environment, check=True)
    faults = calls = 0
    for number, (plan, wanted) in enumerate(zip(plans, json.loads(answer.stdout))):
        told = json.loads(json.dumps(Run(plan).run()))
        calls += sum(each[0] in IDS for each in wanted) // 2
        if told != wanted:
            faults += 1
            at = next((at for at, pair in enumerate(zip(told, wanted)) if pair[0] != pair[1]), min(len(told), len(wanted)))
            if faults <= 3:
                print(f"plan {number}, item {at}: {told[at : at + 1]} and in jsdom {wanted[at : at + 1]}; before: {told[max(0, at - 2) : at]}")
                print("   ", json.dumps(plan))
    print(f"live: {count - faults} of {count} plans as in jsdom, with {calls} calls of listeners")
    return 1 if faults else 0


if __name__ == "__main__":
    sys.exit(main())
