"""What owners have beside their trees, read off a script and its answers: which ranges, iterators and walkers were made, and which
listeners and registrations of observers there are. Where these stand, the program is asked (tools/runs.py).
"""
import re
from dataclasses import dataclass

EVENT = re.compile(r"(\S+) event (\S+) (\S+) phase=(\d) target=\S+ current=(\S+) ")
MAKERS = ("range-new", "iter-new", "walk-new")


@dataclass
class Listener:
    """A listener: its owner, its node, type and label, what it does, and the words that it was added with."""

    owner: str
    node: str
    type: str
    label: str
    action: str
    words: list[str]

    def key(self) -> tuple[str, ...]:
        """By what a listener is known."""
        return (self.owner, self.node, self.type, self.label, "capture" if "capture" in self.words else "")

    def text(self) -> str:
        """What is shown of it at its node."""
        return " ".join([f"{self.type} → {self.label}: {self.action}", *self.words])


def accepted(script, count: int):
    """The accepted lines among the first ones of a script: the owner, the other words, and the answer."""
    for line, answer in zip(script.lines[:count], script.answers):
        if answer.is_accepted():
            owner, *words = line.split(" ")
            yield owner, words, answer


def things(script, count: int) -> list[tuple[str, str]]:
    """The ranges that were not dropped, the iterators and the walkers, each with its owner, in the order of their making."""
    found = {}
    for owner, words, answer in accepted(script, count):
        if words[0] in MAKERS:
            found[owner, answer.value()] = True
        elif words[0] == "range-drop":
            found.pop((owner, words[1]), None)
    return list(found)


def without_once(found: dict, effects: list[str]) -> None:
    """Takes away the listeners that were to be called once and were."""
    called = set()
    for owner, label, of_type, phase, node in (match.groups() for match in map(EVENT.match, effects) if match):
        keys = [(owner, node, of_type, label, way) for way in {"1": ["capture"], "3": [""]}.get(phase, ["capture", ""])]
        for key in [key for key in keys if key in found and key not in called][:1]:
            called.add(key)
            if "once" in found[key].words:
                del found[key]


def listeners(script, count: int) -> list[Listener]:
    """The listeners after so many lines, in the order in which they were added."""
    found = {}
    for line, answer in zip(script.lines[:count], script.answers):
        without_once(found, answer.effects)
        owner, *words = line.split(" ")
        if not answer.is_accepted() or words[0] not in ("listen", "unlisten"):
            continue
        node, of_type, label, *others = words[1:]
        made = Listener(owner, node, of_type, label, *(others[:1] or [""]), others[1:])
        if words[0] == "listen":
            found.setdefault(made.key(), made)
        else:
            found.pop((owner, node, of_type, label, "capture" if "capture" in others else ""), None)
    return list(found.values())


def observers(script, count: int) -> dict[tuple[str, str], dict[str, str]]:
    """The observers after so many lines, by owner and name: the nodes at which each is registered, with its options there."""
    found = {}
    for owner, words, answer in accepted(script, count):
        if words[0] == "observer":
            found[owner, answer.value()] = {}
        elif words[0] == "observe":
            found[owner, words[1]][words[2]] = " ".join(words[3:])
        elif words[0] == "disconnect":
            found[owner, words[1]].clear()
    return found
