"""Runs of the built program, and what its output says: answers, trees, and the paths of events.

Nothing here works out what the engine does. Where something has to be known, the program is asked for it, by lines that are
put after a script: `parent` of each name that a node could have, `tree` of each node without a parent, and for the path of an
event a `dispatch` with a listener on every node.
"""
import os
import re
import subprocess
import threading
from dataclasses import dataclass, field

import beside
import unproved

PROGRAM = os.path.join(os.path.dirname(os.path.abspath(__file__)), "..", "crates", "domrun", "out", "domrun")
LISTEN = re.compile(r"(\S+) listen (\S+) (\S+) (\S+) \S+( capture)?")
DISPATCH = re.compile(r"(\S+) dispatch (\S+) (\S+)(.*)")
EVENT = re.compile(r"(\S+) event (\S+) (\S+) phase=(\d) target=(\S+) current=(\S+) related=(\S+) path=\[(.*)\]")
WORD = re.compile(r'"(?:[^"\\]|\\.)*"|[^\s()"]+="(?:[^"\\]|\\.)*"|[()]|[^\s()"]+')
PROBE = "look"
# The command that asks where a range, an iterator or a walker stands, by the first letter of its name.
PLACE_WORDS = {"r": "range-get", "i": "iter-at", "w": "walk-at"}


class Fault(Exception):
    """Why there is nothing to show: the program can't be run, or answers what the protocol does not have."""


@dataclass
class Answer:
    """What one line is answered: the lines that it caused, and its reply."""

    effects: list
    reply: str

    def is_accepted(self):
        return self.reply.split(" ")[1:2] == ["ok"]

    def value(self):
        return self.reply.split(" ", 2)[2] if self.reply.count(" ") > 1 else ""


@dataclass
class Node:
    """A node of a tree as `tree` tells it. `own` is what it has besides children: attributes, or data."""

    name: str
    kind: str
    tag: str = ""
    own: list = field(default_factory=list)
    children: list = field(default_factory=list)


@dataclass
class State:
    """What there is after a line: of each owner its trees, what is assigned to its slots, and where its ranges, iterators and walkers
    stand, by their names; and what the turn's end prints."""

    trees: dict
    assigned: dict
    names: dict
    places: dict
    ending: list


@dataclass
class Event:
    """A dispatch: its type, the path of all its nodes from the target on, and what each owner on the path is shown."""

    type: str
    items: list
    seen: dict


def is_reply(line):
    words = line.split(" ")
    return words[0] == "!" or words[1:2] == ["ok"] or words[1:2] == ["!"]


def prefix_of(owner):
    """The letter that the names of an owner's nodes begin with, as the owner itself writes them."""
    return "n" if owner == "p" else "m"


def whole_name(owner, name):
    """The name of a node that serves for every owner, from the name that an owner is shown."""
    return f"{owner}:{name}" if name.startswith("m") else name


def owner_of(name):
    """The owner of a node, by its whole name."""
    return name.split(":")[0] if ":" in name else "p"


class Program:
    """The built program, by its path."""

    def __init__(self, path):
        self.path = path

    def written(self, text):
        """What the program writes for the bytes of a script."""
        try:
            ran = subprocess.run([self.path], input=text, capture_output=True, check=False)
        except OSError as error:
            built = "tools/build builds it, and tools/look --unproved and tools/try run scripts without it"
            raise Fault(f"the program {os.path.relpath(self.path)} can't be run ({error.strerror}); {built}") from error
        if ran.returncode != 0:
            raise Fault(f"the program ended with status {ran.returncode}: {ran.stderr.decode('latin-1').strip()}")
        return ran.stdout

    def output(self, lines):
        """The lines that a script is answered."""
        text = "".join(line + "\n" for line in lines).encode("latin-1")
        return self.written(text).decode("latin-1").split("\n")[:-1]

    def answers(self, lines):
        """The answer to each line of a script, and the lines that the end of input printed."""
        found, effects = [], []
        for line in self.output(lines):
            if is_reply(line):
                found.append(Answer(effects, line))
                effects = []
            else:
                effects.append(line)
        if len(found) != len(lines):
            raise Fault(f"{len(lines)} lines had {len(found)} replies")
        return found, effects


class Unproved(Program):
    """The program without a proof, which is built and started once, and answers one script at a time."""

    def __init__(self, tell):
        super().__init__(None)
        self.started, self.alone = unproved.Program(tell), threading.Lock()

    def written(self, text):
        """What the program writes for the bytes of a script."""
        with self.alone:
            answer = self.started.answer(unproved.Case("the script", text))
        if answer.fault:
            raise Fault(f"the program without a proof: {answer.fault}")
        return answer.output


def tree_of(text):
    """The tree that a text tells."""
    open_nodes, top = [], None
    words = iter(WORD.findall(text))
    for word in words:
        if word == "(":
            node = Node(next(words), next(words))
            if node.kind == "element":
                node.tag = next(words)
            if open_nodes:
                open_nodes[-1].children.append(node)
            open_nodes.append(node)
        elif word == ")":
            top = open_nodes.pop()
        else:
            open_nodes[-1].own.append(word)
    return top


class Script:
    """A script and the runs of it. Its lines are answered once, and each prefix is asked for what there is after it."""

    def __init__(self, program, lines):
        self.program = program
        self.lines = lines
        self.answers, self.ending = program.answers(lines)
        self.counts = {owner: self.count_of(owner) for owner in self.owners(len(lines))}

    def owners(self, count):
        """The owners after so many lines, each with its host: the page, and the components that were attached."""
        found = {"p": None}
        for line, answer in zip(self.lines[:count], self.answers):
            words = line.split(" ")
            if words[1:2] == ["attach"] and answer.is_accepted():
                found[answer.value()] = whole_name(words[0], words[2])
        return found

    def turns(self):
        """The owner of the turn that is open after each line, or None; before the first line too."""
        found = [None]
        for line, answer in zip(self.lines, self.answers):
            owner, open_turn = line.split(" ")[0], found[-1]
            if answer.reply != "! owner" and open_turn not in (None, "p", owner):
                open_turn = None
            if answer.is_accepted():
                open_turn = None if line.split(" ")[1] == "." else open_turn or owner
            found.append(open_turn)
        return found

    def count_of(self, owner):
        """How many nodes an owner has made at the end."""
        ask = 64
        while True:
            lines = self.lines + ["p ."] + [f"{owner} parent {prefix_of(owner)}{number}" for number in range(ask)]
            told = self.program.answers(lines)[0][-ask:]
            if not told[-1].is_accepted():
                return sum(answer.is_accepted() for answer in told)
            ask *= 4

    def ask(self, count, questions):
        """What the questions are answered after so many lines, and what the end of the open turn printed before or between."""
        lines = self.lines[:count] + questions
        answers, ending = self.program.answers(lines)
        told = answers[count:]
        return told, [line for answer in told for line in answer.effects] + ending

    def answered(self, count, questions):
        """Each question of an owner with what it is answered after so many lines, and what the end of the open turn printed."""
        owners = list(self.owners(count))
        questions = sorted(questions, key=lambda question: owners.index(question[0]))
        told, ending = self.ask(count, in_turns(owners, questions))
        return list(zip(questions, without_turns(told, owners, questions))), ending

    def state(self, count):
        """What there is after so many lines."""
        owners = self.owners(count)
        names = [(owner, f"{prefix_of(owner)}{number}") for owner in owners for number in range(self.counts[owner])]
        parents, ending = self.answered(count, [(owner, f"parent {name}") for owner, name in names])
        state = State(*({owner: kind() for owner in owners} for kind in (list, dict, list, dict)), ending)
        questions = [(owner, f"{PLACE_WORDS[name[0]]} {name}") for owner, name in beside.things(self, count)]
        for (owner, question), answer in parents:
            name = question.split(" ")[1]
            if answer.is_accepted():
                state.names[owner].append(name)
                questions += [(owner, f"tree {name}")] if answer.value() == "null" else []
                questions += [(owner, f"assigned {name}")] if owner != "p" else []
        for (owner, question), answer in self.answered(count, questions)[0]:
            if answer.is_accepted():
                put_answer(state, owner, *question.split(" "), answer.value())
        return state

    def events(self, count, state):
        """The event that the line with this number dispatched, in a list, from the state before it; none where it dispatched none.

        The listeners that the script has made are taken away, so that none stops the event. Each node gets one of the probe's.
        It is called while capturing, when every node of the path is visited, the outermost first."""
        found = DISPATCH.fullmatch(self.lines[count])
        if not found or not self.answers[count].is_accepted():
            return []
        owners, of_type = list(state.trees), found.group(3)
        questions = []
        for line, answer in zip(self.lines[:count], self.answers):
            made = LISTEN.match(line)
            if made and made.group(3) == of_type and answer.is_accepted():
                questions.append((made.group(1), f"unlisten {made.group(2)} {of_type} {made.group(4)}{made.group(5) or ''}"))
        questions += [(owner, f"listen {name} {of_type} {PROBE} log capture") for owner in owners for name in state.names[owner]]
        questions.sort(key=lambda question: owners.index(question[0]))
        told, _ = self.ask(count, in_turns(owners, questions) + [self.lines[count]])
        visits = [EVENT.fullmatch(line) for line in told[-1].effects]
        visits = [visit for visit in visits if visit and visit.group(2) == PROBE and visit.group(3) == of_type]
        return [event_of(of_type, visits)]


def put_answer(state, owner, word, name, value):
    """Puts the answer to a question about what has this name into a state."""
    if word == "tree":
        state.trees[owner].append(value)
    elif word == "assigned":
        state.assigned[owner][name] = value.strip("[]").split(",") if value != "[]" else []
    else:
        state.places[owner][name] = [whole_name(owner, it) for it in value.split(" ")]


def in_turns(owners, questions):
    """The questions as lines. The page asks first and ends its turn, since a component is not heard in it."""
    of_page = [f"p {text}" for owner, text in questions if owner == "p"]
    return of_page + ["p ."] + [f"{owner} {text}" for owner, text in questions if owner != "p"]


def without_turns(told, owners, questions):
    """The answers to the questions alone."""
    of_page = sum(owner == owners[0] for owner, _ in questions)
    return told[:of_page] + told[of_page + 1:]


def event_of(of_type, visits):
    """An event from the visits while capturing: the path is the other way round."""
    items, seen = [], {}
    for visit in reversed(visits):
        owner, phase, target, current, related, path = visit.group(1, 4, 5, 6, 7, 8)
        items.append({"node": whole_name(owner, current), "target": whole_name(owner, target), "atTarget": phase == "2"})
        shown = seen.setdefault(owner, {"path": [whole_name(owner, name) for name in path.split(",")], "targets": [], "related": []})
        for name, list_name in ((target, "targets"), (related, "related")):
            if whole_name(owner, name) not in shown[list_name]:
                shown[list_name].append(whole_name(owner, name))
    return Event(of_type, items, seen)


def merged(one, other):
    """One path from two that owners are shown of one event: each may have nodes of trees that are closed to the other one."""
    nodes, left = [], one
    for node in other:
        if node in left:
            place = left.index(node)
            nodes, left = nodes + left[:place], left[place + 1:]
        nodes.append(node)
    return nodes + left


def fired_event(of_type, slot, paths):
    """The event that was fired at a slot, from the path that each owner who heard it is shown."""
    nodes = []
    for path in paths.values():
        nodes = merged(nodes, path)
    items = [{"node": node, "target": slot, "atTarget": node == slot} for node in nodes]
    seen = {owner: {"path": path, "targets": [slot], "related": ["null"]} for owner, path in paths.items()}
    return Event(of_type, items, seen)


def fired_events(lines):
    """The events that the end of a turn fired, from the lines that tell of them: each is a `slotchange` at a slot. It stays in its tree,
    but for the trees inside whose slots it comes through. So the paths of its lines are all of it, if somebody hears it in each of them."""
    paths = {}
    for line in lines:
        visit = EVENT.fullmatch(line)
        if visit:
            owner, of_type, target, path = visit.group(1, 3, 5, 8)
            shown = paths.setdefault((of_type, whole_name(owner, target)), {})
            shown[owner] = [whole_name(owner, name) for name in path.split(",")]
    return [fired_event(of_type, slot, shown) for (of_type, slot), shown in paths.items()]
