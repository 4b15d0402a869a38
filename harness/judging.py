"""How what an engine answers a script is judged by the differences that have a name (known.py)."""
import json
import re

REPLY = re.compile(r"\S+ (ok|!)|! owner")
# Where the comparison of a script ends under a name: by the engine, the command, and what the engine answers it.
ENDS = [
    ("jsdom", "filters", re.compile(r"\S+ (iter-next|iter-prev|walk) "), re.compile(r"\S+ ! type")),
    ("jsdom", "ranges", re.compile(r"\S+ range-(get|text) "), REPLY),
]
# Where an answer that changes nothing may be another one under a name, and the rest of the script is compared: the same.
TRUTH_OR_LIST = re.compile(r"\S+ ok (true|false|\[.*\])")
PASSED = [
    ("jsdom", "selectors", re.compile(r'\S+ (query|matches) \S+ ".*([A-Z]|[~|^$*]=\s*(\'\'|\\"\\"))'), TRUTH_OR_LIST),
    ("jsdom", "selectors", re.compile(r"\S+ (query|matches) "), re.compile(r"\S+ ! RangeError")),
    ("", "replaced-units", re.compile(r"\S+ (query|matches) \S+ .*\\u0000"), TRUTH_OR_LIST),
    ("firefox", "replaced-units", re.compile(r"\S+ (query|matches) \S+ .*\\u[dD][89a-fA-F]"), TRUTH_OR_LIST),
]
# Engines whose ranges may be elsewhere long before a line tells it.
PROBED = ("jsdom",)


def lines_of(script):
    """The lines of a script, without their ends: byte 0x0A alone ends a line."""
    lines = script.split("\n")
    return lines if lines[-1] else lines[:-1]


def probed(script, output):
    """A script with the ends of each range that its owner has made read behind each line which ends no turn; `output` is the script's."""
    made, left = {}, []
    for line, reply in zip(lines_of(script), (line for line in output.splitlines() if REPLY.match(line))):
        left.append(line)
        owner, _, command = line.partition(" ")
        found = re.fullmatch(r"\S+ ok r(\d+)", reply)
        if found and command == "range-new":
            made[owner] = int(found[1]) + 1
        if command != ".":
            left += [f"{owner} range-get r{number}" for number in range(made.get(owner, 0))]
    return "".join(line + "\n" for line in left)


def first_difference(wanted, got):
    """Where two lists of lines part, or None."""
    if wanted == got:
        return None
    return next((i for i, (a, b) in enumerate(zip(wanted, got)) if a != b), min(len(wanted), len(got)))


def line_of(script, output, at):
    """The line of the script that output line number `at` belongs to."""
    number = sum(1 for line in output[:at] if REPLY.match(line))
    lines = lines_of(script)
    return lines[number] if number < len(lines) else "(end of input)"


def through_reply(output, count):
    """The lines of an output up to the last one of its first replies, so many."""
    ends = [at + 1 for at, line in enumerate(output) if REPLY.match(line)]
    return output[:ends[count - 1]] if count else []


def is_of(entry, engine, line, reply):
    """Whether an entry of ENDS or PASSED is of this engine, of the script's line and of what the engine replies."""
    of, _, command, answer = entry
    is_answer = answer.fullmatch(reply) if answer is TRUTH_OR_LIST else answer.match(reply)
    return of in ("", engine) and bool(command.match(line)) and bool(is_answer)


def passed(engine, script, wanted, got):
    """The names of the answers that may be others, and the engine's output with the wanted ones in their place."""
    names, got = set(), list(got)
    while (at := first_difference(wanted, got)) is not None and at < min(len(wanted), len(got)):
        line = line_of(script, wanted, at)
        found = [entry[1] for entry in PASSED if is_of(entry, engine, line, got[at])]
        if not found or not TRUTH_OR_LIST.fullmatch(wanted[at]):
            break
        names.add(found[0])
        got[at] = wanted[at]
    return names, got


def judge(engine, script, wanted, got, met):
    """The names of the differences after which an output agrees with the one that is wanted, or None where it does not."""
    names, wanted, got = set(met), wanted.splitlines(), got.splitlines()
    if got and got[-1].startswith("harness: ends at "):
        names.add(got.pop().split(" ")[-1])
        number = sum(1 for line in got if REPLY.match(line))
        wanted, got = (through_reply(output, number) for output in (wanted, got))
    also, got = passed(engine, script, wanted, got)
    names |= also
    at = first_difference(wanted, got)
    if at is None:
        return names
    ends = [entry[1] for entry in ENDS if at < len(got) and is_of(entry, engine, line_of(script, wanted, at), got[at])]
    return names | {ends[0]} if ends else None


def json_of(values):
    return json.dumps(values, ensure_ascii=True)


class Verdict:
    """What is found of a script: the names of its differences, none where it agrees, and None where it is unexplained."""

    def __init__(self, title, script, wanted, got):
        self.title, self.script, self.wanted, self.got = title, script, wanted, got
        self.names = set() if wanted == got else None
        self.fixed, self.small = got, None

    def parts_of(self, output):
        """Where an output parts from the wanted one, behind some lines that both have: the number of the script's line, the line,
        what both wrote before, and what each wrote there."""
        wanted, got = self.wanted.splitlines(), output.splitlines()
        at = first_difference(wanted, got)
        if at is None:
            return None
        number = sum(1 for line in wanted[:at] if REPLY.match(line)) + 1
        before = [line for line in wanted[max(0, at - 3):at] if not REPLY.match(line)]
        return number, line_of(self.script, wanted, at), before, *(lines[at] if at < len(lines) else "(no line)" for lines in (wanted, got))

    def word(self):
        return "agree" if self.names == set() else "unexplained" if self.names is None else "named"

    def here(self):
        """What a named difference's script is in an engine."""
        return {"agree": "not here", "unexplained": "UNEXPLAINED here"}.get(self.word(), "here: " + ", ".join(sorted(self.names or ())))

    def place(self):
        """The script and the number of the line at which it parts."""
        parts = self.parts_of(self.got)
        return f"{self.title}:{parts[0]}" if parts else self.title

    def text(self):
        """The place, the line, and what each wrote there."""
        parts = self.parts_of(self.fixed if self.names is None else self.got) or self.parts_of(self.got)
        if not parts:
            return f"{self.title}: agrees byte for byte\n"
        number, line, before, wanted, got = parts
        both = "".join(f"    both: {one}\n" for one in before)
        verdict = "UNEXPLAINED" if self.names is None else "named: " + ", ".join(sorted(self.names))
        return f"{self.title}:{number}: {line}\n{both}  domrun: {wanted}\n  engine: {got}\n  {verdict}\n"

    def whole_text(self):
        """The script, and the text."""
        return "".join(f"    {line}\n" for line in lines_of(self.script)) + self.text()

    def json(self, is_whole):
        """The verdict as one line of JSON, with the script where that is asked for."""
        values = {"script": self.title, "verdict": self.word(), "names": sorted(self.names or ())}
        parts = self.parts_of(self.fixed if self.names is None else self.got) or self.parts_of(self.got)
        if parts:
            values |= dict(zip(("line", "command", "before", "domrun", "engine"), parts))
        if is_whole:
            values["lines"] = lines_of(self.script)
        if self.small is not None:
            values["small"] = lines_of(self.small)
        return json_of(values)
