#!/usr/bin/env python3
"""Checks that the harness sees wrong behaviours: each one that faults.js plants in an engine has to be unexplained.

Usage: harness/check.py                             judges what Chromium answered with each one planted; needs Python alone
       harness/check.py --engine ENGINE [--record]  plants each in an engine that is here; --record keeps the answers

A script of planted/ shows a wrong behaviour. It is judged twice: as if the engine had it and the program did not, and the other way round.
The scripts themselves have to agree. If the built program is there, it has to answer them as planted/answers.json has it.

Exit status: 0; 1 if a wrong behaviour goes unseen, or a script does not agree.
"""
import argparse
import difflib
import json
import os
import re
import sys

import engines
import judging
import known

PLANTED = os.path.join(engines.HERE, "planted")
ANSWERS = os.path.join(PLANTED, "answers.json")
# What only the program can do wrong, since an engine has one notification for all: in the answers of a script the first of these lines stands
# in front of the second.
OF_THE_PROGRAM = {
    "owners/one-notification-for-all": ("p record o0 attributes n1 name=id old=null", "p micro k"),
    "owners/microtask-before-its-turn": ("c1 micro l", "c1 record o0 childList m0 added=[m2] removed=[] prev=m1 next=null"),
    "owners/events-behind-other-owners": ("p micro k", "c1 event t slotchange phase=2 target=m1 current=m1 related=null path=[m1,m0]"),
    "owners/microtask-behind-the-line": ("p ok (n0 document (n1 element div id=\"v\" (n2 text \"x\")))", "c1 micro m"),
}
ONE_SCRIPT = "p new element a\np query n1 \"b\"\np range-new\np range-get r0\np matches n1 \"[k='\\u0000']\"\n"
ONE_ANSWER = ["p ok n1", "p ok []", "p ok r0", "p ok n0 0 n0 0", "p ok true"]


def script_of(name: str) -> str:
    """The script that shows a wrong behaviour: the part of its name in front of the `/` is the script's."""
    with open(os.path.join(PLANTED, name.split("/")[0] + ".in"), encoding="ascii") as file:
        return file.read()


def edits_between(text: str, other: str) -> list:
    """What makes one text of lines another: places, and the lines that stand there then."""
    lines, others = text.splitlines(), other.splitlines()
    found = difflib.SequenceMatcher(None, lines, others, autojunk=False).get_opcodes()
    return [[start, end, others[first:last]] for kind, start, end, first, last in found if kind != "equal"]


def edited(text: str, edits: list) -> str:
    lines = text.splitlines()
    for start, end, there in reversed(edits):
        lines[start:end] = there
    return "".join(line + "\n" for line in lines)


class Planted:
    """What an engine answers a script, as it is and with fixes, and which fixes are met: with a wrong behaviour, or without."""

    def __init__(self, plain: str, fixed: str, met: list) -> None:
        self.plain, self.fixed, self.met = plain, fixed, met

    def names(self, engine: str, script: str, wanted: str) -> set | None:
        """The names under which it differs from what is wanted; None: it is unexplained."""
        if self.plain == wanted:
            return set()
        return judging.judge(engine, script, wanted, self.fixed, self.met) or None


def recorded() -> tuple[str, str, dict, dict, dict]:
    """The engine and its version, and by the name of a script what is wanted and what it answers, and by that of a wrong behaviour too."""
    with open(ANSWERS, encoding="ascii") as file:
        kept = json.load(file)
    wanted = {name: "".join(line + "\n" for line in lines) for name, lines in kept["wanted"].items()}

    def planted(name: str, plain: list, fixed: list, met: list) -> Planted:
        right = wanted[name.split("/")[0]]
        return Planted(edited(right, plain), edited(right, fixed), met)

    right, wrong = ({name: planted(name, *parts) for name, parts in kept[key].items()} for key in ("right", "wrong"))
    return kept["engine"], kept["version"], wanted, right, wrong


def names_of_faults() -> list[str]:
    """The names of the wrong behaviours in faults.js, as they stand there."""
    with open(os.path.join(engines.HERE, "faults.js"), encoding="ascii") as file:
        return re.findall(r'^    "([a-z]+/[a-z-]+)": ', file.read(), re.MULTILINE)


def run_in(engine, wanted: dict) -> tuple[dict, dict]:
    """What an engine answers each script, and with each wrong behaviour planted."""
    fixes, faults, names = known.fixes_in(engine.name), names_of_faults(), list(wanted)

    def both(titles: list[str], planted: list[str]) -> dict:
        given = [script_of(title) for title in titles]
        plain, fixed = (engines.answers(engine, given, some, planted) for some in ((), fixes))
        return {title: Planted(one, other, sorted(met)) for title, (one, _), (other, met) in zip(titles, plain, fixed)}

    return both(names, []), both(faults, faults)


def record(engine, wanted: dict, right: dict, wrong: dict) -> None:
    """Writes the answers of an engine."""
    def rows(table: dict) -> str:
        parts = {}
        for name, one in table.items():
            parts[name] = [*(edits_between(wanted[name.split("/")[0]], text) for text in (one.plain, one.fixed)), one.met]
        return ",\n".join(f"{json.dumps(name)}: {json.dumps(values)}" for name, values in parts.items())

    lines = ",\n".join(f"{json.dumps(name)}: {json.dumps(text.splitlines())}" for name, text in wanted.items())
    with open(ANSWERS, "w", encoding="ascii") as file:
        file.write(f'{{"engine": "{engine.name}", "version": "{engine.version}",\n"wanted": {{\n{lines}}},\n"right": {{\n{rows(right)}}},\n'
                   f'"wrong": {{\n{rows(wrong)}}}}}\n')


def unseen(engine: str, wanted: dict, right: dict, wrong: dict) -> list[str]:
    """What is not as it should be: scripts that do not agree, and wrong behaviours of the engine, or of the program, that go unseen."""
    faults = []
    for name, one in right.items():
        if one.names(engine, script_of(name), wanted[name]) is None:
            faults.append(f"{name}: the script does not agree")
    for name, one in wrong.items():
        script, short = script_of(name), name.split("/")[0]
        found = one.names(engine, script, wanted[short])
        if found is not None:
            faults.append(f"{name}: unseen in the engine{': ' + ', '.join(sorted(found)) if found else ''}")
        if right[short].names(engine, script, one.plain) is not None:
            faults.append(f"{name}: unseen in the program")
    return faults


def unseen_moves(engine: str, wanted: dict, right: dict) -> list[str]:
    """Which of the program's own wrong behaviours go unseen, or move nothing."""
    found = []
    for name, (line, other) in OF_THE_PROGRAM.items():
        short = name.split("/")[0]
        lines = wanted[short].splitlines()
        at, place = lines.index(line), lines.index(other)
        lines.insert(place, lines.pop(at))
        if at <= place or right[short].names(engine, script_of(name), "\n".join(lines) + "\n") is not None:
            found.append(f"{name}: unseen in the program")
    return found


def lax_rules() -> list[str]:
    """Rules of judging.py that let by what they are not to: an answer that differs in an engine or at a command that they are not for."""
    found = []
    for engine in engines.ENGINES:
        for at, other in ((1, "p ok [n1]"), (3, "p ok n0 0 n1 0"), (0, "p ok n2"), (4, "p ! selector")):
            got = [other if i == at else line for i, line in enumerate(ONE_ANSWER)]
            names = judging.judge(engine, ONE_SCRIPT, "\n".join(ONE_ANSWER), "\n".join(got), [])
            if names is not None and not (engine == "jsdom" and names == {"ranges"} and at == 3):
                found.append(f"{engine}: `{other}` is let by as {', '.join(sorted(names))}")
    return found


def words_given() -> argparse.Namespace:
    parser = argparse.ArgumentParser(description="Checks that the judging sees wrong behaviours.")
    parser.add_argument("--engine", choices=engines.ENGINES, help="plant them in this engine, in place of what is recorded")
    parser.add_argument("--record", action="store_true", help="keep what the engine answered in planted/answers.json")
    parser.add_argument("--program", default=engines.PROGRAM, metavar="DOMRUN", help="the built domrun, if it is there")
    parser.add_argument("--unproved", action="store_true", help="build the program without a proof: two minutes, not kept")
    return parser.parse_args()


def program_of(words: argparse.Namespace) -> engines.Program | engines.Unproved | None:
    """The program that also has to answer as recorded, if there is one."""
    if words.unproved:
        return engines.Unproved()
    return engines.Program(words.program) if os.path.exists(words.program) else None


def live(words: argparse.Namespace, wanted: dict) -> tuple[str, str, dict, dict]:
    engine = engines.ENGINES[words.engine]()
    try:
        right, wrong = run_in(engine, wanted)
        if words.record:
            record(engine, wanted, right, wrong)
        return engine.name, engine.version, right, wrong
    finally:
        engine.close()


def main() -> int:
    words = words_given()
    program = program_of(words)
    names = sorted({name.split("/")[0] for name in [*names_of_faults(), *OF_THE_PROGRAM]})
    if words.record:
        wanted = dict(zip(names, (program or engines.Program(words.program)).run([script_of(name) for name in names])))
    else:
        engine, version, wanted, right, wrong = recorded()
    if words.engine:
        engine, version, right, wrong = live(words, wanted)
    faults = unseen(engine, wanted, right, wrong) + unseen_moves(engine, wanted, right) + lax_rules()
    faults += [f"{name}: there is no answer for it" for name in names_of_faults() if name not in wrong]
    if program:
        outputs = program.run([script_of(name) for name in names])
        faults += [f"{name}: the program answers otherwise" for name, output in zip(names, outputs) if output != wanted[name]]
    for fault in faults:
        print(f"check: {fault}")
    how = "planted in" if words.engine else "recorded in"
    known_program = "without the program" if not program else "with the program, built without a proof" if words.unproved else "with the program"
    print(f"check: {len(wrong) + len(OF_THE_PROGRAM)} wrong behaviours, {how} {version}, {len(faults)} faults; {known_program}")
    return 1 if faults else 0


if __name__ == "__main__":
    sys.exit(main())
