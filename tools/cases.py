"""Cases for a build without a proof (tools/unproved.py): scripts in files, folders, pages and pairs, with their expected answers."""
import difflib
import os
import re
import sys

import pages
from unproved import Answer, Case, Fault

MOST = 10  # how many lines that are answered otherwise are shown of a script
VIEW = re.compile(r"(.+?)\.(page|p|c\d+(?:\.\d+)*)")


def content(path: str) -> bytes | None:
    """A file, or None where there is none."""
    if not os.path.exists(path):
        return None
    with open(path, "rb") as file:
        return file.read()


def expected_case(name: str, path: str, commands: list[pages.Command]) -> Case:
    """A script that stands in a file with its answers."""
    lines, wanted = [it.line for it in commands], [answer for it in commands for answer in it.wanted]
    script, output = ("".join(line + "\n" for line in part).encode("latin-1") for part in (lines, wanted))
    return Case(name, script, [], output, path, commands)


def plain_case(name: str, script: bytes) -> Case:
    """A script as one writes it: its lines alone, or with their answers, which are then expected, as a block of a page has them."""
    lines = script.decode("latin-1").removesuffix("\n").split("\n")
    for number, line in enumerate(lines, 1):
        if line.endswith("\r"):
            raise Fault(f"{name}, line {number}: it ends in a carriage return, and a line ends in a line feed alone")
    return expected_case(name, name, pages.commands_of(lines)) if any(pages.parted(line)[1] for line in lines) else Case(name, script)


def case_of(path: str) -> Case:
    """A script in a file, with the expected answers and the words that stand beside it."""
    if path == "-":
        return plain_case("standard input", sys.stdin.buffer.read())
    with open(path, "rb") as file:
        script = file.read()
    if not path.endswith(".in"):
        return plain_case(path, script)
    words = (content(path[:-3] + ".words") or b"").decode("ascii").split()
    return Case(path, script, words, content(path[:-3] + ".out"))


def cases_of(path: str) -> list[Case]:
    """The scripts that a path stands for: those in a folder and below it, those of a page, or the one in the file."""
    if os.path.isdir(path):
        inside = [os.path.join(folder, name) for folder, _, names in os.walk(path) for name in names if name.endswith(".in")]
        return [case_of(it) for it in sorted(inside)]
    if path.endswith(".md"):
        return [expected_case(f"{path}, line {block.number}", path, block.commands) for block in pages.blocks_of(path)]
    return [case_of(path)]


def pair_cases(folder: str) -> list[Case]:
    """The views of the pairs of scripts in a folder: NAME.page and NAME.OWNER of both scripts, NAME.a.OWNER of NAME.a alone."""
    found = []
    for view in filter(None, map(VIEW.fullmatch, sorted(os.listdir(folder)))):
        name, owner = view[1], "p" if view[2] == "page" else view[2]
        wanted = content(os.path.join(folder, view[0]))
        for script in [name] if name.endswith((".a", ".b")) else [f"{name}.a", f"{name}.b"]:
            lines = content(os.path.join(folder, script)) or b""
            found.append(Case(f"{folder}/{script} seen by {owner}", lines, ["--view", owner], wanted))
    return found


def expected_of(case: Case) -> list[pages.Command]:
    """The input lines of a case that has expected answers, each with its own."""
    if case.commands:
        return case.commands
    script, wanted = (text.decode("latin-1").splitlines() for text in (case.script, case.wanted or b""))
    *groups, last = pages.grouped(wanted, max(len(script), 1))
    groups[-1] += last
    return [pages.Command(number, line, group) for number, (line, group) in enumerate(zip(script or [""], groups), 1)]


def differences(answer: Answer) -> list[str]:
    """Where an answer is not the one expected: the file, the line and the command, with what was expected and what was answered.

    Of a view, which has the answers to one owner alone, the lines are compared without their commands."""
    case, output = answer.case, answer.output.decode("latin-1").splitlines()
    if case.words:
        wanted = (case.wanted or b"").decode("latin-1").splitlines()
        return list(difflib.unified_diff(wanted, output, "expected", "answered", lineterm="", n=1))
    commands = expected_of(case)
    *groups, last = pages.grouped(output, len(commands))
    groups[-1] += last
    wrong = [(command, group) for command, group in zip(commands, groups) if command.wanted != group]
    found = []
    for command, group in wrong[:MOST]:
        found.append(f"{case.path or case.name}:{command.number}: {command.line}")
        found += [f"  {how}: {line}" for how, lines in (("expected", command.wanted), ("answered", group)) for line in lines or ["nothing"]]
    return found + ([f"{len(wrong) - MOST} more lines are answered otherwise"] if len(wrong) > MOST else [])
