"""The example scripts of a page of documentation.

A script is a fenced block in which an input line has its answer after ` => `, or each of its answers on a line of its own below it that
begins with `  => `. Each block is a script from its start.
"""
import re
from dataclasses import dataclass, field

REPLY = re.compile(r"! |\S+ (?:ok|!)(?: |$)")
STRING = re.compile(r'"(?:[^"\\]|\\.)*"')


@dataclass
class Command:
    """An input line of a script: the number of its line, itself, and the output lines that are expected of it."""

    number: int
    line: str
    wanted: list[str] = field(default_factory=list)


@dataclass
class Block:
    """A fenced block of a page: the page, the number of its first line, and its input lines with the output lines that stand there."""

    path: str
    number: int
    commands: list[Command]

    @property
    def lines(self) -> list[str]:
        """The input lines."""
        return [command.line for command in self.commands]

    @property
    def wanted(self) -> list[str]:
        """The output lines that stand there."""
        return [answer for command in self.commands for answer in command.wanted]


def parted(line: str) -> tuple[str, str, str]:
    """A line of a block, the arrow after it, and its answer. An arrow in a string is none."""
    place = STRING.sub(lambda string: "." * len(string[0]), line).find(" => ")
    return (line, "", "") if place < 0 else (line[:place], line[place:place + 4], line[place + 4:])


def commands_of(block: list[str], first: int = 1) -> list[Command]:
    """The input lines of a block, with the output lines that stand there. Its first line has this number."""
    found: list[Command] = []
    for number, line in enumerate(block, first):
        if found and line.startswith("  => "):
            found[-1].wanted.append(line[5:])
        else:
            before, arrow, answer = parted(line)
            found.append(Command(number, before, [answer] if arrow else []))
    return found


def grouped(answers: list[str], count: int) -> list[list[str]]:
    """What each of so many input lines was answered, and last what the end of input printed."""
    told, groups = iter(answers), []
    for _ in range(count):
        groups.append([])
        for answer in told:
            groups[-1].append(answer)
            if REPLY.match(answer):
                break
    return [*groups, list(told)]


def blocks_in(text: str, path: str) -> list[Block]:
    """The scripts among the fenced blocks of a page."""
    block, found = None, []
    for number, line in enumerate(text.split("\n"), 1):
        if line.startswith("```"):
            if block is not None and any(" => " in it for it in block[1]):
                found.append(Block(path, block[0], commands_of(block[1], block[0])))
            block = (number + 1, []) if block is None else None
        elif block is not None:
            block[1].append(line)
    return found


def blocks_of(path: str) -> list[Block]:
    """The scripts of a page."""
    with open(path, encoding="utf-8") as page:
        return blocks_in(page.read(), path)


def text_of(lines: list[str], answers: list[str]) -> str:
    """The lines of a script with their answers, as a page has them. What the end of input printed stands after the last line."""
    *groups, last = grouped(answers, len(lines))
    text = ""
    for line, answered in zip(lines, groups):
        text += line + (f" => {answered[0]}\n" if len(answered) == 1 else "".join(["\n", *(f"  => {answer}\n" for answer in answered)]))
    return text + "".join(f"  => {answer}\n" for answer in last)
