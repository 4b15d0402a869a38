"""Makes a script small that is unexplained: runs of its lines go, as long as it stays so."""
import collections
import re

import judging

NAME = re.compile(r"(?<![\w:\"'=.#\[-])([nmriwo])(\d+)(?![\w:-])")


def small(script, program, unexplained):
    """The script without lines that it does without: `unexplained` gives those of a list of scripts that are, each a list of lines."""
    lines = judging.lines_of(script)
    size = len(lines) // 2
    while size:
        made = names_made(program, lines)
        shorter = [without(made, lines, start, size) for start in range(0, len(lines), size)]
        kept = unexplained([tried for tried in shorter if tried != lines])
        if kept:
            lines = min(kept, key=len)
            size = min(size, max(1, len(lines) // 2))
        else:
            size //= 2
    return "".join(line + "\n" for line in lines)


def names_made(program, lines):
    """For each line how many names each owner has made when it has run, by owner and letter."""
    output = program.run_one("".join(line + "\n" for line in lines)).splitlines()
    replies = [line for line in output if judging.REPLY.match(line)]
    counts, made = collections.Counter(), []
    for line, reply in zip(lines, replies):
        found = re.fullmatch(r"(\S+) ok ([nmriwo])(\d+)", reply)
        if found and re.match(r"\S+ (new|document|split|extract|range-new|iter-new|walk-new|observer)", line):
            counts[found[1], found[2]] = max(counts[found[1], found[2]], int(found[3]) + 1)
        made.append(dict(counts))
    return made


def without(made, lines, start, size):
    """The lines without a run of them: names made later are counted down, and lines with a name that was made there go too."""
    before = made[start - 1] if start else {}
    after = made[min(start + size, len(made)) - 1]
    left = list(lines[:start])
    for line in lines[start + size:]:
        owner = line.split(" ")[0]
        gone = []

        def renamed(match, owner=owner, gone=gone):
            letter, number = match[1], int(match[2])
            base = 1 if letter in "nm" else 0
            low, high = (counts.get((owner, letter), base) for counts in (before, after))
            if low <= number < high:
                gone.append(match[0])
            return f"{letter}{number - (high - low) if number >= high else number}"

        new = NAME.sub(renamed, line)
        if not gone:
            left.append(new)
    return left
