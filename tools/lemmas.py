"""The lemmas of a file of proofs, and their types."""
import re

SIGNATURE = re.compile(r"^( *)(?:pub )?([^\s:(){}]+) : (.*)$")
BOUND = re.compile(r"[^():{}]+ : ")


def parts_between(text, sign):
    """The parts of a text between occurrences of a sign that stand in no bracket."""
    parts, depth = [""], 0
    for letter in text:
        depth += (letter in "([{") - (letter in ")]}")
        if letter == sign and not depth:
            parts.append("")
        else:
            parts[-1] += letter
    return parts


def groups_of(text):
    """The bracketed groups of which a text consists, or nothing where it is of another form."""
    groups, depth = [], 0
    for letter in text.strip():
        if letter in "([{":
            depth += 1
            if depth == 1:
                groups.append("")
        if depth:
            groups[-1] += letter
        elif not letter.isspace():
            return []
        depth -= letter in ")]}"
    return groups


def arguments_of(signature):
    """How many explicit arguments a type takes."""
    count = 0
    for part in parts_between(signature, "→")[:-1]:
        groups = groups_of(part)
        if groups and all(BOUND.match(group[1:-1]) for group in groups):
            count += sum(len(group[1:-1].split(" : ")[0].split()) for group in groups if group[0] == "(")
        else:
            count += 1
    return count


def goes_on(line, indent):
    """Whether a line goes on with a type that stands at an indent."""
    text = line.lstrip()
    return len(line) - len(text) > indent and not text.startswith(("--", "unfolding "))


def lemmas_of(lines):
    """The lemmas of a file of proofs: the number of the line, the name, and the type."""
    for number, line in enumerate(lines):
        match = SIGNATURE.match(line)
        if match:
            indent, behind = len(match[1]), number + 1
            while behind < len(lines) and goes_on(lines[behind], indent):
                behind += 1
            clauses = (it for it in lines[behind:] if not it.lstrip().startswith("unfolding "))
            if re.match(rf"{match[1]}{re.escape(match[2])}( |$)", next(clauses, "")):
                yield number + 1, match[2], " ".join([match[3], *map(str.strip, lines[number + 1:behind])])


def renamed(signature):
    """A type with its bound names by their order, so that it is the same whatever these are called."""
    bound = [name for group in re.findall(r"[({]([^():{}]+) : ", signature) for name in group.split()]
    names = {name: f"_{number}" for number, name in enumerate(dict.fromkeys(bound))}
    return " ".join(names.get(word, word) for word in re.findall(r"[^\s(){}.,]+|[(){}.,]", signature))
