"""What the references to the DOM Standard in comments name: sections, and names of these. tools/sources.py says how one is written,
tools/sections.py has the Standard's sections and names."""
import re

import sections
import sources

TITLES = {title: number for number, title, _ in sections.SECTIONS}
NUMBERS = {number: title for number, title, _ in sections.SECTIONS}
NAMES = {number: names for number, _, names in sections.SECTIONS}
HOMES = {}
for section_number, section_names in NAMES.items():
    for section_name in section_names:
        HOMES.setdefault(section_name, []).append(section_number)


class Dead(Exception):
    """A reference that names what the list of sections does not have."""


def begins_with_name(text, name):
    """Whether a text begins with a name, as a whole word; the brackets of a method may be left out."""
    short = name[:-2] if name.endswith("()") else name
    return text.startswith(name) or (text.startswith(short) and not re.match(r"[\w(-]", text[len(short):]))


def name_at_front(text, names):
    """The longest of some names that stands at the front of a text."""
    fitting = [name for name in names if begins_with_name(text, name)]
    if not fitting:
        raise Dead(text)
    return max(fitting, key=len)


def listed(text):
    """The parts of a list of names."""
    return re.split(r", and |, | and ", text.strip())


def numbered(text):
    """What a reference says that begins with the number of a section: pairs of a number and a name, or none."""
    match = re.match(r"(\d+(?:\.\d+)*)(.*)", text)
    number, rest = match[1], match[2].strip()
    if number not in NUMBERS:
        raise Dead(text)
    if rest.startswith(":"):
        return [(number, name_at_front(part, NAMES[number])) for part in listed(rest[1:].split(":")[0])]
    if rest.startswith(NUMBERS[number]):
        rest = rest[len(NUMBERS[number]):].strip()
    if rest.startswith("and "):
        return [(number, None)] + numbered(rest[len("and "):])
    if rest:
        raise Dead(text)
    return [(number, None)]


def named(text):
    """What a reference says that begins with a name: the name in each section that has it."""
    name = name_at_front(text, HOMES)
    return [(number, name) for number in HOMES[name]]


def resolved(text):
    """The sections and names of a reference. After a semicolon stands another number, or what explains the reference."""
    first, *others = text.split("; ")
    more = [pair for part in others if part[:1].isdigit() for pair in numbered(part)]
    if first[:1].isdigit():
        return numbered(first) + more
    if first.startswith("concepts: "):
        return [pair for part in listed(first[len("concepts: "):]) for pair in named(part)] + more
    if first.startswith("interface "):
        title = name_at_front("Interface " + first[len("interface "):], TITLES)
        return [(TITLES[title], None)] + more
    return named(re.sub(r"^(concept: |dictionary |mixin |constructor of |the )", "", first)) + more


def definitions_by_name(definitions):
    """The definitions that refer to each name of a section."""
    found = {}
    for definition in definitions:
        for pair in {pair for text in sources.references_in(definition.comment) if not is_dead(text) for pair in resolved(text)}:
            found.setdefault(pair, []).append(definition)
    return found


def of_meaning(definitions):
    """Of some definitions those of the meaning, or all where there is none."""
    return [d for d in definitions if d.crate == "dom_model"] or definitions


def is_dead(reference):
    """Whether a reference names what the list of sections does not have."""
    try:
        resolved(reference)
    except Dead:
        return True
    return False
