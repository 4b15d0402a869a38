#!/usr/bin/env python3
"""Runs scripts in domrun and in a browser or jsdom, and shows where the two part.

Usage: harness/compare.py [--engine chromium|firefox|jsdom] [--program DOMRUN | --unproved] [--verbose] [--json] WHAT

WHAT is SCRIPT.., --random N, --known or --examples. A script whose output differs is run again, with each named difference (known.py)
corrected. If the outputs then agree, these names explain it (judging.py). Else it is unexplained, and is made small. A difference is shown as

    2.in:7: p take o0                       the script, the line, and the command at which the outputs differ
      domrun: p record o0 ..                what each wrote there
      engine: p record o0 ..
      named: sibling-inserted               or: UNEXPLAINED

Exit status: 0; 1 if a script is unexplained, or nothing could be run; 2 if the words are refused.
"""
import argparse
import collections
import glob
import os
import sys

import engines
import judging
import known
import scripts
import shrinking

BATCH = 500  # random scripts that are judged together


class Comparison:
    """An engine and a program, and what they are found to have in common."""

    def __init__(self, engine, program):
        self.engine, self.program = engine, program

    def judged(self, named):
        """The verdict on each of these scripts, which are pairs of a title and the script."""
        given = [script for _, script in named]
        written = self.program.run(given)
        rows = zip(named, written, [output for output, _ in engines.answers(self.engine, given)])
        found = [judging.Verdict(title, script, wanted, got) for (title, script), wanted, got in rows]
        self.explain([verdict for verdict in found if verdict.names is None], lambda script, _: script)
        if self.engine.name in judging.PROBED:
            self.explain([verdict for verdict in found if verdict.names is None], judging.probed)
        return found

    def explain(self, verdicts, change):
        """Gives each verdict the names of its differences, where the script, changed so, agrees after one at least."""
        tried = [change(verdict.script, verdict.wanted) for verdict in verdicts]
        wanted = [verdict.wanted for verdict in verdicts]
        if tried != [verdict.script for verdict in verdicts]:
            wanted = self.program.run(tried)
        again = engines.answers(self.engine, tried, known.fixes_in(self.engine.name))
        for verdict, script, want, (output, met) in zip(verdicts, tried, wanted, again):
            verdict.names = judging.judge(self.engine.name, script, want, output, met) or None
            verdict.fixed = output if script == verdict.script else verdict.fixed

    def unexplained(self, tried):
        """The scripts of these, each a list of lines, that are unexplained."""
        judged = self.judged([("", "".join(line + "\n" for line in lines)) for lines in tried])
        return [lines for lines, verdict in zip(tried, judged) if verdict.names is None]

    def small(self, verdict):
        """The verdict on the script made small."""
        script = shrinking.small(verdict.script, self.program, self.unexplained)
        return self.judged([(f"{verdict.title}, made small", script)])[0]


class Printed:
    """Prints verdicts as text, and the counts of a run."""

    def __init__(self, is_verbose, most):
        self.is_verbose, self.most = is_verbose, most
        self.counts, self.first = collections.Counter(), {}

    def put(self, comparison, verdict):
        """Counts a verdict, and prints it: a named one where all are to be shown, an unexplained one made small, up to the most."""
        self.counts[verdict.word()] += 1
        for name in verdict.names or ():
            self.counts["met", name] += 1
            self.first.setdefault(name, verdict.place())
        if verdict.names == set():
            if self.is_verbose:
                print(f"{verdict.title}: agrees byte for byte")
        elif verdict.names is None:
            print(verdict.text(), end="")
            if self.counts["unexplained"] <= self.most:
                print(comparison.small(verdict).whole_text(), end="")
        elif self.is_verbose:
            print(verdict.whole_text() if self.is_verbose > 1 else verdict.text(), end="")
        sys.stdout.flush()

    def end(self):
        total = sum(self.counts[word] for word in ("agree", "named", "unexplained"))
        print(f"{self.counts['agree']} of {total} agree byte for byte")
        for name, place in sorted(self.first.items(), key=lambda entry: (-self.counts["met", entry[0]], entry[0])):
            print(f"  {self.counts['met', name]} met {name}, first at {place}")
        print(f"{self.counts['named']} agree after named differences, {self.counts['unexplained']} are unexplained")


class Json(Printed):
    """Prints verdicts as JSON, one object in each line; the last has the counts."""

    def put(self, comparison, verdict):
        self.counts[verdict.word()] += 1
        if verdict.names is None and self.counts["unexplained"] <= self.most:
            verdict.small = comparison.small(verdict).script
        print(verdict.json(self.is_verbose), flush=True)

    def end(self):
        print(judging.json_of({word: self.counts[word] for word in ("agree", "named", "unexplained")}))


def random_batches(words):
    """Batches of random scripts, titled by seed and number."""
    for first in range(words.first, words.first + words.random, BATCH):
        count = min(BATCH, words.first + words.random - first)
        made = scripts.random_scripts(words.seed, count, words.lines, first)
        yield [(f"seed {words.seed} number {first + i}", script) for i, script in enumerate(made)]


def known_scripts():
    return [(f"{name} {number}", script) for name, difference in known.KNOWN.items() for number, script in enumerate(difference.scripts, 1)]


def print_known(comparison):
    """Prints each named difference, with the scripts that show it and whether they do so in this engine. Gives the status."""
    found = comparison.judged(known_scripts())
    for name, difference in known.KNOWN.items():
        print(f"== {name} ({difference.sort}; in {', '.join(difference.engines)}): {difference.text}")
        for verdict in (one for one in found if one.title.rpartition(" ")[0] == name):
            print(f"-- this script is {verdict.here()}\n{verdict.whole_text()}", end="")
    return 1 if any(verdict.names is None for verdict in found) else 0


def example_batches():
    """The scripts of each folder of examples that has scripts."""
    found = collections.defaultdict(list)
    for path in sorted(glob.glob(os.path.join(engines.HERE, "..", "examples", "*", "*.in"))):
        found[os.path.dirname(path)].append((os.path.relpath(path), script_of(path)))
    return list(found.values())


def print_all(words, comparison, batches):
    """Judges batches of titled scripts, and prints verdicts and counts. Gives the status."""
    printed = (Json if words.json else Printed)(words.verbose, words.shown)
    for batch in batches:
        for verdict in comparison.judged(batch):
            printed.put(comparison, verdict)
    printed.end()
    return 1 if printed.counts["unexplained"] else 0


def parts_of_help():
    """What stands behind the usage above, and the line about the exit status."""
    about, end = __doc__.split("Usage: ")[1].split("\n\n", 1)[1].split("Exit status")
    return about.rstrip(), "Exit status" + end


def words_given():
    """The words of the command line: one kind of scripts, and how they are run."""
    first, usage = __doc__.split("\n")[0], __doc__.split("Usage: ")[1].split("\n")[0]
    about, end = parts_of_help()
    parser = argparse.ArgumentParser(description=f"{first}\n\n{about}", epilog=end, usage=usage,
                                     formatter_class=argparse.RawDescriptionHelpFormatter)
    what = parser.add_argument_group("what is run (one of these)")
    what.add_argument("scripts", nargs="*", metavar="SCRIPT", help="files of scripts of your own; docs/PROTOCOL.md has the lines")
    what.add_argument("--random", type=int, metavar="N", help="so many random scripts, one of three with components in components")
    what.add_argument("--known", action="store_true", help="the scripts of the named differences, and whether the engine has these")
    what.add_argument("--examples", action="store_true", help="the scripts in examples/")
    how = parser.add_argument_group("where it is run")
    how.add_argument("--engine", choices=engines.ENGINES, default="chromium", help="the browser or library (chromium)")
    how.add_argument("--program", default=engines.PROGRAM, metavar="DOMRUN", help="the built domrun (that of tools/build)")
    how.add_argument("--unproved", action="store_true", help="build the program without a proof, by `rt try`: two minutes, not kept")
    random = parser.add_argument_group("random scripts")
    random.add_argument("--seed", default="1", metavar="S", help="which scripts; number I of a seed is the same everywhere (1)")
    random.add_argument("--lines", type=int, default=100, metavar="N", help="of each script (100)")
    random.add_argument("--first", type=int, default=0, metavar="I", help="number of the first script (0)")
    shown = parser.add_argument_group("what is printed")
    shown.add_argument("--verbose", action="count", default=0,
                       help="each verdict, also named ones and what agrees; twice: with the scripts. Without it named ones are shown for "
                            "scripts of your own alone")
    shown.add_argument("--json", action="store_true", help="one JSON object for each script in a line, and a last one with the counts")
    shown.add_argument("--shown", type=int, default=3, metavar="N", help="how many unexplained scripts are made small (3)")
    words = parser.parse_args()
    if [words.random is not None, words.known, words.examples, bool(words.scripts)].count(True) != 1:
        parser.error("one of SCRIPT.., --random N, --known and --examples is wanted")
    if words.random is not None and words.random < 1:
        parser.error("--random wants a number from 1 on")
    words.verbose = words.verbose or int(bool(words.scripts))
    return words


def script_of(path):
    """The script in a file, one character for each byte."""
    with open(path, "rb") as file:
        return file.read().decode("latin-1")


def run(words, comparison, given):
    """Does what the words ask for. Gives the status."""
    if words.known and not words.json:
        return print_known(comparison)
    batches = [known_scripts()] if words.known else example_batches() if words.examples else [given] if given else random_batches(words)
    return print_all(words, comparison, batches)


def main():
    words = words_given()
    try:
        given = [(path, script_of(path)) for path in words.scripts]
        program = engines.Unproved() if words.unproved else engines.Program(words.program)
        engine = engines.ENGINES[words.engine]()
    except engines.Missing as fault:
        raise SystemExit(str(fault)) from None
    except OSError as fault:
        raise SystemExit(f"{fault.filename}: {fault.strerror}") from None
    print(engine.version, file=sys.stderr if words.json else sys.stdout, flush=True)
    try:
        return run(words, Comparison(engine, program), given)
    finally:
        engine.close()


if __name__ == "__main__":
    sys.exit(main())
