#!/usr/bin/env python3
"""Times the kinds of work of beside.py in the built program, and in Chromium, Firefox and jsdom, and prints a table.

Usage: bench/peers.py [PROGRAM] [--units N] [--rounds N] [--kind NAME..] [--peer NAME..]

PROGRAM is the built domrun, crates/domrun/out/domrun if none is given. N (60,000 if none is given) scales the scripts. A peer that is not on
this machine is said in one line on standard error, and so is what is wrong: a line that the program refuses, or a peer that has heard
of other events, records or elements than the program printed; the status is 1 then.

A figure is microseconds per line of the lines behind those that make the page, at both sizes of the kind. Of the program, start, reading
and printing into a file are measured, less those of the first lines alone. Of a peer it is the time inside the page: its lines
are read before the clock starts, it prints nothing, and memory is swept before it, where it can be (direct.js). Each is the best of three
runs. A peer is stopped after a time: its figure has a `*` then and is that of the lines up to there.

In a round (one if no number is given) each kind runs in the program and in each peer, at both sizes. A figure is of the best runs of all rounds,
of the program the best of all lines less the best of the first lines. How many times the program's a peer took is the median over the rounds of
what it took to what the program took in the same round, so what else the machine did meanwhile tells little in it. Rounds are counted on
standard error.
"""
import argparse
import base64
import json
import os
import re
import signal
import statistics
import subprocess
import sys
import tempfile
import time
from collections import namedtuple

sys.dont_write_bytecode = True
HERE = os.path.dirname(os.path.abspath(__file__))
sys.path.insert(0, os.path.join(HERE, "..", "harness"))
import engines  # noqa: E402
from beside import BESIDE, sizes_of  # noqa: E402
from clock import seconds_of  # noqa: E402

SOURCES = (os.path.join(HERE, "..", "harness", "lines.js"), os.path.join(HERE, "direct.js"))
# Milliseconds: when a peer is stopped, and when it begins no other run. Seconds: when it is given up.
LIMITS = {"limit": 3000, "patience": 1500, "runs": 3}
GIVEN_UP = 100


class Failed(Exception):
    """A peer that gave no figure, in one line."""


def page_of(given):
    """A page that measures and leaves what it measured as its text, as JSON in base 64."""
    sources = "\n".join(f"<script>{open(name, encoding='utf-8').read()}</script>" for name in SOURCES)
    words = json.dumps(given).replace("<", "\\u003c")
    return f"""<!DOCTYPE html><meta charset="utf-8"><pre id="out"></pre>{sources}<script>
      direct.measure(window, {words}).catch((error) => String(error)).then((measured) => {{
        document.getElementById("out").textContent = btoa(JSON.stringify(measured));
      }});</script>"""


class Chromium(engines.Chromium):
    """Headless Chromium: a page of its own for each script."""

    title = "Chromium"

    def measure(self, given):
        with tempfile.TemporaryDirectory(ignore_cleanup_errors=True) as room:
            with open(os.path.join(room, "page.html"), "w", encoding="ascii") as page:
                page.write(page_of(given))
            words = [self.path, "--headless=new", "--no-sandbox", "--disable-gpu", "--js-flags=--expose-gc", f"--user-data-dir={room}/profile",
                     "--dump-dom", f"file://{room}/page.html"]
            done = subprocess.run(words, capture_output=True, text=True, check=False, timeout=GIVEN_UP)
        found = re.search(r'<pre id="out">([^<]+)</pre>', done.stdout)
        if not found:
            raise Failed("no answer")
        return json.loads(base64.b64decode(found[1]))


class Firefox(engines.Firefox):
    """Headless Firefox: one process, to which pages are given."""

    title = "Firefox"

    def measure(self, given):
        path = os.path.join(self.room, "page.html")
        with open(path, "w", encoding="ascii") as page:
            page.write(page_of(given))
        self.send("WebDriver:Navigate", {"url": f"file://{path}"})
        while True:
            text = self.send("WebDriver:ExecuteScript", {"script": 'return document.getElementById("out").textContent', "args": []})["value"]
            if text:
                return json.loads(base64.b64decode(text))
            time.sleep(0.1)


class Jsdom(engines.Jsdom):
    """jsdom in node: a process for each script."""

    title = "jsdom"

    def measure(self, given):
        words = [self.path, "--stack-size=4000", "--expose-gc", os.path.join(HERE, "run_in_jsdom.js")]
        done = subprocess.run(words, input=json.dumps(given), capture_output=True, text=True, check=False, env=self.environment, timeout=GIVEN_UP)
        if done.returncode:
            raise Failed((re.findall(r"^\w*Error.*", done.stderr, re.M) or ["no answer"])[0])
        return json.loads(done.stdout)


def give_up(*_):
    raise Failed(f"no answer in {GIVEN_UP} seconds")


def measured(peer, kind, first, others):
    """What a peer measures. Failed: it gives nothing."""
    signal.alarm(GIVEN_UP)
    try:
        found = peer.measure({"first": first, "others": others, "asks": kind.asks, **LIMITS})
    except (subprocess.TimeoutExpired, SystemExit, OSError) as fault:
        raise Failed(str(fault)) from fault
    finally:
        signal.alarm(0)
    if not isinstance(found, dict):
        raise Failed(str(found))
    return found


def of_program(program, first, others, folder):
    """The program's seconds for the first lines and for all, the microseconds per line of `wc -l` of the input with `cat` of the output,
    and all that it printed."""
    taken = []
    script, output = os.path.join(folder, "script.txt"), os.path.join(folder, "output.txt")
    for lines in (first, first + others):
        with open(script, "w", encoding="ascii") as file:
            file.write("\n".join(lines) + "\n")
        taken.append(seconds_of([program, script], output))
    least = seconds_of(["wc", "-l", script]) + seconds_of(["cat", output], os.path.join(folder, "copy.txt"))
    with open(output, encoding="ascii") as file:
        printed = file.read()
    return taken, least / len(first + others) * 1e6, printed


def counts_of(printed):
    """The events, the records and the elements found in what the program printed, and its refusals."""
    def count(pattern):
        return len(re.findall(pattern, printed, re.M))

    lists = re.findall(r"^p ok \[([^\]]+)\]$", printed, re.M)
    counts = {"events": count(r"^\w+ event "), "records": count(r"^\w+ record "), "found": sum(found.count(",") + 1 for found in lists)}
    return counts, count(r"^\w+ ! ")


# What a round has of a kind at a size: the program's seconds for the first lines and for all; the peers' microseconds per line (None where
# there are none), each with a mark where it was stopped; those of the least that could be done; and how many lines are timed.
Figures = namedtuple("Figures", "seconds peers least lines")


class Bench:
    """Kinds in a program and in peers: the faults so far are kept."""

    def __init__(self, program, units, names):
        self.program, self.units, self.is_right, self.peers, self.kept = program, units, True, [], {}
        for peer in (Chromium, Firefox, Jsdom):
            if names is not None and peer.name not in names:
                continue
            try:
                self.peers.append(peer())
            except engines.Missing as fault:
                self.say(str(fault))

    def say(self, words):
        print(f"peers: {words}", file=sys.stderr, flush=True)

    def fault(self, words):
        self.say(words)
        self.is_right = False

    def figures(self, kind, size, folder):
        """What the program and the peers took in a round."""
        first, others = (list(lines) for lines in kind.make(size, self.units))
        seconds, least, printed = of_program(self.program, first, others, folder)
        counts, refused = counts_of(printed)
        if refused:
            self.fault(f"{kind.name} {size}: {refused} lines are refused")
        row = []
        for place, peer in enumerate(self.peers):
            try:
                found = measured(peer, kind, first, others)
            except Failed as fault:
                self.say(f"{kind.name} {size}: {peer.name}: {fault}")
                row.append((None, ""))
                peer.close()
                self.peers[place] = type(peer)()
                continue
            if found["isWhole"] and found["counts"] != counts:
                self.fault(f"{kind.name} {size}: {peer.name} counts {found['counts']}, not {counts}")
            row.append((found["taken"] / found["made"] * 1e3, "" if found["isWhole"] else "*"))
        return Figures(seconds, row, least, len(others))

    def round(self, kinds, folder):
        """Each of the kinds once, at both sizes: the figures are kept beside those of the rounds before."""
        for kind in kinds:
            for size in sizes_of(kind, self.units):
                self.kept.setdefault((kind.name, size), []).append(self.figures(kind, size, folder))

    def row(self, kind):
        """A row of the table: what is done, the lines, microseconds per line, how many times the program's, and the least."""
        sizes = sizes_of(kind, self.units)
        both = [self.kept[kind.name, size] for size in sizes]
        cells = [kind.says.replace("{}", pair(*(f"{size:,}" for size in sizes))), pair(*(f"{rounds[0].lines:,}" for rounds in both))]
        cells.append(pair(*(number(own(rounds)) for rounds in both)))
        cells += [pair(*(best(rounds, place) for rounds in both)) for place in range(len(self.peers))]
        cells += [pair(*(times(rounds, place) for rounds in both)) for place in range(len(self.peers))]
        return [*cells, pair(*(number(min(figures.least for figures in rounds)) for rounds in both))]

    def close(self):
        for peer in self.peers:
            peer.close()


def own(rounds):
    """The program's microseconds per line: its best run of all lines in these rounds, less its best of the first lines."""
    first, whole = (min(figures.seconds[at] for figures in rounds) for at in (0, 1))
    return (whole - first) / rounds[0].lines * 1e6


def best(rounds, place):
    """The least figure of the peer in that place, with the mark of the round that has it."""
    found = [figures.peers[place] for figures in rounds if figures.peers[place][0] is not None]
    micros, mark = min(found, default=(None, ""))
    return number(micros) + mark


def times(rounds, place):
    """How many times as long as the program the peer in that place took, as the median of the rounds."""
    found = [figures.peers[place][0] / own([figures]) for figures in rounds if figures.peers[place][0] is not None]
    return number(statistics.median(found) if found else None)


def pair(small, large):
    """What both sizes have, which is said once where it is the same."""
    return small if small == large else f"{small} / {large}"


def number(value):
    """A figure in at most three digits; a stroke where there is none."""
    if value is None:
        return "–"
    return f"{value:.2f}" if value < 1 else f"{value:.1f}" if value < 100 else f"{value:,.0f}"


def main():
    parser = argparse.ArgumentParser(prog="bench/peers.py", description="Times kinds of work in the built program and in other DOMs.")
    parser.add_argument("program", metavar="PROGRAM", nargs="?", default=engines.PROGRAM, help="the built domrun")
    parser.add_argument("--units", metavar="N", type=int, default=60_000, help="about how many lines a script has")
    parser.add_argument("--rounds", metavar="N", type=int, default=1, help="how often each kind runs")
    parser.add_argument("--kind", metavar="NAME", nargs="*", choices=[kind.name for kind in BESIDE], help="these kinds alone")
    parser.add_argument("--peer", metavar="NAME", nargs="*", choices=list(engines.ENGINES), help="these peers alone")
    words = parser.parse_args()
    signal.signal(signal.SIGALRM, give_up)
    bench = Bench(words.program, words.units, words.peer)
    try:
        print("; ".join(["domrun", *(peer.version for peer in bench.peers)]))
        titles = [peer.title for peer in bench.peers]
        heads = ["kind", "lines", "domrun", *titles, *(f"{title} : domrun" for title in titles), "`wc`, `cat`"]
        print(f"\n| {' | '.join(heads)} |\n|{'---|' * len(heads)}")
        kinds = [kind for kind in BESIDE if not words.kind or kind.name in words.kind]
        with tempfile.TemporaryDirectory() as folder:
            for turn in range(words.rounds):
                bench.round(kinds, folder)
                bench.say(f"round {turn + 1} of {words.rounds}")
        for kind in kinds:
            print(f"| {' | '.join(bench.row(kind))} |")
    finally:
        bench.close()
    return 0 if bench.is_right else 1


if __name__ == "__main__":
    sys.exit(main())
