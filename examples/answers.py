"""Runs the built program on lines, and compares what it answers with what it should."""
import os
import subprocess
import tempfile

BUILT = os.path.join(os.path.dirname(os.path.abspath(__file__)), "../crates/domrun/out/domrun")


class Script:
    """Lines, each with the answer that it should get."""

    def __init__(self):
        self.lines, self.answers = [], []

    def say(self, owner, words, answer=""):
        """Adds a line of an owner, and its answer behind `ok`."""
        self.lines.append(f"{owner} {words}")
        self.answers.append(f"{owner} ok {answer}".rstrip())


def status_of(name, program, script):
    """Runs the program on a script, says what it answered otherwise than it should, and answers the exit status."""
    with tempfile.TemporaryFile("w+") as lines:
        lines.write("\n".join(script.lines) + "\n")
        lines.seek(0)
        ran = subprocess.run([program, "-"], stdin=lines, capture_output=True, text=True)
    told = ran.stdout.splitlines()
    for number, (line, answer, right) in enumerate(zip(script.lines, told, script.answers), 1):
        if answer != right:
            print(f"{name}: line {number}, {line}: {answer} and not {right}")
            return 1
    if ran.returncode or ran.stderr or len(told) != len(script.answers):
        print(f"{name}: status {ran.returncode}, {len(told)} lines and not {len(script.answers)} {ran.stderr}")
        return 1
    print(f"{name}: {len(told)} lines as they should be")
    return 0
