"""What a named difference is (known.py)."""


def lines(text):
    return "".join(line.strip() + "\n" for line in text.strip().split("\n"))


class Known:
    """A named difference: its sort, the engines that have it, what it is, and scripts that show it, each in one of these at least."""

    def __init__(self, sort, engines, text, *scripts):
        self.sort, self.engines, self.text, self.scripts = sort, engines, text, scripts
