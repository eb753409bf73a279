"""Cases for unittest: those of a table, and checks that give what is wrong."""
import re
import time
import unittest
from pathlib import Path

SHOWN = 5       # faults of one check


class Case(unittest.TestCase):
    """A case of a table, under a name of its own: whether it `passes`."""

    def __init__(self, name):
        super().__init__("passes")
        self.name = name

    def id(self):
        return self.name

    __str__ = id


class Check(Case):
    """A call that gives what is wrong, one fault after the other."""

    def __init__(self, name, call, *words):
        super().__init__(name)
        self.call, self.words = call, words

    def passes(self):
        start = time.monotonic()
        wrong = list(self.call(*self.words))
        if time.monotonic() > start + 1:
            print(f"{self.name}: {time.monotonic() - start:.1f} s", flush=True)
        if wrong:
            self.fail("\n".join(wrong[:SHOWN]) + (f"\nand {len(wrong) - SHOWN} more" if len(wrong) > SHOWN else ""))


def plain(text):
    """What a text in a file of cases stands for: bytes that can't be shown are there by their numbers, and `\\` before
    a line end is for none."""
    return text.encode().decode("unicode_escape")


def sections(path):
    """The cases of a file. Each is below a line `= HEAD`, and its texts are parted by lines `- WORDS`: its head, its
    first text, and the words and text of each other one. A blank line before `= ` and lines from `#` on are no text."""
    cases = re.split(r"^\n?= ", re.sub(r"^#.*\n", "", Path(path).read_text("ascii"), flags=re.M), flags=re.M)
    for head, case in (case.split("\n", 1) for case in cases[1:]):
        first, *others = re.split(r"^-(| .*)\n", case, flags=re.M)
        parts = zip(others[::2], others[1::2])
        yield head.split(), plain(first), [(words.split(), plain(text)) for words, text in parts]


def rows_of(path):
    """The rows of a table of cases, the first cell of each as it stands for a text."""
    with open(path, encoding="ascii") as file:
        return [[plain(first), *others] for first, *others in (line.rstrip("\n").split("\t") for line in file)]


def table(cases):
    """By this unittest loads a module's cases that come of a table."""
    def load_tests(_, tests, __):
        tests.addTests(cases())
        return tests
    return load_tests
