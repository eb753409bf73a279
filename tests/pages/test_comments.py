"""Comments name what they speak of, and each crate says in one line what it is."""
import glob
import re
import unittest

from pages.promises import CRATES, TOP, read

COMMENT = re.compile(r"^( *)(///?|//!|--)(?: .*)?$")
RIDDLE = re.compile(r"\b(these|those|so many|the one of which)\b", re.I)


def comments(path):
    """Each comment of a file, with its line and the line after it."""
    lines = read(path).split("\n")
    begun = None
    for number, line in enumerate(lines):
        if COMMENT.match(line):
            begun = number if begun is None else begun
        elif begun is not None:
            yield begun + 1, " ".join(line.strip(" /-!") for line in lines[begun:number]), line
            begun = None


def riddles():
    """The comments of functions and definitions in which a pronoun may stand for a parameter: they name none."""
    for path in sorted(glob.glob(f"{CRATES}/*/s*/**/*", recursive=True)):
        if path.endswith((".rt", ".antt")):
            for number, text, after in comments(path):
                is_item = path.endswith(".antt") or re.search(r"\bfn\b|^ *#\[", after)
                if is_item and RIDDLE.search(text) and "`" not in text:
                    yield f"{path[len(TOP) + 1:]}:{number}: {text}"


class Comments(unittest.TestCase):
    maxDiff = None

    def test_riddles(self):
        self.assertEqual([*riddles()], [])

    def test_first_lines(self):
        for path in sorted(glob.glob(f"{CRATES}/*/src/*.rt")):
            if path.endswith(("/lib.rt", "/main.rt")):
                self.assertRegex(read(path).split("\n", 1)[0], r"^//! .*[.]$", path)
