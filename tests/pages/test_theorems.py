"""docs/PROOFS.md lists all that the theorems reach (theorems.py), and README shows the lines of `main` that are left to
trust."""
import re
import unittest
from pathlib import Path

from pages.theorems import PAGE, TOP, page


def read(path):
    return Path(path).read_text("utf-8")


def words(text):
    return re.findall(r"\w+|[^\w\s]", text)


class Theorems(unittest.TestCase):
    def test_page(self):
        self.assertEqual(read(PAGE), page(), "theorems.py --write")

    def test_main(self):
        """Up to how its lines are broken, README's code is in `main`."""
        shown = read(f"{TOP}/README.md").partition("**Trusted:**")[2]
        main = words(read(f"{TOP}/crates/ilocfarm/src/main.rt"))
        pieces = [words(piece) for piece in "\n".join(re.findall("^    (.*)$", shown, re.M)).split("\n..\n")]
        for piece in pieces:
            with self.subTest(" ".join(piece[:4])):
                self.assertIn(piece, [main[at:at + len(piece)] for at in range(len(main))])
        self.assertGreater(sum(map(len, pieces)), 60)
