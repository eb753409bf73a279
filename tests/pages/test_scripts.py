"""pyflakes and shellcheck find nothing in the scripts."""
import re
import subprocess
import unittest

from harness.program import needs
from pages.promises import TOP

# They are imported for what that does: a script ends on an old Python, and a test finds the product's modules.
FOR_EFFECT = re.compile(r"'(floor|oracle)' imported but unused")


def run_by(interpreter):
    """The files of the repository whose first line names this interpreter."""
    paths = subprocess.run(["git", "ls-files", "-z"], cwd=TOP, capture_output=True, text=True, check=True).stdout
    for path in paths.rstrip("\0").split("\0"):
        with open(f"{TOP}/{path}", "rb") as file:
            if re.match(rb"#!.*\b%s\b" % interpreter, file.readline()):
                yield path


class Scripts(unittest.TestCase):
    def said(self, *words):
        return subprocess.run(words, cwd=TOP, capture_output=True, text=True).stdout.splitlines()

    def test_python(self):
        needs("pyflakes3")
        found = self.said("pyflakes3", "audit", "charts", "cluster", "grading", "man", "packaging", "tests",
                          *run_by(b"python3"))
        self.assertEqual([line for line in found if not FOR_EFFECT.search(line)], [])

    def test_shell(self):
        """With what they read of launcher.sh."""
        needs("shellcheck")
        self.assertEqual(self.said("shellcheck", "-x", "-s", "sh", "-S", "warning", *run_by(b"sh")), [])
