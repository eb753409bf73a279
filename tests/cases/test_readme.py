"""The examples in the README: each command but those of the package, and what is shown below it."""
import re

from harness.place import Place, shown_on

PHONE = 44      # columns


class Readme(Place):
    def test_examples(self):
        self.follows(shown_on("README.md", but=("apt ", "/usr/")))

    def test_code_fits_a_phone(self):
        code = re.findall(r"^    (.+)$", self.text("README.md"), re.MULTILINE)
        self.expect("lines that are too long", ([line for line in code if len(line) > PHONE], bool(code)), ([], True))
