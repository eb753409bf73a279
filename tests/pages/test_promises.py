"""Each public contract has a promise (promises.py), README names contracts that are there, and charts/tables.json is
what crates/iloc_tables prints (its stdout, which ./build --all compares)."""
import re
import unittest

from pages.promises import TOP, page, read


class Promises(unittest.TestCase):
    def test_promises(self):
        """Each contract has a sentence, and those that README's table names are of their crate."""
        named, crate = {}, ""
        table = re.findall(r"^\| *(?:`(iloc_\w+)`)? *\| .* \| (`[^|]*`) \|$", read(f"{TOP}/README.md"), re.M)
        for other, calls in table:
            crate = other or crate
            named.setdefault(crate, set()).update(re.findall(r"`([\w:]+)`", calls))
        for section in page().split("\n## ")[1:]:
            crate = section.split("\n", 1)[0]
            with self.subTest(crate):
                promises = dict(re.findall(r"^\| `([\w:]+)` \| (.*?) \|", section, re.M))
                self.assertEqual([call for call, promise in promises.items() if not promise], [])
                self.assertLessEqual(named.pop(crate, set()), {*promises})
        self.assertEqual(named, {})

    def test_tables(self):
        self.assertEqual(read(f"{TOP}/charts/tables.json"), read(f"{TOP}/crates/iloc_tables/stdout"))
