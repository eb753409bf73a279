"""Links of pages, and files in the table of docs/ARCHITECTURE.md, are there; edits cost what is said."""
import glob
import os
import re
import subprocess
import unittest

from harness.place import COMMANDS
from pages.promises import CRATES, TOP, read


def dead_links(*patterns):
    """The links of these pages to what isn't there."""
    for page in (page for pattern in patterns for page in sorted(glob.glob(pattern, recursive=True))):
        links = re.findall(r"\]\(([^)#:]+)[^):]*\)", read(page))
        yield from (f"{page}: {link}" for link in links if not os.path.exists(f"{os.path.dirname(page)}/{link}"))


class Links(unittest.TestCase):
    def test_commands(self):
        """Each file of bin/ starts its command, and is no link, which the toolchain refuses."""
        self.assertEqual(sorted(os.listdir(f"{TOP}/bin")), sorted(COMMANDS))
        for name, file in COMMANDS.items():
            with self.subTest(name):
                self.assertFalse(os.path.islink(f"{TOP}/bin/{name}"))
                self.assertTrue(os.access(f"{TOP}/bin/{name}", os.X_OK) and os.access(f"{TOP}/{file}", os.X_OK))
                self.assertIn(f'/../{file}" "$@"\n', read(f"{TOP}/bin/{name}"))

    def test_links(self):
        self.assertEqual([*dead_links(f"{TOP}/*.md", f"{TOP}/docs/*.md", f"{TOP}/tests/*.md")], [])

    def test_map(self):
        """Where to find it: each definition, each file of code with what is named there, and each test."""
        table = read(f"{TOP}/docs/ARCHITECTURE.md").split("## Where to find it", 1)[1].split("\n## ", 1)[0]
        rows = re.findall(r"^\| ([^|]*) \| ([^|]*) \| ([^|]*) \| ([^|]*) \|$", table, re.M)
        for what, specs, code, tests in rows[1:]:
            with self.subTest(what):
                first, *more = re.findall(r"`([\w/]+)`", specs)
                crate, folder = first.split("/", 1)[0], os.path.dirname(first.removesuffix("/"))
                for path in [first, *(f"{folder}/{name}" for name in more if name[0].isupper())]:
                    self.assertTrue(os.path.exists(f"{CRATES}/{path}.antt") or os.path.isdir(f"{CRATES}/{path}"), path)
                for path, name in re.findall(r"`([\w/]+(?:\.rt|/))`(?: \(`(\w+)`\))?", code):
                    places = f"{CRATES}/{path}", f"{CRATES}/{crate}/src/**/{path}"
                    found = [file for place in places for file in glob.glob(place, recursive=True)]
                    self.assertTrue(found, path)
                    self.assertTrue(not name or f"fn {name}" in read(found[0]), name)
                for path, name in re.findall(r"`([\w/]+)` \(`(\w+)`\)", specs):
                    self.assertIn(f"{name} :", read(f"{CRATES}/{path}.antt"))
                for path in re.findall(r"`([\w/]+)`", tests):
                    self.assertTrue(glob.glob(f"{TOP}/{path}*") or glob.glob(f"{CRATES}/{path}*"), path)

    def test_costs(self):
        ran = subprocess.run([f"{TOP}/tests/studies/reach"], capture_output=True, text=True)
        self.assertEqual((ran.returncode, ran.stderr), (0, ""))
        self.assertIn(f"\n\n{ran.stdout}", read(f"{TOP}/docs/CHANGING.md"), "tests/studies/reach --write")
