"""Each script runs on the oldest Python that is supported and on the newest, and says so on one that is too old."""
import ast
import glob
import os
import subprocess
import unittest
from functools import cache

from harness.place import Place
from harness.program import TOP

FLOOR = (3, 9)
READS = (3, 6)      # a script is read by this one as far as to say that it is too old
SCRIPTS = ("charts/ilocview", "cluster/ilocpieces", "grading/ilocgrade", "man/make")
SAYS = f"needs Python {FLOOR[0]}.{FLOOR[1]} or later, and this is "
PAGES = {"charts/floor.py": "if sys.version_info < ({}, {}):\n", "packaging/control": "python3 (>= {}.{})",
         "README.md": "Python {}.{}", "docs/INSTALL.md": "Python {}.{}", "install": "Python {}.{}",
         "package": "Python {}.{}"}
TASK, ROWS = "examples/class/tasks/both.iloc", "examples/class/submissions/ben/both.rows"
# What is run, by bash.
LINES = (
    "ilocpieces split examples/dot.iloc pieces", "ilocpieces job pieces ilocfarm counts", "ilocpieces join pieces",
    f"ilocview page {TASK} {ROWS}", f"ilocview timeline {TASK} {ROWS}", "ilocview compare examples/dot.iloc",
    "ilocgrade examples/class/tasks examples/class/submissions --pictures all --lenient",
    "cat grades/report.html grades/gradebook.csv grades/feedback/*/*",
    "ilocgrade examples/class/tasks programs --program ./schedule --out programmed",
    "man/make bin/ilocfarm made", "cat made/*",
)


def scripts():
    """What is started by Python of the folders that a release is made of."""
    found = [path for folder in ("charts", "cluster", "grading", "man") for path in glob.glob(f"{TOP}/{folder}/*")]
    for path in sorted(found):
        if os.path.isfile(path) and os.access(path, os.X_OK):
            with open(path, encoding="utf-8") as file:
                if file.readline() == "#!/usr/bin/env python3\n":
                    yield os.path.relpath(path, TOP)


@cache
def pythons():
    """By version the Pythons that are here."""
    names = [f"{folder}/python3.{minor}" for folder in os.environ["PATH"].split(os.pathsep) for minor in range(4, 30)]
    names += glob.glob(os.path.expanduser("~/.pyenv/versions/*/bin/python3"))
    found = {}
    for path in filter(os.path.exists, names):
        words = [path, "-c", "import sys; print(*sys.version_info[:2])"]
        done = subprocess.run(words, capture_output=True, text=True, check=False)
        if not done.returncode:
            found[tuple(map(int, done.stdout.split()))] = path
    return found


class Floor(Place):
    def test_each_script_asks(self):
        """Before it imports what an older Python may lack, and in words that it reads."""
        self.expect("scripts", tuple(scripts()), SCRIPTS)
        ast.parse(self.text("charts/floor.py"), feature_version=READS)
        for name in SCRIPTS:
            lines = [ast.unparse(line) for line in ast.parse(self.text(name), feature_version=READS).body[1:]]
            before = {line for line in lines[:lines.index("import floor")] if "import " in line}
            self.expect(name, before <= {"import os", "import sys"}, True)

    def test_pages_name_it(self):
        for name, words in PAGES.items():
            self.expect(name, words.format(*FLOOR) in self.text(f"{TOP}/{name}"), True)

    def test_older_ones(self):
        older = {version: path for version, path in pythons().items() if READS <= version < FLOOR}
        if not older:
            raise unittest.SkipTest("no Python is here that is too old")
        for version, path in older.items():
            for name in SCRIPTS:
                status, out, err = self.call(path, name)
                said = SAYS + ".".join(map(str, version)) + "."
                self.expect(f"{version} {name}", (status, out, said in err.decode()), (3, b"", True))
                self.expect("lines", err.count(b"\n"), 1)

    def test_oldest_and_newest(self):
        """They print what the Python of these tests prints."""
        supported = sorted(found for found in pythons().items() if found[0] >= FLOOR)
        usual = self.made()
        for version, path in {supported[0], supported[-1]}:
            print(f"Python {version[0]}.{version[1]}", flush=True)
            os.symlink(path, self.path("bin/python3"))
            begins = b"Python %d.%d." % version
            self.expect("version", self.call("python3", "--version")[1].startswith(begins), True)
            for line, made, due in zip(LINES, self.made(), usual):
                self.expect(f"Python {version}: {line}", made, due)
            os.remove(self.path("bin/python3"))

    def test_modules_of_others(self):
        """Packages that somebody installed may have the names of our modules."""
        usual = self.made()
        modules = {os.path.basename(path).removesuffix(".py") for folder in ("charts", "cluster", "grading", "man")
                   for path in glob.glob(f"{TOP}/{folder}/*") if os.path.isdir(path) or path.endswith(".py")}
        self.expect("modules", {"svg", "options", "completions", "programs"} <= modules, True)
        for name in modules:
            self.write(f"others/{name}.py", "raise SystemExit('the module of others')\n")
        self.environment["PYTHONPATH"] = self.path("others")
        self.expect("the same", self.made(), usual)

    def made(self):
        """What each script makes of the examples."""
        self.script("programs/ada/schedule", "#!/bin/sh\nexec cat both.rows\n")
        self.write("programs/ada/both.rows", self.read("examples/class/submissions/ada/both.rows"))
        self.call("rm", "-rf", "pieces", "grades", "programmed", "made")
        os.mkdir(self.path("made"))
        return [self.call("bash", "-c", line, PIECE="1") for line in LINES]
