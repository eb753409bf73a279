"""What students hand in to harm those who grade it, and how they name it: each case with the mark that is due."""
import csv
import io
import os
import re
from concurrent.futures import ThreadPoolExecutor
from html import unescape
from urllib.parse import unquote

from grading.test_class import Graded
from grading.test_programs import NOBODY, TO_NOBODY, groups
from harness.program import needs

NAMES = [os.fsdecode(name) for name in (
    b"x\nben 10  lawful cycles 16", b"x\\nben", b"a  b", b"*", b";touch gone", b"-rf", b"--help", b"=1+1", b"+1", b"@x",
    b"$(touch gone)", b"'\"", b"<script>alert(1)", b"<img src=x onerror=alert(1)>", b"%s{0}", b"%2e", b"\xff\xfe",
    b"\t", b"\r=1", b"a,b", "Łukasz 李".encode(), b"\x1b[2J", b"::error::x", b"n" * 255, b"<" * 255, b"#", b"..x",
    b"a;=1+1", "\uff1d1+1".encode(), "a\uff1b=1+1".encode(), "\u202etxt".encode())]


class Hostile(Graded):
    def mark_names(self, *words):
        for name in NAMES:
            self.hand_in(name, self.rows())
        return self.grade(*words)

    def test_names(self):
        """Whatever a student's name, each has a line, points and feedback, and none changes another's."""
        os.makedirs(self.path("submissions/ben"))
        book = self.mark_names("--pictures", "all")
        points = {name: line["total"] for name, line in book.items()}
        self.expect("points", (len(points), points.pop("ben"), {*points.values()}), (len(NAMES) + 1, "0", {"10"}))
        computed = [cell for line in book.values() for cell in line.values() if cell.startswith(tuple("=+-@\t\r\n"))]
        self.expect("cells that a spreadsheet computes", computed, [])
        self.expect("nothing ran", os.path.exists(self.path("gone")), False)
        report = self.text("grades/report.html")
        self.expect("elements", re.findall(r"(?i)<(?:script|img|iframe)|<[^>]* on\w+=", report), ["<script"])   # ours
        links = [unquote(unescape(link)) for link in re.findall('(?:href|src)="([^"]*)"', report)]
        dead = [link for link in links if not os.path.exists(self.path(f"grades/{link}"))]
        self.expect("links, and dead ones", (len(links), dead), (3 * len(NAMES) + 1, []))
        self.expect("control characters", {letter for letter in report if letter < " "}, {"\n"})

    def test_planted(self):
        """Grades are made anew: a link that was put where they were leads nowhere, and nobody else may read them."""
        self.hand_in("right", self.rows())
        self.shell("mkdir -p grades/feedback; touch victim grades/gradebook.csv; cd grades;"
                   "ln -s ../victim report.html; ln -s ../../victim feedback/right")
        self.grade()
        self.expect("said", self.said, "grades.~1~ has the grades that were there\n"
                                       "1 student, 1 task, 1 of 1 passed: grades/report.html\n")
        self.expect("planted", self.read("victim"), b"")
        self.expect("mode", os.stat(self.path("grades")).st_mode & 0o777, 0o700)

    def graded_by_user(self, *words):
        """The gradebook by an ordinary user, where bubblewrap is forbidden."""
        self.script("bin/bwrap", "#!/bin/sh\nexit 1\n")
        self.user = TO_NOBODY * (os.geteuid() == 0)
        self.shell(f"rm -rf grades; chmod 755 .; chown {NOBODY} .")
        book = self.grade(*words)
        self.user = ()
        os.remove(self.path("bin/bwrap"))
        return book

    def test_closed(self):
        """Whose folder can't be entered, or goes meanwhile, loses alone."""
        names = [f"{number}" for number in range(40)]
        for name in "right", "closed", *names:
            self.hand_in(name, self.rows())
        self.shell("chmod 0 submissions/closed; mkdir gone")
        with ThreadPoolExecutor() as pool:
            graded = pool.submit(self.graded_by_user)
            while not graded.done():
                for there, gone in ((self.path(f"submissions/{name}"), self.path(f"gone/{name}")) for name in names):
                    os.rename(there, gone)
                    os.rename(gone, there)
        verdicts = {name: line["both verdict"] for name, line in graded.result().items()}
        self.expect("verdicts", (verdicts["right"], verdicts["closed"]), ("lawful", "refused"))

    def test_hand_ins(self):
        """As hand-ins.cases says, rows are found where it is clear which are meant, and read by --lenient from what is
        round them; else the student loses alone."""
        for words, due in groups("hand-ins"):
            for name, (_, lines) in due.items():
                self.hand_in(name, self.rows())
                self.shell(f"cd 'submissions/{name}'; {lines}")
            plain = self.graded_by_user(*words)
            lenient = self.grade(*words, "--lenient", "--penalty", "1")
            self.expect("students", ({*plain}, {*lenient}), ({*due}, {*due}))
            for name, (wanted, _) in due.items():
                verdict, _, points = wanted.partition("|")
                usual, got = "10" if verdict == "lawful" else "0", plain[name]
                self.expect(f"{name} is {got}", (got["total"], verdict in (got["both verdict"], "0")), (usual, True))
                self.expect(f"{name} by --lenient", lenient[name]["total"], points or usual)
            self.shell("rm -r submissions")
        for name, path in ("other", "Both.rows"), ("zip", "lab.zip/lab/out/Both.rows"):
            said = self.text(f"grades.~1~/feedback/{name}/feedback.txt").splitlines()
            self.expect(f"said of {name}", said[-1], f"  Read from {path}.")

    def test_pandas(self):
        """The gradebook as pandas reads it."""
        try:
            import pandas
        except ImportError:
            self.skipTest("pandas isn't installed")
        self.mark_names()
        book = pandas.read_csv(io.StringIO(self.text("grades/gradebook.csv"), newline=""), keep_default_na=False)
        self.expect("table", (len(book), set(book.total), list(book.columns)),
                    (len(NAMES), {10}, ["student", "total", "both", "both verdict", "both cycles"]))

    def test_libreoffice(self):
        """The gradebook as LibreOffice reads it: no cell is computed."""
        needs("soffice")
        self.mark_names()
        self.call("soffice", f"-env:UserInstallation=file://{self.folder}/profile", "--headless", "--convert-to",
                  "csv:Text - txt - csv (StarCalc)", "--outdir", self.folder, self.path("grades/gradebook.csv"))
        with open(self.path("gradebook.csv"), newline="", encoding="utf-8") as file:
            self.expect("totals", [row[1] for row in csv.reader(file)][1:], ["10"] * len(NAMES))
