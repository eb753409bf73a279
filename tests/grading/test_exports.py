"""A class of 120 as a course's site exports it, and its table with the points of each filled in."""
import random
import re
import unicodedata
from functools import partial
from itertools import product
from types import SimpleNamespace

from grading.test_class import BOTH, Graded
from harness.program import TESTED

FIRST = ("Ann", "José", "李", "Mary Jane", "O'Neil", "=1+1", "Zoë")
LAST = ("Adams", "de la Cruz", "Łukasz", "X", "Smith-Jones")
POINTS = {"ada": "10", "ben": "0", "fay": "7.62", "": "0"}      # of examples/class, or nothing is handed in
DUE = ("--due", "2026-11-20T23:59+00:00")


class One:
    def __init__(self, number, first, last):
        self.number, self.first, self.last, self.name = number, first, last, f"{first} {last}"
        self.kind, self.is_late, self.attempt = [*POINTS][number % 4], number % 5 == 0, 1 + number % 3
        self.id, self.user = f"{9000 + number}", f"u-{number}" if number % 2 else f"user{number}"
        self.short = "".join(letter for letter in f"{last}{first}".lower() if letter.isalnum())
        self.history = "".join(f"\n  - :id: {k}" for k in range(1, self.attempt)) or " []"


CHANCE = random.Random(1)
STUDENTS = [One(number, CHANCE.choice(FIRST), CHANCE.choice(LAST)) for number in range(120)]    # with names in common
LATER = [one for one in STUDENTS[::13] if one.kind]     # hand in when the others are graded
# By coding a table as a site has it: head, who submitted, who didn't, that one's name, and the last cells of both when
# they are filled.
TABLES = {
    "utf-8": ("Full name;Maximum Grade;Grade", "José X;100,0;EX", "Jo B;100,0;-", "Jo B", "EX", "0"),
    "utf-8-sig": ("First Name,Last Name,SID,Score,Grade", "José,X,5,1,2", "Jo,B,,,", "Jo B", "10", "0"),
    "utf-16": ("assignment_name\tgithub_username\tGrade", "lab3\tJosé X\t0", "lab3\tjob\t0", "job", "10", "0"),
    "cp1252": ("Student;ID;Grade", "José X;5;", '"B, Jo";6;', "B, Jo", "10", "0")}


class Site(SimpleNamespace):
    """Formats of what a site writes about `one`: paths of the rows and of what is beside them, head, line and last of
    its table, about a submission, and `again` for --only; `late` is its word for who is in time and for who is late."""
    last = about = ""

    def format(self, text, one, **more):
        return text.format(one=one, late=self.late[one.is_late], **more)

    def files(self, one, rows, tasks):
        """Paths with what is there. An attempt whose file isn't the last one's is wrong."""
        for attempt, task in product(range(1, one.attempt + 1), tasks):
            for path, data in zip(self.paths, (rows if attempt == one.attempt else b"[ nop ]\n", b"", b"")):
                again = f"-{attempt - 1}" * (attempt > 1)
                yield self.format(path, one, attempt=attempt, again=again, task=task), data

    def table(self, points):
        lines = "".join(self.format(self.line, one, points=points[one.kind]) for one in STUDENTS)
        return self.head + lines + self.last


SITES = {
    # Files of all in one folder; a later attempt has a number. Its table has lines that are no students.
    "canvas": Site(
        again="{one.id}", words=(), by="ID", column="Lab 3 (4711)", late=("", "LATE_"),
        paths=["{one.short}_{late}{one.id}_7700{attempt}_{task}{again}.rows"],
        head="Student,ID,SIS User ID,SIS Login ID,Section,Lab 3 (4711),Lab 4 (4712)\r\n"
        "    Points Possible,,,,,10.00,(read only)\r\n",
        line='"{one.last}, {one.first}",{one.id},s{one.id},{one.user},A;1,{points},3\r\n',
        last='"Student, Test",77,,,A,,\r\n'),
    # A folder a submission, and a file of YAML that says whose.
    "gradescope": Site(
        words=DUE, by="SID", column="Score", late=("20", "21"), again="{one.user}@X.edu",
        paths=["submission_33{one.number:04}/{task}.rows"],
        head="First Name,Last Name,SID,Email,Score\n",
        line="{one.first},{one.last},{one.id},{one.user}@x.edu,{points}\n",
        about="""\
submission_33{one.number:04}:
  :submitters:
  - :name: "{one.name}"
    :sid: '{one.id}'
    :email: {one.user}@x.edu
  :created_at: 2026-11-{late} 22:59:00.000000000 Z
  :score: 0.0
  :status: processed
  :history:{one.history}
"""),
    # A repository a student, with a folder for what is handed in.
    "github": Site(
        words=(*DUE, "--late", "site.csv"), by="github_username", column="points_awarded", late=("20", "21"),
        again="{one.user}",
        paths=["lab3-{one.user}/rows/{task}.rows", "lab3-{one.user}/.git/config", "lab3-{one.user}/README.md"],
        head='"roster_identifier","github_username","submission_timestamp","points_awarded"\r\n',
        line='"{one.id}","{one.user}","2026-11-{late} 22:59:00 UTC","{points}"\r\n'),
    # A folder a student; its table has a mark of bytes, semicolons, and words for how late.
    "moodle": Site(
        words=("--late", "site.csv"), by="Identifier", column="Grade", late=("", " - 23 hours 59 mins late"),
        again="{one.id}",
        paths=["{one.name}_{one.id}_assignsubmission_file/{task}.ROWS",
               "{one.name}_{one.id}_assignsubmission_onlinetext/onlinetext.html"],
        head="\ufeffIdentifier;Full name;Status;Grade;Feedback comments\r\n",
        line='Participant {one.id};{one.name};Submitted for grading{late};{points};"two\nlines"\r\n')}


class Exports(Graded):
    def export(self, site, students, tasks):
        for student in students:
            for path, data in site.files(student, self.rows(student.kind), tasks):
                self.write(f"export/{path}", data)
        if site.about:
            about = (site.format(site.about, student) for student in students)
            self.write("export/submission_metadata.yml", "---\n" + "".join(about))
        self.write("export/__MACOSX/._both.rows", b"")
        self.write("site.csv", site.table(dict.fromkeys(POINTS, "")))

    def test_sites(self):
        """Each student has the right points, days and attempt, and the table one column filled: also who is graded when
        all others are. What is written is the same as if everybody were graded anew, from a zip."""
        tasks = [f"Both{k}" for k in range(1 if TESTED.is_short else 10)]
        points = {kind: f"{float(each) * len(tasks):.12g}" for kind, each in POINTS.items()}
        for task in tasks:
            self.write(f"tasks/{task}.iloc", self.read(f"{BOTH}/both.iloc"))
        grade = partial(self.grade, tasks="tasks")
        for name, site in SITES.items():
            with self.subTest(name):
                self.shell("rm -rf export* grades* late")
                words = "--roster", "site.csv", "--by", site.by, "--merge", "site.csv", "--column", site.column
                words += site.words
                handed_in = [one for one in STUDENTS if one.kind]
                self.export(site, [one for one in handed_in if one not in LATER], tasks)
                grade(*words, submissions="export")
                self.export(site, handed_in, tasks)
                again = [site.format(site.again, one) for one in LATER]
                book = grade(*words, "--only", *again, submissions="export")
                self.expect("students", len(book), len(STUDENTS))
                for line in "30 on the roster submitted nothing:", f"export is read by --layout {name}":
                    self.expect(line, line in self.said, True)
                self.expect("merged", self.text("grades/merged.csv"), site.table(points))
                by_id = {line["id"]: line for line in book.values()} if name != "github" else {}
                for student in STUDENTS:
                    line = by_id.get(student.id) or book[student.user]
                    days = "1" if student.is_late and student.kind else ""
                    attempt = f"{student.attempt}" if student.kind and name in ("canvas", "gradescope") else ""
                    self.expect(f"{student.name}", (line["total"], line["days late"], line.get("attempt", "")),
                                (points[student.kind], days, attempt))
                files = "export/*" if name == "canvas" else "export"
                self.shell(f"mv grades late; python3 -m zipfile -c export.zip {files}")
                grade(*words, submissions="export.zip")
                self.expect("anew", self.shell("diff -r grades late"), (0, b""))

    def test_tables(self):
        """Whom two lines name is filled nowhere, which is said; what a table lacks is said before anybody is graded."""
        for name in "Ann X_1", "Ann X_2", "=1+1_3":
            self.write(f"export/{name}_assignsubmission_file/both.rows", self.rows())
            self.write(f"export/{name}_assignsubmission_onlinetext/onlinetext.html", b"")
        self.write("export/Bo_4_assignsubmission_onlinetext/onlinetext.html", b"")
        text = '\ufeffName;ID;"Grade ""x"""\r\nAnn X;1;\r\n"Ann X";2;?\r\n=1+1;"3";"?"\r\n\r\n'
        self.write("site.csv", text)
        for by, lines in (("Name", 'Ann X;1;\r\n"Ann X";2;?\r\n'), ("id", 'Ann X;1;10\r\n"Ann X";2;10\r\n')):
            words = "--merge", "site.csv", "--by", by, "--column", 'Grade "x"'
            book = self.grade(*words, submissions="export")
            self.expect("a text alone", (len(book), book["Bo"]["both verdict"]), (4, "missing"))
            self.expect(by, self.said.count("Ann X is more than one"), 2 * (by == "Name"))
            self.expect(by, self.text("grades/merged.csv"), text[:text.index("Ann")] + lines + '=1+1;"3";"10"\r\n\r\n')

    def test_as_they_come(self):
        """Without --by a table names students as its site does, however accents are written; words in it stay."""
        self.hand_in(unicodedata.normalize("NFD", "José X"), self.rows())
        for coding, (head, one, other, absent, *filled) in TABLES.items():
            self.write("site.csv", "\n".join((head, one, other, "")).encode(coding))
            book = self.grade("--roster", "site.csv", "--merge", "site.csv", "--column", "Grade")
            self.expect(coding, {unicodedata.normalize("NFC", name): line["total"] for name, line in book.items()},
                        {"José X": "10", absent: "0"})
            between = max(";,\t", key=head.count)
            lines = [between.join((*line.split(between)[:-1], cell)) for line, cell in zip((one, other), filled)]
            self.expect("merged", self.read("grades/merged.csv"), "\n".join((head, *lines, "")).encode(coding))
            said = {"utf-8": {": Grade is out of 100.0 points, not 10", ": kept in Grade: EX (1)"},
                    "cp1252": {" isn't UTF-8, and is read as Windows-1252"}}.get(coding, set())
            self.expect("said", {*re.findall("site.csv(.*)", self.said)}, said)
        self.write("site.csv", b"\x81\n")
        self.grade("--roster", "site.csv", status=3)
        self.expect("unreadable", re.findall("site.csv(.*)", self.said), [": expected a table as text: save it as CSV"])

    def test_attempts(self):
        """The last attempt counts, in whatever order files are; a task's own number is none."""
        for name in "lab-1", "lab":
            self.write(f"tasks/{name}.iloc", self.read(f"{BOTH}/both.iloc"))
        for number, name in enumerate(("lab-1.rows", "lab-1-10.rows", "lab-1-9.rows", "lab.rows")):
            self.write(f"export/annx_7_{number}_{name}", b"" if name == "lab-1-9.rows" else self.rows())
        book = self.grade(tasks="tasks", submissions="export")["annx"]
        self.expect("points", (book["lab-1"], book["lab"], book["attempt"], book["id"]), ("10", "10", "11", "7"))
        self.expect("notes", [line for line in self.feedback("annx") if line.startswith("Note")],
                    [f"Note: lab-1.rows of attempt {k} isn't counted, but that of attempt 11." for k in (1, 10)])
