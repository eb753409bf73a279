"""What a course asks for: own points, days, hidden tasks, one student again, a build, whose are alike."""
import zipfile

from grading import classes
from grading.test_class import BOTH, CLASS, Graded
from harness.program import needs_bubblewrap
from language import USUAL
from oracle.judge import Entry
from oracle.reader import Block


class Course(Graded):
    def test_points(self):
        """Points by task, days late and hidden tasks: feedback has what each costs."""
        text = self.read(f"{BOTH}/both.iloc")
        self.write("tasks/both.iloc", text)
        self.write("tasks/other.iloc", b"//POINTS: 20\n" + text)
        for name in "ada", "ben", "fay":
            self.hand_in(name, self.rows(name))
            self.hand_in(name, self.rows(name), "other.rows")
        self.write("late.csv", "name;late\nFay;2\nben;30:00:00\nada;\n")
        words = "--late", "late.csv", "--per-day", "1.5", "--hidden", "other", "--floor", "0"
        book = self.grade(*words, tasks="tasks")
        fay = round(10 * (1 - 5 / 21), 2), round(20 * (1 - 5 / 21), 2)
        cells = ("both", "other", "total", "days late")
        self.expect("points", {name: tuple(line[cell] for cell in cells) for name, line in book.items()}, {
            "ada": ("10", "20", "30", ""), "ben": ("0", "0", "0", "2"),
            "fay": (f"{fay[0]}", f"{fay[1]}", f"{round(sum(fay) - 3, 2)}", "2")})
        said = self.feedback("fay")
        self.expect("feedback", (said[:2], said[-1]), (
            ["19.86 of 30 points", "2 days late: 3 points less."], f"other: {fay[1]} points. The task is hidden."))

    def test_partial(self):
        """Half for what is wrong but prints, by the oracle, the right words on the task's memory."""
        due = {}
        for name, made, _, rows in self.class_of(classes.tasks()[::3]):
            differs = Entry(1, Block("B1", made.ops, rows), USUAL, made.start).differs_on(made.start, True)
            due[name, made.name] = not differs, classes.keeps_operations(made, rows)
        for required in "operations", "outcome":
            book, halves = self.grade("--partial", "0.5", "--require", required, tasks="tasks"), 0
            for (name, task), (prints, keeps) in due.items():
                if book[name][f"{task} verdict"] == "differs":
                    is_half = prints and (keeps or required == "outcome")
                    halves += is_half
                    self.expect(f"{required} {name} {task}", book[name][task], "5" if is_half else "0")
            self.expect("some have half", halves > 9, True)

    def test_again(self):
        """One student again: everybody else's lines and feedback are as before, and what was there is kept."""
        self.shell(f"cp -rL {CLASS} submissions")
        self.grade("--pictures", "all")
        before, feedback = self.text("grades/gradebook.csv").splitlines(), self.feedback("fay")
        self.hand_in("ben", self.rows())
        self.hand_in("dan", b"")
        self.grade("--only", "ben", "--policy", "pass")
        after = self.text("grades/gradebook.csv").splitlines()
        self.expect("others", [*before[:2], "ben,10,10,lawful,16", *before[3:]], after)
        self.expect("feedback", self.feedback("fay"), feedback)
        self.grade("--only", "zoe", status=3)
        self.expect("strange", self.said, "ilocgrade: --only: there is no student zoe\n")

    def test_build(self):
        """A program is built once within the walls, from a folder or an archive, and what fails to is said."""
        needs_bubblewrap()
        make, rows = b"schedule: rows\n\tprintf '#!/bin/sh\\ncat rows\\n' > $@; chmod +x $@\n", self.rows()
        for file, data in {"lab/Makefile": make, "lab/rows": rows, "Makefile": b"schedule:\n\tfalse\n"}.items():
            self.write(file, data)
        self.shell("mkdir -p submissions/zip submissions/fails; python3 -m zipfile -c submissions/zip/lab.zip lab;"
                   "python3 -m zipfile -c submissions/fails/lab.zip Makefile")
        for file, data in {"Makefile": make, "rows": rows, "lib/more/x.zip": b"", "x.zip": b""}.items():
            self.hand_in("plain", data, file)       # of which the archives are none of what is handed in
        book = self.grade("--program", "./schedule", "--build", "make")
        self.expect("marks", [(line["both verdict"], bool(line["both seconds"])) for line in book.values()],
                    [("crashed", False), ("lawful", True), ("lawful", True)])
        self.expect("fails", "  It ended with status 2:" in self.feedback("fails"), True)

    def test_alike(self):
        """Equal bytes, our own schedule and pairs with the same mistake are listed for staff alone."""
        wrong = self.rows("ben").replace(b"r1,", b"r77,").replace(b"r1 ", b"r77 ")
        own = self.printed("ilocfarm", "schedule", given=self.read(f"{BOTH}/both.iloc")).replace(b" ; ", b";")
        for task in "both", "other":
            self.write(f"tasks/{task}.iloc", self.read(f"{BOTH}/both.iloc"))
            for name, rows in ("ada", self.rows()), ("ann", self.rows()), ("ben", self.rows("ben")), ("bob", wrong):
                self.hand_in(name, rows, f"{task}.rows")
        self.hand_in("own", b"// mine\n" + own.partition(b"\n")[2], "other.rows")
        self.grade(tasks="tasks")
        page = self.text("grades/report.html")
        way = "the same mistake with other registers"
        for line in ("<li>both: byte-identical, and right: ada; ann", f"<li>both: {way}: ben; bob",
                     f"<tr><th>ben; bob</th><td>2</td><td>{way}: both, other",
                     "<tr><th>own</th><td>1</td><td>equal to our own schedule: other"):
            self.expect(line, f"{line}</" in page, True)

    def test_groups(self):
        """All of a group have the marks of who submitted, who isn't alike by that; a site's zip has feedback once."""
        for path, name in ("fay_LATE_6_71_both.rows", "fay"), ("ben_1_72_both.rows", "ben"):
            self.write(f"export/{path}", self.rows(name))
        words = ("--roster site.csv --by ID --groups groups.csv --per-day 2 --merge site.csv --column Lab "
                 "--column both=Task").split()
        table = 'Student,ID,Lab,Task\n"Fox, Fay",6,{0},{1}\nZoe,7,{0},{1}\nBen,1,{2},{2}\n'
        self.write("site.csv", table.format("", "", ""))
        self.write("groups.csv", "name,canvas_user_id,group_name\nFay,6,T\nZoe,7,t\nBen,1,\nJan,9,U\n")
        self.grade(*words, submissions="export")
        self.expect("merged", self.text("grades/merged.csv"), table.format("5.62", "7.62", "0"))
        self.expect("alike", "<h2>Alike" in self.text("grades/report.html"), False)
        feedback = self.feedback("Zoe")
        self.expect("feedback", feedback[2], "Note: submitted by fay.")
        with zipfile.ZipFile(self.path("grades/feedback.zip")) as archive:
            self.expect("zip", sorted(archive.namelist()), ["ben_1_72_both.rows", "fay_LATE_6_71_both.rows"])
            said = archive.read("fay_LATE_6_71_both.rows").decode().splitlines()
            self.expect("zip", said, [line for line in feedback if "Note" not in line])
        for name, rows, points in ("7", "ada", ("8", "10")), ("fox, FAY", "fay", ("5.62", "7.62")):
            self.write("export/fay_LATE_6_71_both.rows", self.rows(rows))
            self.grade(*words, "--only", name, submissions="export")
            self.expect(f"--only {name}", self.text("grades/merged.csv"), table.format(*points, "0"))

    def test_teams(self):
        """A repository is a team's whose students a table has; and Moodle's zip has feedback in its folders."""
        for team, name in ("red-ones", "ada"), ("blue", "ben"):
            self.write(f"export/lab3-{team}/both.rows", self.rows(name))
            self.write(f"export/lab3-{team}/.git/config", b"")
        self.write("groups.csv", "name,team\nann,red-ones\nbob,Blue\nzoe,red-ones\n")
        book = self.grade("--groups", "groups.csv", submissions="export")
        points = {name: line["total"] for name, line in book.items()}
        self.expect("points", points, {"ann": "10", "zoe": "10", "bob": "0"})
        self.shell("rm -r export; mkdir -p 'export/Ben B_7_assignsubmission_file_'")
        self.write("export/Ben B_7_assignsubmission_file_/both.rows", self.rows("ben"))
        self.grade("--pictures", "wrong", submissions="export")
        with zipfile.ZipFile(self.path("grades/feedback.zip")) as archive:
            self.expect("zip", sorted(archive.namelist()), [
                f"Ben B_7_assignsubmission_file_/{name}" for name in ("both.html", "both.svg", "feedback.txt")])
