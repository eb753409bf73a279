"""A class made anew, of which the oracle knows the points; and how policies give them."""
import csv
import os
import re
from functools import partial
from html import unescape

from grading import classes
from harness.place import Place
from harness.program import TOP
from harness.suite import rows_of
from judged.test_rows import LISTED, WORDS
from oracle.judge import proposed

BOTH, CLASS = "examples/class/tasks", "examples/class/submissions"
BEST = ("ada", "dan", "fay")
# Lines of a block and rows that are shown as they are, with nothing else; and what is listed of one block.
PLAIN, ONE = re.compile(r"(?:(?!block|cycles|total)[ -~]{,64}\n)*"), re.compile(r"block 1 .*\n(?:  .*\n)*total .*\n")
# Options, and the points of ada (lawful, 16 cycles as ours and the least), dan (same, 15) and fay (lawful, 21).
POLICIES = {
    "": (10, 10, 7.62), "--policy pass": (10, 10, 10), "--policy least": (10, 10, 7.62),
    "--policy best": (9.38, 10, 7.14), "--per-cycle 1": (10, 10, 5), "--per-cycle 0.5 --points 4": (4, 4, 2),
    "--per-cycle 2 --floor 0": (10, 10, 0), "--floor 1": (10, 10, 10), "--points 0": (0, 0, 0),
    "--require lawful": (10, 0, 7.62), "--require outcome": (10, 10, 7.62), "--penalty 3": (10, 10, 7.62),
    "--check=--store=4": (9.38, 10, 7.14), "--disambiguate": (9.38, 10, 7.14)}     # dan's beat the bound by the book


class Graded(Place):
    """A place with a class, graded by whoever runs the tests, or by a user whom these words make."""
    user, said = (), ""

    def rows(self, name="ada"):
        """What somebody of the class of the examples hands in."""
        return self.read(f"{CLASS}/{name}/both.rows")

    def hand_in(self, name, data, file="both.rows"):
        self.write(f"submissions/{name}/{file}", data)

    def is_running(self, argument):
        return self.call("pgrep", "-f", argument)[0] == 0

    def feedback(self, name):
        return self.text(f"grades/feedback/{name}/feedback.txt").splitlines()

    def grade(self, *words, tasks=BOTH, submissions="submissions", command=("ilocgrade",), status=0):
        """The gradebook by name, where it ends with this status; and notes what is said."""
        ended, out, err = self.call(*self.user, *command, tasks, submissions, "--pictures", "none", *words)
        self.said = (out + err).decode(errors="replace")
        self.expect(f"status: {self.said}", (ended, "Traceback" in self.said), (status, False))
        if not status:
            with open(self.path("grades/gradebook.csv"), newline="", encoding="utf-8") as file:
                return {line["student"]: line for line in csv.DictReader(file)}

    def class_of(self, tasks, step=1):
        """Hands in for these tasks, one student in so many: name, task, kind and rows of each hand-in."""
        for made in tasks:
            self.write(f"tasks/{made.name}.iloc", made.text())
            for number, (name, kind) in [*enumerate(classes.STUDENTS.items())][::step]:
                rows = classes.handed_in(made, kind, number)
                self.hand_in(name, proposed(1, "B1", rows, number if number % 3 else None), f"{made.name}.rows")
                yield name, made, kind, rows


class Class(Graded):
    def test_reasons(self):
        """Feedback says what `check` lists of a block of rows.cases below its verdict, each reason in its sentence."""
        forms, seen, due = rows_of(f"{TOP}/tests/grading/reasons.tsv"), set(), {}
        for name, (text, options, out, _) in LISTED.items():
            block, bracket, rows = text.partition("[")
            path, words = f"tasks/{name}.iloc", (*WORDS, "--task", f"tasks/{name}.iloc")
            if options in ([], ["--lawful"]) and PLAIN.fullmatch(text) and ONE.fullmatch(out):
                self.write(path, f"//SIM INPUT: -i 4 9\n{block}")
                if b" void " in self.call("ilocfarm", *words)[1]:
                    os.remove(self.path(path))
                    continue
                self.hand_in("ada", bracket + rows, f"{name}.rows")
                listed = self.call("ilocfarm", *words, given=(bracket + rows).encode())[1].decode().splitlines()[1:-1]
                found = [next((sentence, found) for sentence, form in forms
                              if (found := re.fullmatch(form, line.strip()))) for line in listed]
                seen |= {sentence for sentence, _ in found}
                due[name] = [sentence.format(*match.groups()) for sentence, match in found]
        self.grade("--require", "lawful", tasks="tasks")
        said = re.sub(r" \(line \d+\)", "", "\n".join(self.feedback("ada"))).split("\n\n")[1:]
        for (name, wanted), text in zip(sorted(due.items()), said, strict=True):
            told = text.split("\n  ")[1:]       # of broken units also what is left out, and of a line its text
            told = told[-1:] if "rules of the units" in text else told
            self.expect(name, [line[:len(due)] for line, due in zip(told, wanted, strict=True)], wanted)
        self.expect("forms that were tried", seen, {sentence for sentence, _ in forms})

    def test_kinds(self):
        """No right hand-in gets less than its points, no wrong one any, and a cheat what the policy gives: nothing."""
        due = {}
        for name, made, kind, rows in self.class_of(classes.tasks()):
            due[name, made.name] = kind in classes.RIGHT, classes.keeps_operations(made, rows), *made.judged(rows)
        for required in "operations", "outcome":
            book = self.grade("--require", required, tasks="tasks")
            self.expect("students", len(book), len(classes.STUDENTS))
            for (name, task), (is_right, keeps, passes, points) in due.items():
                got, verdict = float(book[name][task]), book[name][f"{task} verdict"]
                is_due, is_wrong = passes or is_right and (keeps or required == "outcome"), passes is False
                is_wrong = is_wrong or not keeps and required == "operations"
                wanted = [points] if is_due else [0] if is_wrong else [0, points]
                self.expect(f"{name} {task} {verdict}: {got} is one of {wanted}", got in wanted, True)

    def test_policies(self):
        for words, points in POLICIES.items():
            book = self.grade(*words.split(), submissions=CLASS)
            got = {name: float(line["total"]) for name, line in book.items() if name != "ivy"}
            self.expect(words, got, {**dict.fromkeys(got, 0), **dict(zip(BEST, points))})
            for page in "report.html", "feedback/dan/feedback.txt":
                is_said = "the bound with addresses compared" in self.text(f"grades/{page}")
                self.expect(f"{page}: addresses are compared", is_said, words == "--disambiguate")

    def test_pages(self):
        """A link leads to the page that ilocview draws of a hand-in, which says what the feedback does."""
        plain = partial(re.sub, "(?s)<title>.*?</title>|<ul class=.said.*?</ul>", "")
        for words in (), ("--load=6",):
            self.call("ilocgrade", BOTH, CLASS, *(f"--check={word}" for word in words))
            for name in "ben", "eve":
                page, task, rows = f"feedback/{name}/both.html", f"{BOTH}/both.iloc", f"{CLASS}/{name}/both.rows"
                made = self.text(f"grades/{page}")
                due = self.printed("ilocview", "page", task, rows, *words).decode()
                self.expect(f"{name}'s page", plain(made), plain(due))
                said = unescape(re.sub("<.*?>", "", made[made.index("<ul class=\"said wrong"):]))
                for line in self.feedback(name)[3:-2]:
                    self.expect(f"{name}'s page says {line}", line.strip() in said, True)
                self.expect(f"{name}'s link", f'href="{page}"' in self.text("grades/report.html"), True)
            for name in ("cem", "gus") if words else ("ada", "cem", "gus"):     # with --load=6 hers is wrong too
                self.expect(f"{name}'s page", os.path.exists(self.path(f"grades/feedback/{name}/both.html")), False)

    def test_statuses(self):
        """A student's fault is none of the command's; what isn't graded is said in a line, which a table has whole from
        `ilocgrade: ` on, or a part of it."""
        self.shell("mkdir empty open faults two rows unread shows input twice; chmod 777 open; ln -s two link;"
                   "echo output 1 > faults/a.iloc; echo output > unread/a.iloc; echo 'loadI 1 => r1' > shows/a.iloc;"
                   "printf 'a: output 4\\nb: output 8\\n' > two/a.iloc; echo '[ nop ]' > rows/a.iloc;"
                   "echo output 4 | tee twice/a.i > twice/a.iloc;"
                   "printf '//SIM INPUT: -r 1\\noutput 4\\n' > input/a.iloc;"
                   "mkdir -p moodle/Ann_{1,2}_assignsubmission_file; echo 'Name;ID;Grade x' > site.csv;"
                   "printf 'name,late\\nAnn,soon 1\\n' > late.csv; printf 'ID,Grade\\n1\\n2,\\n' > short.csv;"
                   "printf '\\xef\\xbb\\xbfStudent,Section\\r\\nzoe,1\\r\\nada,2' > headed.csv;"
                   "printf 'zoe\\n\\nada\\n' > bare.csv; touch none.csv; printf 'PK\\201' > x.xlsx")
        for line, status, said in rows_of(f"{TOP}/tests/grading/statuses.tsv"):
            line = line.replace("TASKS", BOTH).replace("CLASS", CLASS)
            got, out = self.shell(f"ilocgrade --pictures none {line}")
            is_said = out.decode() == f"{said}\n" if said.startswith("ilocgrade: ") else said in out.decode()
            self.expect(f"{line}: {out}", (got, is_said, b"Traceback" in out), (int(status), True, False))
