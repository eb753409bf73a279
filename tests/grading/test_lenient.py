"""What --lenient takes out of texts: right schedules in sloppy forms get the marks that they have in the plain one."""
import random

from grading import classes
from grading.test_class import Graded
from harness.program import TESTED
from judged.students import RIGHT

GROUPS = 167        # of a schedule for each task: 2,004
LOGS = ("started", "output written to block05.rows", "[INFO] done", "cycles per operation: 0.7", "load average: 3.2",
        "block 5 done", "add r1", "9 rows", "[", "store", "block 1 x", "nop?", "-- ; --", "[3/14]", "total: 9 cycles")
# How a row is written: its number, and its operations by unit, '' where there is none.
FORMS = {
    "bare": lambda number, *row: ";".join(op or "nop" for op in row),
    "alone": lambda number, zero, one: zero or one if bool(zero) + one.startswith("mult") == 1 and not (zero and one)
    else f"{zero} ; {one}", "numbered": lambda number, *row: f"{number + 1}: [ {' ; '.join(row)} ]",
    "counted": lambda number, *row: f"  cycle {number}:\t{' ; '.join(op or 'nop' for op in row)}",
    "table": lambda number, *row: f"| {number} | {' | '.join(row)} |",
    "bars": lambda number, *row: f"[ {' | '.join(op or 'nop' for op in row)} ]",
    "commas": lambda number, *row: f"[{','.join(op or 'nop' for op in row)}]",
    "capitals": lambda number, *row: f"[ {' ; '.join(row)} ]".upper(),
    "ends": lambda number, *row: f"[ {' ; '.join(row)} ]," if number % 2
    else f"{' ; '.join(op or 'nop' for op in row)},", "plain": lambda number, *row: f"[ {' ; '.join(row)} ]",
}


def written(rows, form):
    """The lines of rows in a form."""
    return [FORMS[form](number, *("" if op is None else str(op) for op in row)) for number, row in enumerate(rows)]


class Lenient(Graded):
    def hand_in_text(self, student, lines, coding="utf-8", end="\n"):
        self.hand_in(student, end.join([*lines, ""]).encode(coding), "a.rows")

    def test_forms(self):
        """No right schedule loses by a form, nor by what is round it."""
        groups = range(GROUPS // 40 if TESTED.is_short else GROUPS)
        for made in classes.tasks():
            self.write("tasks/a.iloc", made.text())
            for group in groups:
                chance = random.Random(group)
                rows = classes.handed_in(made, RIGHT[group % len(RIGHT)], group)
                for form in FORMS:
                    self.hand_in_text(f"{group:03} {form}", written(rows, form))
                lines = written(rows, chance.choice([*FORMS]))
                log = [text for line in lines for text in (*chance.sample(LOGS, chance.randrange(3)), line)]
                self.hand_in_text(f"{group:03} log", log)
                coding = "utf-16" if group % 2 else "utf-8-sig"
                self.hand_in_text(f"{group:03} mark", written(rows, "bare"), coding, "\r\n")
            book = self.grade("--lenient", "--require", "outcome", tasks="tasks")
            self.expect("students", len(book), len(groups) * (len(FORMS) + 2))
            for name, line in book.items():
                self.expect(f"{made.name} {name}", [*line.values()][1:], [*book[f"{name[:3]} plain"].values()][1:])
            self.expect("right ones", min(float(line["total"]) for line in book.values()) >= 5, True)
