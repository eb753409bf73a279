"""Marks: what is said of each hand-in, and the points that a policy gives for it."""
import hashlib
import re
from dataclasses import dataclass, field
from pathlib import Path

from judge import Task, alone
from language import PASSING
from words import count, faults, key_of, shown

OURS, SAME_WAY = "equal to our own schedule", "the same mistake with other registers"


class NoRows(Exception):
    """There is nothing to judge: the verdict, and why in lines."""

    def __init__(self, verdict, *lines):
        super().__init__(*lines)
        self.verdict, self.lines = verdict, list(lines)


@dataclass
class Mark:
    task: Task
    verdict: str                # the program's, or another of sentences.ini
    lines: list                 # why
    notes: list = field(default_factory=list)       # of what `--lenient` changed
    cycles: int = None
    line: int = None            # of the hand-in, the first with something to say
    pictures: list = field(default_factory=list)    # names of files
    prints: bool = False        # what it should on the memory that is handed in, though it is wrong on another
    seconds: float = None       # that a program computed
    alike: dict = field(default_factory=dict)       # by how hand-ins may be alike, what is equal where they are
    points: float = 0.0

    def passes(self):
        return self.verdict in PASSING

    def ratio(self):
        """How many times the bound it takes."""
        return self.cycles / max(1, self.task.least)


@dataclass
class Student:
    name: str
    path: Path
    id: str = ""                # as a course's site has it
    email: str = ""
    plain: str = ""             # the name, where it may be another's too
    listed: str = ""            # the name on the roster
    days: int = 0               # late
    attempt: int = None
    files: dict = None          # in a folder for all, by the names that the student gave them
    site: str = ""              # where a site takes feedback: a file's name, or how those of files begin
    notes: list = field(default_factory=list)
    row: list = field(default_factory=list)         # a mark a task
    less: float = 0.0           # points, for being late

    def keys(self):
        """What the student is known by, the surest first."""
        texts = self.id, self.email, self.name, self.plain, self.listed
        return [*dict.fromkeys(key_of(text) for text in texts if text)]

    def hand_in(self):
        """What was submitted; a group's students have the same."""
        return f"{self.path}", *sorted((self.files or {}).values())

    def total(self):
        return round(max(0, sum(mark.points for mark in self.row) - self.less), 2)

    def points(self, at):
        """Of a task, by its place; None for the total."""
        return self.total() if at is None else self.row[at].points

    def said(self):
        """What is said of all that was handed in."""
        late = f"{count(self.days, 'day')} late" + f": {count(self.less, 'point')} less" * bool(self.less)
        return [f"{late}."] * bool(self.days) + [f"Note: {note}." for note in self.notes]


def alike(rows, verdict, task):
    """By how hand-ins may be alike, what is equal where they are."""
    passes, names = verdict in PASSING, {}
    texts = {"byte-identical" + ", and right" * passes: rows}
    if not passes:
        plain = re.sub(rb"\br\d+", lambda found: b"r%d" % names.setdefault(found[0], len(names)), rows)
        texts[SAME_WAY] = re.sub(rb"//.*|\s+", b"", plain)
    if alone(rows) == task.schedule:
        texts[OURS] = task.schedule
    return {how: hashlib.sha256(text).hexdigest() for how, text in texts.items() if text}


def judged(task, said, rows, required):
    """The mark of rows of which the program has a record, which may pass there and not as a course requires."""
    verdict, found, is_other = said["verdict"], said["difference"], said["left_out"] or said["added"]
    if verdict in PASSING and not said["passes"]:
        verdict = "changed" if required == "operations" or is_other else "unlawful"
    prints = found and (required == "outcome" or not is_other) and (said["memory"] or found["kind"] == "word")
    lines = [reason.get("line") or rows.line_of(reason["row"]) for reason in said["reasons"] if "row" in reason]
    told = [] if verdict in PASSING else [*faults(said, rows)]
    told += [f"You claim {count(said['claimed'], 'cycle')}."] * (said["claimed"] not in (None, said["cycles"]))
    return Mark(task, verdict, told, rows.notes, said["cycles"], next(iter(lines), None),
                prints=bool(prints), alike=alike(rows.data, verdict, task))


def refused(task, why, rows):
    """The mark of a text that the program refuses, maybe for one of its lines."""
    found = re.match(r"line (\d{1,9}):", why)
    line = int(found[1]) if found else None
    text = f": `{shown(rows.text_at(line), 80)}`" if line else ""
    return Mark(task, "refused", [why + text], rows.notes, line=line, alike=alike(rows.data, "refused", task))


def unmarked(task, why):
    """The mark where an exception says why there is nothing to judge; by any other nothing could be judged."""
    if isinstance(why, NoRows):
        return Mark(task, why.verdict, why.lines)
    return Mark(task, "unjudged", [shown(f"{why}") or type(why).__name__])


def give_points(students, asked, again):
    """Gives these students of a class points: fewer for cycles beyond a base, a share for what only prints right."""
    columns = zip(*(student.row for student in students))
    best = [min((mark.cycles for mark in column if mark.passes()), default=None) for column in columns]
    for student in again:
        student.less = student.days * asked.per_day
        for mark, least in zip(student.row, best):
            task, points = mark.task, 0
            if mark.passes():
                base = {"ours": task.ours, "least": task.least, "best": least, "pass": mark.cycles}
                late = max(0, mark.cycles - base[asked.policy])
                lost = task.points * late / max(1, mark.cycles) if asked.per_cycle is None else asked.per_cycle * late
                points = max(asked.floor * task.points, task.points - lost)
            elif mark.prints:
                points = asked.partial * task.points
            mark.points = round(max(0, points - (asked.penalty if mark.notes else 0)), 2)
