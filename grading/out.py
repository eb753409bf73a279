"""The folder of a class's grades: made anew, for its owner's eyes alone, out of students' reach; and what is kept."""
import dataclasses
import itertools
import json
import os
import stat
import tempfile
from contextlib import contextmanager
from pathlib import Path

from handins.layouts import by_key, differing
from judge import CannotGrade
from marks import Mark, Student
from words import key_of, plain_error

MARKS = "marks.json"
NAMES = "name", "plain", "listed", "id", "email"     # of a student


@contextmanager
def made_anew(out, submissions):
    """A new folder, which takes the place of `out` once all is in it. Grades that were there are kept, as is said."""
    if out.resolve().is_relative_to(submissions.resolve()):
        raise CannotGrade(f"{out}: the grades must not be where students' files are")
    for folder in (out.parent.resolve() / out.name).parents:
        mode = folder.stat().st_mode if folder.exists() else 0
        if mode & stat.S_IWOTH and not mode & stat.S_ISVTX:
            raise CannotGrade(f"{out}: the grades must not be below {folder}, where everybody may write")
    is_ours = not out.is_symlink() and out.is_dir() and ("gradebook.csv" in os.listdir(out) or not os.listdir(out))
    if os.path.lexists(out) and not is_ours:
        raise CannotGrade(f"{out}: expected grades, or nothing; name another folder by --out")
    out.parent.mkdir(parents=True, exist_ok=True)
    with tempfile.TemporaryDirectory(prefix=".grades-", dir=out.parent) as made:
        yield Path(made)
        if out.exists():
            kept = next(name for k in itertools.count(1) if not os.path.lexists(name := f"{out}.~{k}~"))
            out.rename(kept)
            print(f"{kept} has the grades that were there")
        os.rename(made, out)


def keep(folder, students):
    """Keeps the marks of students, so that some can be made anew, and of a path what tells it from other students'."""
    made = [dataclasses.asdict(student) for student in students]
    for mark in (mark for student in made for mark in student["row"]):
        mark["task"] = mark["task"]["name"]
    (folder / MARKS).write_text(json.dumps(made, default=lambda path: path.name), encoding="utf-8")


def kept(out, tasks):
    """The students of earlier grades."""
    try:
        found = json.loads((out / MARKS).read_text(encoding="utf-8"))
    except (OSError, ValueError) as why:
        raise CannotGrade(f"{out}: no earlier grades can be read: {plain_error(why)}") from why
    for about in found:
        if [mark["task"] for mark in about["row"]] != [task.name for task in tasks]:
            raise CannotGrade(f"{out}: earlier grades are of other tasks")
        about["row"] = [Mark(**{**mark, "task": task}) for task, mark in zip(tasks, about["row"])]
    return [Student(**about) for about in found]


def is_same(one, other):
    """Whether records with a key in common are of one student: their numbers and addresses aren't all others."""
    numbers = [{key_of(text) for text in (each.id, each.email) if text} for each in (one, other)]
    return not all(numbers) or not numbers[0].isdisjoint(numbers[1])


def chosen(students, names, earlier):
    """Who of a class is marked again: who has one of these names, who submitted together with them, and who is new on
    the roster. Then all, the others with their earlier marks; and each of these with the name that they had."""
    wanted, found, again, made, was = {key_of(name): name for name in names}, set(), [], [], []
    together = {student.hand_in() for student in students if student.path and {*student.keys()} & {*wanted}}
    known, left = by_key(earlier), {id(other): other for other in earlier}
    for student in students:
        others = (other for key in student.keys() for other in known[key])
        other = next((other for other in others if id(other) in left and is_same(student, other)), None)
        left.pop(id(other), None)
        keys = {key for each in (student, other) if each for key in each.keys()}
        found |= keys
        if keys & {*wanted} or student.hand_in() in together or not (other or student.path):
            again.append(student)
            made.append(student)
        elif other:
            made.append(dataclasses.replace(other, **{name: getattr(student, name) for name in NAMES}))
            was.append((made[-1], other.name))
    strange = [name for key, name in wanted.items() if key not in found]
    if strange:
        raise CannotGrade(f"--only: there is no student {min(strange)}")
    was += [(other, other.name) for other in left.values()]
    return again, differing([*made, *left.values()]), was
