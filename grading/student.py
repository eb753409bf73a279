"""Marks a student: whatever is wrong with what is handed in costs that student alone."""
import os
from contextlib import ExitStack
from functools import partial

import judge
from handins.folder import Folder, opened
from handins.lenient import ENDINGS, Rows, lenient
from marks import NoRows, judged, refused, unmarked
from words import shown

PARTLY = "It prints the right words on the task's own memory: some of the points."


class Marker:
    """Marks students as a course asks: by files, or by programs where there is a runner; with pictures where wanted."""

    def __init__(self, asked, runner, pictures):
        self.asked, self.runner, self.pictures = asked, runner, pictures

    def marks(self, student, tasks):
        try:
            if student.path is None:
                raise NoRows("missing", "There is no folder of this name.")
            parts = [student.path, *filter(None, self.asked.inner.split("/"))]
            with ExitStack() as stack:
                folder = Folder(stack.enter_context(opened(parts, os.O_DIRECTORY)), student.files)
                programs = stack.enter_context(self.runner.reading(folder)) if self.runner else None
                return [self.mark(student, programs or partial(self.handed_in, folder), task) for task in tasks]
        except Exception as why:
            return [unmarked(task, why) for task in tasks]

    def mark(self, student, read, task):
        """A mark by a call that gives the bytes for a task, what is said and noted of them, and a program's seconds."""
        try:
            data, lines, notes, seconds = read(task)
            rows = Rows(*lenient(data, task.head)) if self.asked.lenient else Rows(data)
            found, why = judge.records(task.path, task.words, self.asked.check, rows.data)
            made = judged(task, found[0], rows, self.asked.require) if found else refused(task, why, rows)
            made.lines += lines + [PARTLY] * bool(made.prints and self.asked.partial)
            made.notes += notes
            made.seconds = seconds
        except Exception as why:
            return unmarked(task, why)
        try:
            if found and not task.is_hidden:
                self.pictures.draw(student, made, found[0], rows)
        except Exception as why:
            made.lines.append(f"No picture could be drawn: {type(why).__name__}.")
        return made

    def handed_in(self, folder, task):
        names = [task.name + ending for ending in (ENDINGS if self.asked.lenient else ENDINGS[:1])]
        path = folder.find(names)
        if path is None:
            raise NoRows("missing", f"There is no file {shown(names[0])}; there is {folder.names()}.")
        is_rows = path.casefold().endswith(ENDINGS[0])
        lines, notes = [f"Read from {shown(path)}."] * is_rows, [f"read from {shown(path)}"] * (not is_rows)
        return folder.read(path), lines * (path != names[0]), notes, None
