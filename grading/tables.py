"""Tables of a course's site: who is on the roster, who is late, who submits together, and the columns that grades are
filled into."""
import math
import re
from collections import Counter, defaultdict
from contextlib import suppress
from dataclasses import replace
from datetime import datetime

from handins.layouts import DAY, by_key, days_late
from handins.lenient import MARKS
from judge import CannotGrade
from marks import Student
from words import count, key_of, number as plainly, say, shown

ODD = {"points possible", "student, test", "test student", "manual posting"}     # Canvas's lines that are no students
LATE = ("late", "days late", "lateness (h:m:s)", "status", "submission time", "submission_timestamp")
GROUP = ("group", "group_name", "group name", "team")
MOST = ("max points", "maximum grade", "points_available")
# Columns that name students as their site does, those that come first here; columns that name nobody on their own; and
# all by which a first line is known to name columns.
NAMED = (("github_username",), ("student",), ("full name",), ("name",), ("first name", "last name"),
         ("first name", "surname"))
PARTS = {"first name", "last name", "surname", "assignment_name"}
HEADERS = {*sum(NAMED, ()), *PARTS, "id", "sid", "login", "username", "email", "email address", "identifier",
           "roster_identifier"}
# A cell as it is written, and what parts it from the next one.
CELL = r'("(?:[^"]|"")*"|[^{0}\r\n]*)({0}|\r\n|\r|\n|\Z)'
UNITS = {"day": DAY, "hour": 3600, "min": 60, "sec": 1}


def decoded(path):
    """The text of a file and its coding: what Excel writes, where that isn't UTF-8."""
    data = path.read_bytes()
    coding = next((coding for mark, coding in MARKS.items() if data.startswith(mark)), "utf-8")
    with suppress(UnicodeDecodeError):
        return data.decode(coding), coding
    try:
        text = data.decode("cp1252")
    except UnicodeDecodeError as why:
        raise CannotGrade(f"{path}: expected a table as text: save it as CSV") from why
    say(f"{path} isn't UTF-8, and is read as Windows-1252")
    return text, "cp1252"


def plain(cell):
    """The text of a cell; None where it begins with a quote that is wrong."""
    if not cell.startswith('"'):
        return cell
    return cell[1:-1].replace('""', '"') if re.fullmatch('"([^"]|"")*"', cell) else None


class Table:
    """A CSV file with a comma, a semicolon or a tab between cells, in which a column names students, or two do."""

    def __init__(self, path, by, is_bare=False):
        """One that may be bare names its columns in the first line only where that begins with a known name."""
        self.path, (text, self.coding), self.lines = path, decoded(path), [[]]
        between = max(",;\t", key=text.partition("\n")[0].count)
        for cell, after in re.findall(CELL.format(between), text):
            self.lines[-1].append([cell, after])
            if after != between:
                self.lines.append([])
        rows = [[plain(cell) for cell, _ in line] for line in self.lines[:-1]]
        wrong = [number for number, row in enumerate(rows, 1) if None in row]
        if wrong:
            raise CannotGrade(f"{path}: row {wrong[0]}: a quote isn't closed, or isn't all of a cell")
        first = rows[0]
        self.rows = [row + [""] * (len(first) - len(row)) for row in rows]
        self.header = [] if is_bare and not by and key_of("".join(first[:1])) not in HEADERS else first
        self.heads = [key_of(cell) for cell in self.header]
        self.named = next(([*map(self.heads.index, heads)] for heads in NAMED if {*heads} <= {*self.heads}), [0])
        named = self.named if PARTS & {*self.heads[:1]} else [0]
        self.at = [self.column(by, "canvas_user_id")] if by else named

    def column(self, *names):
        """The number of the column with one of these names."""
        found = next((self.heads.index(key_of(name)) for name in names if key_of(name) in self.heads), None)
        if found is None:
            there = shown(", ".join(self.header)) or "none"
            raise CannotGrade(f"{self.path}: there is no column {names[0]}; there is {there}")
        return found

    def columns(self, texts, tasks):
        """By number of a column to fill the place of its task, of these names; None for the total."""
        found = {}
        for text in texts:
            task, _, name = text.partition("=")
            at = tasks.index(task) if name and task in tasks else None
            column = self.column(text if at is None else name)
            if column in found:
                raise CannotGrade(f"--column: {self.header[column]} is given twice")
            found[column] = at
        return found

    def cells(self):
        """By number of a row what names its student."""
        rows = [*enumerate(self.rows)][bool(self.header):]
        texts = {number: text_of(row, self.at).removeprefix("Participant ") for number, row in rows}
        return {number: text for number, text in texts.items() if text and key_of(self.rows[number][0]) not in ODD}

    def matched(self, students):
        """By number of a row its student, of these; None where it isn't clear which one is meant."""
        known, cells = by_key(students), self.cells()
        found = {number: known[key_of(cell)] for number, cell in cells.items() if key_of(cell) in known}
        times = Counter(id(student) for several in found.values() for student in several)
        clear = {number for number, several in found.items() if sum(times[id(student)] for student in several) == 1}
        for number in found.keys() - clear:
            say(f"{self.path}: {shown(cells[number])} is more than one: name another column by --by")
        return {number: several[0] if number in clear else None for number, several in found.items()}

    def students(self):
        """By number of a row its student."""
        return {number: Student(text_of(self.rows[number], self.named) or cell, None, cell * (self.at != self.named))
                for number, cell in self.cells().items()}

    def missing(self, students):
        """Who is listed and is none of these students; that is said, and who of them isn't listed."""
        found = self.matched(students)
        strange = [student.name for student in students if not any(student is other for other in found.values())]
        listed = self.students()
        for number, student in found.items():
            if student:
                student.listed = listed[number].name
        made = [student for number, student in listed.items() if number not in found]
        silent = [student.name for student in made]
        for names, what in (silent, "on the roster submitted nothing"), (strange, "submitted but not on the roster"):
            if names:
                some = "; ".join(shown(name, 60) for name in names[:20]) + " .." * (len(names) > 20)
                say(f"{len(names)} {what}: {some}")
        return made

    def groups(self):
        """By number of a row the name of its student's group."""
        at = self.column(*GROUP)
        return {number: self.rows[number][at].strip() for number in self.cells()}

    def in_groups(self, students):
        """The students, and each of a group in which somebody submitted. Who submits as a group isn't one of them."""
        found, listed, groups = self.matched(students), self.students(), defaultdict(list)
        for number, group in self.groups().items():
            groups[key_of(group)].append(number)
        teams, made, dropped = {key_of(student.name): student for student in students}, [], []
        for group, numbers in groups.items():
            given = [found[number] for number in numbers if found.get(number)]
            if group in teams and teams[group] not in given:
                given.append(teams[group])
                dropped.append(teams[group])
            if len(given) > 1:
                first = shown(given[0].name)
                say(f"{shown(group)}: {len(given)} submitted; for who of it didn't that of {first} counts")
            if group and given:
                notes = [*given[0].notes, f"submitted by {shown(given[0].name)}"]
                made += [replace(given[0], name=listed[number].name, id=listed[number].id, email="", notes=notes)
                         for number in numbers if number not in found]
        return [student for student in students if student not in dropped] + made

    def check_most(self, column, tasks, at):
        """Reports a column that is out of other points than the task at a place, or than all where that is None."""
        points = sum(task.points for task in tasks) if at is None else tasks[at].points
        cells = [row[column] for row in self.rows if row and key_of(row[0]) == "points possible"]
        heads = [self.heads.index(head) for head in MOST if at is None and head in self.heads]
        cells += [self.rows[row][head] for head in heads for row in self.cells()]
        for text in sorted({cell.strip().replace(",", ".") for cell in cells}):
            if re.fullmatch(r"\d{1,9}(\.\d*)?", text) and float(text) != points:
                say(f"{self.path}: {self.header[column]} is out of {text} points, not {plainly(points)}")

    def filled(self, at, cells):
        """The file with other cells in a column too, by its number and that of a row: words and all else stay."""
        words = {row: self.rows[row][at].strip() for row in cells if re.search(r"[^\W\d_]", self.rows[row][at])}
        cells = {row: cell for row, cell in cells.items() if row not in words}
        if words:
            times = Counter(shown(word, 40) for word in words.values()).most_common(5)
            some = "; ".join(f"{word} ({number})" for word, number in times)
            say(f"{self.path}: kept in {self.header[at]}: {some}")
        short = sum(at >= len(self.lines[row]) for row in cells)
        if short:
            raise CannotGrade(f"{self.path}: {count(short, 'row')} too short to be filled")
        for row, cell in cells.items():
            quote = '"' * self.lines[row][at][0].startswith('"')
            self.lines[row][at][0] = quote + cell + quote
        return "".join(cell + after for line in self.lines for cell, after in line).encode(self.coding)

    def set_days(self, students, due):
        """Notes how many days late each of these students is."""
        at = self.column(*LATE)
        for row, student in self.matched(students).items():
            days = days_of(self.rows[row][at], due)
            if days is None:
                raise CannotGrade(f"{self.path}: {shown(self.rows[row][at])} is neither days nor a time after --due")
            if student:
                student.days = days


def text_of(row, places):
    return " ".join(row[at].strip() for at in places if at < len(row)).strip()


def days_of(text, due):
    """Days begun, of `2`, `30:00:00`, `1 day 6 hours late`, a time after one due, or 0 of words; None if unreadable."""
    text = re.sub(r"^(\d{1,5}):(\d\d):(\d\d)$", r"\1 hours \2 mins \3 secs late", text.strip().casefold())
    text = re.sub(r"^\d{1,4}(\.\d*)?$", r"\g<0> days late", text)
    late = re.findall(r"(\d{1,5}(?:\.\d*)?) (day|hour|min|sec)", text) if "late" in text else []
    if late or not re.search(r"\d", text):
        return math.ceil(sum(float(number) * UNITS[unit] for number, unit in late) / DAY)
    with suppress(ValueError):
        return days_late(datetime.fromisoformat(re.sub(" ?(utc|z)$", "+00:00", text)), due) if due else None
