"""Who handed in what, as the folder of a course's site has it: `--layout`."""
import math
import os
import re
import tempfile
import zipfile
import zlib
from collections import Counter, defaultdict
from contextlib import ExitStack, contextmanager
from pathlib import Path

from handins.folder import OURS, is_meta
from judge import CannotGrade
from marks import Student
from words import key_of, say, shown

ABOUT = "submission_metadata.yml"       # of Gradescope: who made each submission, and when
AGAIN = re.compile(r"(.+)-(\d{1,4})((?:\.[^.]*)?)", re.DOTALL)      # how Canvas names what is handed in again
ENTRIES = {     # by layout what a student's folder or file is called; of any other its name
    "canvas": re.compile(r"(?P<name>[^_]+)_(?P<late>LATE_)?(?P<id>\d+)_\d+_(?P<file>.+)", re.DOTALL),
    "moodle": re.compile(r"(?P<name>.+)_(?P<id>\d+)_assignsubmission_(?:file|(?P<text>onlinetext))_?(?P<file>.*)",
                         re.DOTALL)}
DAY = 86400     # seconds
PLAIN = re.compile("(?P<name>.+)", re.DOTALL)       # of which only folders are students


def listing(folder):
    return sorted(name for name in os.listdir(folder) if not is_meta(name))


def unpack(path, folder):
    """Unpacks a site's zip: no link is made, and nothing outside of the folder."""
    with zipfile.ZipFile(path) as archive:
        for entry in archive.infolist():
            try:
                os.chmod(archive.extract(entry, folder), 0o755)
            except OSError as why:
                if why.errno in OURS:
                    raise
                say(f"{shown(entry.filename)} is left out: {why.strerror or why}")


@contextmanager
def as_folder(asked):
    """Unpacks a class's export for as long, where it is the zip that a site gives, maybe of one folder with all."""
    with ExitStack() as stack:
        if asked.submissions.is_file() and not (asked.gradescope or asked.github):
            path, made = asked.submissions, stack.enter_context(tempfile.TemporaryDirectory(prefix="ilocgrade-"))
            asked.submissions = folder = Path(made, path.stem)
            try:
                unpack(path, folder)
            except (zipfile.BadZipFile, zlib.error, EOFError, RuntimeError) as why:
                raise CannotGrade(f"{path}: expected a folder of students' files, or its zip: {why}") from why
            names = listing(folder)
            is_one = len(names) == 1 and layout_of(folder, names) == "folders"
            if is_one and any(map(os.path.isdir, (folder / names[0]).glob("*"))):
                asked.submissions = folder / names[0]
        yield


def layout_of(folder, names):
    if (folder / ABOUT).is_file():
        return "gradescope"
    for layout, pattern in ENTRIES.items():
        if 2 * sum(bool(pattern.fullmatch(name)) for name in names) > len(names):
            return layout
    return "github" if any(os.path.isdir(folder / name / ".git") for name in names) else "folders"


def days_late(at, due):
    """Days begun since a time, of which each without a zone is this machine's."""
    return max(0, math.ceil((at.astimezone() - due.astimezone()).total_seconds() / DAY))


def last_attempts(files, tasks):
    """By each name that a student gave the last file's name here; the last attempt; and notes of the others."""
    tried = defaultdict(list)
    for here, name in files.items():
        found = AGAIN.fullmatch(name)
        is_again = found and f"{found[1]}-{found[2]}" not in tasks
        tried[found[1] + found[3] if is_again else name].append((int(found[2]) + 1 if is_again else 1, here))
    last = {name: max(several) for name, several in tried.items()}
    notes = [f"{shown(name)} of attempt {number} isn't counted, but that of attempt {last[name][0]}"
             for name, several in tried.items() for number, _ in sorted(several) if number < last[name][0]]
    return {name: here for name, (_, here) in last.items()}, max(number for number, _ in last.values()), notes


def of_entries(folder, names, pattern, tasks):
    """The students whose folders or files a pattern knows. Of a text beside files nothing is read."""
    files, late = defaultdict(dict), set()
    for name in names:
        found, path = pattern.fullmatch(name), folder / name
        group = found.groupdict("") if found else {}
        if group.get("text") and name.replace("_onlinetext", "_file") in names:
            continue
        if found and (path.is_symlink() or path.is_dir()):
            yield Student(group["name"], path, group.get("id", ""), site=f"{name}/" * (pattern is ENTRIES["moodle"]))
        elif found and group.get("file") and path.is_file():
            who = group["name"], group["id"]
            files[who][name] = group["file"]
            late |= {who} if group.get("late") else set()
        else:
            say(f"{shown(name)} is left out: it is no {'folder' if pattern is PLAIN else 'submission'}")
    for who, several in files.items():
        given, attempt, notes = last_attempts(several, tasks)
        first = min(given.values())
        site = first.removesuffix(several[first]) if pattern is ENTRIES["moodle"] else first
        yield Student(who[0], folder, who[1], days=int(who in late), attempt=attempt, files=given, notes=notes,
                      site=site)


def of_gradescope(folder, names, due):
    try:
        import yaml
    except ImportError:
        raise CannotGrade(f"{folder / ABOUT} needs Debian's package python3-yaml") from None
    try:
        for name, about in yaml.safe_load((folder / ABOUT).read_text("utf-8")).items():
            late = days_late(about[":created_at"], due) if due and about.get(":created_at") else 0
            for person in about[":submitters"]:
                path = folder / name if name in names else None
                number, email = (f"{person.get(key) or ''}" for key in (":sid", ":email"))
                yield Student(f"{person[':name']}", path, number, email, days=late,
                              attempt=1 + len(about.get(":history") or ()))
    except (yaml.YAMLError, AttributeError, KeyError, TypeError) as why:
        raise CannotGrade(f"{folder / ABOUT}: {shown(f'{why}')}") from why


def by_key(students):
    """By what a table may name a student by who is named so."""
    found = defaultdict(list)
    for student in students:
        for key in student.keys():
            found[key].append(student)
    return found


def differing(students):
    """Students of whom each has another name than those before."""
    names = set()
    for student in students:
        while student.name in names:
            student.name += "'"
        names.add(student.name)
    return students


def named_apart(students):
    """Students of whom no two have the same name."""
    times = Counter(student.name for student in students)
    for student in students:
        student.plain = student.name
        apart = student.id or (student.path.name if student.path else "")
        student.name += f" ({apart})" * (times[student.name] > 1 and bool(apart))
    return differing(students)


def read_class(asked, tasks, known):
    """The students of a folder, where these names may be known."""
    known = {*map(key_of, known)}
    folder, names = asked.submissions, listing(asked.submissions)
    layout = asked.layout or layout_of(folder, names)
    if layout != (asked.layout or "folders"):
        say(f"{folder.name or folder} is read by --layout {layout}")
    if layout == "gradescope":
        students = [*of_gradescope(folder, names, asked.due)]
    else:
        students = [*of_entries(folder, names, ENTRIES.get(layout, PLAIN), {task.name for task in tasks})]
    if layout == "github":
        prefix = "".join(os.path.commonprefix([student.name for student in students]).rpartition("-")[:2])
        for student in students:        # of ASSIGNMENT-USER the longest user that is known, or else what differs
            ends = (student.name[at.end():] for at in re.finditer("-", student.name))
            student.name = next((end for end in ends if key_of(end) in known), student.name.removeprefix(prefix))
    if not students:
        raise CannotGrade(f"{folder}: no student's folder is there; each student needs one, a single student too")
    return students
