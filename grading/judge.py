"""The program that judges, its answer as records (what `check --json` lists of a block), and tasks: a block a file."""
import argparse
import json
import os
import re
import shutil
import subprocess
import sys
import threading
from dataclasses import dataclass
from pathlib import Path

from words import plain_error

SECONDS = 600       # no answer takes as long
ENDINGS = (".i", ".iloc")
WORDS = r"(?:-i (\d{1,10})((?: -?\d{1,10})*))?"
# What the program adds of a task with a row.
EXCHANGED = ", and rows come from standard input: are the two exchanged?"
VOID = {"faults": "faults on its words", "shows_nothing": "shows nothing"}
program = "ilocfarm"
stopped = threading.Event()     # by a signal: nothing is judged or run any more


class CannotGrade(Exception):
    """Something that is no student's fault keeps a class, or what is handed in, from being graded."""


class NoAnswer(CannotGrade):
    """The program isn't there, or failed."""


def found(name):
    """The path of a program: beside the command that was started, built in its clone, or on the PATH; or else what runs
    the clone unproved, in minutes."""
    beside = os.path.dirname(os.path.abspath(sys.argv[0]))
    places = beside, f"{beside}/../out", os.environ.get("PATH", os.defpath), f"{beside}/.."
    path = shutil.which(name, path=os.pathsep.join(places))
    if not path:
        raise NoAnswer(f"{name} is not on the PATH")
    return path


class Version(argparse.Action):
    """Prints what `ilocfarm --version` prints, since it is installed with the program; and of a package the commit."""

    def __call__(self, parser, asked, *_):
        commit = Path(__file__).with_name("commit")     # ./package writes it
        try:
            status = subprocess.call([found(getattr(asked, "ilocfarm", program)), "--version"])
        except NoAnswer as why:
            parser.exit(3, f"{parser.prog}: {why}\n")
        if commit.exists():
            print(f"{parser.prog} is of commit {commit.read_text('ascii').strip()}")
        parser.exit(status)


def call(words, given):
    """Status, standard output, and what is wrong in one line."""
    if stopped.is_set():
        raise KeyboardInterrupt
    try:
        done = subprocess.run([program, *words], input=given, capture_output=True, timeout=SECONDS, check=False)
    except (subprocess.TimeoutExpired, OSError) as failed:
        raise NoAnswer(plain_error(failed)) from failed
    first, reason, *_ = [*done.stderr.decode("utf-8", "replace").splitlines(), "", ""]
    why = ": ".join([first.removeprefix("ilocfarm: "), *([reason.partition(": ")[2]] if reason else [])])
    return done.returncode, done.stdout, why or f"status {done.returncode}"


def records(task, words, options, rows):
    """What `check` says of rows for the blocks of a file, or nothing and why the text is refused."""
    status, out, why = call(["check", "--json", "--task", str(task), *options, *words], rows)
    if status == 1 and not why.startswith("task: "):
        return [], why
    if status not in (0, 5):
        raise NoAnswer(f"{task}: {why.removeprefix('task: ').removesuffix(EXCHANGED)}")
    return [json.loads(line, object_hook=decoded) | {"passes": status == 0} for line in out.splitlines()], None


def decoded(members):
    """The members of an object with their strings as texts: listed is a character for each byte."""
    return {name: value.encode("latin-1").decode("utf-8", "replace") if isinstance(value, str) else value
            for name, value in members.items()}


def alone(text):
    """The rows of a text without blanks and comments, and without the lines before and after."""
    rows = b"\n".join(line for line in text.splitlines() if line.lstrip().startswith(b"["))
    return re.sub(rb"//.*|\s+", b"", rows)


@dataclass(frozen=True)
class Task:
    name: str
    path: Path
    words: tuple        # for the program: the words that memory starts with
    ours: int           # cycles of our schedule
    schedule: bytes     # those of ours, alone
    least: int          # the bound
    rule: str           # of both
    head: str           # the line that rows for it may have before them
    points: float
    is_hidden: bool     # from students, but for the points


def given(path, name, pattern, form):
    """What the first line `//NAME: ..` of a task gives, by a pattern; nothing where there is no such line."""
    line = re.search(rf"^[ \t]*//[ \t]*{name}:(.*)$".encode(), path.read_bytes(), re.MULTILINE)
    text = " ".join(line[1].decode("ascii", "replace").split()) if line else ""
    found = re.fullmatch(pattern, text)
    if line and not found:
        raise CannotGrade(f"{path}: expected `//{name}: {form}`, found `{text[:60]}`")
    return line and found


def words_of(path):
    """The words of the program that memory starts with; a negative one by its pattern."""
    read = given(path, "SIM INPUT", WORDS, "-i ADDRESS WORD ..")
    return ("--at", read[1], *(str(int(word) % 2 ** 32) for word in read[2].split())) if read and read[1] else ()


def read_task(path, asked):
    """A task that doesn't fault on its words, and shows something; a line `//POINTS: N` gives its points."""
    words = words_of(path)
    found, why = records(path, words, asked.check, b"")
    if len(found) != 1:
        raise CannotGrade(f"{path}: {why or f'a task is one block, and this has {len(found)}'}")
    said, = found
    if said["void"]:
        raise CannotGrade(f"{path}: the block {VOID[said['void']['kind']]}")
    rule = "with addresses compared" if asked.disambiguate else "by the book"
    points = given(path, "POINTS", r"\d{1,6}(\.\d{1,4})?", "N")
    options = [option for option in asked.check if "=" in option] + ["--disambiguate"] * asked.disambiguate
    status, schedule, why = call(["schedule", *options], path.read_bytes())
    if status:
        raise NoAnswer(f"{path}: {why}")
    return Task(path.stem, path.resolve(), words, said["ours"], alone(schedule), said["least"], rule,
                f"block 1 {said['name'] or '-'}", float(points[0]) if points else asked.points,
                path.stem in asked.hidden)


def need_folder(path, what):
    """Refuses what is no folder, of tasks or of students' files."""
    if not path.is_dir():
        raise CannotGrade(f"{path}: expected a folder of {what}, found a file" if path.exists()
                          else f"{path}: no such folder")


def read_tasks(asked):
    folder = asked.tasks
    need_folder(folder, "tasks NAME.iloc")
    paths = sorted(path for path in folder.iterdir() if path.suffix in ENDINGS)
    if not paths:
        raise CannotGrade(f"{folder}: no task NAME.iloc or NAME.i is there")
    twice = [path for path in paths if path.suffix == ENDINGS[0] and path.with_suffix(ENDINGS[1]) in paths]
    if twice:
        raise CannotGrade(f"{twice[0]}: two tasks have this name")
    strange = sorted({*asked.hidden} - {path.stem for path in paths})
    if strange:
        raise CannotGrade(f"{folder}: no task {strange[0]} is there, which is to be hidden")
    return [read_task(path, asked) for path in paths]
