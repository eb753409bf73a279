"""What a grading leaves behind: gradebook, feedback and a report; of one student what Gradescope and GitHub read."""
import base64
import csv
import hashlib
import json
import os
import secrets
import string
import tempfile
import unicodedata
import zipfile
from collections import Counter, defaultdict
from html import escape
from itertools import combinations
from pathlib import Path
from statistics import fmean
from urllib.parse import quote

import svg
from language import PASSING
from marks import OURS, SAME_WAY
from words import SENTENCES, VERDICTS, count, number, shown, told

# By verdict a colour of the page; the others are wrong.
COLOURS = {**dict.fromkeys(PASSING, "right"), **dict.fromkeys(SENTENCES["open"], "ask"), "missing": "none"}
LONGEST = 120           # bytes of a folder's name
PLAIN = " -_.@,'()"     # in it, beside letters, marks and digits
MEANINGS = {"right": "Right", "ask": "For you to look at", "wrong": "Wrong", "none": "Nothing submitted"}
PAGE = Path(__file__).resolve().with_name("report.html")
NOT_ALL = 1_000_000     # cycles on the leaderboard of who hasn't passed all tasks
MOST_ALIKE = 20         # students who are wrong in one way and listed in pairs
WIDE, HIGH, EDGE = 90, 240, 40      # of the picture: a task, all cycles, and what is round them


def safe_name(student):
    """A student's name as a folder is called, another for each: it leads no file system, terminal or table astray."""
    made = "".join(letter if unicodedata.category(letter)[0] in "LMN" or letter in PLAIN
                   else quote(os.fsencode(letter), safe="") for letter in student)
    made = "%2E" * made.startswith(".") + made.removeprefix(".")
    if len(os.fsencode(made)) <= LONGEST:
        return made
    return f"{made[:LONGEST // 4]}~{hashlib.sha256(os.fsencode(student)).hexdigest()[:16]}"


def in_table(name):
    """A name in a cell that no spreadsheet computes."""
    made = safe_name(name)
    return "'" * made.startswith(("-", "@")) + made


def write_gradebook(path, students, tasks, has_programs):
    """Points, then verdict and cycles of each task, and who was late, which attempt it is and what a program took."""
    names = [in_table(task.name) for task in tasks]
    about = {"id": "id", "attempt": "attempt", "days": "days late"}
    about = {name: head for name, head in about.items() if any(getattr(student, name) for student in students)}
    kinds = ["verdict", "cycles", *["seconds"] * has_programs]
    with open(path, "w", newline="", encoding="utf-8") as file:
        table = csv.writer(file)
        heads = [f"{name} {kind}" for name in names for kind in kinds]
        table.writerow(["student", "total", *names, *heads, *about.values()])
        for student in students:
            points = map(number, (student.total(), *(mark.points for mark in student.row)))
            more = [getattr(mark, kind) for mark in student.row for kind in kinds]
            more += [in_table(f"{getattr(student, name) or ''}") for name in about]
            table.writerow([in_table(student.name), *points, *more])


def feedback(student, tasks, has_pictures=True):
    """What a student reads, beside the pictures where there are any."""
    most = count(sum(task.points for task in tasks), "point")
    lines = [f"{number(student.total())} of {most}", *student.said()]
    for mark in student.row:
        lines += ["", "\n  ".join(told(mark, False))]
        lines += [f"  {'Picture' if name.endswith('.svg') else 'Cycle by cycle'}: {name}"
                  for name in mark.pictures if has_pictures]
    return ("\n".join(lines) + "\n").encode("utf-8", "replace")


def write_feedback(folder, students, tasks):
    """A folder for each student; and where a site takes feedback by its own names, a zip of them."""
    for student in students:
        home = folder / safe_name(student.name)
        home.mkdir(parents=True, exist_ok=True)
        (home / "feedback.txt").write_bytes(feedback(student, tasks))
    sites = {os.fsencode(student.site).decode("utf-8", "replace"): student for student in reversed(students)
             if student.site}       # of a group who submitted
    if not sites:
        return
    with zipfile.ZipFile(folder.with_suffix(".zip"), "w") as archive:
        for site, student in sites.items():
            files = {site: feedback(student, tasks, False)}
            if site.endswith(("/", "_")):
                paths = sorted(filter(Path.is_file, (folder / safe_name(student.name)).iterdir()))
                files = {site + path.name: path.read_bytes() for path in paths}
            for name, data in files.items():
                about = zipfile.ZipInfo(name)       # with no time of day
                about.external_attr = 0o600 << 16
                archive.writestr(about, data, zipfile.ZIP_DEFLATED)


def plain(text):
    """A text of students on a page."""
    return escape(shown(text))


def kind_of(verdict):
    return f'class="{COLOURS.get(verdict, "wrong")}" data-verdict="{verdict}"'


def cell(mark, home):
    """A mark, with what is said of it below."""
    said = [escape(line) for line in told(mark)]
    said += [f'<a href="{home}/{quote(name)}">{escape(name)}</a>' for name in mark.pictures]
    return (f"<td {kind_of(mark.verdict)}><details><summary>{number(mark.points)} <small>{mark.verdict}</small>"
            f"</summary><p>{'</p><p>'.join(said)}</p></details></td>")


def legend(students):
    """By colour what it means, and each verdict that somebody has as a button."""
    times = Counter(mark.verdict for student in students for mark in student.row)
    for colour, meaning in MEANINGS.items():
        buttons = [f'<button {kind_of(verdict)} aria-pressed="false" title="{escape(VERDICTS[verdict])}">{verdict} '
                   f"{times[verdict]}</button>"
                   for verdict in VERDICTS if verdict in times and COLOURS.get(verdict, "wrong") == colour]
        if buttons:
            yield f"<span>{meaning}: {' '.join(buttons)}</span>"


def row(head, *cells, more=""):
    """A row of a table, of texts in HTML, and of more cells."""
    return f"<tr><th>{head}</th>{''.join(f'<td>{cell}</td>' for cell in cells)}{more}</tr>"


def table(label, heads, rows, above="", below=""):
    """A table that scrolls in its place, and is sorted by its heads, which are HTML."""
    columns = "".join(f"<th><button>{head}</button></th>" for head in heads)
    return (f'<div class="scroll" tabindex="0" role="group" aria-label="{label}">{above}<table><thead><tr>{columns}'
            "</tr></thead><tbody>\n" + "\n".join(rows) + f"\n</tbody>{below}</table></div>")


def line_of(student):
    home = f"feedback/{quote(safe_name(student.name))}"
    said = "".join(f"<br><small>{escape(line)}</small>" for line in student.said())
    name = f'<a href="{home}/feedback.txt">{plain(student.name)}</a>{said}'
    return row(name, number(student.total()), more="".join(cell(mark, home) for mark in student.row))


def ratios(student):
    """How many times the bound each task takes, of those that pass."""
    return [mark.ratio() for mark in student.row if mark.passes()]


def line(student):
    seconds = [mark.seconds for mark in student.row if mark.seconds is not None]
    return row(plain(student.name), len(ratios(student)), f"{fmean(ratios(student)):.3f}",
               *(mark.cycles if mark.passes() else "" for mark in student.row),
               *[number(round(sum(seconds), 2))] * bool(seconds))


def dots(students, tasks):
    """By task a column of points, each a student, as high as it takes times the bound."""
    each = [ratio for student in students for ratio in ratios(student)]
    least, most = min(1, *each), max(1.01, *each)

    def height(ratio):
        return EDGE + HIGH * (most - ratio) / (most - least)
    yield from (svg.text(0, height(ratio), number(ratio)) for ratio in (1, round(most, 2)))
    for at, task in enumerate(tasks):
        x = EDGE + WIDE * at + WIDE // 2
        yield svg.text(x, HIGH + 2 * EDGE - 8, shown(task.name, 12), text_anchor="middle")
        for place, student in enumerate(students):
            mark, shift = student.row[at], (place % 9 - 4) * WIDE // 12
            if mark.passes():
                point = svg.mark(0, x + shift, height(mark.ratio()), svg.INK, 3)
                yield svg.group(f"{shown(student.name)}: {mark.cycles}", point)


def cycles(students, tasks):
    """The cycles of who passes anything, by student and task, as a table and a picture."""
    ranked = sorted(filter(ratios, students), key=lambda student: (-len(ratios(student)), sum(ratios(student))))
    if not ranked:
        return ""
    picture = svg.picture(EDGE + WIDE * len(tasks), HIGH + 2 * EDGE, "cycles by task and student", dots(ranked, tasks))
    timed = ["seconds"] * any(mark.seconds is not None for student in ranked for mark in student.row)
    heads = "student", "passed", "cycles/bound", *(plain(task.name) for task in tasks), *timed
    about = f"Passing work: tasks, mean cycles/bound, the bound {tasks[0].rule}, and cycles"
    about += "; and a program's seconds of processor time" * bool(timed)
    return f"<h2>Cycles</h2><p>{about}.</p>{table('the cycles', heads, map(line, ranked), picture)}"


def shared(groups):
    """By students the tasks in which they are alike: who has our own schedule, and pairs that are wrong in one way."""
    found = defaultdict(list)
    for (task, how, _), names in groups.items():
        pairs = combinations(names, 2) if how == SAME_WAY and len(names) <= MOST_ALIKE else ()
        for who in zip(names) if how == OURS else pairs:
            found[who, how].append(task)
    return sorted(found.items(), key=lambda each: -len(each[1]))


def alike(students):
    """Who is alike in how many tasks, those in the most first; and of each task whose hand-ins are equal."""
    groups, hows = defaultdict(list), {}
    for student in {student.hand_in(): student for student in reversed(students)}.values():     # a group is one
        for mark in student.row:
            for how, text in mark.alike.items():
                groups[mark.task.name, how, text].append(student.name)
    for (task, how, _), names in groups.items():
        if len(names) > 1:
            hows.setdefault((task, *sorted(names)), how)        # byte-identical hand-ins have the same mistake too
    lines = [row("; ".join(map(plain, sorted(who))), len(tasks), f"{how}: {', '.join(map(plain, sorted(tasks)))}")
             for (who, how), tasks in shared(groups)]
    each = [f"<li>{plain(task)}: {how}: {'; '.join(map(plain, names))}</li>"
            for (task, *names), how in sorted(hows.items())]
    about = ("Who submits our own schedule, and pairs that make the same mistake, unless more than "
             f"{MOST_ALIKE} students make it. A right schedule is often everybody's, since there are few.")
    return (f"<h2>Alike</h2><p>{about}</p>{table('who is alike', ('students', 'tasks', 'how'), lines)}<details>"
            f"<summary>All that is equal, by task</summary><ul>{''.join(each)}</ul></details>") if lines or each else ""


def write_report(path, students, tasks, warning):
    """A page with all marks, the best first, a warning where there is one, and what only staff should see."""
    best_first = sorted(students, key=lambda student: (-student.total(), student.name))
    heads = "student", "total", *(f"{plain(task.name)}<br><small>{task.ours} / {task.least}</small>" for task in tasks)
    passed = row("passed", "", *(sum(student.row[at].passes() for student in students) for at in range(len(tasks))))
    points = count(sum(task.points for task in tasks), "point")
    size = f"{count(len(students), 'student')}, {count(len(tasks), 'task')}, {points}."
    script = PAGE.with_suffix(".js").read_text("utf-8")
    path.write_text(string.Template(PAGE.read_text("utf-8")).substitute(
        size=size, rule=tasks[0].rule, warning=warning, legend=" ".join(legend(students)),
        marks=table("the marks", heads, map(line_of, best_first), below=f"<tfoot>{passed}</tfoot>"),
        speed=cycles(best_first, tasks), alike=alike(best_first), script=script,
        digest=base64.b64encode(hashlib.sha256(script.encode()).digest()).decode()), "utf-8", "replace")


def write_results(student, asked, seconds, warning):
    """Writes what Gradescope reads, whole or not at all: nobody reads half of it, and no link is followed."""
    row, total = student.row, student.total()
    tests = [{"name": mark.task.name, "number": str(number), "score": mark.points, "max_score": mark.task.points,
              "status": "passed" if mark.passes() else "failed", "output": "\n".join(told(mark)),
              "output_format": "text", "visibility": "hidden" if mark.task.is_hidden else asked.visibility}
             for number, mark in enumerate(row, 1)]
    passed = sum(mark.passes() for mark in row)
    cycles = sum(mark.cycles for mark in row) if passed == len(row) else NOT_ALL
    said = [f"{passed} of {len(row)} tasks passed.", *student.said(), warning]
    board = [{"name": "points", "value": total, "order": "desc"}, {"name": "cycles", "value": cycles, "order": "asc"}]
    made = {"score": total, "execution_time": round(seconds, 1), "visibility": asked.visibility,
            "output": " ".join(said).rstrip(), "stdout_visibility": "hidden", "tests": tests, "leaderboard": board}
    with tempfile.NamedTemporaryFile("w", dir=asked.gradescope.parent, delete=False, encoding="utf-8") as file:
        json.dump(made, file, indent=1)
    os.replace(file.name, asked.gradescope)


def escaped(text, more=""):
    return text.translate({ord(letter): f"%{ord(letter):02X}" for letter in "%\r\n" + more})


def annotations(row, folder):
    """Lines for a workflow's log. What students wrote there gives the runner no commands."""
    token = secrets.token_hex(16)
    yield f"::stop-commands::{token}"
    for mark in row:
        yield "\n  ".join(told(mark, False))
    yield f"::{token}::"
    for mark in row:
        if not mark.passes():
            place = f"file={escaped(os.path.normpath(folder / f'{mark.task.name}.rows'), ':,')}"
            place += f",line={mark.line}" if mark.line else ""
            yield f"::error {place}::{escaped(chr(10).join(told(mark, False)))}"
