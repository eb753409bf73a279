"""Tasks in files of their own (`--task`): what is said of rows is what is said of them after their blocks, and what
tries to change the task, or to pass without solving it, doesn't pass."""
import os
import re
from pathlib import Path

from harness.program import TOP, Run, ending, folder, stored, told, unlike
from harness.suite import Check, rows_of, table
from judged.test_rows import JUDGED, LISTED, UNLIKE, WORDS, texts_of
from language import MOST_BYTES
from oracle.reader import NO_SUCH_BLOCK

ROW_STARTS = (b"[", b"block ", b"cycles", b"total")
CLASS = f"{TOP}/examples/class"
PASSED, NOT_READ, NO_DEVICE, FAILED = 0, 1, 4, 5


def parts(text):
    """A text as bytes, cut before its first row."""
    lines = text.encode("latin-1").split(b"\n")
    at = next((i for i, line in enumerate(lines) if line.strip().startswith(ROW_STARTS)), len(lines))
    return b"\n".join(lines[:at]), b"\n".join(lines[at:])


def as_together(text):
    """But for the numbers of lines, which begin with the rows."""
    task, rows = parts(text)
    before = text.count("\n") - rows.count(b"\n")
    status, out, err = ending(WORDS, text.encode("latin-1"))
    out = re.sub(rb"(?<=^  line )\d+", lambda number: b"%d" % (int(number[0]) - before), out, flags=re.MULTILINE)
    apart = ending([*WORDS, "--task", stored("task.iloc", task)], rows)
    yield from unlike(repr(text), apart, (status, out, err))


def all_as_together():
    for text in [*texts_of(JUDGED, UNLIKE), *(listed.text for listed in LISTED.values())]:
        yield from as_together(text)


def is_refused(given):
    """Anything but a pass, with no byte listed where the rows aren't read."""
    end = ending(["check", "--task", f"{CLASS}/tasks/both.iloc", "3", "4"], given)
    if end[0] not in (NOT_READ, FAILED) or end[0] == NOT_READ and end[1]:
        yield told(end)


def cut_anywhere():
    """A hand-in that is cut passes nowhere before its last row."""
    rows = Path(f"{CLASS}/submissions/ada/both.rows").read_bytes()
    for end in range(rows.index(b"[ output 1036")):
        yield from is_refused(rows[:end])


def faults():
    """Of each text its own; of a bad task no row is read."""
    task, none = stored("task.iloc", b"output 0\n"), os.path.join(folder(), "none")
    long = stored("long", b" " * (MOST_BYTES + 1))
    most = stored("most", b"output 0\n".ljust(MOST_BYTES, b" "))
    bad_rows = b"block 2 b\n"
    for name, file, rows, said, status in (
            ("most", most, bad_rows, f"line 1: {NO_SUCH_BLOCK}", NOT_READ),
            ("long", long, bad_rows, "task: input longer than 16777216 bytes", NOT_READ),
            ("long_rows", task, b" " * (MOST_BYTES + 1), "input longer than 16777216 bytes", NOT_READ),
            ("missing", none, bad_rows, "task: no such file", NO_DEVICE),
            ("under_a_file", f"{task}/x", bad_rows, "task: opening failed", NO_DEVICE),
            ("folder", folder(), bad_rows, "task: reading failed", NO_DEVICE),
            ("memory", "/proc/self/mem", bad_rows, "task: reading failed", NO_DEVICE),
            ("empty", "/dev/null", bad_rows, "task: no blocks", NOT_READ)):
        yield Run(f"apart/{name}", ["check", "--task", file], rows, b"", f"ilocfarm: {said}\n".encode(), status)

EXCHANGED = (b"ilocfarm: task: line 2: not understood\n"
             b"ilocfarm: it has a row where blocks belong, and rows come from standard input: are the two exchanged?\n")
ARROW = b'line 2: expected "=>", found "-"\n    add r1, r2 -> r3\n               ^\n'


def without_a_name():
    end = ending(["check", "--task", ""], b"block 2 b\n")
    if end[0] not in (2, NO_DEVICE) or end[1] or not end[2]:
        yield told(end)


def apart_cases():
    yield Check("apart/as_together", all_as_together)
    # What students hand in for the task in place of a schedule.
    for rows, name in rows_of(f"{TOP}/tests/judged/cheats.tsv"):
        yield Check(f"apart/cheat_{name}", is_refused, rows.encode("latin-1"))
    yield Check("apart/cut_anywhere", cut_anywhere)
    two = stored("two.iloc", b"a: output 4\nb: output 4\n")
    yield Run("apart/before_a_head", [*WORDS, "--task", two], b"// 9\nhello\nblock 1 a\n", b"",
              b"ilocfarm: line 2: not understood\nline 2: expected [, found hello\n", NOT_READ)
    for command in ("check", "explain", "trace"):
        yield Run(f"apart/exchanged/{command}", [command, "--task", stored("rows", b"\nblock 1 -\n[ nop ; nop ]\n")],
                  b"nop\n", b"", EXCHANGED, NOT_READ)
        yield Run(f"apart/reason/{command}", [command, "--task", stored("bad.iloc", b"a: nop\nadd r1, r2 -> r3\n")],
                  b"[ nop ]\n", b"", b"ilocfarm: task: line 2: not understood\n" + ARROW, NOT_READ)
    yield Check("apart/without_a_name", without_a_name)
    yield from faults()


load_tests = table(apart_cases)
