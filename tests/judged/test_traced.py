"""What rows do on the timed machine (`trace --task`), beside the oracle's log: our own, students' and made ones, and
rows that aren't traced."""
import random
import re

from harness.program import TESTED, ending, stored, told
from harness.suite import Check, table
from judged.students import RIGHT, WRONG
from judged.test_apart import parts
from judged.test_explained import in_either_slot
from judged.test_rows import LISTED
from judged.test_students import EACH_LATENCIES, LINES, WORDS, handed_in
from language import USUAL
from oracle.drawn import made_block
from oracle.judge import AT, proposed
from oracle.machine import bad_row, bad_row_text, words_from
from oracle.operations import text_of, words_for
from oracle.reader import read
from oracle.scheduler import Schedule
from oracle.trace import trace

DRAWN, ALL_DRAWN = 1000, 20_000
A_FILE = 20     # blocks
SEEDS, ALL_SEEDS = 2, 20
PASSED, FAILED = 0, 5
# What `check` has below a verdict on rows that aren't traced.
UNTRACED = re.compile(rb"^block .* (?:unread|units) cycles .*\n(  (?:line|row) .*)", re.M)


def entry(number, block, latencies):
    """The entry of a block, and whether its rows are traced."""
    head, bad = f"block {number} {block.name}", bad_row(block.rows)
    if bad is not None:
        return [head, f"  row {bad}: {bad_row_text(block.rows[bad])}"], False
    return [head, *trace(block.rows, latencies, words_from(AT, WORDS))], True


def wrongly_traced(text, latencies):
    """Where what is listed of a text's rows isn't what the oracle has."""
    entries = [entry(k, block, latencies) for k, block in enumerate(read(text), 1)]
    due = "".join(f"{line}\n" for lines, _ in entries for line in lines).encode()
    task, rows = parts(text.decode())
    words = ["--at", str(AT), *map(str, WORDS), *words_for(latencies)]
    got = ending(["trace", *words, "--task", stored("traced.iloc", task)], rows)
    if got != (PASSED if all(traced for _, traced in entries) else FAILED, due, b""):
        yield f"{text!r}: {told(got)}"


def drawn():
    """Rows of any priority for made blocks, with latencies of any kind."""
    for seed in range((DRAWN if TESTED.is_short else ALL_DRAWN) // A_FILE):
        chance = random.Random(f"traced {seed}")
        latencies = {name: chance.randint(1, 16) for name in USUAL}
        blocks = [made_block(chance) for _ in range(A_FILE)]
        rows = (proposed(k, f"B{k}", Schedule(ops, latencies).rows) for k, ops in enumerate(blocks, 1))
        yield from wrongly_traced(text_of(blocks) + b"".join(rows), latencies)


def of_kind(kind):
    for seed in range(SEEDS if TESTED.is_short else ALL_SEEDS):
        for name, latencies in EACH_LATENCIES.items():
            yield from wrongly_traced(handed_in(seed, name, kind), latencies)


def as_checked(text):
    """A row that isn't traced has the line that `check` has for it."""
    task, rows = parts(text)
    words = ["--task", stored("checked.iloc", task)]
    status, checked, _ = ending(["check", *words], rows)
    got = ending(["trace", *words], rows)
    if status in (PASSED, FAILED):
        lines = [line for line in got[1].splitlines() if line.startswith(b"  ")]
        due = UNTRACED.findall(checked)
        if (got[0] == FAILED) != bool(due) or lines != due:
            yield f"{text!r}: {told(got)} where check has {told((status, checked, b''))}"
    elif got[0] != status or got[1]:
        yield f"{text!r}: {told(got)} where check ends with {status}"


def rows_as_checked():
    for text, *_ in LISTED.values():
        yield from as_checked(text)
    for end in range(len(LINES) + 1):
        yield from as_checked(LINES[:end].decode("latin-1"))


def traced_cases():
    yield Check("traced/drawn", drawn)
    for kind in (*RIGHT, *WRONG):
        yield Check(f"traced/students/{kind.__name__}", of_kind, kind)
    yield Check("traced/rows_as_checked", rows_as_checked)
    yield Check("traced/in_either_slot", in_either_slot, "trace", b"%s",
                b"\nissue 1 unit 0 load r0 => r1 reads r0 = 4, word 4 = 0\n")


load_tests = table(traced_cases)
