"""Rows that are explained (`explain --task`): our own as our schedules are, others where `check` finds them lawful, and
else with the reason that it gives."""
import random
import re

from harness.program import TESTED, TOP, ending, stored, told, unlike
from harness.suite import Check, table
from judged.labs import Given
from judged.students import longer_waits, one_a_row, other_priorities, ours, own_names, units_exchanged
from judged.test_apart import parts
from judged.test_rows import JUDGED, UNLIKE, texts_of
from language import USUAL
from oracle.drawn import lab_block, made_block
from oracle.judge import proposed
from oracle.operations import text_of, words_for
from oracle.scheduler import ORDERS, Schedule

PASSED, FAILED = 0, 5
UNLAWFUL = b"  not lawful"
REASON = re.compile(rb"  (?:left out|added|see|and|line|row) ")
PATH = re.compile(rb"[+=~](\d+)")
ISSUED = re.compile(r"(\d+) cycle (\d+) unit ([01]) .+ ; (.+)")
DRAWN, ALL_DRAWN = 2000, 20_000
A_FILE = 20     # blocks
LAWFUL = (ours, own_names, other_priorities, one_a_row, longer_waits, units_exchanged)


def own_blocks():
    for name in ("first", "book", "dot", "faults", "class/dan"):
        with open(f"{TOP}/examples/{name}.iloc", "rb") as file:
            yield file.read()
    chance = random.Random(77)
    for _ in range(20):
        yield text_of([lab_block(chance) for _ in range(4)])


def own_as_ours():
    """Our own listing is explained byte for byte as our schedules are."""
    for block in own_blocks():
        for more in ([], ["--load", "2", "--mult", "7"]):
            rows = ending(["schedule", *more], block)[1]
            got = ending(["explain", "--task", stored("own.iloc", block), *more], rows)
            yield from unlike(repr(block), got, ending(["explain", *more], block))


def below(out):
    """The lines below the first head."""
    return out.splitlines()[1:-1]


def as_checked(text):
    """The verdict and its reason are those of `check`, and a path adds up to the cycles."""
    task, rows = parts(text)
    file = stored("task.iloc", task)
    status, checked, _ = ending(["check", "--lawful", "--task", file], rows)
    got = ending(["explain", "--task", file], rows)
    lines, why = below(got[1]), [line for line in below(checked) if REASON.match(line)]
    due = [UNLAWFUL, *why] if status == FAILED else None
    if got[0] != status or due and lines != due:
        yield f"{task!r}, {rows!r}: {told(got)} where check has {told((status, checked, b''))}"
    if status == PASSED:
        cycles = int(re.search(rb"^block .* cycles (\d+)", checked)[1])
        found = int(re.search(rb"^cycles (\d+)", got[1], re.M)[1])
        path = re.search(rb"^path (.*)", got[1], re.M)[1]
        if not cycles == found == sum(map(int, PATH.findall(path))):
            yield f"{task!r}, {rows!r}: {path!r} of {found} cycles where check has {cycles}"


def rows_as_checked():
    for text in texts_of(JUDGED, UNLIKE):
        yield from as_checked(text)


def in_either_slot(command, said, issued):
    """Rows that can be issued only with their slots exchanged are taken so if that is asked for."""
    task, rows = b"loadI 4 => r0\nload r0 => r1\n", b"[ loadI 4 => r0 ; nop ]\n[ nop ; load r0 => r1 ]\n"
    words = [command, "--task", stored("either.iloc", task)]
    refused = said % b"  row 1: [ nop ; load r0 => r1 ]: a load or store on unit 1\n"
    yield from unlike("refused", ending(words, rows), (FAILED, b"block 1 -\n" + refused, b""))
    taken = ending([*words, "--either-slot"], rows)
    if taken[0] != PASSED or issued not in taken[1]:
        yield told(taken)


def left(schedule, lines):
    """What comes after a block's operations and its path, by the oracle, which takes the rows from these lines."""
    issued = [ISSUED.fullmatch(line).groups() for line in lines[:len(schedule.ops)]]
    departure = schedule.departure({int(j): (int(cycle), int(unit)) for j, cycle, unit, _ in issued})
    if departure is None:
        return []
    row, chosen = departure
    taken = " ; ".join("nop" if j is None else f"{j} {issued[j][3]}" for j in chosen)
    return [f"row {row}: the choice would take {taken}"]


def wrongly_left(blocks, schedules, handed_in, words):
    rows = b"".join(proposed(k, f"B{k}", rows) for k, rows in enumerate(handed_in, 1))
    got = ending(["explain", "--task", stored("left.iloc", text_of(blocks)), *words], rows)[1].decode()
    entries = [entry.splitlines() for entry in re.split(r"^(?:block|total) .*\n", got, flags=re.M)[1:-1]]
    if len(entries) != len(blocks):
        yield f"{len(entries)} entries of {len(blocks)}: {got!r}"
    for number, (schedule, lines) in enumerate(zip(schedules, entries), 1):
        if lines[:1] != ["  undecided"]:
            end = len(schedule.ops) + 3     # of the lines on operations, cycles, chain and path
            if lines[end:] != left(schedule, lines) or len(lines) < end:
                yield f"{rows!r}: block {number}: {lines[end:]} in place of {left(schedule, lines)}"


def left_by_drawn_rows():
    """Rows of six kinds, by any order and latencies: the first that isn't the choice is named, and what is."""
    for seed in range((DRAWN if TESTED.is_short else ALL_DRAWN) // A_FILE):
        chance = random.Random(f"left {seed}")
        latencies, by = {name: chance.randint(1, 9) for name in USUAL}, chance.choice(ORDERS)
        blocks = [chance.choice((made_block, lab_block))(chance) for _ in range(A_FILE)]
        schedules = [Schedule(ops, latencies, by) for ops in blocks]
        rows = [chance.choice(LAWFUL)(chance, Given(schedule)) for schedule in schedules]
        yield from wrongly_left(blocks, schedules, rows, ["--priority", by, *words_for(latencies)])


def explained_cases():
    yield Check("explained/own_as_ours", own_as_ours)
    yield Check("explained/rows_as_checked", rows_as_checked)
    yield Check("explained/in_either_slot", in_either_slot, "explain", b"  not lawful\n%stotal 6\n",
                b"\n1 cycle 1 unit 0 ready 1 ")
    yield Check("explained/left_by_drawn_rows", left_by_drawn_rows)


load_tests = table(explained_cases)
