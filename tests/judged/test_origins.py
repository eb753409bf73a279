"""Which operation of the block each of the rows is, as `check --json` lists it: of rows by the book under a pairing
that makes them so, of students' other ones as the oracle has it, and none that was made of another."""
import json
import random

from harness.program import TESTED, ending
from harness.suite import Check, table
from judged.labs import Given
from judged.students import RIGHT, WRONG, constants_folded, nothing_at_all, ours, products_by_shifts
from judged.test_students import EACH_LATENCIES
from oracle.drawn import lab_block, made_block
from oracle.judge import proposed
from oracle.machine import bad_row, issued_in
from oracle.operations import text_of, words_for
from oracle.origins import are_by_the_book, origins_of
from oracle.scheduler import Schedule

BLOCKS, ALL_BLOCKS = 12, 60     # of each kind of student, of which there are more than thirty
OWN = 180
# They change more than one operation, so that those that are left need be none that they were made of.
REMADE = (constants_folded, products_by_shifts)


def in_order(rows, operations):
    """The numbers in the order of issue; nothing where there aren't two a row, or a slot that is empty has one."""
    slots = [slot for row, numbers in zip(rows, operations) for slot in zip(row, numbers)]
    if [*map(len, operations)] != [2] * len(rows) or any(number is not None for op, number in slots if not op):
        return []
    return [number for op, number in slots if op]


def made_of(given, rows):
    """The number of the operation that each was made of, where it is one of the block's or takes the place of the only
    one that is gone."""
    numbers = {id(op): k for k, op in enumerate(given.ops)}
    found = [numbers.get(id(op)) for _, op in issued_in(rows)]
    gone = {*numbers.values()} - {*found}
    return [min(gone) if k is None and len(gone) == 1 else k for k in found]


def faults_of(given, rows, said, is_remade):
    """What is wrong with the numbers of rows."""
    numbers, of_block = in_order(rows, said["operations"]), (given.originals, rows, given.latencies)
    if said["verdict"] == "lawful":
        if not are_by_the_book(*of_block, numbers):
            yield f"{numbers} is no lawful pairing"
        return
    due = origins_of(*of_block) if bad_row(rows) is None else [None] * len(issued_in(rows))
    if numbers != due:
        yield f"{numbers} for {due}"
    pairs = [] if is_remade else zip(numbers, made_of(given, rows))
    yield from (f"{number} was made of {origin}" for number, origin in pairs if None not in (number, origin)
                and number != origin)


def of_kind(kind, draw, blocks):
    """What is wrong with the numbers of rows of one kind for drawn blocks, each in a run of its own."""
    count = 0
    for seed in range(blocks):
        chance = random.Random(f"origins {seed} {kind.__name__}")
        latencies = [*EACH_LATENCIES.values()][seed % len(EACH_LATENCIES)]
        given = Given(Schedule(draw(chance), latencies))
        rows = kind(chance, given)
        if rows is not None:
            text = text_of([given.originals]) + proposed(1, "B1", rows)
            said = json.loads(ending(["check", "--json", *words_for(latencies)], text)[1])
            yield from (f"{fault}: {text}" for fault in faults_of(given, rows, said, kind in REMADE))
            count += any(number is not None for row in said["operations"] for number in row)
    if not count and kind is not nothing_at_all and not kind.__name__.startswith(("wrong_unit", "two_in")):
        yield "no operation was numbered"


def origin_checks():
    yield Check("judged/origins/own", of_kind, ours, lambda chance: chance.choice([lab_block, made_block])(chance), OWN)
    for kind in (*RIGHT, *WRONG):
        blocks = BLOCKS if TESTED.is_short else ALL_BLOCKS
        yield Check(f"judged/origins/students/{kind.__name__}", of_kind, kind, lab_block, blocks)


load_tests = table(origin_checks)
