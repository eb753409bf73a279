"""A class made anew: tasks, hand-ins of each kind of student, and what the oracle says of them."""
import random
from functools import cache
from itertools import count, cycle

from judged.labs import Given
from judged.students import RIGHT, WRONG
from language import USUAL
from oracle.drawn import lab_block
from oracle.judge import AT, MEMORIES, Entry, operations_of, why_void
from oracle.machine import memories, outcome, signed, words_from
from oracle.operations import Op, text_of
from oracle.reader import Block
from oracle.scheduler import Schedule

SIZES = (8, 10, 12, 16, 20, 24, 30, 36, 48, 64, 96, 130)


class Made:
    """A task, by its number."""

    def __init__(self, number, size):
        self.name, chance = f"b{number:02}", random.Random(number)
        self.words = [] if number % 3 == 0 else [chance.choice([1028, 7, 2 ** 32 - 5, 1_000_000]) for _ in range(4)]
        self.start = words_from(AT, self.words)
        drawn = ([op for _ in range(size) for op in lab_block(chance)][:size] for _ in count())
        self.ops = next(ops for ops in drawn if not why_void(ops, self.start))
        self.given = Given(Schedule(self.ops, USUAL))

    def text(self):
        words = "".join(f" {signed(word)}" for word in self.words)
        return f"// {self.name}\n" + f"//SIM INPUT: -i {AT}{words}\n" * bool(self.words) + text_of([self.ops]).decode()

    def judged(self, rows):
        """Whether rows have to pass, have to fail, or else None; and the points of those that pass."""
        entry = Entry(1, Block("B1", self.ops, rows), USUAL, self.start)
        took, due = entry.cycles, entry.settled()
        points = round(min(10, max(5, 10 * entry.ours / took)), 2) if took else 10
        if due:
            return due[0] == "lawful", points
        differs = any(entry.differs_on(start, False) for start in memories(MEMORIES))
        return False if differs else None, points


@cache
def tasks():
    return [Made(number, size) for number, size in enumerate(SIZES, 1)]


def constants(_, made):
    """The cheat who knows the words: what the task leaves in memory and prints is put there as constants."""
    machine = outcome(made.start, lambda machine: machine.run(made.ops))
    rows = []
    for number, word in sorted(machine.written.items()):
        if word < 2 ** 31:
            rows += [[Op("loadI", [word, 1]), Op("loadI", [4 * number, 2])], [Op("store", [1, 2]), None]]
    return [*rows, *[[None, None]] * 5, *([op, None] for op in made.ops if op.kind == "output")]


def of_another_task(_, made):
    return tasks()[tasks().index(made) - 1].given.rows


def handed_in(made, kind, number):
    """A hand-in of this kind, ours where the kind has nothing to do; and whether it keeps the block's operations."""
    chance = random.Random(f"{made.name} {kind.__name__} {number}")
    subject = made if kind in (constants, of_another_task) else made.given
    rows = kind(chance, subject)
    return made.given.rows if rows is None else rows


# By name the kind of rows that a student hands in.
STUDENTS = {f"{number:02} {kind.__name__}": kind
            for number, kind in zip(range(61), cycle((*RIGHT, *WRONG, constants, of_another_task)))}


def keeps_operations(made, rows):
    return operations_of(made.ops) == operations_of(op for row in rows for op in row if op)
