"""How often what `check` says of a hand-in leads to its fault: of drawn ones with one operation at fault, how many
first lines name it, and how many have a line that does. And nothing has to wait for a store that isn't the block's."""
import random
from itertools import combinations
from types import SimpleNamespace

from harness.program import TESTED
from harness.suite import Check, table
from judged.labs import Given, put
from judged.students import CHANGES, copied, one_changed, other_priorities, registers_reused, with_number
from judged.test_settled import ZEROS, differs
from language import USUAL
from oracle.drawn import lab_block
from oracle.judge import judged_by, why_void
from oracle.machine import issued_in
from oracle.scheduler import Schedule

FIRST, ANY = 0.97, 0.99


# Each gives rows, and those with an operation at fault, or None.

def older_load_read(chance, given):
    """A use reads an older load of its address, with a store between the two."""
    loads = [k for k, op in enumerate(given.ops) if op.kind == "load"]
    older = {given.ops[j].defined[0]: given.ops[i].defined[0] for i, j in combinations(loads, 2)
             if given.address(given.ops[i]) == given.address(given.ops[j])
             and any(op.kind == "store" for op in given.ops[i:j])}
    rows = other_priorities(chance, given)
    return rows, one_changed(chance, rows, lambda op: [
        with_number(op, k, older[n]) for k, n in enumerate(op.numbers) if op.roles[k] == "u" and n in older])


def wrong_register(chance, given):
    """A result goes into another one of few registers that are reused."""
    rows = registers_reused(chance, SimpleNamespace(rows=other_priorities(chance, given), latencies=given.latencies))
    registers = sorted({n for _, op in issued_in(rows) for n in (*op.used, *op.defined)})
    return rows, one_changed(chance, rows, lambda op: CHANGES["register_clobbered"](op, registers))


def store_too_many(chance, given):
    """A store is there twice, once with other registers."""
    rows, stores = other_priorities(chance, given), [op for op in given.ops if op.kind == "store"]
    made, registers = copied(rows), sorted(given.values)
    free = [row for row in made if stores and put([*row], stores[0])]
    if not free:
        return rows, None
    put(chance.choice(free), chance.choice(stores).with_numbers(
        lambda n, role: chance.choice(registers) if role == "u" else n))
    return rows, made


def named(rows, wrong):
    """How a line names the operation of wrong rows that the rows haven't, or one that computes the same, or one that
    nobody reads any more."""
    known = {id(op) for _, op in issued_in(rows)}
    cycle, op = next((cycle, op) for cycle, op in issued_in(wrong) if id(op) not in known)
    name = f"row {cycle}: {op}"
    read, still = ({n for _, op in issued_in(made) for n in op.used} for made in (rows, wrong))
    lost = [f"row {at}: {one}, whose result is never read" for at, one in issued_in(wrong)
            if {*one.defined} & (read - still)]
    return name, f": {op}".rpartition("=>")[0] if op.defined else name, *lost


def said_of(family, size):
    """Of drawn wrong rows the names of the operation at fault, and the lines that say why they aren't right."""
    chance, names, cases = random.Random(family.__name__), [], []
    while len(cases) < size:
        given = Given(Schedule(lab_block(chance), USUAL))
        rows, wrong = family(chance, given)
        if wrong and not why_void(given.originals, ZEROS) and differs(given.originals, wrong):
            names.append(named(rows, wrong))
            cases.append((given.originals, wrong))
    return [(name, [line for line in lines if "row " in line])
            for name, (_, lines) in zip(names, judged_by(cases), strict=True)]


def led(family, size):
    said = said_of(family, size)
    first, some = (sum(any(name in line for name in names for line in lines[:most]) for names, lines in said)
                   for most in (1, None))
    if first < FIRST * size or some < ANY * size:
        yield f"of {size} {first} are named first, and {some} at all"


def waiting(family, size):
    yield from (f"{name}: {lines}" for (name, *_), lines in said_of(family, size)
                if any(f"while {name} is under way" in line for line in lines))


def named_checks():
    size = 100 if TESTED.is_short else 500
    for family in (older_load_read, wrong_register):
        yield Check(f"named/{family.__name__}", led, family, size)
    yield Check("named/store_too_many", waiting, store_too_many, size)


load_tests = table(named_checks)
