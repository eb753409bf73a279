"""How much the judge settles: it passes all but few right hand-ins, as students and compilers make them, and refutes
all but few wrong ones, by a memory that it makes up where a memory of zeros shows nothing."""
import random
from types import SimpleNamespace

from harness.program import TESTED
from harness.suite import Check, table
from judged.labs import Given, scheduled
from judged.rewrites import MORE, O1, O2, OTHERWISE, SAME, ZERO, Code
from judged.students import WRONG, early_stores, other_priorities, own_names, registers_reused, told_apart
from language import USUAL
from oracle.judge import PASSING, judged_by, why_void
from oracle.machine import bad_row, difference, memories, row_text, words_from
from oracle.scheduler import Schedule, pairs_of

MEMORIES = 24
ZEROS = words_from(0, [])
ORDERS = (own_names, registers_reused, other_priorities, told_apart, early_stores)
RIGHT = (*ORDERS, *SAME, *OTHERWISE, *MORE, O1, O2)
LAYOUTS = {     # the addresses of word k of the first input, of the second and of what is stored
    "together": lambda chance: (1024, 1088, 1152),
    "a_kib_up": lambda chance: (2048, 2112, 2176),
    "two_kib_apart": lambda chance: (1024, 2048, 1152),
    "far_apart": lambda chance: (1024, 4 * chance.randrange(600, 16_000), 1088),
    "stored_below": lambda chance: (4096, 8192, 64),
    "all_over": lambda chance: tuple(4 * chance.randrange(16_000) for _ in range(3)),
}


def drawn_steps(chance, words, base, pointers, free):
    """Operations for some kind to change; `free` is an offset that no other step has."""
    (a, b, c, d), (p, q) = chance.choices(words, k=4), chance.sample(pointers, 2)
    j, k = chance.choices(range(2, 14), k=2)
    return chance.choice((
        [("add", ("add", ("add", a, b), c), d)], [("mult", ("mult", ("mult", a, b), c), d)], [("multI", a, 1 << k)],
        [("sub", a, ("sub", b, c))], [("multI", ("add", a, b), k)], [("mult", a, ("add", b, c))],
        [("add", ("mult", a, b), ("mult", a, c))], [("rshiftI", ("rshiftI", a, j), k)], [("lshift", a, b)],
        [("lshiftI", ("add", a, b), k), ("add", a, b)], [(chance.choice(["mult", "lshift", "rshift"]), ZERO, a)],
        [("mult", a, ("add", ("loadI", j), ("loadI", k)))],
        [("storeAI", a, base, free), ("output", 1024 + free), ("loadAI", base, free)],
        [("storeAI", a, base, free), ("storeAI", b, base, free)], [("storeAI", ("loadAI", base, 4 * j), base, 4 * j)],
        [("storeAI", a, p, 8), ("storeAI", b, q, 4), ("storeAI", c, p, 8)],
        [("storeAI", a, p, 8), ("storeAI", a, q, 4)], [("loadAI", p, at) for at in chance.sample([0, 4, 8], 3)]))


def stepped_block(chance):
    """A block of steps with something for each kind to do."""
    code, are_loaded = Code(chance), chance.random() < 0.5
    base = code("loadI", 1024)
    words = [code("loadAI", base, 4 * k) for k in range(4)]
    pointers = [code("loadAI", base, at) if are_loaded else code("loadI", 64 * at) for at in (32, 36, 40)]
    for k in range(chance.randrange(4, 10)):
        results = [code(*step) for step in drawn_steps(chance, words, base, pointers, 64 + 8 * k)]
        words += [n for n in results if n is not None and chance.random() < 0.8]
    for k, value in enumerate(words[4:]):
        code("storeAI", value, base, 160 + 4 * k)
    code("output", 1024 + 160)
    return code.ops


def laid_out_block(chance, layout):
    """A block that computes with words of two inputs, some behind a pointer that is loaded, stores and prints."""
    code, starts, way = Code(chance), LAYOUTS[layout](chance), chance.randrange(3)
    bases = [code("loadI", at) for at in starts]

    def load(part, k):
        if way == 0:
            return code("loadAI", bases[part], 4 * k)
        return code("load", code("addI", bases[part], 4 * k) if way == 1 else code("loadI", starts[part] + 4 * k))

    def operand(k):
        value = load(chance.randrange(2), k)
        return code("loadAI", value, 4 * chance.randrange(3)) if chance.random() < 0.08 else value

    for place in range(chance.randrange(1, 4)):
        value = operand(0)
        for k in range(1, chance.randrange(2, 6)):
            opcode = chance.choice(["add", "sub", "mult", "add", "lshift"])
            other = operand(k) if chance.random() < 0.8 else load(2, k)
            value = code(opcode, *chance.choice([(value, other), (other, value)]))
        code("storeAI", value, bases[2], 4 * place)
        if chance.random() < 0.4:
            code("output", starts[2] + 4 * place)
    return code.ops


def rows_by(chance, kind, ops):
    """What a kind makes of a block, in few registers, or None."""
    if kind in ORDERS:
        return kind(chance, Given(Schedule(ops, USUAL)))
    made = kind(chance, ops)
    rows = made and scheduled(made, pairs_of(made, USUAL), lambda _: chance.random())
    return rows and registers_reused(chance, SimpleNamespace(rows=rows, latencies=USUAL))


def one_fault(chance, ops, made):
    """Rows of operations made of a block, with one fault that some memory shows, or None."""
    rows = chance.choice(WRONG)(chance, Given(Schedule(made, USUAL)))
    return rows if rows and bad_row(rows) is None and differs(ops, rows) else None


def unseen_fault(chance, ops):
    rows = one_fault(chance, ops, ops)
    return rows if rows and not difference(ops, rows, USUAL, ZEROS) else None


def differs(ops, rows):
    return any(difference(ops, rows, USUAL, start) for start in memories(MEMORIES))


def drawn(size, name, blocks, rows_of):
    """As many blocks that show something, each with rows."""
    chance, found = random.Random(name), []
    while len(found) < size:
        ops = blocks(chance)
        rows = rows_of(chance, ops)
        if rows and not why_void(ops, ZEROS):
            found.append((ops, rows))
    return found


def unlike(due, most, *texts):
    """Hand-ins of texts on which other verdicts are found than these, but for a few of which the two only agree."""
    found = [(verdict, case) for cases in texts for (verdict, _), case in zip(judged_by(cases), cases, strict=True)]
    open_ones = sum(verdict == "agrees" for verdict, _ in found)
    if open_ones > most * len(found):
        yield f"{open_ones} of {len(found)} only agree"
    yield from (f"{verdict}: {[*map(str, ops)]} {[*map(row_text, rows)]}"
                for verdict, (ops, rows) in found if verdict not in {*due, "agrees"})


def right(kind, size):
    cases = drawn(size, kind.__name__, stepped_block, lambda chance, ops: rows_by(chance, kind, ops))
    yield from unlike(PASSING, 0.02, cases)
    yield from (f"it isn't right: {[*map(row_text, rows)]}" for ops, rows in cases if differs(ops, rows))


def wrong(size):
    kinds = (*SAME, *MORE, O1, O2)
    yield from unlike({"differs"}, 1, drawn(size, "wrong", stepped_block, lambda chance, ops: one_fault(
        chance, ops, chance.choice(kinds)(chance, ops) or ops)))


def unseen(size):
    """The blocks of a text share what memories that are made up may span."""
    yield from unlike({"differs"}, 0.04, *(
        drawn(size, layout, lambda chance: laid_out_block(chance, layout), unseen_fault) for layout in LAYOUTS))


def settled_checks():
    size = 10 if TESTED.is_short else 200
    for kind in RIGHT:
        yield Check(f"settled/right/{kind.__name__}", right, kind, size)
    yield Check("settled/wrong", wrong, 10 * size)
    yield Check("settled/unseen", unseen, 2 * size)


load_tests = table(settled_checks)
