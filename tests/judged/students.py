"""Schedules as students hand them in. Each kind is a function of a source of chance and a block with our schedule of it
(labs.Given), and gives rows, or None where there is nothing of its kind to do."""
from judged.labs import put, scheduled
from language import MAX_NUMBER, WORDS
from oracle.machine import COMPUTED
from oracle.operations import Op
from oracle.scheduler import pairs_of

MEMORY = ("load", "store")


def named(function, name):
    function.__name__ = name
    return function


def changed(rows, change):
    """The rows with what `change` gives for each operation."""
    return [[op and change(op) for op in row] for row in rows]


def copied(rows):
    return [[*row] for row in rows]


def slots_of(rows, is_wanted=lambda op: True):
    return [(cycle, unit) for cycle, row in enumerate(rows) for unit, op in enumerate(row) if op and is_wanted(op)]


def with_slot(rows, slot, op):
    made = copied(rows)
    made[slot[0]][slot[1]] = op
    return made


def one_changed(chance, rows, change):
    """The rows with one operation changed, of those for which `change` gives another one."""
    choices = [(slot, op) for slot in slots_of(rows) for op in change(rows[slot[0]][slot[1]])]
    return with_slot(rows, *chance.choice(choices)) if choices else None


# Right ones.

def ours(_, given):
    return given.rows


def own_names(chance, given):
    names = {}
    taken = chance.sample(range(100_000), 3 * len(given.ops) + 1)
    return changed(given.rows, lambda op: op.with_numbers(
        lambda n, role: n if role == "c" else names.setdefault(n, MAX_NUMBER - taken[len(names)])))


def registers_reused(_, given):
    """Each result goes into the first register whose last result is there before, and read by then."""
    lands, read = {}, {}
    for cycle, row in enumerate(given.rows):
        for op in filter(None, row):
            for n in op.used:
                lands.setdefault(n, -1)
                read[n] = cycle
            for n in op.defined:
                lands[n] = cycle + op.latency(given.latencies)
    busy, names = [], {}
    for n in sorted(lands, key=lands.get):
        names[n] = next((k for k, until in enumerate(busy) if until < lands[n]), len(busy))
        busy[names[n]:names[n] + 1] = [max(lands[n], read.get(n, -1))]
    return changed(given.rows, lambda op: op.with_numbers(lambda n, role: n if role == "c" else names[n]))


def other_priorities(chance, given):
    ranks = [chance.random() for _ in given.ops]
    return scheduled(given.ops, given.pairs, lambda j: ranks[j])


def one_a_row(_, given):
    return scheduled(given.ops, given.pairs, lambda j: j, width=1)


def longer_waits(chance, given):
    rows = copied(given.rows)
    for _ in range(chance.randrange(1, 6)):
        rows.insert(chance.randrange(len(rows) + 1), [None, None])
    return rows


def units_exchanged(chance, given):
    """Rows of operations that either unit may take, turned round."""
    return [row[::-1] if chance.random() < 0.7 and not any(op and op.kind in (*MEMORY, "mult") for op in row) else row
            for row in given.rows]


def order_of_operands(_, given):
    return changed(given.rows, lambda op: Op(op.opcode, [op.numbers[1], op.numbers[0], op.numbers[2]])
                   if op.opcode in ("add", "mult") else op)


def told_apart(_, given):
    """Accesses to addresses that differ by a known number don't wait for one another."""
    pairs = pairs_of(given.ops, given.latencies, lambda i, j: not given.are_apart(given.ops[i], given.ops[j]))
    return scheduled(given.ops, pairs, lambda j: (-given.priorities[j], j))


def dead_code_dropped(_, given):
    ops = needed(given)
    return scheduled(ops, pairs_of(ops, given.latencies), lambda j: j) if len(ops) < len(given.ops) else None


def needed(known):
    """Operations without results that nobody uses, but for loads that may fault."""
    wanted, kept = set(), []
    for op in reversed(known.ops):
        if not op.defined or op.defined[0] in wanted or may_fault(known, op):
            kept.insert(0, op)
            wanted.update(op.used)
    return kept


def may_fault(given, op):
    if op.kind != "load":
        return False
    base, offset = given.address(op)
    return base is not None or offset % 4 != 0 or offset >= 4 * WORDS


def early_stores(chance, given):
    """A store that is issued before a load or an output that it waits for, and whose word arrives after it."""
    rows, early = one_a_row(chance, given), [relaxed(given, *pair) for pair in given.pairs]
    places = {id(op): cycle for cycle, row in enumerate(rows) for op in filter(None, row)}
    moved = False
    for cycle, unit in slots_of(rows, lambda op: op.kind == "store"):
        op = rows[cycle][unit]
        for to in range(cycle):
            places[id(op)] = to
            if not rows[to][0] and all(places[id(b)] - places[id(a)] >= d for a, b, d in early if op in (a, b)):
                rows[to][0], rows[cycle][unit] = op, None
                moved = True
                break
            places[id(op)] = cycle
    return rows if moved else None


def relaxed(given, i, j, d):
    one, other = given.ops[i], given.ops[j]
    uses = set(one.defined) & set(other.used) and d == one.latency(given.latencies)
    if other.kind == "store" and one.kind in ("load", "output") and not uses:
        d = 1 - other.latency(given.latencies)
    return one, other, d


def constants_folded(_, given):
    """What is known without a run is put into registers as a constant."""
    def folded(op):
        base, value = given.values[op.defined[0]] if op.defined else (0, 0)
        is_known = base is None and op.opcode.removesuffix("I") in COMPUTED and value <= MAX_NUMBER
        return Op("loadI", [value, op.defined[0]]) if is_known else op
    rows = changed(given.rows, folded)
    return rows if texts(rows) != texts(given.rows) else None


def products_by_shifts(_, given):
    """On unit 1, where the product was; the result is there sooner."""
    def shifted(op):
        is_power = op.opcode == "multI" and op.constant & (op.constant - 1) == 0 and op.constant
        return Op("lshiftI", [op.numbers[0], op.constant.bit_length() - 1, op.numbers[2]]) if is_power else op
    rows = changed(given.rows, shifted)
    return rows if texts(rows) != texts(given.rows) else None


def texts(rows):
    return [[str(op) for op in row] for row in rows]


RIGHT = (ours, own_names, registers_reused, other_priorities, one_a_row, longer_waits, units_exchanged,
         order_of_operands, told_apart, dead_code_dropped, early_stores, constants_folded, products_by_shifts)


# Wrong ones, most of them: made by factories, whose names say what is changed.

def latency_too_small(kind):
    def made(_, given):
        if given.latencies[kind] == 1:
            return None
        latencies = {**given.latencies, kind: given.latencies[kind] - 1}
        return scheduled(given.ops, pairs_of(given.ops, latencies), lambda j: j)
    return named(made, f"latency_too_small_{kind}")


def exchanged(name, kinds):
    """Two operations of these kinds change places."""
    def made(chance, given):
        slots = slots_of(given.rows, lambda op: op.kind in kinds)
        if len(slots) < 2:
            return None
        (a, b), (c, d) = chance.sample(slots, 2)
        rows = copied(given.rows)
        rows[a][b], rows[c][d] = rows[c][d], rows[a][b]
        return rows
    return named(made, name)


def early(kind):
    """An operation goes up into some row that may take it."""
    def made(chance, given):
        choices = []
        for cycle, unit in slots_of(given.rows, lambda op: op.kind == kind):
            for to in range(cycle):
                rows = with_slot(given.rows, (cycle, unit), None)
                if put(rows[to], given.rows[cycle][unit]):
                    choices.append(rows)
        return chance.choice(choices) if choices else None
    return named(made, f"early_{kind}")


def with_number(op, k, to):
    return Op(op.opcode, [*op.numbers[:k], to, *op.numbers[k + 1:]])


def others(role, near):
    """An operation with other numbers in this role, of those that `near` gives for the number and the registers."""
    return lambda op, registers: [with_number(op, k, to) for k, has in enumerate(op.roles) if has == role
                                  for to in near(op.numbers[k], registers) if to != op.numbers[k] and to <= MAX_NUMBER]


OTHER = {"add": "sub", "sub": "add", "mult": "add", "lshift": "rshift", "rshift": "lshift"}
# By name the operations that each is changed into.
CHANGES = {
    "constant_changed": others("c", lambda c, _: [c + 4, max(0, c - 4), c ^ 1]),
    "source_changed": others("u", lambda _, registers: registers),
    "register_clobbered": others("d", lambda _, registers: registers),
    "operands_exchanged": lambda op, _: [Op(op.opcode, [*op.numbers[1::-1], *op.numbers[2:]])
                                         for _ in range(op.opcode in ("sub", "lshift", "rshift", "store", "storeAI"))],
    "opcode_changed": lambda op, _: [Op(OTHER[plain] + op.opcode[len(plain):], op.numbers)
                                     for plain in [op.opcode.removesuffix("I")] if plain in OTHER],
}


def changing(name, change):
    """One operation is changed."""
    return named(lambda chance, given: one_changed(chance, given.rows, lambda op: change(op, sorted(given.values))),
                 name)


def missing(name, is_wanted):
    """One of these operations isn't there."""
    def made(chance, given):
        slots = slots_of(given.rows, is_wanted)
        return with_slot(given.rows, chance.choice(slots), None) if slots else None
    return named(made, name)


def row_too_few(chance, given):
    """All after an empty row comes a cycle early."""
    empty = [cycle for cycle, row in enumerate(given.rows) if row == [None, None]]
    gone = chance.choice(empty) if empty else None
    return [row for cycle, row in enumerate(given.rows) if cycle != gone] if empty else None


def output_too_many(chance, given):
    return [*given.rows, [Op("output", [1024 + 4 * chance.randrange(6)]), None]]


def store_too_many(chance, given):
    return [*given.rows, [Op("storeAI", [chance.randrange(8), chance.randrange(90, 99), 1028]), None]]


def scratch_store(chance, given):
    """A result is kept in a word that is used nowhere else, while unit 0 is free."""
    rows, taken = copied(given.rows), {n for op in given.ops for n in (*op.used, *op.defined)}
    free = [cycle for cycle, row in enumerate(rows) if row[0] is None]
    if not free:
        return None
    rows[chance.choice(free)][0] = Op("storeAI", [chance.choice(sorted(taken)), max(taken) + 1, 4 * WORDS - 4])
    return rows


def nothing_at_all(_, given):
    return []


def wrong_unit(chance, given):
    """An access or a product is on the other unit of its row."""
    slots = slots_of(given.rows, lambda op: op.kind in (*MEMORY, "mult"))
    if not slots:
        return None
    rows = copied(given.rows)
    rows[chance.choice(slots)[0]].reverse()
    return rows


def two_of_a_kind(kind):
    """Two products, or two outputs, are in a row."""
    def made(chance, given):
        slots = slots_of(given.rows, lambda op: op.kind == kind)
        if len(slots) < 2:
            return None
        (a, b), (c, d) = chance.sample(slots, 2)
        rows = with_slot(given.rows, (a, b), None)
        rows[c] = [given.rows[a][b], rows[c][d]]
        return rows
    return named(made, f"two_in_a_row_{kind}")


WRONG = (*map(latency_too_small, ("load", "store", "mult")), *map(early, ("output", "load", "store")),
         exchanged("outputs_exchanged", ("output",)), exchanged("accesses_exchanged", MEMORY),
         *(changing(*change) for change in CHANGES.items()), missing("operation_missing", lambda op: True),
         missing("store_missing", lambda op: op.kind in ("store", "output")), row_too_few, output_too_many,
         store_too_many, scratch_store, nothing_at_all, wrong_unit, *map(two_of_a_kind, ("mult", "output")))
