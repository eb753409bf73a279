"""The fewest cycles that a lawful schedule of a small block takes: by trying all rows, one after another."""
from functools import lru_cache

from oracle.drawn import made_block, ops_of
from oracle.scheduler import befores_of, beside

ENOUGH = 9
CROWDED = ["load", "loadAI", "store", "storeAI", "mult", "output", "add"]
ODD = [1, 2, 3, 5, 16]


def small_block(chance):
    """A block of any opcodes, or, each other time, of few registers and of opcodes that share the slots of a row."""
    if chance.randrange(2):
        return [op for op in made_block(chance) if op.opcode != "nop"][:ENOUGH]
    return ops_of(chance, chance.choices(chance.sample(CROWDED, 4), k=chance.randint(2, ENOUGH)), 6, range(0, 36, 4))


def odd_latencies(chance):
    return {name: chance.choice(ODD) for name in ("load", "store", "mult")}


def can_end(ops, pairs, latencies, limit):
    """Whether a lawful schedule takes at most so many cycles. An operation that could be issued in a free slot is never
    left for later: moved there, it keeps all delays. So a row is empty only where none is ready."""
    before = befores_of(ops, pairs)
    ends = [limit - op.latency(latencies) for op in ops]

    @lru_cache(maxsize=None)
    def search(cycle, issued):
        at = dict(issued)
        left = [j for j in range(len(ops)) if j not in at]
        if not left:
            return True
        if any(ends[j] < cycle for j in left):
            return False
        ready = [j for j in left if all(i in at and at[i] + d <= cycle for i, d in before[j])]
        rows = [(a, b) for a in ready for b in ready if a < b and beside(ops[a], ops[b])]
        rows += [(a,) for a in ready if not any(a in row for row in rows)]
        return any(search(cycle + 1, (*issued, *((j, cycle) for j in row))) for row in rows or [()])

    return search(0, ())


def fewest(schedule):
    """The fewest cycles of the block that this is a schedule of."""
    limit = 0
    while not can_end(schedule.ops, schedule.pairs, schedule.latencies, limit):
        limit += 1
    return limit
