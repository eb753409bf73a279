"""A block with our schedule of it, what is known of its words and addresses, and a plain list scheduler."""
from oracle import apart
from oracle.machine import keeps_units
from oracle.scheduler import befores_of


class Known:
    """What is known of the words and addresses of operations whose results have registers of their own."""

    def __init__(self, ops):
        self.ops, self.values = ops, {n: (None, 0) for op in ops for n in op.used}
        self.values.update((n, value) for op, value in zip(ops, apart.values_of(ops)) for n in op.defined)

    def address(self, op):
        return apart.address(op, self.values.get)

    def are_apart(self, one, other):
        return apart.are_apart(self.address(one), self.address(other))


class Given(Known):
    """A block's renamed operations and our schedule of it, for students to change."""

    def __init__(self, schedule):
        super().__init__(schedule.ops)
        self.latencies, self.rows = schedule.latencies, schedule.rows
        self.originals, self.pairs, self.priorities = schedule.originals, schedule.pairs, schedule.priorities


def scheduled(ops, pairs, rank, width=2):
    """A list schedule: cycle by cycle those that are ready, the least by `rank` first, on a unit that is free."""
    before, places, rows = befores_of(ops, pairs), {}, []
    while len(places) < len(ops):
        row = [None, None]
        ready = [j for j in range(len(ops)) if j not in places
                 and all(i in places and places[i] + d <= len(rows) for i, d in before[j])]
        for j in sorted(ready, key=rank):
            if put(row, ops[j], width):
                places[j] = len(rows)
        rows.append(row)
    return rows


def put(row, op, width=2):
    """Puts an operation on the first unit that may take it, if there is one."""
    for unit in (0, 1):
        made = [op if place == unit else row[place] for place in (0, 1)]
        if not row[unit] and sum(slot is not None for slot in row) < width and keeps_units(made):
            row[:] = made
            return True
    return False
