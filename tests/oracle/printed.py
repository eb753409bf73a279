"""What the commands list of blocks, worked out anew."""
from functools import cached_property
from itertools import chain, count

from harness.program import with_reason
from language import USUAL
from oracle.graph import OPENING, cluster
from oracle.machine import fault_place, outcome, row_text, signed
from oracle.reader import Reader, Refused
from oracle.ready import ready_lines
from oracle.scheduler import ORDERS, Schedule, all_count
from oracle.trace import trace


def zeros(number):
    return 0


def text_from(lines):
    return "".join(f"{line}\n" for line in lines).encode()


def columns(names, numbers):
    return "".join(f" {name} {number}" for name, number in zip(names, numbers, strict=True))


def total(schedules):
    return f"total {sum(map(Schedule.cycles, schedules))}"


def rows_of(schedule):
    return [*map(row_text, schedule.rows), f"cycles {schedule.cycles()}"]


class Listing:
    """Blocks, and how a command is asked: for which latencies, by which order or by which numbers for each block, by
    which rule of what counts by memory, and on which memory. A method has what a command lists then."""

    def __init__(self, blocks, latencies=USUAL, by="chain", rule=all_count, start=zeros, names=()):
        self.blocks, self.latencies, self.by, self.rule, self.start = blocks, latencies, by, rule, start
        self.names = names or [f"B{k}" for k in range(1, len(blocks) + 1)]
        self.heads = [f"block {k} {name}" for k, name in enumerate(self.names, 1)]

    def schedules_by(self, by):
        ranks = [by] * len(self.blocks) if by in ORDERS else by
        return [Schedule(ops, self.latencies, own, self.rule) for ops, own in zip(self.blocks, ranks, strict=True)]

    @cached_property
    def schedules(self):
        return self.schedules_by(self.by)

    @cached_property
    def by_orders(self):
        """The schedules of each block by all orders, and by its own numbers, if it has some."""
        own = [] if self.by in ORDERS else [self.schedules]
        return [*zip(*map(self.schedules_by, ORDERS), *own)]

    def listed(self, entries, *last):
        lines = ((head, *entry) for head, entry in zip(self.heads, entries, strict=True))
        return text_from([*chain(*lines), *last])

    def table(self, names, rows):
        lines = [(k, *row) for k, row in enumerate(zip(self.names, rows, strict=True), 1)]
        cells = [["block", "name", *names], *([k, name, *numbers] for k, name, numbers in lines)]
        return text_from(",".join(map(str, line)) for line in cells)

    def outputs(self, ops):
        end = outcome(self.start, lambda machine: machine.run(ops))
        return map(signed, end.outputs) if end else ["fault"]

    def run(self):
        return self.listed(map(self.outputs, self.blocks))

    simulate = run

    def where(self):
        """What `run --where` lists."""
        places = [fault_place(ops, self.start) for ops in self.blocks]
        return self.listed([place] if place else self.outputs(ops) for place, ops in zip(places, self.blocks))

    def schedule(self):
        return self.listed(map(rows_of, self.schedules), total(self.schedules))

    def counts(self):
        cycles = (f"{head} cycles {schedule.cycles()}" for head, schedule in zip(self.heads, self.schedules))
        return text_from([*cycles, total(self.schedules)])

    def counts_table(self):
        return self.table(["cycles"], [[schedule.cycles()] for schedule in self.schedules])

    def explain(self):
        return self.listed(map(Schedule.lines, self.schedules), total(self.schedules))

    def explain_table(self):
        """What `explain --csv` lists: texts in quotes, and what an operation waited for with blanks between."""
        lines = ["block,name,number,cycle,unit,ready,after,priority,earliest,slack,held,operation,issued"]
        for k, (name, schedule) in enumerate(zip(self.names, self.schedules, strict=True), 1):
            for told in schedule.told():
                *fields, operation, issued = {**told, "after": told["after"].replace(",", " ")}.values()
                lines.append(",".join(map(str, (k, name, *fields, f'"{operation}"', f'"{issued}"'))))
        return text_from(lines)

    def cycles(self):
        """What `explain --cycles` lists."""
        entries = ([*ready_lines(schedule), schedule.summary()] for schedule in self.schedules)
        return self.listed(entries, total(self.schedules))

    def graph(self):
        clusters = map(cluster, count(1), self.names, self.schedules)
        return text_from([OPENING, *chain.from_iterable(clusters), "}"])

    def trace(self):
        return self.listed(trace(schedule.rows, self.latencies, self.start) for schedule in self.schedules)

    def optimize(self):
        """Without a search."""
        best = [min(row, key=Schedule.cycles) for row in self.by_orders]
        return self.listed(([*rows_of(schedule), f"// bound {schedule.bound()}"] for schedule in best), total(best))

    def unsearched(self):
        """What is known of each block without a search: `least`, and the best of the orders."""
        return [(row[0].least(), min(map(Schedule.cycles, row[:len(ORDERS)]))) for row in self.by_orders]

    def compared(self, sought):
        """What cycles are compared to, also the bound and the best if they were sought, by what there are cycles, and
        the numbers of each block."""
        limits, orders = ["least"], [*ORDERS, *["own"] * (self.by not in ORDERS)]
        rows = [[row[0].least(), *map(Schedule.cycles, row)] for row in self.by_orders]
        if sought is not None:
            limits, rows = [*limits, "bound", "best"], [[least, *found, *cycles]
                                                        for (least, *cycles), found in zip(rows, sought, strict=True)]
        return limits, orders, rows

    def compare(self, sought=None):
        limits, orders, rows = self.compared(sought)
        first, names = len(limits), [*limits, *orders]
        lines = [head + columns(names, row) for head, row in zip(self.heads, rows)]
        lines.append("total" + columns(names, map(sum, zip(*rows))))
        for name, best in ("fewest", lambda row: min(row[first:])), ("optimal", lambda row: row[first > 1]):
            counts = (sum(row[at] == best(row) for row in rows) for at in range(first, len(names)))
            lines.append(f"{name}{columns(orders, counts)} of {len(rows)}")
        return text_from(lines)

    def compare_table(self, sought=None):
        limits, orders, rows = self.compared(sought)
        return self.table([*limits, *orders], rows)


def printed(command, text):
    """How a command ends on a text, at the usual latencies and on a memory of zeros."""
    try:
        blocks = Reader(has_rows=False).read(text)
    except Refused as why:
        return 1, b"", with_reason(command, text, f"ilocfarm: {why}\n".encode())
    listing = Listing([block.ops for block in blocks], names=[block.name for block in blocks])
    return 0, getattr(listing, command)(), b""
