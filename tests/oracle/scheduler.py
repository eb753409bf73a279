"""Delays, the one greedy schedule of a block with its reasons, and the lower bound: worked out anew, over all pairs."""
from itertools import takewhile

from oracle.machine import bad_row, cycles, issued_in, keeps_units
from oracle.operations import Op

SHARES = (({"load", "store"}, 1), ({"mult"}, 1), ({"output"}, 1), (None, 2))    # kinds, and how many a row can hold

ORDERS = ("chain", "slack", "descendants", "successors", "latency", "order")


def renamed(ops):
    names, made, given = {}, [], 0
    for op in ops:
        numbers = []
        for number, role in zip(op.numbers, op.roles):
            if role == "u":
                if number not in names:
                    names[number], given = given, given + 1
                number = names[number]
            numbers.append(number)
        if op.defined:
            names[op.defined[0]], given = given, given + 1
            numbers[op.roles.index("d")] = given - 1
        made.append(Op(op.opcode, numbers))
    return made


def memory_delays(first, second, latencies, count=True):
    """By memory, if the two count, and by the order of outputs."""
    kinds = (first.kind, second.kind)
    if kinds == ("output", "output"):
        return {1}
    if count and kinds in {("store", "load"), ("store", "output")}:
        return {first.latency(latencies)}
    return {1} if count and kinds in {("load", "store"), ("store", "store"), ("output", "store")} else set()


def delays(first, second, latencies, count=True):
    uses = any(register in second.used for register in first.defined)
    return memory_delays(first, second, latencies, count) | ({first.latency(latencies)} if uses else set())


def any_two(i, j):
    return True


def all_count(ops):
    """By the book any two operations count by memory."""
    return any_two


def pairs_of(ops, latencies, count=any_two):
    """Two operations' numbers and the cycles from one to the other, for each delay, where these count by memory."""
    both = ((i, j) for j in range(len(ops)) for i in range(j))
    return [(i, j, d) for i, j in both for d in delays(ops[i], ops[j], latencies, count(i, j))]


def befores_of(ops, pairs):
    return [[(i, d) for i, k, d in pairs if k == j] for j in range(len(ops))]


def beside(a, b):
    """Whether two operations may be in one row."""
    return keeps_units((a, b)) or keeps_units((b, a))


class Schedule:
    """The one greedy schedule of a block by a heuristic, or by numbers of somebody's own, and by a rule of what counts
    by memory; and why it is so."""

    def __init__(self, ops, latencies, by="chain", rule=all_count):
        self.latencies = latencies
        self.originals = [op for op in ops if op.opcode != "nop"]
        self.ops = renamed(self.originals)
        self.is_by_the_book, self.count = rule is all_count, rule(self.ops)
        self.pairs = pairs_of(self.ops, latencies, self.count)
        self.before = befores_of(self.ops, self.pairs)
        self.priorities = [op.latency(latencies) for op in self.ops]
        for i, j, d in sorted(self.pairs, reverse=True):
            self.priorities[i] = max(self.priorities[i], d + self.priorities[j])
        self.ranks = self.ranked(by)
        self.places, self.rows = {}, []
        while len(self.places) < len(self.ops):
            self.issue(len(self.rows))

    def ranked(self, by):
        if isinstance(by, list):
            return by
        if by == "slack":
            return [start + rest for start, rest in zip(starts_of(self.ops, self.pairs), self.priorities)]
        if by == "descendants":
            after = [set() for _ in self.ops]
            for i, j, _ in sorted(self.pairs, reverse=True):
                after[i] |= {j} | after[j]
            return [*map(len, after)]
        if by == "successors":
            return [len({j for k, j, _ in self.pairs if k == i}) for i in range(len(self.ops))]
        return {"chain": self.priorities, "order": [0] * len(self.ops),
                "latency": [op.latency(self.latencies) for op in self.ops]}[by]

    def ready(self, j):
        return max([0, *(self.places[i][0] + d for i, d in self.before[j])])

    def issue(self, cycle):
        """Issues in this cycle what is chosen from what is ready."""
        chosen = self.chosen(j for j in range(len(self.ops)) if j not in self.places
                             and all(i in self.places for i, _ in self.before[j]) and self.ready(j) <= cycle)
        self.rows.append(self.row(chosen))
        self.places.update((j, (cycle, unit)) for unit, j in enumerate(chosen) if j is not None)

    def chosen(self, ready):
        """The first of what is ready, and the first that may go beside it, by unit."""
        ranked = sorted(ready, key=lambda j: (-self.ranks[j], j))
        first = next(iter(ranked), None)
        second = next((j for j in ranked[1:] if beside(self.ops[first], self.ops[j])), None)
        return next(pair for pair in ((first, second), (second, first)) if keeps_units(self.row(pair)))

    def row(self, chosen):
        return [None if j is None else self.ops[j] for j in chosen]

    def departure(self, places):
        """Of rows with the operations in these places: the first that takes something else than is chosen from what is
        ready in these rows, and what is chosen, by unit."""
        for cycle in range(1 + max((at for at, _ in places.values()), default=-1)):
            chosen = self.chosen(j for j, (issued, _) in places.items() if issued >= cycle
                                 and all(places[i][0] + d <= cycle for i, d in self.before[j]))
            if {*chosen} - {None} != {j for j, (issued, _) in places.items() if issued == cycle}:
                return cycle, chosen
        return None

    def after(self, j, ready):
        ended = {i for i, d in self.before[j] if self.places[i][0] + d == ready}
        return ",".join(map(str, sorted(ended, key=lambda i: self.places[i]))) or "-"

    def keeper(self, j, cycle):
        """What keeps operation j out of a cycle's row: the first that can't be beside it, or that on unit 0 of a full
        row."""
        there = [i for _, i in sorted((unit, i) for i, (at, unit) in self.places.items() if at == cycle)]
        barring = [i for i in there if not beside(self.ops[i], self.ops[j])]
        return (barring + there[:1] if len(there) == 2 else barring + [None])[0]

    def held(self, j, ready):
        cycle = self.places[j][0]
        if cycle == ready:
            return "-"
        keeper = self.keeper(j, cycle - 1)
        return "free" if keeper is None else keeper

    def chain(self):
        if not self.ops:
            return "-"
        found = [self.priorities.index(max(self.priorities))]
        while True:
            last = found[-1]
            goes_on = [j for i, j, d in self.pairs if i == last and d + self.priorities[j] == self.priorities[last]]
            if not goes_on:
                return " ".join(map(str, found))
            found.append(min(goes_on))

    def path(self):
        """What binds from cycle 0 to the end, found from the first operation that arrives last, backwards."""
        arrivals = [self.places[j][0] + op.latency(self.latencies) for j, op in enumerate(self.ops)]
        if not arrivals:
            return "-"
        j = arrivals.index(max(arrivals))
        cycle = self.places[j][0]
        parts = [f"{j} +{arrivals[j] - cycle}"]
        while cycle:
            ready, own = self.ready(j), cycle
            if cycle == ready:
                j = int(self.after(j, ready).split(",")[0])
                cycle = self.places[j][0]
                parts.append(f"{j} +{own - cycle}")
            elif (keeper := self.keeper(j, cycle - 1)) is not None:
                j, cycle = keeper, cycle - 1
                parts.append(f"{j} =1")
            else:
                while cycle > ready and self.keeper(j, cycle - 1) is None:
                    cycle -= 1
                parts.append(f"~{own - cycle}")
        return " ".join(reversed(parts))

    def cycles(self):
        return cycles(self.rows, self.latencies)

    def least(self):
        """By addresses not all loads after a store wait for it, so that they don't lengthen its tail."""
        tails = tails_of(self.ops, self.pairs, self.latencies) if self.is_by_the_book else self.priorities
        return least_of(self.ops, self.pairs, tails)

    def broken_by(self, rows):
        """What rows of these operations break: a rule of the units or a delay, or that each is issued once; or None."""
        numbers, at = {}, {}
        for j, op in enumerate(self.ops):
            numbers.setdefault(str(op), []).append(j)
        for cycle, op in issued_in(rows):
            if not numbers.get(str(op)):
                return f"{op} in row {cycle}"
            at[numbers[str(op)].pop(0)] = cycle
        late = (f"{j} {at[j] - at[i]} cycles after {i}, not {d}" for i, j, d in self.pairs if at[j] < at[i] + d)
        bad = bad_row(rows)
        if len(at) < len(self.ops):
            return "an operation is left out"
        return next(late, None) if bad is None else f"row {bad}"

    def bound(self):
        """The least, and whether it is reached."""
        least = self.least()
        return f"{least}{' optimal' if self.cycles() == least else ''}"

    def summary(self):
        return f"cycles {self.cycles()} least {self.bound()}"

    def told(self):
        """What is said of each operation, by the names of a table's columns."""
        cycles, starts = self.cycles(), starts_of(self.ops, self.pairs)
        for j, op in enumerate(self.ops):
            cycle, unit = self.places[j]
            ready = self.ready(j)
            yield {"number": j, "cycle": cycle, "unit": unit, "ready": ready, "after": self.after(j, ready),
                   "priority": self.ranks[j], "earliest": starts[j], "slack": cycles - cycle - self.priorities[j],
                   "held": self.held(j, ready), "operation": self.originals[j], "issued": op}

    def lines(self):
        for told in self.told():
            number, *measures = [*told.items()][:-2]
            yield (f"{number[1]} {' '.join(f'{name} {value}' for name, value in measures)}"
                   f" {told['operation']} ; {told['issued']}")
        yield self.summary()
        yield f"chain {self.chain()}"
        yield f"path {self.path()}"


def needed(first, width, tails):
    """What operations with these tails need from a first cycle on: of j + 1 one is issued j // width cycles later."""
    return max([0, *(first + j // width + tail for j, tail in enumerate(sorted(tails, reverse=True)))])


def starts_of(ops, pairs):
    starts = [0] * len(ops)
    for i, j, d in sorted(pairs, key=lambda pair: pair[1]):
        starts[j] = max(starts[j], d + starts[i])
    return starts


def tails_of(ops, pairs, latencies):
    tails = [op.latency(latencies) for op in ops]
    for i in reversed(range(len(ops))):
        tails[i] = max([tails[i], *(d + tails[j] for k, j, d in pairs if k == i)])
        if ops[i].kind == "store":
            between = takewhile(lambda j: ops[j].kind != "store", range(i + 1, len(ops)))
            loads = [tails[j] for j in between if ops[j].kind == "load"]
            tails[i] = max(tails[i], needed(ops[i].latency(latencies), 1, loads))
    return tails


def least_of(ops, pairs, tails):
    """The greatest of what the operations of a share need, and of what those need that start later than its first."""
    starts, bounds = starts_of(ops, pairs), [0]
    for kinds, width in SHARES:
        shared = [i for i, op in enumerate(ops) if not kinds or op.kind in kinds]
        lowest = min((starts[i] for i in shared), default=0)
        for first in (lowest, lowest + 1):
            bounds.append(needed(first, width, [tails[i] for i in shared if starts[i] >= first]))
    return max(bounds)
