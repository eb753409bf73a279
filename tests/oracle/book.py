"""Whether rows are a schedule of a block by the book: each operation reads what it reads in the block, and no delay by
memory or outputs is broken. Operations are paired by a plain search among those that are used alike. And whether what
is said of other rows is so."""
import operator
import re
from collections import Counter

from oracle.machine import issued_in
from oracle.scheduler import memory_delays

ISSUE = r"row (\d+): ([^:]*)"
COUNTS = re.compile(rf"(left out|added) (\d+): (?:{ISSUE}|([^:]*))")


def label(op):
    return op.opcode, op.constant


def sources_in_block(ops):
    """For each operation the numbers of those whose results it reads, None for what a register holds at first."""
    defined = {}
    for j, op in enumerate(ops):
        yield [defined.get(register) for register in op.used]
        defined.update((register, j) for register in op.defined)


def sources_in_rows(issued, latencies):
    """The same for operations issued in cycles: each reads what arrived last, and of equals what was issued last."""
    for cycle, op in issued:
        yield [max(((at + other.latency(latencies), k) for k, (at, other) in enumerate(issued)
                    if register in other.defined and at + other.latency(latencies) <= cycle), default=(0, None))[1]
               for register in op.used]


def shapes(ops, sources):
    """What tells operations apart: labels, what is read and by whom each is read, until no more are told apart."""
    found, count = [hash(label(op)) for op in ops], 0
    while len(set(found)) > count:
        count = len(set(found))
        users = [Counter() for _ in ops]
        for k, read in enumerate(sources):
            for place, i in enumerate(read):
                if i is not None:
                    users[i][found[k], place] += 1
        found = [hash((found[k], tuple(None if i is None else found[i] for i in read), frozenset(users[k].items())))
                 for k, read in enumerate(sources)]
    return found


def is_by_the_book(block, rows, latencies):
    ops, issued = [op for op in block if op.opcode != "nop"], issued_in(rows)
    if Counter(map(label, ops)) != Counter(label(op) for _, op in issued):
        return False
    return is_paired(ops, [*sources_in_block(ops)], issued, [*sources_in_rows(issued, latencies)], latencies)


def narrowed(found, issued, waits):
    """Leaves of each operation's partners those that a delay allows beside some partner of the other operation."""
    cycles, before = [cycle for cycle, _ in issued], None
    while all(found) and found != before:
        before = [*found]
        for j, earlier in enumerate(waits):
            for i, d in earlier:
                first = min((cycles[k] for k in found[i]), default=0)
                last = max((cycles[k] for k in found[j]), default=0)
                found[i] = [k for k in found[i] if cycles[k] + d <= last]
                found[j] = [k for k in found[j] if first + d <= cycles[k]]
    return found


def is_paired(ops, wanted, issued, read, latencies):
    here, there = shapes(ops, wanted), shapes([op for _, op in issued], read)
    if Counter(here) != Counter(there):
        return False
    waits = [[(i, d) for i in range(j) for d in memory_delays(ops[i], ops[j], latencies)] for j in range(len(ops))]
    found = narrowed([[k for k, shape_there in enumerate(there) if shape_there == shape] for shape in here], issued,
                     waits)
    partner, taken = {}, set()

    def fits(j, k):
        return ([partner.get(i) for i in wanted[j]] == read[k]
                and all(issued[partner[i]][0] + d <= issued[k][0] for i, d in waits[j]))

    def search(j):
        if j == len(ops):
            return True
        for k in found[j]:
            if k not in taken and fits(j, k):
                partner[j] = k
                taken.add(k)
                if search(j + 1):
                    return True
                taken.remove(k)
                del partner[j]
        return False

    return all(found) and search(0)


def lacking(ops, others):
    """By label how many more operations there are than among the others."""
    return Counter(map(label, ops)) - Counter(map(label, others))


class Reasons:
    """What may be said of rows that aren't by the book: facts of them, each of which is looked up here."""

    def __init__(self, block, rows, latencies):
        self.ops = [op for op in block if op.opcode != "nop"]
        self.issued = issued_in(rows)
        self.given, self.read = [*sources_in_block(self.ops)], [*sources_in_rows(self.issued, latencies)]
        self.here, self.there = terms(self.ops, self.given), terms([op for _, op in self.issued], self.read)
        self.due = [cycle + op.latency(latencies) for cycle, op in self.issued]
        self.left_out = lacking(self.ops, [op for _, op in self.issued])
        self.added = lacking([op for _, op in self.issued], self.ops)

    def are(self, lines):
        """Whether these lines say so: what is left out and added first, then facts by row, eight of them before `and N
        more`; those that name an operation of the block come after the others, and results that are less likely to be
        wrong last."""
        counts = [found for line in lines if (found := COUNTS.fullmatch(line))]
        facts = lines[len(counts):]
        wanted = ["left out"] * bool(self.left_out) + ["added"] * bool(self.added)
        if [found[1] for found in counts] != wanted or not all(map(self.are_counted, counts)) or not lines:
            return False
        if facts and re.fullmatch(r"and [1-9]\d* more", facts[-1]):
            facts.pop()
            if len(facts) != MOST_FACTS:
                return False
        rows = [(" for operation " in line, int(re.search(r"row (\d+)", line)[1])) for line in facts]
        are_in_order = any(rows[:n] == sorted(rows[:n]) and rows[n:] == sorted(rows[n:])
                           and all(line.endswith(" never read") for line in facts[n:]) for n in range(len(rows) + 1))
        return len(facts) <= MOST_FACTS and are_in_order and all(map(self.is_fact, facts))

    def are_counted(self, found):
        what, count, row, op, left_out = found.groups()
        lacking = self.left_out if what == "left out" else self.added
        issued = [self.issued[k][1] for k in self.numbers(row, op)] if what == "added" else []
        named = issued if what == "added" else [own for own in self.ops if str(own) == left_out]
        return int(count) == lacking.total() and any(lacking[label(own)] for own in named)

    def numbers(self, row, text):
        """The operations of this row that are written so."""
        return [k for k, (cycle, op) in enumerate(self.issued) if cycle == int(row) and str(op) == text]

    def is_fact(self, line):
        for form, holds in FACTS.items():
            if found := form.fullmatch(line):
                row, op, *others = found.groups()
                return any(holds(self, k, *others) for k in self.numbers(row, op))
        return False

    def is_under_way(self, k, row, op, until):
        return any(self.issued[k][1].kind in ("load", "output") and self.issued[s][1].kind == "store"
                   and int(row) <= self.issued[k][0] < self.due[s] == int(until) for s in self.numbers(row, op))

    def brings(self, k, register, row, op, until):
        return any(int(register) in self.issued[k][1].used and int(register) in self.issued[n][1].defined and n != k
                   and int(row) <= self.issued[k][0] < self.due[n] == int(until) for n in self.numbers(row, op))

    def replaces(self, k, register, row, op, lost_row, lost_op):
        cycle, reader = self.issued[k]
        read = {i for used, i in zip(reader.used, self.read[k]) if used == int(register)} & {*self.numbers(row, op)}
        return any(lost_row is None or any(n != i and int(register) in self.issued[n][1].defined and self.due[n]
                                           <= cycle for n in self.numbers(lost_row, lost_op)) for i in read)

    def is_never_read(self, k):
        return bool(self.issued[k][1].defined) and not any(k in read for read in self.read)

    def aren_t_in_order(self, k, side, row, op):
        """Whether the rows have these on those sides, and the block has two, but for registers, on other sides."""
        return any({op.kind for op in (self.issued[k][1], self.issued[n][1])} in KEPT_IN_ORDER
                   and SIDES[side](self.issued[k][0], int(row))
                   and self.has_others(self.issued[k][1], self.issued[n][1], side) for n in self.numbers(row, op))

    def has_others(self, one, other, side):
        """Whether of two of these labels the block has the first later, or sooner if it comes `after` in the rows."""
        here, there = ([i for i, own in enumerate(self.ops) if label(own) == label(op)] for op in (one, other))
        return any(i < o if side == "after" else o < i for i in here for o in there)

    def stands_for(self, k, number, op):
        """Whether this operation of the block has its label, but reads something else."""
        own = self.ops[int(number)]
        return str(own) == op and label(own) == label(self.issued[k][1]) and self.here[int(number)] != self.there[k]

    def is_like_none(self, k):
        """Whether no operation of the block has its label and reads what it reads, and so on."""
        return self.there[k] not in self.here

    def reads_others(self, k):
        """Whether it reads other than its counterpart: of a label the first is that of the block's first, and so on."""
        here, there = numbered(self.ops), numbered([op for _, op in self.issued])
        wanted = [self.given[i] for i, other_label in enumerate(here) if other_label == there[k]]
        return any(names(here, given) != names(there, self.read[k]) for given in wanted)


def numbered(ops):
    """The label of each operation, and how many of it come before."""
    labels = [label(op) for op in ops]
    return [(name, labels[:k].count(name)) for k, name in enumerate(labels)]


def names(numbered, sources):
    return [None if i is None else numbered[i] for i in sources]


def terms(ops, sources):
    """A number for each operation that tells its label and the terms of what it reads."""
    found = []
    for op, read in zip(ops, sources):
        found.append(NUMBERS.setdefault((label(op), tuple(None if i is None else found[i] for i in read)),
                                        len(NUMBERS)))
    return found


NUMBERS = {}
MOST_FACTS = 8
KEPT_IN_ORDER = ({"load", "store"}, {"store"}, {"output", "store"}, {"output"})
SIDES = {"before": operator.lt, "after": operator.gt, "not after": operator.eq}
FACTS = {re.compile(form.replace("ISSUE", r"row (\d+): ([^:]*?)")): holds for form, holds in {
    r"ISSUE while ISSUE is under way to row (\d+)": Reasons.is_under_way,
    r"ISSUE reads r(\d+), which ISSUE brings in row (\d+)": Reasons.brings,
    r"ISSUE reads r(\d+) of ISSUE, no longer of (?:the start|ISSUE)": Reasons.replaces,
    r"ISSUE, whose result is never read": Reasons.is_never_read,
    r"ISSUE (before|after|not after) ISSUE": Reasons.aren_t_in_order,
    r"ISSUE for operation (\d+): ([^:]*)": Reasons.stands_for,
    r"ISSUE like none of the block": Reasons.is_like_none,
    r"see ISSUE": Reasons.reads_others,
}.items()}
