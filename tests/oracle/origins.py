"""Which operation of its block each of somebody's rows is, without `nop`s, in the order of issue."""
from collections import Counter

from oracle.book import Reasons, label, sources_in_block, sources_in_rows
from oracle.machine import issued_in
from oracle.scheduler import memory_delays


def are_by_the_book(block, rows, latencies, origins):
    """Whether rows are a schedule of the block by the book, where each operation is the one of this number."""
    ops, issued = [op for op in block if op.opcode != "nop"], issued_in(rows)
    if sorted(origin for origin in origins if origin is not None) != [*range(len(ops))] or len(origins) != len(ops):
        return False
    cycles = {origin: cycle for origin, (cycle, _) in zip(origins, issued)}
    given = [*sources_in_block(ops)]
    read = [[None if k is None else origins[k] for k in sources] for sources in sources_in_rows(issued, latencies)]
    return (all(label(op) == label(ops[origin]) for origin, (_, op) in zip(origins, issued))
            and all(sources == given[origin] for origin, sources in zip(origins, read))
            and all(cycles[i] + d <= cycles[j] for j in range(len(ops)) for i in range(j)
                    for d in memory_delays(ops[i], ops[j], latencies)))


def origins_of(block, rows, latencies):
    """Of rows that aren't by the book the numbers of operations that can be no other's: of one whose term is on either
    side once, if it reads what is numbered as what that one reads; and of the last of its label on both sides."""
    reasons, known = Reasons(block, rows, latencies), []
    terms = Counter(reasons.here), Counter(reasons.there)
    for term, read in zip(reasons.there, reasons.read):
        origin = reasons.here.index(term) if all(count[term] == 1 for count in terms) else None
        is_known = origin is not None and all(k is None or known[k] is not None for k in read)
        sources = [None if k is None else known[k] for k in read]
        known.append(origin if is_known and sources == reasons.given[origin] else None)
    here = [(label(op), k) for k, op in enumerate(reasons.ops) if k not in known]
    there = [label(op) for (_, op), origin in zip(reasons.issued, known) if origin is None]
    left, numbers = [Counter(found for found, _ in here), Counter(there)], dict(here)
    return [numbers[label(op)] if origin is None and all(count[label(op)] == 1 for count in left) else origin
            for (_, op), origin in zip(reasons.issued, known)]
