"""Whether rows are a schedule of a block by the book, by trying pairing after pairing: the operations of the block get,
one after the other, each of those of the rows that differs in registers alone. Nothing is known of a pairing before it
is tried, so this is for tiny blocks."""
from oracle.book import label, sources_in_block, sources_in_rows
from oracle.machine import issued_in
from oracle.scheduler import memory_delays


def has_pairing(block, rows, latencies):
    ops, issued = [op for op in block if op.opcode != "nop"], issued_in(rows)
    given, read = [*sources_in_block(ops)], [*sources_in_rows(issued, latencies)]

    def is_kept(j, partner):
        """Whether operation j reads what it has to read, and waits as memory and outputs make it wait."""
        return ([None if i is None else partner[i] for i in given[j]] == read[partner[j]]
                and all(issued[partner[i]][0] + d <= issued[partner[j]][0] for i in range(j)
                        for d in memory_delays(ops[i], ops[j], latencies)))

    def is_extended(partner):
        j = len(partner)
        return j == len(ops) or any(
            is_kept(j, [*partner, k]) and is_extended([*partner, k])
            for k, (_, op) in enumerate(issued) if k not in partner and label(op) == label(ops[j]))

    return len(ops) == len(issued) and is_extended([])
