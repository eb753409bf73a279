"""The dependence graph of blocks as `graph` prints it for Graphviz: the nearest delays, and a longest chain of all."""
from listing import CHAIN, COLOURS
from oracle.scheduler import memory_delays

OPENING = """strict digraph blocks {
    bgcolor="transparent"; fontname="monospace"; fontcolor="#59636e"; color="#7d8590";
    node [shape=box, style="filled,rounded", fontname="monospace", fontcolor="#0b0f14", color="transparent"];
    edge [fontname="monospace", fontcolor="#59636e", color="#7d8590"];"""
MARKED = f' [color="{CHAIN}", penwidth=2];'


def nearest_pairs(schedule):
    """Of each two operations between which an edge is drawn the longest delay."""
    longest = {}
    for i, j, d in schedule.pairs:
        longest[i, j] = max(d, longest.get((i, j), 0))
    for (i, j), d in sorted(longest.items(), key=lambda entry: (entry[0][1], entry[0][0])):
        if uses(schedule, i, j) or (is_near(schedule, i, j) and not has_passed(schedule, i, j)):
            yield i, j, d


def uses(schedule, i, j):
    return any(register in schedule.ops[j].used for register in schedule.ops[i].defined)


def waits(schedule, i, j):
    """Whether operation j has to come after operation i by memory or outputs."""
    return bool(memory_delays(schedule.ops[i], schedule.ops[j], schedule.latencies, schedule.count(i, j)))


def is_near(schedule, i, j):
    """Whether it uses i's result, or has to come after i with none between that takes i's place: an output between two
    outputs, else a store that has to come after i and before j."""
    first, second = schedule.ops[i].kind, schedule.ops[j].kind
    if first == second == "output":
        taken = any(schedule.ops[k].kind == "output" for k in range(i + 1, j))
    else:
        taken = any(schedule.ops[k].kind == "store" and waits(schedule, i, k) and waits(schedule, k, j)
                    for k in range(i + 1, j))
    return uses(schedule, i, j) or (waits(schedule, i, j) and not taken)


def has_passed(schedule, i, j):
    """Whether another that is near to j has to come after i."""
    return any(waits(schedule, i, k) and is_near(schedule, k, j) for k in range(i + 1, j))


def cluster(number, name, schedule):
    def node(i):
        return f"        b{number}_{i}"

    yield f"    subgraph cluster_{number} {{\n        label=\"block {number} {name}\";"
    for i, op in enumerate(schedule.originals):
        yield (f'{node(i)} [label="{i}: {op}\\npriority {schedule.priorities[i]}", '
               f'fillcolor="{COLOURS.get(op.kind, COLOURS["other"])}"];')
    yield from (f'{node(i)} -> b{number}_{j} [label="{d}"];' for i, j, d in nearest_pairs(schedule))
    chain = schedule.chain().split() if schedule.ops else []
    if chain:
        yield " -> ".join([node(chain[0]), *(f"b{number}_{i}" for i in chain[1:])]) + MARKED
        yield from (f"{node(i)}{MARKED}" for i in chain)
    yield "    }"
