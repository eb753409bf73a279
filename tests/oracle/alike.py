"""Blocks with many operations that are alike, and rows for them."""
from itertools import product

from oracle.drawn import ops_of
from oracle.operations import Op

# The opcodes of which a block is drawn.
FEW = (("loadI", "add"), ("loadI", "sub"), ("loadI", "load", "add"), ("load", "add"), ("load", "output", "add"),
       ("addI", "mult"),
       ("loadI", "load", "store"), ("loadI", "add", "store", "output"), ("load", "loadAI", "storeAI", "add"))


def sums():
    """All blocks of three alike `loadI` and three sums of what they bring."""
    loads = [Op("loadI", [4, k]) for k in range(3)]
    for read in product(product(range(3), repeat=2), repeat=3):
        yield [*loads, *(Op("add", [*pair, 3 + k]) for k, pair in enumerate(read))]


def block(chance, most=12, constants=()):
    """A block of few opcodes, registers and constants: of these, if any are given."""
    opcodes = chance.choices(chance.choice(FEW), k=chance.randint(2, most))
    return ops_of(chance, opcodes, chance.choice([2, 3, 4, 6]), constants or chance.choice([[4], [4], [4, 8]]))


def rewired(chance, ops):
    """The operations, of which some use and bring other registers."""
    registers, share = sorted({n for op in ops for n in (*op.used, *op.defined)}), chance.choice([0.1, 0.3, 1])
    return [op.with_numbers(lambda n, role: n if role == "c" or chance.random() > share else chance.choice(registers))
            for op in ops]


def regular(chance, points, ways):
    """Of each of so many points to which others it leads, so that as many lead to each as from it."""
    return [(a, b) for _ in range(ways) for a, b in enumerate(chance.sample(range(points), points))]


def graph(points, edges):
    """A graph written as code that nobody uses: a constant for each point, and a sum for each edge."""
    return [*(Op("loadI", [4, k]) for k in range(points)), *(Op("add", [*edge, points]) for edge in edges)]


def shuffled(chance, points, edges):
    """Rows of the same, with other numbers and in another order."""
    numbers, order = chance.sample(range(points), points), chance.sample(edges, len(edges))
    return [[op, None] for op in graph(points, [(numbers[a], numbers[b]) for a, b in order])]
