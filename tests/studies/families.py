"""Blocks of 23 families, as compilers make them: a few steps of a loop, unrolled, with one way to address memory and
with stores at once or last. A block has some 5 to 210 operations.

    tests/studies/run families [COUNT [SEED]]       prints so many of each family, 100 where it isn't given
"""
import random
import re

from harness.program import ending
from judged.rewrites import Code as Operations
from oracle.drawn import lab_block, made_block
from oracle.operations import text_of

MOST = 210
AT = 1024


class Code(Operations):
    """A block, with one way to address its words, and with stores at once or last."""

    def __init__(self, chance):
        super().__init__(chance)
        self.late, self.way, self.is_late = [], chance.randrange(3), chance.randrange(2)
        self.base = self("loadI", AT)

    def address(self, word):
        return self("loadI", AT + 4 * word) if self.way == 1 else self("addI", self.base, 4 * word)

    def load(self, word):
        return self("loadAI", self.base, 4 * word) if self.way == 0 else self("load", self.address(word))

    def loads(self, first, count):
        return [self.load(first + k) for k in range(count)]

    def store(self, value, word):
        if self.is_late:
            self.late.append((value, word))
        elif self.way == 0:
            self("storeAI", value, self.base, 4 * word)
        else:
            self("store", value, self.address(word))

    def folded(self, opcode, values):
        first, *others = values
        for value in others:
            first = self(opcode, first, value)
        return first

    def halved(self, opcode, values):
        while len(values) > 1:
            values = [self(opcode, *values[k:k + 2]) if k + 1 < len(values) else values[k]
                      for k in range(0, len(values), 2)]
        return values[0]

    def products(self, n):
        return [self("mult", self.load(k), self.load(100 + k)) for k in range(n)]

    def ended(self):
        self.is_late, late = 0, self.late
        for value, word in late:
            self.store(value, word)
        return [op for op in self.ops if op.opcode != "nop"]


def result(value_of):
    """A family whose block stores one value."""
    def family(code, n):
        code.store(value_of(code, n), 200)
    return family


def axpy(code, n):
    factor = code.load(250)
    for k in range(2 * n):
        code.store(code("add", code.load(k), code("mult", factor, code.load(100 + k))), k)


def stencil(code, n):
    words = code.loads(0, n + 2)
    for k in range(n):
        code.store(code("add", code("add", words[k], words[k + 2]), code("lshiftI", words[k + 1], 1)), 100 + k)


def heat(code, n):
    """Each step loads its three words anew."""
    for k in range(n):
        code.store(code("rshiftI", code.folded("add", code.loads(k, 3)), 1), 100 + k)


def horner(code, n):
    at, value = code.load(250), code.load(0)
    for k in range(1, 2 * n):
        value = code("add", code("mult", value, at), code.load(k))
    return value


def estrin(code, n):
    at, values = code.load(250), code.loads(0, 2 * n)
    while len(values) > 1:
        values = [code("add", values[k], code("mult", at, values[k + 1])) if k + 1 < len(values) else values[k]
                  for k in range(0, len(values), 2)]
        at = code("mult", at, at)
    return values[0]


def fft(code, n):
    """Butterflies on complex words."""
    for k in range(0, 4 * (n // 2 + 1), 4):
        a, b, c, d = code.loads(k, 4)
        re_part, im_part = complex_product(code, c, d, *code.loads(200, 2))
        sums = ("add", a, re_part), ("add", b, im_part), ("sub", a, re_part), ("sub", b, im_part)
        for place, (opcode, one, other) in enumerate(sums):
            code.store(code(opcode, one, other), k + place)


def complex_product(code, a, b, c, d):
    return (code("sub", code("mult", a, c), code("mult", b, d)), code("add", code("mult", a, d), code("mult", b, c)))


def complexes(code, n):
    for k in range(0, 2 * n, 2):
        for place, result in enumerate(complex_product(code, *code.loads(k, 2), *code.loads(100 + k, 2))):
            code.store(result, 200 + k + place)


def matmul(code, n):
    """Two rows by two columns of n words each."""
    for row in range(2):
        for column in range(2):
            terms = [code("mult", code.load(n * row + k), code.load(100 + 2 * k + column)) for k in range(n)]
            code.store(code.folded("add", terms), 200 + 2 * row + column)


def scan(code, n):
    value = code.load(0)
    for k in range(1, 2 * n):
        value = code("add", value, code.load(k))
        code.store(value, 100 + k)


def hashed(code, n):
    value = code("loadI", 5381)
    for k in range(2 * n):
        value = code("add", code("multI", value, 33), code.load(k))
    return value


def polynomials(code, n):
    """The same polynomial at several places."""
    factors = code.loads(0, 4)
    for k in range(n):
        at = code.load(100 + k)
        value = factors[0]
        for factor in factors[1:]:
            value = code("add", code("mult", value, at), factor)
        code.store(value, 200 + k)


def expressions(code, n):
    """Trees of any shape."""
    for k in range(1 + n // 4):
        values = code.loads(8 * k, 8)
        while len(values) > 1:
            one, other = (values.pop(code.chance.randrange(len(values))) for _ in range(2))
            values.append(code(code.chance.choice(["add", "sub", "mult", "add"]), one, other))
        code.store(values[0], 200 + k)


def indexed(code, n):
    """Words of a table whose rows and columns are loaded."""
    for k in range(n):
        row, column = code.loads(2 * k, 2)
        place = code("lshiftI", code("add", code("multI", row, 10), column), 2)
        code.store(code("loadAI", place, AT), 100 + k)


def unoptimised(code, n):
    """Each result goes to memory and is loaded again."""
    code.is_late = 0
    for k in range(n):
        one, other = code.loads(k, 2)
        code.store(code(code.chance.choice(["add", "sub", "mult"]), one, other), k + 2)


def reported(code, n):
    """Words that are computed, stored and printed."""
    code.is_late = 0
    for k in range(n):
        code.store(code("addI", code.load(k), k), 100 + k)
    for k in range(n):
        code("output", AT + 4 * (100 + k))


def copied(code, n):
    for k in range(4 * n):
        code.store(code.load(k), 100 + k)


def mixed(code, n):
    for name in code.chance.sample(["dot", "tree", "stencil", "horner", "copied", "scan", "hashed", "complexes"], 2):
        FAMILIES[name](code, max(1, n // 2))


def whole_blocks(draw):
    """A family of other blocks than the code's own, some after one another."""
    def family(code, n):
        code.ops = [op for _ in range(1 + n // 4) for op in draw(code.chance) if op.opcode != "nop"]
    return family


FAMILIES = {
    "total": result(lambda code, n: code.folded("add", code.loads(0, 4 * n))),
    "tree": result(lambda code, n: code.halved("add", code.loads(0, 4 * n))),
    "dot": result(lambda code, n: code.folded("add", code.products(2 * n))),
    "dot_by_halves": result(lambda code, n: code.halved("add", code.products(2 * n))),
    "horner": result(horner), "estrin": result(estrin), "hashed": result(hashed),
    **{family.__name__: family for family in (axpy, stencil, heat, fft, complexes, matmul, copied, scan, polynomials,
                                              expressions, indexed, unoptimised, reported, mixed)},
    "laboratory": whole_blocks(lab_block), "drawn": whole_blocks(made_block),
}


def blocks_of(family, count, chance):
    made = []
    while len(made) < count:
        code = Code(chance)
        family(code, chance.randrange(1, 17))
        ops = code.ended()
        if len(ops) <= MOST:
            made.append(ops)
    return made


def families_of(count=100, seed=0):
    """The blocks of each family, by its name."""
    return {name: blocks_of(family, int(count), random.Random(f"{name} {seed}")) for name, family in FAMILIES.items()}


def main(*words):
    print(b"".join(map(text_of, families_of(*words).values())).decode(), end="")


def pairs_in(words, listed, blocks):
    out = ending(words, text_of(blocks))[1]
    return [(int(cycles), int(least)) for cycles, least in re.findall(listed, out, re.MULTILINE)]


def explained(blocks, *words):
    """Of each block the cycles and the least."""
    return pairs_in(["explain", *words], rb"^cycles (\d+) least (\d+)", blocks)


def optimized(blocks, *words):
    """Of each block the cycles of the best schedule that is found, and the bound."""
    return pairs_in(["optimize", *words], rb"^cycles (\d+)\n// bound (\d+)", blocks)
