"""What compilers make of a block without changing what it does. Each kind is a function of a source of chance and
operations, each with a register of its own, and gives such operations, or None where it finds nothing to do."""
from functools import partialmethod

from judged.labs import Known
from judged.students import may_fault, named, needed
from language import ROLES, WORDS
from oracle.machine import COMPUTED
from oracle.operations import Op


class Code:
    """Operations that grow one by one, each with a register of its own, in place of these."""

    def __init__(self, chance, ops=()):
        self.chance, self.ops, self.source = chance, [], {op.defined[0]: op for op in ops if op.defined}
        self.free = 1 + max((n for op in ops for n in (*op.used, *op.defined)), default=-1)

    def __call__(self, opcode, *operands, to=None):
        """Appends an operation, and gives its register; an operand may be an operation too, as a tuple."""
        numbers = [self(*one) if isinstance(one, tuple) else one for one in operands]
        if ROLES[opcode][-1] == "d":
            to, self.free = (self.free, self.free + 1) if to is None else (to, self.free)
            numbers.append(to)
        self.ops.append(Op(opcode, numbers))
        return to

    def operands(self, pattern, op):
        """Of an operation with a pattern: an opcode, and for each operand X or the pattern of what makes it."""
        if not op or op.opcode != pattern[0]:
            return None
        parts = [self.operands(one, self.source.get(n)) if one else [n] for n, one in zip(op.numbers, pattern[1:])]
        return None if None in parts else sum(parts, [])


def rewriting(name, rule):
    """Each operation for which a rule gives another one, as a tuple, is replaced by that."""
    def made(chance, ops):
        code = Code(chance, ops)
        for op in ops:
            new = rule(code, op)
            if new:
                code(*new, to=op.numbers[-1])
            else:
                code.ops.append(op)
        return code.ops if code.ops != ops else None
    return named(made, name)


def by_form(name, *pairs):
    """What has a pattern becomes what the function beside it makes of the operands, if anything."""
    def rule(code, op):
        found = ((make, code.operands(pattern, op)) for pattern, make in pairs)
        return next((make(*operands) for make, operands in found if operands), None)
    return rewriting(name, rule)


def together(name, kinds):
    """Kinds one after another, in any order."""
    def made(chance, ops):
        for kind in chance.sample(kinds, len(kinds)):
            ops = kind(chance, ops) or ops
        return ops
    return named(made, name)


X, K, ZERO, ONE = None, ("loadI", None), ("loadI", 0), ("loadI", 1)
POWERS = {1 << k: k for k in range(31)}
WRITTEN = (
    by_form("commuted", *(((by, X, X), lambda a, b, by=by: (by, b, a)) for by in ("add", "mult"))),
    by_form("to_immediate", *(((by, X, K), lambda a, k, by=by: (f"{by}I", a, k)) for by in COMPUTED)),
    by_form("folded", (("add", K, K), lambda a, b: ("loadI", a + b))),
    by_form("made_shifts", (("multI", X, X), lambda a, k: k in POWERS and ("lshiftI", a, POWERS[k]))))
OTHERWISE = (
    by_form("from_immediate", *(((f"{by}I", X, X), lambda a, k, by=by: (by, a, ("loadI", k))) for by in COMPUTED)),
    by_form("made_products", (("lshiftI", X, X), lambda a, k: k < 31 and ("multI", a, 1 << k))),
    by_form("left_shift_split", (("lshiftI", X, X), lambda a, k: k > 1 and ("lshiftI", ("lshiftI", a, 1), k - 1))),
    by_form("amounts_and_32", *(((by, X, X), lambda a, k, by=by: (by, a, k + 32)) for by in ("lshiftI", "rshiftI"))),
    by_form("negative_added", (("sub", X, X), lambda a, b: ("add", a, ("sub", ZERO, b)))),
    by_form("copied", (("add", X, X), lambda a, b: ("addI", ("add", a, b), 0))),
    by_form("addresses_added", (("loadAI", X, X), lambda a, k: ("load", ("addI", a, k))),
            (("storeAI", X, X, X), lambda value, a, k: ("store", value, ("addI", a, k)))),
    by_form("addresses_known", (("loadAI", K, X), lambda a, k: ("load", ("loadI", a + k))),
            (("storeAI", X, K, X), lambda value, a, k: ("store", value, ("loadI", a + k)))))
POLYNOMIALS = (
    by_form("difference_negated", (("sub", X, X), lambda a, b: ("sub", ZERO, ("sub", b, a)))),
    by_form("difference_regrouped", (("sub", X, ("sub", X, X)), lambda a, b, c: ("add", ("sub", a, b), c))),
    by_form("added_and_subtracted", (("mult", X, X), lambda a, b: ("sub", ("add", ("mult", a, b), a), a))),
    by_form("factor_inside", (("multI", ("add", X, X), X), lambda a, b, k: ("add", ("multI", a, k), ("multI", b, k)))),
    by_form("multiplied_out", (("mult", X, ("add", X, X)), lambda a, b, c: ("add", ("mult", a, b), ("mult", a, c)))),
    by_form("factored", (("add", ("mult", X, X), ("mult", X, X)),
                             lambda a, b, c, d: a == c and ("mult", a, ("add", b, d)))))
# Amounts with the same five lowest bits, each by itself: made of one another they aren't all known to be the same.
AMOUNTS = tuple(
    by_form(name, *(((by, X, X), lambda a, n, by=by, how=how: (by, a, how(n))) for by in ("lshift", "rshift")))
    for name, how in (("amount_and_32", lambda n: ("addI", n, 32)),
                      ("amount_shifted_twice", lambda n: ("rshiftI", ("lshiftI", n, 27), 27)),
                      ("amount_less_its_higher_bits", lambda n: ("sub", n, ("lshiftI", ("rshiftI", n, 5), 5)))))
SHIFTS = (
    by_form("right_shifts_composed", (("rshiftI", ("rshiftI", X, X), X),
                                          lambda a, j, k: ("rshiftI", a, min(31, j + k)))),
    by_form("right_shift_split", (("rshiftI", X, X), lambda a, k: k > 1 and ("rshiftI", ("rshiftI", a, 1), k - 1))),
    by_form("zeros_folded", *(((by, K, X), lambda k, _: k == 0 and ZERO) for by in ("mult", "lshift", "rshift"))),
    by_form("left_shift_as_product", (("lshift", X, X), lambda a, n: ("mult", a, ("lshift", ONE, n)))))


def regrouped(opcode):
    """Operations of one kind, one after another, made as a tree of few levels, with their operands in any order."""
    def rule(code, op):
        found = [op.numbers[-1]] if op.opcode == opcode else []
        for _ in range(4):
            found = [leaf for n in found for leaf in code.operands((opcode, X, X), code.source.get(n)) or [n]]
        code.chance.shuffle(found)
        while len(found) > 2:
            found.append(code(opcode, found.pop(0), found.pop(0)))
        return (opcode, *found) if found else None
    return rewriting(f"{opcode}_regrouped", rule)


def renamed(op, names):
    """An operation that reads other registers in place of these."""
    return op.with_numbers(lambda n, role: names.get(n, n) if role == "u" else n)


class Accesses(Known):
    """The accesses of operations by their places, and what can be done without changing what they do."""

    def __init__(self, ops):
        super().__init__(ops)
        self.loads, self.stores = ([k for k, op in enumerate(ops) if op.kind == kind] for kind in ("load", "store"))
        self.places = {k: self.address(op) for k, op in enumerate(ops) if self.address(op)}

    def may_meet(self, i, j, *kinds):
        """Whether one of these kinds between two places may be at the address of the first of them."""
        return any(op.kind in kinds and not self.are_apart(self.ops[i], op) for op in self.ops[i + 1:j])

    def holders(self, j):
        """Accesses of the address of j whose word is still there, the last one first."""
        return [i for i in sorted(self.loads + self.stores, reverse=True)
                if i < j and self.places[i] == self.places[j] and not self.may_meet(i, j, "store")]

    def word(self, i):
        return (self.ops[i].defined or self.ops[i].used)[0]

    def without(self, places):
        return [op for k, op in enumerate(self.ops) if k not in places] if places else None

    def with_names(self, names):
        """With other registers in the place of these, which aren't made."""
        return [renamed(op, names) for op in self.ops if not names.keys() & {*op.defined}] if names else None

    def dead_dropped(self, _):
        kept = needed(self)
        return kept if len(kept) < len(self.ops) else None

    def common_found(self, _):
        """What is computed again is taken from where it was first."""
        names, found = {}, {}
        for op in (op for op in self.ops if op.defined and op.kind != "load"):
            key = op.opcode, *renamed(op, names).numbers[:-1]
            if found.setdefault(key, op.defined[0]) != op.defined[0]:
                names[op.defined[0]] = found[key]
        return self.with_names(names)

    def loads_forwarded(self, _):
        """What was loaded or stored before isn't loaded again."""
        names = {}
        for j in self.loads:
            names.update((self.word(j), names.get(self.word(i), self.word(i))) for i in self.holders(j)[:1])
        return self.with_names(names)

    def dead_stores_dropped(self, _, are_met=False):
        """Without stores that are overwritten and not read: where a store between may go to their word, or none may."""
        pairs = [(i, j) for j in self.stores for i in self.stores if i < j and self.places[i] == self.places[j]]
        return self.without({i for i, j in pairs if not self.may_meet(i, j, "load", "output")
                             and self.may_meet(i, j, "store") == are_met})

    stores_dropped_past_others = partialmethod(dead_stores_dropped, are_met=True)

    def not_written_back(self, _):
        return self.without({j for j in self.stores for i in self.holders(j)
                             if i in self.loads and self.word(i) == self.word(j)})

    def written_back(self, chance):
        """A word that was loaded is stored where it was."""
        k = chance.choice(self.loads)
        *address, word = self.ops[k].numbers
        return [*self.ops[:k + 1], Op(self.ops[k].opcode.replace("load", "store"), [word, *address]), *self.ops[k + 1:]]

    def stores_exchanged(self, _):
        """Stores of one word to unlike bases change places."""
        for i, j in zip(self.stores, self.stores[1:]):
            between, unlike = self.ops[i:j], self.places[i][0] != self.places[j][0]
            is_late = any(op.kind in ("load", "output") or {*op.defined} & {*self.ops[j].used} for op in between)
            if unlike and not is_late and self.word(i) == self.word(j):
                return [*self.ops[:i], self.ops[j], *between, *self.ops[j + 1:]]
        return None

    def load_between_dropped(self, _):
        """A load that nobody uses is left out where others of its base have lower and higher addresses."""
        used = {n for op in self.ops for n in op.used}
        for k in (k for k in self.loads if self.word(k) not in used and may_fault(self, self.ops[k])):
            near = [at for j, (base, at) in self.places.items() if base == self.places[k][0] and j != k]
            if near and min(near) < self.places[k][1] < max(near):
                return self.without({k})
        return None

    def scratch_restored(self, chance):
        """A result is kept in a word that nothing else uses, whose old word is put back at the end."""
        if any(base is not None for base, _ in self.places.values()):
            return None
        code, k = Code(chance, self.ops), chance.choice([k for k, op in enumerate(self.ops) if op.defined])
        at = code("loadI", chance.choice([4 * n for n in range(WORDS) if (None, 4 * n) not in self.places.values()]))
        old = code("load", at)
        code.ops += self.ops[:k + 1]
        code("store", self.word(k), at)
        names = {self.ops[k].defined[0]: code("load", at)}
        code.ops += [renamed(op, names) for op in self.ops[k + 1:]]
        code("store", old, at)
        return code.ops


def by_accesses(*names):
    return [named(lambda chance, ops, name=name: getattr(Accesses(ops), name)(chance), name) for name in names]


SAME = (*WRITTEN, *by_accesses("dead_dropped", "common_found", "loads_forwarded", "dead_stores_dropped"))
MORE = (*AMOUNTS, *POLYNOMIALS, *SHIFTS, *map(regrouped, ("add", "mult")), *by_accesses(
    "written_back", "not_written_back", "stores_dropped_past_others", "stores_exchanged", "load_between_dropped",
    "scratch_restored"))
O1, O2 = together("O1", SAME), together("O2", (*SAME, *MORE[len(AMOUNTS):-1]))
