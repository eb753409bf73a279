"""What blocks and rows of operations do on a memory: run plainly, and on the timed machine with its two units."""
from language import WORDS

MASK = 0xFFFF_FFFF
UNITS = {"load": (0,), "store": (0,), "mult": (1,)}     # those that take a kind; any other goes on both


class Fault(Exception):
    """This address isn't good."""


def signed(word):
    return word - (1 << 32) if word >> 31 else word


COMPUTED = {
    "add": lambda a, b: a + b, "sub": lambda a, b: a - b, "mult": lambda a, b: a * b,
    "lshift": lambda a, b: a << b % 32, "rshift": lambda a, b: signed(a) >> b % 32,
}


class Machine:
    """Registers, all 0 at first, and a memory that starts with the words `start` gives by number; 32-bit patterns."""

    def __init__(self, start):
        self.start, self.registers, self.written, self.outputs = start, {}, {}, []

    def word(self, address):
        if address % 4 or address >= 4 * WORDS:
            raise Fault(address)
        number = address // 4
        return self.written[number] if number in self.written else self.start(number)

    def effect(self, op):
        """What an operation does now: a change of registers or memory, or None where it emits or does nothing."""
        used = [self.registers.get(n, 0) for n in op.used]
        if op.kind == "load":
            return self.registers, op.defined[0], self.word((used[0] + (op.constant or 0)) & MASK)
        if op.kind == "store":
            address = (used[1] + (op.constant or 0)) & MASK
            self.word(address)
            return self.written, address // 4, used[0]
        if op.kind == "output":
            self.outputs.append(self.word(op.constant))
        elif op.opcode == "loadI":
            return self.registers, op.defined[0], op.constant
        elif op.kind != "nop":
            right = used[1] if len(used) == 2 else op.constant
            return self.registers, op.defined[0], COMPUTED[op.opcode.removesuffix("I")](used[0], right) & MASK
        return None

    def land(self, effect):
        place, name, word = effect
        place[name] = word

    def run(self, ops):
        for op in ops:
            effect = self.effect(op)
            if effect:
                self.land(effect)

    def run_timed(self, rows, latencies):
        due = {}
        for cycle, row in enumerate(rows):
            for effect in due.pop(cycle, []):
                self.land(effect)
            for op in filter(None, row):
                effect = self.effect(op)
                if effect:
                    due.setdefault(cycle + op.latency(latencies), []).append(effect)
        for cycle in sorted(due):
            for effect in due[cycle]:
                self.land(effect)


def outcome(start, run):
    """The machine when all has been run, or None where an operation faults."""
    machine = Machine(start)
    try:
        run(machine)
    except Fault:
        return None
    return machine


def fault_place(ops, start):
    """Where a block faults on a memory, as `run --where` lists it, or None."""
    machine = Machine(start)
    for number, op in enumerate(ops, 1):
        try:
            machine.run([op])
        except Fault as fault:
            return f"fault at {number}: {op}: word {signed(*fault.args)}"
    return None


def difference(ops, rows, latencies, start, outputs=False):
    """Where rows differ from the block on a memory, as `check` lists it, or None; memory counts only without
    `outputs`."""
    wanted = outcome(start, lambda machine: machine.run(ops))
    got = outcome(start, lambda machine: machine.run_timed(rows, latencies))
    if got is None or wanted is None:
        return None if got is wanted else "fault" if got is None else "no fault"
    if got.outputs != wanted.outputs:
        return first_output(got.outputs, wanted.outputs)
    if outputs:
        return None
    for number in sorted({*got.written, *wanted.written}):
        one, other = got.word(4 * number), wanted.word(4 * number)
        if one != other:
            return f"word {4 * number}: {signed(one)} for {signed(other)}"
    return None


def first_output(got, wanted):
    for k in range(max(len(got), len(wanted))):
        one, other = (str(signed(outputs[k])) if k < len(outputs) else "none" for outputs in (got, wanted))
        if one != other:
            return f"output {k + 1}: {one} for {other}"


def issued_in(rows):
    """The operations of rows, each with its cycle, in order of issue."""
    return [(cycle, op) for cycle, row in enumerate(rows) for op in row if op]


def cycles(rows, latencies):
    return max([0, *(cycle + op.latency(latencies) for cycle, op in issued_in(rows))])


def keeps_units(row):
    """Whether each operation is on a unit that takes it, and one at most is an output."""
    return (all(unit in UNITS.get(op.kind, (0, 1)) for unit, op in enumerate(row) if op)
            and [op.kind for op in row if op] != ["output", "output"])


def bad_row(rows):
    """The first row that breaks the rules of the units, from 0, or None."""
    return next((number for number, row in enumerate(rows) if not keeps_units(row)), None)


def row_text(row):
    return "[ {} ; {} ]".format(*(op or "nop" for op in row))


def bad_row_text(row):
    """A row that breaks the rules of the units, and the first rule that it breaks."""
    zero, one = (op and {"load": "load or store", "store": "load or store", "mult": "product",
                         "output": "output"}.get(op.kind)
                 for op in row)
    if zero and zero == one:
        return f"{row_text(row)}: two {' or '.join(f'{rule}s' for rule in zero.split(' or '))}"
    return f"{row_text(row)}: a {'product on unit 0' if zero == 'product' else 'load or store on unit 1'}"


def words_from(at, words):
    """The memory that `--at` and words ask for."""
    first, count = at // 4, len(words)
    return lambda number: words[number - first] if first <= number < first + count else 0


def memories(count):
    """So many memories: some of good addresses, near one another or anywhere, some of small and some of any words."""
    for seed in range(count):
        yield lambda number, seed=seed: drawn_word(seed, number)


def drawn_word(seed, number):
    drawn = hash((seed, number * 2_654_435_761)) * 0x9E37_79B9_7F4A_7C15 >> 17 & MASK
    style = seed % 4
    if style == 0:
        return 4 * (256 + drawn % 16)
    if style == 1:
        return 4 * (drawn % WORDS)
    return drawn % 100 if style == 2 else drawn
