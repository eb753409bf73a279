"""A block of ILOC in the making, whose operations depend on one another as those of a block of LLVM IR do."""
from language import MAX_NUMBER, SPELLED
from llvm.text import CASTS, NotUnderstood, is_integer

# Of these instructions ILOC has the operation; of those below one of the same class of latency stands for each.
SAME = {"add": "add", "sub": "sub", "mul": "mult", "shl": "lshift", "ashr": "rshift"}
CLOSE = {"and": "add", "or": "add", "xor": "sub", "lshr": "rshift", "icmp": "sub", "fcmp": "sub",
         **dict.fromkeys("sdiv udiv srem urem fadd fsub fmul fdiv frem".split(), "mult")}
COMBINED = {**dict.fromkeys("select extractelement insertelement shufflevector insertvalue".split(), "add"),
            "fneg": "sub", **dict.fromkeys("fptoui fptosi uitofp sitofp fptrunc fpext".split(), "mult")}
# The operand is taken for the result.
PASSED = {*CASTS, "freeze", "extractvalue"} - {*COMBINED}
OPPOSITE = {"add": "sub", "sub": "add"}
# By the first word of an intrinsic's name what stands for it. Others are calls.
INTRINSICS = {
    **dict.fromkeys("dbg lifetime assume invariant experimental donothing prefetch var stackrestore pseudoprobe"
                    " sideeffect objectsize".split(), ""),
    **dict.fromkeys("expect launder strip ssa ptr threadlocal annotation".split(), "="),
    **dict.fromkeys("abs smax smin umax umin bswap bitreverse ctpop ctlz cttz fshl fshr sadd uadd ssub usub scmp ucmp"
                    " is vector".split(), "add"),
    **dict.fromkeys("smul umul fabs copysign sqrt fma fmuladd floor ceil trunc rint nearbyint round roundeven minnum"
                    " maxnum minimum maximum lrint llrint lround llround canonicalize".split(), "mult"),
}
MOST_ARGUMENTS = 8      # of what isn't a call
FRAME = 0               # the register that no operation defines, so it is 0


class Block:
    """Values of the function are in registers, equal to others, or sums of a register and a number that no operation
    has made yet: one that a single load or store uses is its address."""

    def __init__(self, function, report):
        self.function, self.report = function, report
        self.loads, self.others, self.last = [], [], FRAME
        self.registers, self.constants, self.equal, self.sums = {}, {}, {}, {}

    def size(self):
        return len(self.loads) + len(self.others) + len(self.sums)

    def emit(self, opcode, *numbers):
        self.others.append(SPELLED[opcode].format(*numbers))

    def made(self, opcode, *numbers):
        """The register that an operation defines."""
        self.last += 1
        self.emit(opcode, *numbers, self.last)
        return self.last

    def constant(self, value):
        value &= MAX_NUMBER
        if value not in self.constants:
            self.constants[value] = self.made("loadI", value)
        return self.constants[value]

    def plus(self, register, offset):
        if offset == 0:
            return register
        return self.made("addI" if offset > 0 else "subI", register, abs(offset) & MAX_NUMBER)

    def register(self, operand):
        """The register that has the operand."""
        operand = self.equal.get(operand, operand)
        if isinstance(operand, int):
            return self.constant(operand)
        if operand not in self.registers:
            if operand in self.sums:
                self.registers[operand] = self.plus(*self.sums.pop(operand))
            elif operand in self.function.places:
                self.registers[operand] = self.plus(FRAME, self.function.places[operand])
            else:
                self.registers[operand] = self.from_frame(operand)
        return self.registers[operand]

    def from_frame(self, name):
        """A value of another block. Its load precedes all other operations, so it waits for no store."""
        self.last += 1
        self.loads.append(SPELLED["loadAI"].format(FRAME, self.function.slot(name), self.last))
        return self.last

    def address(self, operand):
        """A register, and the offset from it that needs no operation of its own."""
        operand = self.equal.get(operand, operand)
        if operand in self.function.places and operand not in self.registers:
            return FRAME, self.function.places[operand]
        if operand in self.sums and self.function.uses[operand] == 1:
            return self.sums.pop(operand)
        return self.register(operand), 0

    def set_equal(self, name, operand):
        operand = self.equal.get(operand, operand)
        self.equal[name] = operand
        if not isinstance(operand, int):
            self.function.uses[operand] += self.function.uses[name] - 1

    def end(self):
        """The operations; sums that were made for other blocks come last."""
        for name in [*self.sums]:
            self.register(name)
        return self.loads + self.others

    def count_width(self, found):
        self.report.other_types += (found.kind, found.size) != ("int", 4)

    # What an instruction becomes. `line` is after the opcode, `name` is of the value that it defines.

    def load(self, line, name):
        line.skip_flags()
        self.count_width(line.type())
        line.expect(",")
        self.registers[name] = self.loaded(*self.address(line.typed()[1]))

    def loaded(self, base, offset):
        return self.made("loadAI", base, offset & MAX_NUMBER) if offset or base == FRAME else self.made("load", base)

    def store(self, line, _):
        line.skip_flags()
        found, value = line.typed()
        self.count_width(found)
        line.expect(",")
        self.stored(self.register(value), *self.address(line.typed()[1]))

    def stored(self, value, base, offset):
        if offset or base == FRAME:
            self.emit("storeAI", value, base, offset & MAX_NUMBER)
        else:
            self.emit("store", value, base)

    def getelementptr(self, line, name):
        line.skip_flags()
        base, terms, offset = line.elements()
        base = self.equal.get(base, base)
        if isinstance(base, int) and not terms:
            self.set_equal(name, base + offset)
            return
        if isinstance(base, int):
            base, offset = self.constant(base + offset), 0
        else:
            base, more = self.address(base)
            offset += more
        for value, count in terms:
            base = self.made("add", base, self.times(self.register(value), count))
        if offset < 0 or offset == 0:
            self.registers[name] = self.plus(base, offset)
        else:
            self.sums[name] = base, offset

    def times(self, register, count):
        if count & (count - 1) == 0:
            return register if count == 1 else self.made("lshiftI", register, count.bit_length() - 1)
        return self.made("multI", register, count & MAX_NUMBER)

    def arithmetic(self, opcode, line, name):
        line.skip_flags()
        found, left = line.typed()
        line.expect(",")
        left, right = (self.equal.get(operand, operand) for operand in (left, line.operand()))
        self.count_width(found)
        if isinstance(left, int) and opcode in ("add", "mult"):
            left, right = right, left
        if not isinstance(right, int):
            self.registers[name] = self.made(opcode, self.register(left), self.register(right))
            return
        if right < 0:
            opcode, right = OPPOSITE.get(opcode, opcode), -right if opcode in OPPOSITE else right
        self.registers[name] = self.made(f"{opcode}I", self.register(left), right & MAX_NUMBER)

    def combine(self, opcode, operands, name):
        """Operations of which each takes the result of the last and one more of the values among operands."""
        values = [operand for operand in operands if not isinstance(self.equal.get(operand, operand), int)]
        if not values:
            self.set_equal(name, operands[0] if operands else 0)
            return
        first, *others = map(self.register, values)
        for other in others:
            first = self.made(opcode, first, other)
        self.registers[name] = first if others else self.made(f"{opcode}I", first, 1)

    def operands(self, line):
        line.skip_flags()
        yield line.typed()[1]
        while line.skips(",") and not line.peek()[:1].isdecimal():
            yield line.typed()[1]

    def alloca(self, line, name):
        line.skip_flags()
        found, count = line.type(), 1
        if line.peek() == "," and is_integer(line.peek(1)):
            line.next()
            count = line.typed()[1]
        if isinstance(count, int):
            self.function.place(name, found.size * count)
            self.report.translated["alloca"] += 1
        else:
            self.registers[name] = self.made("sub", FRAME, self.register(count))
            self.report.approximated["alloca as sub"] += 1

    def atomic(self, opcode, line, name):
        """A load, an operation and a store, for `atomicrmw` and `cmpxchg`."""
        line.skip_flags()
        values = [*self.operands(line)]
        base, offset = self.address(values[0])
        self.registers[name] = self.loaded(base, offset)
        made = self.made("sub" if opcode == "cmpxchg" else "add", self.registers[name], self.register(values[1]))
        self.stored(made if opcode == "atomicrmw" else self.register(values[-1]), base, offset)

    def intrinsic(self, word, line, name):
        """Whether the intrinsic is done with; the others are calls."""
        if word not in INTRINSICS:
            return False
        kind = INTRINSICS[word]
        operands = line.arguments() if kind else []
        if len(operands) > MOST_ARGUMENTS:
            return False
        if kind == "=" and operands and name:
            self.set_equal(name, operands[0])
        elif kind and name:
            self.combine(kind, operands, name)
            self.report.approximated[f"llvm.{word} as {kind}"] += 1
            return True
        elif name:
            self.set_equal(name, 0)
        self.report.left_out[f"llvm.{word}"] += 1
        return True

    def take(self, opcode, line, name):
        """Whether the block goes on after an instruction, which isn't a call."""
        if opcode in ("load", "store", "getelementptr"):
            getattr(self, opcode)(line, name)
            self.report.translated[opcode] += 1
        elif opcode in SAME:
            self.arithmetic(SAME[opcode], line, name)
            self.report.translated[opcode] += 1
        elif opcode in CLOSE:
            self.arithmetic(CLOSE[opcode], line, name)
            self.report.approximated[f"{opcode} as {CLOSE[opcode]}"] += 1
        elif opcode in COMBINED:
            self.combine(COMBINED[opcode], [*self.operands(line)], name)
            self.report.approximated[f"{opcode} as {COMBINED[opcode]}"] += 1
        elif opcode in PASSED:
            self.set_equal(name, next(self.operands(line)))
            self.report.left_out[opcode] += 1
        elif opcode in ("atomicrmw", "cmpxchg"):
            self.atomic(opcode, line, name)
            self.report.approximated[f"{opcode} as load, {'sub' if opcode == 'cmpxchg' else 'add'}, store"] += 1
        elif opcode == "alloca":
            self.alloca(line, name)
        elif opcode in ("phi", "fence", "landingpad"):
            self.report.left_out[opcode] += 1
        else:
            raise NotUnderstood("no such instruction")
