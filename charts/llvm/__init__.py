"""Blocks of real programs: LLVM IR as text, of `clang -S -emit-llvm`, becomes blocks of ILOC of the same shape.

Which operation waits for which is the program's, and so is the class of its latency; values and widths aren't. A call
ends a block, as a branch does. A value of another block is loaded from a frame, at the address in register 0.
"""
import re
from collections import Counter
from dataclasses import dataclass, field

from language import MOST_BLOCKS, MOST_BYTES, MOST_OPERATIONS
from llvm.blocks import Block
from llvm.text import Line, NotUnderstood, tokens_of
from svg import Unread

TYPE = re.compile(r'(%[-\w.$]+|%"[^"]*")\s*=\s*type\s')
GLOBAL = re.compile(r'(@[-\w.$]+|@"[^"]*")\s*=')
HEAD = 4000             # a global's type is within so many characters of its line
IS_IR = ("define ", "declare ", "source_filename ", "target ", "; ModuleID ")
BITCODE = b"BC\xc0\xde"
ENDS = set("br switch ret indirectbr resume unreachable invoke callbr cleanupret catchret catchswitch".split())
CLAUSES = {"catch", "filter", "cleanup"}        # of a landingpad, each on a line of its own
LEADING = {"tail", "musttail", "notail"}
NO_NAME = re.compile(r"[^A-Za-z0-9]+")
LONGEST_NAME = 60
GLOBALS = 32768         # where they begin
MOST_ADDRESS = 2 ** 31
MOST_OF_ONE = 400       # more operations than an instruction becomes
SHOWN = 5


@dataclass
class Report:
    """How much was read and made, and by opcode what became of instructions."""
    least: int              # operations of a block that isn't left out
    functions: int = 0
    blocks: int = 0
    operations: int = 0
    short: int = 0          # blocks that are left out
    cut: int = 0            # blocks that are too long
    other_types: int = 0    # instructions
    from_frame: int = 0     # loads
    size: int = 0           # in bytes, of the blocks as text
    translated: Counter = field(default_factory=Counter)
    approximated: Counter = field(default_factory=Counter)
    left_out: Counter = field(default_factory=Counter)
    not_understood: list = field(default_factory=list)

    def lines(self):
        yield (f"functions {self.functions}, blocks {self.blocks}, operations {self.operations}, of which "
               f"{self.from_frame} load values of other blocks")
        for name in ("translated", "approximated", "left_out"):
            counts = getattr(self, name)
            most = sorted(counts.items(), key=lambda each: (-each[1], each[0]))
            shown = ", ".join(f"{what} {count}" for what, count in most)
            yield f"{name.replace('_', ' ')} {sum(counts.values())}: {shown or 'nothing'}"
        yield f"of other types than i32, taken for words: {self.other_types}"
        if self.short:
            yield f"blocks of fewer operations than {self.least}, left out: {self.short}"
        if self.cut:
            yield f"blocks cut, since ilocfarm reads at most {MOST_OPERATIONS:,} operations of one: {self.cut}"
        if self.blocks > MOST_BLOCKS or self.size > MOST_BYTES:
            yield f"ilocfarm reads at most {MOST_BLOCKS:,} blocks and {MOST_BYTES >> 20} MiB: cut this into pieces"
        for why in self.not_understood[:SHOWN]:
            yield why
        if len(self.not_understood) > SHOWN:
            yield f"and {len(self.not_understood) - SHOWN} more lines are not understood"


class Module:
    """The types and globals of a text, each looked at where something names it."""

    def __init__(self, lines):
        self.types, self.globals, self.addresses, self.end = {}, {}, {}, GLOBALS
        for line in lines:
            if line[:1] == "%" and (found := TYPE.match(line)):
                self.types[found[1]] = line[found.end():]
            elif line[:1] == "@" and (found := GLOBAL.match(line)):
                self.globals[found[1]] = line[found.end():found.end() + HEAD]

    def named(self, name, depth):
        found = self.types.get(name)
        if found is None:
            raise NotUnderstood("a type is missing")
        if isinstance(found, str):
            self.types[name] = None     # while it is read it can't be in itself
            try:
                found = Line(tokens_of(found), self, depth).type()
            finally:
                self.types[name] = found
        return found

    def size_of(self, name):
        """The bytes that a global takes, 8 of what isn't data."""
        line = Line(tokens_of(self.globals.get(name, "")), self)
        while line.peek() not in ("", "global", "constant"):
            line.at += 1
        try:
            return line.type().size if line.skips("global") or line.skips("constant") else 8
        except NotUnderstood:
            return 8

    def address(self, name):
        if name not in self.addresses:
            self.addresses[name] = self.end
            self.end = (self.end + max(8, self.size_of(name) + 7 & ~7)) % MOST_ADDRESS
        return self.addresses[name]


class Function:
    """What blocks of a function share: how often each value is used, and what has a place in the frame."""

    def __init__(self, name, body):
        self.name, self.slots, self.places, self.end = name, {}, {}, 0
        self.uses = Counter(token for _, tokens in body for token in tokens[2 * (tokens[1:2] == ["="]):]
                            if token[0] == "%")

    def slot(self, name):
        if name not in self.slots:
            self.place(name, 4, self.slots)
        return self.slots[name]

    def place(self, name, size, among=None):
        among = self.places if among is None else among
        among[name] = self.end
        self.end = (self.end + max(4, size + 3 & ~3)) % MOST_ADDRESS


def functions_of(lines, where):
    """Each function's name, and its lines by number, as tokens; those of a debugger are none."""
    name, body = None, []
    for at, line in enumerate(lines, 1):
        if name is None and line.startswith("define "):
            tokens = tokens_of(line)
            name, body = next((token[1:] for token in tokens if token[0] == "@"), ""), []
        elif name is not None and line.startswith("}"):
            yield name, body
            name = None
        elif name is not None:
            tokens = tokens_of(line)
            if tokens and not tokens[0].startswith("#dbg") and "@llvm.dbg." not in line:
                body.append((at, tokens))
    if name is not None:
        raise Unread(f"{where}: the text ends within the function {name}")


class Translator:
    """Makes blocks of one text after the other."""

    def __init__(self, least):
        self.report = Report(least)

    def blocks(self, given, where):
        """The blocks of a text as lines of ILOC."""
        if given.startswith(BITCODE):
            raise Unread(f"{where}: this is bitcode: make text of it by llvm-dis, or by clang -S -emit-llvm")
        lines = given.decode("latin-1").split("\n")
        self.where, self.module = where, Module(lines)
        if not any(line.startswith(IS_IR) for line in lines):
            raise Unread(f"{where}: this is no LLVM IR, as clang -S -emit-llvm writes it")
        for name, body in functions_of(lines, where):
            self.report.functions += 1
            yield from self.of_function(Function(name, body), body)

    def of_function(self, function, body):
        block, label, pieces, is_over = Block(function, self.report), "", 0, False
        for at, tokens in body:
            if tokens[1:2] == [":"] or tokens[0].endswith(":"):
                yield from self.ended(block, function, label, pieces)
                block, label, pieces, is_over = Block(function, self.report), tokens[0], 0, False
            elif not is_over and tokens[0] not in CLAUSES:
                is_over, is_call = self.take(block, at, tokens)
                is_cut = block.size() + MOST_OF_ONE > MOST_OPERATIONS
                if is_call or is_cut:
                    self.report.cut += is_cut
                    yield from self.ended(block, function, label, pieces)
                    block, pieces = Block(function, self.report), pieces + 1
        yield from self.ended(block, function, label, pieces)

    def ended(self, block, function, label, pieces):
        operations = block.end()
        if len(operations) < self.report.least:
            self.report.short += bool(operations)
            return
        self.report.blocks += 1
        self.report.operations += len(operations)
        self.report.from_frame += len(block.loads)
        words = [function.name[:LONGEST_NAME], label[:LONGEST_NAME], *[str(pieces + 1)] * bool(pieces)]
        name = NO_NAME.sub("_", "_".join(words)).strip("_")
        text = "\n".join((f"{name if name[:1].isalpha() else 'f' + name}:", *operations, ""))
        self.report.size += len(text)
        yield text

    def take(self, block, at, tokens):
        """Whether an instruction ends the labelled block, and whether it is a call, which ends what was made of it."""
        name = tokens[0] if tokens[1:2] == ["="] else None
        line = Line(tokens, self.module)
        line.at = 2 if name else 0
        while line.peek() in LEADING:
            line.at += 1
        opcode = line.peek()
        line.at += 1
        if opcode in ENDS:
            self.report.left_out[opcode] += 1
            return True, False
        try:
            if opcode == "call":
                return False, not self.intrinsic(block, line, name)
            block.take(opcode, line, name)
            return False, False
        except NotUnderstood as why:
            self.report.left_out["not understood"] += 1
            self.report.not_understood.append(f"{self.where}: line {at} is not understood, so it ends a block: {why}")
            return False, True

    def intrinsic(self, block, line, name):
        """Whether a call is of an intrinsic that an operation or nothing stands for."""
        while line.peek() and not (line.peek()[0] in "@%" and line.peek(1) == "("):
            line.at += 1
        callee = line.peek()
        line.at += 1
        if callee.startswith("@llvm.") and block.intrinsic(callee.split(".")[1], line, name):
            return True
        self.report.left_out["call"] += 1
        return False
