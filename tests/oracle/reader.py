"""Reads blocks and the schedules proposed for them, line by line, as docs/LANGUAGE.md says."""
import re
from dataclasses import dataclass, field

from language import FORMS, MAX_NUMBER, MOST_BLOCKS, MOST_BYTES, MOST_OPERATIONS
from oracle.operations import Op

BLANKS = b" \t\r"
NAME = rb"[A-Za-z][A-Za-z0-9_]*"
TOKENS = {"u": rb"r([0-9]+)", "d": rb"r([0-9]+)", "c": rb"([0-9]+)", ", ": rb"[ \t\r]*,[ \t\r]*",
          " => ": rb"[ \t\r]*=>[ \t\r]*"}


def operation_form(opcode, form):
    operands = b"".join(TOKENS[token] for token in re.findall(", | => |[udc]", form))
    return re.compile(opcode.encode() + (rb"[ \t\r]+" if form else b"") + operands)


OPERATIONS = {opcode.encode(): (opcode, operation_form(opcode, form)) for opcode, form in FORMS.items()}
NOP = Op("nop", [])
LABEL = re.compile(rb"(" + NAME + rb")[ \t\r]*:")
HEAD = re.compile(rb"block[ \t\r]+([0-9]+)[ \t\r]+(-|" + NAME + rb")")
COUNT = re.compile(rb"(cycles|total)[ \t\r]+([0-9]+)")
NO_SUCH_BLOCK = 'expected "block K NAME" with the number and the name of a later block, - for no name'


class Refused(Exception):
    """Why a text is refused, as the program says it."""


class NoBlocks(Refused):
    """A text for `check` that has no blocks, at whatever line that shows."""


@dataclass
class Block:
    name: str
    ops: list = field(default_factory=list)
    rows: list = field(default_factory=list)
    issued: int = 0     # operations in the rows
    claim: int = None
    unread: tuple = None    # the number of the first line that can't be read, and how many rows precede it


def operation_of(text):
    opcode, form = OPERATIONS.get(re.match(rb"\w*", text)[0], (None, None))
    found = form and form.fullmatch(text)
    return Op(opcode, [int(digits) for digits in found.groups()]) if found else None


def schedule_line(text):
    """The kind of a schedule line with what it says, or None."""
    if text[:1] == b"[" and text[-1:] == b"]":
        slots = [operation_of(slot.strip(BLANKS) or b"nop") for slot in text[1:-1].split(b";")]
        return None if None in slots or len(slots) > 2 else ("row", slots if len(slots) == 2 else single(*slots))
    if found := HEAD.fullmatch(text):
        return "head", (int(found[1]), found[2].decode())
    if found := COUNT.fullmatch(text):
        return found[1].decode(), int(found[2])
    return None


def single(op):
    """The row of one operation."""
    return [NOP, op] if op.kind == "mult" else [op, NOP]


def numbers_of(kind, said):
    if kind == "row":
        return [n for op in said for n in op.numbers]
    return [said[0] if kind == "head" else said]


def is_too_large(kind, said):
    return max(numbers_of(kind, said), default=0) > MAX_NUMBER


def plain_line(text):
    """The label and the operation of a line of a block, None for each that isn't there."""
    label = LABEL.match(text)
    rest = text[label.end():].strip(BLANKS) if label else text
    op = operation_of(rest) if rest else None
    if rest and not op:
        raise Refused("not understood")
    if op and max(op.numbers, default=0) > MAX_NUMBER:
        raise Refused(f"number above {MAX_NUMBER}")
    return label and label[1].decode(), op


class Reader:
    """Reads blocks and, with `has_rows`, schedule lines after them."""

    def __init__(self, has_rows=True):
        self.blocks, self.head, self.is_behind, self.number, self.has_rows = [], 0, False, 0, has_rows

    def read(self, text):
        """The blocks of the text, or Refused."""
        if len(text) > MOST_BYTES:
            raise Refused(f"input longer than {MOST_BYTES} bytes")
        for self.number, line in enumerate(text.split(b"\n"), 1):
            try:
                self.line(line.split(b"//")[0].strip(BLANKS))
            except NoBlocks:
                raise
            except Refused as why:
                raise Refused(f"line {self.number}: {why}") from None
        return self.blocks

    def line(self, text):
        found = schedule_line(text) if self.has_rows else None
        if found and not self.blocks:
            raise NoBlocks("no blocks")
        self.is_behind = self.is_behind or found is not None
        if self.is_behind and text and (not found or is_too_large(*found)):
            self.issue_unread()
        elif found:
            self.schedule_line(*found)
        elif text:
            self.block_line(*plain_line(text))

    def block_line(self, label, op):
        if label or not self.blocks:
            if len(self.blocks) == MOST_BLOCKS:
                raise Refused(f"more than {MOST_BLOCKS} blocks")
            self.blocks.append(Block(label or "-"))
        if op:
            self.blocks[-1].ops.append(op)
            few(len(self.blocks[-1].ops))

    def schedule_line(self, kind, said):
        if kind == "head":
            self.start(*said)
        elif kind == "cycles":
            self.current().claim = said
            self.head = self.head or 1
        elif kind == "row":
            self.issue([None if op.opcode == "nop" else op for op in said])

    def start(self, number, name):
        if not self.head < number <= len(self.blocks):
            raise Refused(NO_SUCH_BLOCK)
        self.head = number
        if self.blocks[number - 1].name != name:
            self.issue_unread()

    def current(self, fault=NO_SUCH_BLOCK):
        if not self.head and len(self.blocks) != 1:
            raise Refused(fault)
        return self.blocks[max(self.head, 1) - 1]

    def issue_unread(self):
        """A line that can't be read stands as an empty row, and one of a single block may come before its head."""
        block = self.current("not understood")
        block.unread = block.unread or (self.number, len(block.rows))
        block.rows.append([None, None])

    def issue(self, row):
        block = self.current()
        self.head = self.head or 1
        block.rows.append(row)
        block.issued += sum(op is not None for op in row)
        few(block.issued)


def few(count):
    if count > MOST_OPERATIONS:
        raise Refused(f"more than {MOST_OPERATIONS} operations in a block")


def read(text):
    """The blocks of a text with the rows for each, or Refused."""
    return Reader().read(text)
