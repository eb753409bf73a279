"""Listings of `trace`, with those of `graph`, `explain` and `check` of the same blocks: what a page shows of each.
`check --json` says which operation of the block each of the rows is."""
import json
import re

import listing
from language import USUAL
from listing import HEADER, PASSED, VERDICT, Listed, Operation, count
from svg import Unread

READ = r"(?:r\d+|word \d+) = -?\d+(?: until \d+)?"
ISSUE = re.compile(rf"(issue|fault) (\d+) unit ([01]) (\w+(?: [r\d,=> ]+?)?)(?: (?:reads|emits) {READ}(?:, {READ})*)?")
WRITE = re.compile(r"write (\d+) (r\d+|word \d+) = -?\d+ was -?\d+ from (\d+)")
NODE = re.compile(r'        b(\d+)_(\d+) \[label="\d+: (.+?)\\npriority \d+".*')
EDGE = re.compile(r'        b(\d+)_(\d+) -> b\1_(\d+) \[label="(\d+)"\];')
DRAWN = re.compile(r"strict digraph blocks \{|    .*|\}")
RECORD = re.compile(r'\{"block":(\d+),.*\}')
SAID = re.compile(r"  \S.*|row \d+: the choice would take .*")     # the last by `explain` of rows
TURN = re.compile(r"cycle (?P<first>\d+)(?:-(?P<last>\d+))? ready (?P<ready>\S+) takes (?:-|\d+) ; (?:-|\d+) "
                  r"next (?P<next>-|\d+ (?:held|at) \d+) active (?:-|\S+)")
RECENT = 64         # operations: more than are issued while a result is under way


class Traced(Listed):
    """A block with its trace and what other listings say of it."""

    def __init__(self, number):
        super().__init__(number, "-")
        self.trace, self.source, self.edges, self.said, self.shown = [], {}, [], [], dict(USUAL)
        self.numbers = []       # of the operations of the block that rows are, as `check --json` has them
        self.turns = []     # of the ready list, as `explain --cycles` has them

    def issue(self, line, kind, cycle, unit, spelling):
        self.operations.append(Operation(spelling, count(cycle), int(unit)))
        if kind == "fault":
            self.wrong[count(cycle)] = [line]

    def arrive(self, line, cycle, place, begun):
        """A result that arrives shows how long its operation took."""
        def sends(operation):
            is_word = place.startswith("word")
            return operation.kind() == "store" if is_word else operation.spelling.endswith(f"=> {place}")

        senders = [operation
                   for operation in self.operations[-RECENT:] if operation.cycle == count(begun) and sends(operation)]
        if not senders:
            raise Unread(f"no operation before sends what arrives: {line}")
        self.shown[senders[0].kind()] = count(cycle) - count(begun)

    def step(self, line):
        """Reads a line of the trace, and says whether it is one."""
        issued, arrived = ISSUE.fullmatch(line), WRITE.fullmatch(line)
        if issued:
            self.issue(line, *issued.groups())
        elif arrived:
            self.arrive(line, *arrived.groups())
        else:
            return False
        self.trace.append(line)
        return True

    def join(self, other):
        """Takes what an explanation or a check says; rows that it explains otherwise stay as they are."""
        self.name, self.least = other.name, other.least or self.least
        self.verdict = other.verdict or self.verdict
        if self.verdict not in PASSED:
            self.wrong.update(other.wrong)
        self.source.update((operation.number, operation.source) for operation in other.operations)
        explained = {(operation.cycle, operation.unit, operation.spelling): operation for operation in other.operations}
        known = [explained.get((operation.cycle, operation.unit, operation.spelling)) for operation in self.operations]
        if all(known):
            self.operations, self.chain, self.path = known, other.chain, other.path

    def number_by(self, rows):
        """Gives each operation the number of that of the block which it is: `rows` has two for each row, or None."""
        for operation in self.operations:
            number = rows[operation.cycle][operation.unit] if operation.cycle < len(rows) else None
            if number in self.source:
                operation.number, operation.source = number, self.source[number]

    def finish(self):
        """Numbers the operations. Those of a graph are counted from 0 on, and edges lead from one to a later one."""
        if {*self.source} != {*range(len(self.source))} or not all(i < j in self.source for i, j, _ in self.edges):
            raise Unread(f"the graph of block {self.number} lacks an operation")
        self.number_by(self.numbers)
        self.cycles = self.end(self.shown)

    def last(self):
        """The cycle after which nothing happens: of a fault, or in which the last result has arrived."""
        kind, cycle, *_ = self.trace[-1].split()
        return int(cycle) if kind == "fault" else self.cycles

    def is_wrong(self):
        return self.verdict not in PASSED


def numbers_in(line):
    """By row the numbers for its two slots, as a line of `check --json` has them."""
    try:
        rows = [(zero, one) for zero, one in json.loads(line)["operations"] or []]
    except (ValueError, KeyError, TypeError):
        raise Unread(f"this is no line of check --json: {line[:60]}") from None
    if not all(number is None or isinstance(number, int) for row in rows for number in row):
        raise Unread(f"the operations of this line are no numbers: {line[:60]}")
    return rows


def read_traces(lines):
    """The blocks that are traced, by number; listings may follow one another."""
    blocks, rest, block = {}, [], None      # the rest keeps its place, for its number
    for line in lines:
        rest.append("")
        head, node, edge = HEADER.match(line), NODE.fullmatch(line), EDGE.fullmatch(line)
        if head or node:
            number = count((head or node)[1])
            block = blocks.setdefault(number, Traced(number))
            is_judged = VERDICT.fullmatch(line)
        if record := RECORD.fullmatch(line):
            blocks.setdefault(count(record[1]), Traced(count(record[1]))).numbers = numbers_in(line)
        elif node:
            block.source[count(node[2])] = node[3]
        elif edge and block:
            block.edges.append(tuple(map(count, edge.groups()[1:])))
        elif block and (turn := TURN.fullmatch(line)):
            block.turns.append(turn.groupdict())
        elif SAID.fullmatch(line) and block:
            block.said.append(line.strip())
            rest[-1] = line if is_judged and line[0] == " " else ""
        elif not (block and block.step(line)) and not DRAWN.fullmatch(line):
            rest[-1] = line
    for listed in listing.read_blocks(rest):
        blocks[listed.number].join(listed)
    found = [block for _, block in sorted(blocks.items()) if block.trace]
    if not found:
        why = [f"; block {other.number}: {said}" for other in blocks.values() for said in other.said[:1]]
        raise Unread(f"there is no {'trace of a ' if blocks else ''}block{''.join(why)}")
    for traced in found:
        traced.finish()
    return found
