"""Listings of `explain`, and rows as `check` reads them, for the scripts that draw them."""
import re
from dataclasses import dataclass, field

from language import LONGEST_LATENCY, MOST_OPERATIONS, PASSING, USUAL, kind_of
from svg import Unread

COLOURS = {"load": "#6cb6ff", "store": "#b392f0", "mult": "#f0a35e", "output": "#6fce7c", "other": "#b9c0c8"}
CHAIN = "#e5484d"
WRONG = "#d6409f"
PATH = "#0969da"
PASSED = ("", *PASSING)     # no verdict, or one that passes
MOST_CYCLES = MOST_OPERATIONS * LONGEST_LATENCY     # of a schedule
HEADER = re.compile(r"block (\d+) (\S+)")
COMMENT = re.compile(r"//.*")
CYCLES = re.compile(r"cycles \d+(?: least (\d+).*)?")
CHAINED = re.compile(r"chain (?:-|(\d+(?: \d+)*))")
PATHED = re.compile(r"path (?:-|\d+(?: [+=~]?\d+)*)")
EXPLAINED = re.compile(r"(\d+) cycle (\d+) unit ([01]) ready (\d+) after (-|\d+(?:,\d+)*) priority (\d+) "
                       r"earliest \d+ slack \d+ held (?:-|free|\d+) (.+?) ; (.+)")
VERDICT = re.compile(r"block (\d+) (\S+) ([a-z]+) cycles (\d+) ours (\d+)(?: best \d+ bound \d+)? least (\d+)"
                     r"(?: claimed \d+)?")
WRONG_ROW = re.compile(r"(?:added \d+: |see |line \d+, )?row (\d+): .+")
NOTHING = re.compile(r"total \d+.*")     # of which nothing is drawn


@dataclass
class Operation:
    spelling: str       # as it is issued
    cycle: int
    unit: int
    number: int = -1    # in the block; what follows is an `explain`'s alone
    source: str = ""    # as it is in the block
    ready: int = 0
    after: str = ""
    priority: int = 0

    def opcode(self):
        return self.spelling.split()[0]

    def kind(self):
        return kind_of(self.opcode())

    def arrival(self, latencies):
        return self.cycle + latencies.get(self.kind(), 1)

    def place(self):
        return f"{self.cycle}.{self.unit}"

    def label(self):
        return self.spelling if self.number < 0 else f"{self.number}: {self.spelling}"

    def told(self, latencies):
        lines = [self.spelling, f"unit {self.unit}, issued at {self.cycle}, arrives at {self.arrival(latencies)}"]
        if self.number >= 0:
            lines.append(f"number {self.number}: {self.source}")
        if self.after:
            waited = "none" if self.after == "-" else self.after.replace(",", " and ")
            lines += [f"ready at {self.ready}, waited last for {waited}", f"priority {self.priority}"]
        return "\n".join(lines)


@dataclass
class Listed:
    """A block of a listing."""
    number: int
    name: str
    operations: list = field(default_factory=list)
    rows: int = 0
    is_headed: bool = True
    cycles: int = 0     # to be set by the latencies
    least: str = ""
    chain: list = field(default_factory=list)
    path: list = field(default_factory=list)
    verdict: str = ""
    wrong: dict = field(default_factory=dict)       # by row what is said of it below the verdict

    def judge(self, name, verdict, least):
        self.name, self.verdict, self.least = name, verdict, least

    def note(self, line):
        """Keeps a line below a verdict that doesn't pass, if it is of a row."""
        if self.verdict not in PASSED and (found := WRONG_ROW.fullmatch(line)):
            self.wrong.setdefault(count(found[1]), []).append(line)

    def take(self, line):
        """Reads a line below the block's header, and says whether it is one."""
        if self.verdict:
            self.note(line)
        elif line.startswith("[") and line.endswith("]"):
            for unit, spelling in enumerate(slots_of(line)):
                if spelling and spelling != "nop":
                    self.operations.append(Operation(spelling, self.rows, unit))
            self.rows += 1
        elif found := EXPLAINED.fullmatch(line):
            number, cycle, unit, ready, after, priority, source, spelling = found.groups()
            made = Operation(spelling, count(cycle), int(unit), count(number), source, count(ready), after,
                             count(priority))
            self.operations.append(made)
            self.rows = max(self.rows, made.cycle + 1)
        elif found := CYCLES.fullmatch(line):
            self.least = found[1] or ""
        elif found := CHAINED.fullmatch(line):
            self.chain = [count(digits) for digits in (found[1] or "").split()]
        elif PATHED.fullmatch(line):
            self.path = [count(digits) for digits in line.split()[1:] if digits.isdecimal()]
        else:
            return False
        return True

    def end(self, latencies):
        return max((operation.arrival(latencies) for operation in self.operations), default=0)


def count(digits):
    """A number of a listing. None is longer than a 32-bit one."""
    if len(digits) > 10:
        raise Unread(f"a number of {len(digits)} digits: {digits[:10]}..")
    return int(digits)


def slots_of(row):
    """The spellings of a row `[ X ; Y ]` by unit; alone a product is on unit 1."""
    first, semicolon, second = (spelling.strip() for spelling in row[1:-1].partition(";"))
    is_product = first and kind_of(first.split()[0]) == "mult"
    return ("", first) if not semicolon and is_product else (first, second)


def read_blocks(lines):
    """The blocks one after the other; rows without a header are block 1. What `check` says of them may follow."""
    blocks = [Listed(1, "-", is_headed=False)]
    block, latest = blocks[0], {1: blocks[0]}
    for at, line in enumerate(lines, 1):
        text = " ".join(COMMENT.sub("", line).split())
        if found := VERDICT.fullmatch(text):
            block = latest.get(count(found[1]), block)
            block.judge(found[2], found[3], found[6])
        elif found := HEADER.fullmatch(text):
            blocks.append(block := Listed(count(found[1]), found[2]))
            latest[block.number] = block
        elif text and not block.take(text) and not NOTHING.fullmatch(text):
            raise Unread(f"line {at} is none of a schedule, as is `[ nop ; output 4 ]`: {line}")
    return [block for block in blocks if block.is_headed or block.rows]


def read_block(lines, wanted):
    found = next((block for block in read_blocks(lines) if block.number == wanted), None)
    if not found:
        raise Unread(f"there is no block {wanted}")
    return found


def add_latencies(made):
    for option, usual in USUAL.items():
        made.add_argument(f"--{option}", metavar="N", type=int, choices=range(1, LONGEST_LATENCY + 1), default=usual,
                          help=f"cycles that a {option} takes, 1 to {LONGEST_LATENCY} [{usual}]")


def lines_of(data):
    """Only a newline ends a line, as it does for the program."""
    return data.decode("utf-8", "replace").removesuffix("\n").split("\n")
