"""What `check` must say of schedules that others made.

What is right is worked out anew: texts are read by reader.py, rows and blocks are run on machine.py, our cycles and the
least ones come of scheduler.py, and what is by the book of book.py. So `unread` has to be said exactly of blocks with a
line that can't be read, with the place of the first one, `lawful` has to be said exactly of rows by the book, `void` of
blocks that fault or show nothing, a verdict may never be `same` or, with `--outputs`, `prints` where a run differs on
some memory, `differs` has to name the place that differs, what is said of rows that aren't by the book has to be so
under some pairing, and schedules of the kinds in students.py that are right have to be found so.
"""
import re
from functools import cache

from harness.program import ending, told, with_reason
from language import WORDS
from oracle import book
from oracle.machine import Fault, Machine, bad_row, bad_row_text, cycles, difference, memories, row_text, words_from
from oracle.operations import text_of, words_for
from oracle.reader import NoBlocks, Refused, read
from oracle.scheduler import Schedule, all_count

AT = 1024
# Each verdict that a run doesn't settle is tried on so many memories.
MEMORIES = 24
NOT_SAME = 5
PASSING = {"lawful", "same", "prints"}
ENTRY = re.compile(rb"block (\d+) (\S+) (lawful|same|prints|agrees|differs|void|units|unread) "
                   rb"cycles (\d+) ours (\d+) least (\d+)(?: claimed (\d+))?\n((?:  [^\n]*\n)*)")
MADE_UP = re.compile(r"(.*) with --at (\d+)((?: \d+)*)")


def request(latencies, words=(), outputs=False):
    """The words of a command line."""
    return ["check", *words_for(latencies), *["--outputs"] * outputs, *map(str, words)]


def proposed(number, name, rows, claim=None):
    """Rows for a block, as `schedule` lists them."""
    ends = [] if claim is None else [f"cycles {claim}"]
    return "".join(f"{line}\n" for line in [f"block {number} {name}", *map(row_text, rows), *ends]).encode()


def judged_by(cases, *words):
    """Of rows, each beside its block, in one run: the verdict, and the lines below it."""
    text = text_of([ops for ops, _ in cases])
    text += b"".join(proposed(k, f"B{k}", rows) for k, (_, rows) in enumerate(cases, 1))
    found = ENTRY.findall(ending(["check", *words], text)[1])
    if len(found) != len(cases):
        raise RuntimeError(f"{len(found)} verdicts on {len(cases)} blocks")
    return [(verdict.decode(), [line[2:] for line in below.decode().splitlines()])
            for _, _, verdict, *_, below in found]


@cache
def explained(lines, latencies, rule):
    """The cycles of our schedule of a block, and the least ones."""
    ours = Schedule(read(lines.encode())[0].ops if lines else [], dict(latencies), rule=rule)
    return ours.cycles(), ours.least()


def why_void(ops, start, outputs=False):
    """Why a block's outcome on a memory, or what it emits there, says nothing, or None."""
    machine = Machine(start)
    for op in ops:
        try:
            machine.run([op])
        except Fault:
            return f"the block faults: {op}"
    shown = ("output",) if outputs else ("store", "output")
    return None if any(op.kind in shown for op in ops) else "the block shows nothing"


def operations_of(ops):
    """Operations up to registers."""
    return sorted((op.opcode, op.constant or 0) for op in ops if op.opcode != "nop")


class Entry:
    """What is right of one entry of the listing, with `--outputs` or without, ours being by this rule."""

    def __init__(self, number, block, latencies, start, outputs=False, rule=all_count):
        self.number, self.block, self.latencies, self.outputs = number, block, latencies, outputs
        self.cycles = cycles(block.rows, latencies)
        self.ours, self.least = explained("\n".join(map(str, block.ops)), tuple(latencies.items()), rule)
        self.bad = bad_row(block.rows)
        self.is_lawful = self.bad is None and book.is_by_the_book(block.ops, block.rows, latencies)
        self.void = why_void(block.ops, start, outputs)
        self.place = None if self.bad is not None else self.differs_on(start, outputs)

    def numbers(self):
        claim = self.block.claim
        claimed = "" if claim in (None, self.cycles) else f" claimed {claim}"
        return f"cycles {self.cycles} ours {self.ours} least {self.least}{claimed}"

    def text(self, verdict, *below):
        lines = [f"block {self.number} {self.block.name} {verdict} {self.numbers()}", *(f"  {line}" for line in below)]
        return "".join(f"{line}\n" for line in lines)

    def settled(self):
        """Verdict and first line below, where the units, the book or the memory asked for decide; else None."""
        if self.bad is not None:
            return "units", f"row {self.bad}: {bad_row_text(self.block.rows[self.bad])}"
        if self.is_lawful:
            return "lawful", None
        return ("void", self.void) if self.void else ("differs", self.place) if self.place else None

    def differs_on(self, start, outputs):
        return difference(self.block.ops, self.block.rows, self.latencies, start, outputs)

    def wrong(self, got, is_right):
        """What is wrong with an entry, as a Match of ENTRY."""
        verdict, below = got[3].decode(), [line[2:] for line in got[8].decode().splitlines()]
        if got[0].decode() != self.text(verdict, *below):
            yield f"{got[0]!r} in place of {self.text('..')!r}"
        if self.block.unread is not None or verdict == "unread":
            yield from self.wrong_line(got, verdict, below)
            return
        none = [] if self.block.rows or self.is_lawful else ["no rows"]
        if below[:len(none)] != none:
            yield f"{got[0]!r} doesn't say that there are no rows"
        below = below[len(none):]
        due, line = self.settled() or (None, None)
        first = [below.pop(0)] if below and (line or not due and verdict == "differs") else []
        if due and (verdict, first) != (due, [line] if line else []):
            yield f"{got[0]!r} in place of {due} {line}"
        elif not due:
            yield from self.wrong_verdict(verdict, first, is_right)
        if not self.says_why(below):
            yield f"{got[0]!r} doesn't say why the rows aren't by the book"

    def wrong_line(self, got, verdict, below):
        """What is wrong with an entry of rows among which a line can't be read, or that says that one can't."""
        told = len(below) == 1 and re.fullmatch(r"line (\d+), row (\d+): expected [^,]+, found .+", below[0])
        if verdict != "unread" or not told or (int(told[1]), int(told[2])) != self.block.unread:
            yield f"{got[0]!r}, where line and row {self.block.unread} can't be read"

    def says_why(self, lines):
        """Whether lines say why the rows aren't by the book, all that has to be said. Nothing is said of rows that are,
        or that break the rules of the units."""
        if self.bad is not None or self.is_lawful:
            return not lines
        return book.Reasons(self.block.ops, self.block.rows, self.latencies).are(lines)

    def wrong_verdict(self, verdict, first, is_right):
        """What is wrong with a verdict that nothing settles."""
        if verdict == "differs":
            yield from self.wrong_memory(*first)
        elif verdict not in ["same", *["prints"] * self.outputs, "agrees"] or is_right and verdict != "same":
            yield f"block {self.number}: {verdict}"
        elif verdict != "agrees":
            places = (self.differs_on(start, verdict == "prints") for start in memories(MEMORIES))
            yield from (f"block {self.number} isn't {verdict}: {place}"
                        for place in [next(filter(None, places), None)] if place)

    def wrong_memory(self, detail=""):
        """What is wrong with a difference on a memory that the judge made up."""
        made = MADE_UP.fullmatch(detail)
        at, words = (int(made[2]), [*map(int, made[3].split())]) if made else (0, [])
        is_memory = made and at % 4 == 0 and at // 4 + len(words) <= WORDS
        if not is_memory or self.differs_on(words_from(at, words), self.outputs) != made[1]:
            yield f"{detail!r} isn't so"
        elif words and not (words[0] and words[-1]):
            yield f"{detail!r} has a 0 at an end"


def entries_of(given, latencies, start, outputs=False, rule=all_count):
    blocks = read(given)
    if not blocks:
        raise NoBlocks("no blocks")
    return [Entry(k, block, latencies, start, outputs, rule) for k, block in enumerate(blocks, 1)]


def total(entries):
    return "total {} ours {} least {}\n".format(*(sum(getattr(entry, name) for entry in entries)
                                                  for name in ("cycles", "ours", "least")))


def status_of(verdicts, lawful=False):
    """The exit status where these verdicts are listed, with `--lawful` or without."""
    return 0 if set(verdicts) <= ({"lawful"} if lawful else PASSING) else NOT_SAME


def is_of_row(said, err):
    """Whether below a fault of a line is what is wanted there of a row."""
    line = said.split(b": ")[1]
    return re.fullmatch(re.escape(said + line) + rb": expected [^\n]+, found [^\n]+\n", err)


def wrong_ending(ending, given, latencies, start=words_from(AT, []), is_right=False, outputs=False, rule=all_count):
    """What is wrong with how a run of `check` ended."""
    status, out, err = ending
    try:
        entries = entries_of(given, latencies, start, outputs, rule)
    except Refused as why:
        said = f"ilocfarm: {why}\n".encode()
        if (status, out) != (1, b"") or err != with_reason("check", given, said) and not is_of_row(said, err):
            yield f"{told(ending)} in place of {why}"
        return
    at, verdicts = 0, set()
    for entry in entries:
        got = ENTRY.match(out, at)
        if not got:
            yield f"block {entry.number}: {out[at:at + 100]!r}"
            return
        at, verdicts = got.end(), verdicts | {got[3].decode()}
        yield from entry.wrong(got, is_right)
    if out[at:] != total(entries).encode() or err:
        yield f"{out[at:]!r} in place of {total(entries)!r}, {err!r}"
    if status != status_of(verdicts):
        yield f"status {status} of {verdicts}"
