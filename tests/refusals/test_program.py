"""Growths of memory and threads that are refused, one at a time or from one on (refuse.c).

A refusal ends the program with status 3, one line that says of what, and nothing written. A thread that is refused,
or a growth that the C library asks for while it starts one, is a worker that could not be started, but for a thread
that reads: without it one thread reads the whole text, and all ends as always. A growth that the
program asks for is `out of memory`, or, before the last worker is started, may belong to a start. With several workers
the growths come in another order each time, and each run is judged by what was refused in it.

No growth that was refused is done without, but those of a reason why a text isn't understood: who asks for one looks at
the words before the run, keeps the input, and may do without it. So a body that tries again where it has to answer a
refusal is found; one that parses words is by the commands that give no reason, where only the look at their name is left.
"""
import re
from dataclasses import dataclass, field

from bench import inputs
from cases.test_disambiguate import OPTION
from harness.program import ALONE, FARMED, TESTED, ending, stored, told
from harness.suite import Check, table
from judged.test_apart import parts
from judged.test_rows import LISTED
from language import USUAL
from oracle.judge import proposed
from oracle.reader import read
from oracle.scheduler import Schedule
from refusals.refuser import GROWTH, GROWTH_OF_A_START, NOTHING, THREAD, Asked, refusing, symbols

NO_MEMORY = (3, b"", b"ilocfarm: out of memory\n")
# Who may do without a growth: whoever looks at the words, by the commands that give no reason and by the others.
LOOKS = re.compile(r"std_alloc::vec::into_iter::IntoIterClone::clone")
GIVES_REASONS = re.compile(LOOKS.pattern + r"|(clap|strsim|iloc_args|iloc_farm|iloc_lint|iloc_rows|iloc_text|std_alloc|std_io)::.*")
TERSE = [[name] for name in ("run", "simulate", "schedule", "counts", "lint")]
NO_WORKER = (3, b"", b"ilocfarm: a worker could not be started\n")
# As soon as so many runs in a row asked for no growth of the number, none asks for one any more.
UNTOUCHED = 20
SAMPLED = 40

SMALL = (b"A: loadI 8 => r2\nmult r2, r2 => r2\nstore r2 => r2\nB: output 0\noutput 64\nC: output 2\n"
         b"D: loadI 8 => r2\noutput 8\nE: output 8\noutput 2\n")
BAD = b"output 0\nadd r1 r2 => r3\n"
# Rows for the small blocks: some with a wrong word, two outputs in a row, a schedule that isn't ours, and none for a
# block that faults.
ROWS = (b"block 1 A\n[ loadI 64 => r1 ; nop ]\n[ storeAI r1 => r1, 4 ; nop ]\nblock 2 B\n[ output 64 ; nop ]\n"
        b"[ nop ; output 0 ]\nblock 3 C\n[ output 2 ; output 2 ]\n"
        b"block 4 D\n[ output 8 ; nop ]\n[ loadI 8 => r3 ; nop ]\n")
# Rows of rows.cases: sums of which each may be one of several of the block; wrong rows of which only a memory that is
# made up shows it; and an operation that reads what is brought elsewhere.
JUDGED = ("alike_sums", "source_changed_where_registers_are_reused", "result_in_a_register_of_others")
NO_ROW = b"a: output 0\nblock 1 a\nnop nop\n"
UNREAD = b"a: output 0\nblock 1 a\n[ nop nop ]\n"


@dataclass
class Tally:
    """How runs with refusals ended."""
    run: Asked
    whole: tuple
    memory: int = 0
    workers: int = 0
    readers: int = 0    # one thread fewer read, and all ended as always
    wrong: list = field(default_factory=list)

    def add(self, ending, report, what, goes_on=False):
        if report.refused == GROWTH and ending in (self.whole, self.without_reason()):
            asker = symbols(TESTED.program).asker(report)
            if not (LOOKS if self.run.words[:1] in TERSE else GIVES_REASONS).fullmatch(asker):
                self.wrong.append(f"{self.run}, {what}: {asker} does without a growth that was refused")
        elif ending not in self.may_end(report, goes_on):
            self.wrong.append(f"{self.run}, {what}: {told(ending)}")
        self.memory += ending == NO_MEMORY
        self.workers += ending == NO_WORKER
        self.readers += ending == self.whole and report.refused in (GROWTH_OF_A_START, THREAD)

    def without_reason(self):
        """The whole run's ending with a fault's first line alone."""
        status, out, err = self.whole
        return status, out, b"".join(err.splitlines(True)[:1])

    def may_end(self, report, goes_on):
        """The endings that are right."""
        if report.refused == NOTHING:
            return [self.whole]
        if report.refused in (GROWTH_OF_A_START, THREAD):
            is_reader = report.started_before < self.run.readers
            return [self.whole] if is_reader and not goes_on else [NO_WORKER, *[NO_MEMORY] * is_reader]
        is_starting = report.started_before < self.run.workers and (goes_on or not report.by_worker)
        return [NO_MEMORY, *[NO_WORKER] * is_starting]

    def faults(self):
        print(f"{self.run}: {self.memory} without memory, {self.workers} without a worker, "
              f"{self.readers} without a reader")
        is_some = self.memory + self.workers + self.readers
        return self.wrong if is_some else [f"{self.run}: nothing was refused"]


def middling():
    draw = inputs.Draw()
    return b"".join(inputs.block(draw, f"L{number}", 4 + draw.below(20), range(16)) for number in range(40))


def long_text():
    """The middling blocks with long comments between them: two threads read this text, and then the others work."""
    return middling().replace(b"\nL", b"\n//" + b" " * 15_000 + b"\nL")


def middling_rows():
    """Our schedules of the middling blocks, of which every third lacks its last row."""
    for number, block in enumerate(read(middling()), 1):
        rows = Schedule(block.ops, USUAL).rows
        yield proposed(number, block.name, rows[:-1] if number % 3 == 0 else rows)


def runs(name, given, rows):
    yield Asked(["run", "--at", "0", "5", "6"], name, given)
    for command in ("lint", *ALONE):
        if command not in ("run", "check"):
            yield Asked([command], name, given)
    for form in ([], ["--json"], ["--nodes", "10"], [OPTION, "--nodes", "10"]):
        yield Asked(["check", "--at", "0", "5", "6", *form], name, given + rows)
    for command in ("check", "explain", "trace"):
        yield Asked([command, "--task", stored(f"{name}.iloc", given)], f"rows for {name}", rows)
    yield Asked(["counts", "--csv", "--workers", "1"], name, given, 1)
    yield Asked(["compare", "--nodes", "10", "--workers", "1"], name, given, 1)
    yield from (Asked([command, OPTION], name, given) for command in ("simulate", "graph"))
    for workers in (1, 8):
        for command in FARMED:
            for more in ([], [OPTION]):
                yield Asked([command, *more, "--workers", str(workers)], name, given, workers)
        numbers = stored(f"{name}.priorities", priorities_of(given))
        for command in ("schedule", "compare", "explain"):
            yield Asked([command, "--priorities", numbers, "--workers", str(workers)], name, given, workers)


def priorities_of(given):
    return "\n".join("1 " * sum(op.opcode != "nop" for op in block.ops) for block in read(given)).encode()


def few_runs():
    yield from runs("5 blocks", SMALL, ROWS)
    yield Asked(["counts"], "a bad line", BAD)
    yield Asked(["lint"], "a bad line", BAD)
    for name in JUDGED:
        block, rows = parts(LISTED[name].text)
        for command in ("check", "explain"):
            yield Asked([command, "--task", stored(f"{name}.iloc", block)], name, rows)
    yield Asked(["check"], "a bad row", NO_ROW)
    for form in ([], ["--json"]):
        yield Asked(["check", *form], "an unread row", UNREAD)
    yield Asked(["check", "--task", stored("bad.iloc", BAD)], "a bad task", ROWS)
    yield Asked(["counts", "--priorities", stored("bad.priorities", b"1 2\n")], "bad priorities", SMALL)
    yield Asked(["run", "--help"], "nothing", b"")
    yield Asked(["run", "--at", "2"], "nothing", b"")
    yield Asked([], "nothing", b"")


def long_runs():
    """A fault of the text is reported though no thread could be started that reads."""
    for command in ("schedule", "counts"):
        yield Asked([command, "--workers", "2"], "a long text", long_text(), 4, 2)
        yield Asked([command, "--workers", "2"], "a long text with a fault", long_text() + b"add r1 r2 => r3\n", 2, 2)


def refusal_checks():
    for asked in [*few_runs(), *runs("40 blocks", middling(), b"".join(middling_rows())), *long_runs()]:
        yield Check(f"refusals/growths/{asked}", growths, asked)
        yield Check(f"refusals/from_one_on/{asked}", from_one_on, asked)
        if asked.workers:
            yield Check(f"refusals/threads/{asked}", threads, asked)


def tally_of(asked):
    """A tally, and how many growths the run asks for where none is refused."""
    tally = Tally(asked, ending(asked.words, asked.given, env={}))
    end, report = refusing(asked)
    tally.add(end, report, "nothing refused")
    return tally, report.growths


def growths(asked):
    tally, total = tally_of(asked)
    step = max(1, total // SAMPLED) if TESTED.is_short else 1
    number = 1
    untouched = 0
    while untouched < UNTOUCHED and (step == 1 or number <= total):
        end, report = refusing(asked, growth=number)
        tally.add(end, report, f"growth {number}")
        untouched = 0 if report.refused else untouched + 1
        number += step
    return tally.faults()


def from_one_on(asked):
    tally, total = tally_of(asked)
    for number in range(1, total + 1, max(1, total // SAMPLED)):
        end, report = refusing(asked, growth=number, on=1)
        tally.add(end, report, f"from growth {number} on", goes_on=True)
    return tally.faults()


def threads(asked):
    tally, _ = tally_of(asked)
    for number in range(1, asked.workers + 2):
        end, report = refusing(asked, thread=number)
        tally.add(end, report, f"thread {number}")
    return tally.faults()


load_tests = table(refusal_checks)
