"""`--disambiguate` on blocks that make comparing addresses hard: beside the oracle where they are short; where they are
long, memory is bounded, and time grows as n log n."""
from functools import cache

from cases.test_disambiguate import OPTION
from harness.program import ending, stored, unlike
from harness.suite import Check, table
from hostile.test_sizes import measured
from language import MAX_NUMBER, MOST_OPERATIONS
from oracle.apart import by_address
from oracle.printed import Listing
from oracle.reader import read

LENGTH, LONGER = 1000, MOST_OPERATIONS      # operations of a block, and ten times as many
FEW = 120                                   # for the oracle
OF_A_TEXT = 200_000
# By how much as many operations may take longer in the longer blocks: by n log n a third, by n * n ten times.
MOST_TIMES, OF_NO_MATTER_MS = 3, 100
LINEAR = (["schedule"], ["counts"], ["simulate"], ["explain"], ["graph"])
OTHERS = (["compare"], ["optimize"], ["compare", "--nodes", "10"])


def known_then_unknown(n):
    """Stores to known addresses, then loads of unknown ones."""
    yield from (f"storeAI r9 => r0, {4 * k}" for k in range(n // 2))
    yield from ["load r1 => r1"] * (n // 2)


def unknown_by_turns(n):
    yield from (line for k in range(n // 2) for line in (f"storeAI r9 => r0, {4 * k}", "load r1 => r1"))


def a_base_each(n):
    for k in range(n // 3):
        yield from (f"loadAI r0, {4 * k} => r1", "store r0 => r1", "loadAI r0, 8 => r2")


def two_bases(n):
    """Of each a run of loads and a run of stores."""
    run = min(50, n // 8)
    yield from ("load r0 => r1", "loadAI r0, 4 => r2")
    for _ in range((n - 2) // (4 * run)):
        for base in (1, 2):
            yield from (f"loadAI r{base}, {4 * k} => r3" for k in range(run))
            yield from (f"storeAI r0 => r{base}, {4 * k}" for k in range(run))


def loads_then_another_base(n):
    yield "load r0 => r1"
    yield from (f"loadAI r1, {4 * k} => r2" for k in range(n // 2))
    yield from (f"storeAI r0 => r0, {4 * k}" for k in range(n // 2 - 1))


def outputs_between(n):
    yield from (line for k in range(n // 2) for line in (f"storeAI r9 => r0, {4 * k}", f"output {4 * (7 * k % n)}"))


def sums_that_wrap(n):
    """A constant and a base from which sums past 2 ** 32 take 8 time after time."""
    yield "load r0 => r2"
    for k in range(1, n // 8):
        for base in (1, 2):
            yield from [f"addI r{base}, {MAX_NUMBER - 3} => r{base}"] * 2
            yield from (f"storeAI r0 => r{base}, {8 * k + 4 * (k % 500)}", f"loadAI r{base}, {8 * k + 4} => r3")


def addresses_that_fault(n):
    yield from (line for k in range(n // 2)
                for line in (f"storeAI r9 => r0, {2 * k + 1}", f"loadAI r0, {65_536 + 3 * k} => r1"))


def registers_of_nobody(n):
    yield from (line for k in range(n // 2)
                for line in (f"store r0 => r{MAX_NUMBER - k}", f"loadAI r{MAX_NUMBER - k}, {4 * (k % 3)} => r1"))


HARD = {block.__name__: block for block in (
    known_then_unknown, unknown_by_turns, a_base_each, two_bases, loads_then_another_base, outputs_between,
    sums_that_wrap, addresses_that_fault, registers_of_nobody)}


def text_of(block, n):
    return "A:\n" + "".join(f"{line}\n" for line in block(n))


def beside_the_oracle(block):
    text = text_of(block, FEW).encode()
    listing = Listing([read(text)[0].ops], rule=by_address, names=["A"])
    for command in ("simulate", "schedule", "explain", "graph"):
        yield from unlike(command, ending([command, OPTION], text), (0, getattr(listing, command)(), b""))


@cache
def path_of(block, n):
    return stored(f"{block.__name__}_{n}", (text_of(block, n) * (OF_A_TEXT // n)).encode())


def in_time(block, words):
    """Long blocks and short ones, of as many operations in all."""
    times = []
    for n in (LENGTH, LONGER):
        got, wrong = measured(f"{block.__name__} {n}", [*words, OPTION], path_of(block, n))
        yield from wrong
        if got.status:
            yield f"{words}: status {got.status}"
        times.append(got.processor_ms)
    if words in LINEAR and times[1] > MOST_TIMES * times[0] + OF_NO_MATTER_MS:
        yield f"{words}: {times[1]:.0f} ms, where shorter blocks take {times[0]:.0f}"


def address_checks():
    for name, block in HARD.items():
        yield Check(f"addresses/{name}/oracle", beside_the_oracle, block)
        for words in (*LINEAR, *OTHERS):
            yield Check(f"addresses/{name}/{'_'.join(words)}", in_time, block, words)


load_tests = table(address_checks)
