"""Blocks with many operations that are alike: our own rows are by the book, and other rows are where an exhaustive
search finds a pairing."""
import random
from collections import Counter

from harness.program import TESTED, listed
from harness.suite import Check, table
from judged.labs import Given, scheduled
from judged.students import WRONG, own_names, registers_reused
from judged.test_apart import parts
from judged.test_rows import LISTED
from judged.test_students import own_rows_pass
from language import MAX_NUMBER, USUAL
from oracle import alike
from oracle.judge import judged_by
from oracle.machine import bad_row, row_text
from oracle.operations import Op, text_of, words_for
from oracle.pairings import has_pairing
from oracle.scheduler import ORDERS, Schedule

OWN, ALL_OWN = 5000, 50_000
TINY, ALL_TINY = 2000, 20_000
MOST_TINY = 7
AT_ONCE = 500           # blocks of a text
# How schedules are made.
MADE = [*(["schedule", "--priority", by] for by in ORDERS), ["optimize", "--nodes", "20"]]
SHORT, LONG = {"load": 2, "store": 3, "mult": 1}, {"load": 16, "store": 7, "mult": 2}

# The first and the last constants, some of which are one modulo 2^31 - 1, and operations that differ in them alone.
ENDS = [0, 1, MAX_NUMBER - 1, MAX_NUMBER]
APART = [Op("loadI", [MAX_NUMBER, 4]), Op("loadI", [0, 2]), Op("loadI", [0, 0]), Op("add", [1, 0, 0]),
         Op("add", [3, 4, 2])]
MILLION = 1_000_000
NOT_FOUND = {"void", "undecided"}     # of rows for a block that shows nothing


def chunks(items, count):
    return [items[k:k + count] for k in range(0, len(items), count)]


def own_drawn(*constants):
    chance = random.Random(64)
    blocks = [alike.block(chance, constants=constants) for _ in range(OWN if TESTED.is_short else ALL_OWN)]
    for number, some in enumerate(chunks(blocks, len(blocks) // len(MADE) + 1)):
        texts = [(text_of(part), (SHORT, LONG, USUAL)[number % 3]) for part in chunks(some, AT_ONCE)]
        yield from own_rows_pass(texts, MADE[number])


# Rows for a tiny block, which `labs` has with our schedule of it.

def lawful(chance, given):
    """In another order, and in other registers."""
    ranks = [chance.random() for _ in given.ops]
    given.rows = scheduled(given.ops, given.pairs, lambda j: ranks[j])
    return chance.choice([own_names, registers_reused])(chance, given)


def rewired(chance, given):
    """Of operations that read something else."""
    return lawful(chance, Given(Schedule(alike.rewired(chance, given.ops), given.latencies)))


def wrong(chance, given):
    """As students hand them in."""
    given.rows = lawful(chance, given)
    return chance.choice(WRONG)(chance, given) or given.rows


def verdicts_on(cases, *words):
    """Of rows, each beside its block; `undecided` where it isn't decided whether they are by the book."""
    return ["undecided" if "undecided" in below else verdict for verdict, below in judged_by(cases, *words)]


def as_exhaustively():
    chance, counts = random.Random(46), Counter()
    for _ in range((TINY if TESTED.is_short else ALL_TINY) // AT_ONCE):
        latencies = {name: chance.randint(1, 3) for name in SHORT}
        blocks = [alike.block(chance, MOST_TINY) for _ in range(AT_ONCE)]
        cases = [(ops, chance.choice([lawful, rewired, rewired, wrong])(chance, Given(Schedule(ops, latencies))))
                 for ops in blocks]
        for (ops, rows), got in zip(cases, verdicts_on(cases, *words_for(latencies))):
            due = "lawful" if has_pairing(ops, rows, latencies) else "other"
            due = due if bad_row(rows) is None else "units"
            counts[due] += 1
            if due != (got if got in ("units", "lawful", "undecided") else "other"):
                yield f"{[*map(str, ops)]} {[*map(row_text, rows)]} {latencies}: {got} in place of {due}"
    print(f"judged/alike/as_exhaustively: {counts}")


def graphs():
    """Graphs written as code that nobody uses, of which each point has as many neighbours as any other, beside
    themselves and beside other ones."""
    chance = random.Random(8)
    for points in (4, 8, 16, 30, 50):
        drawn = [alike.regular(chance, points, 3) for _ in range(12)]
        own_dues, other_dues = ({"lawful"}, {"void"}) if points < 20 else ({"lawful", *NOT_FOUND}, NOT_FOUND)
        for theirs, dues in ((drawn, own_dues), (drawn[1:] + drawn[:1], other_dues)):
            cases = [(alike.graph(points, own), alike.shuffled(chance, points, other))
                     for own, other in zip(drawn, theirs)]
            found = Counter(verdicts_on(cases))
            print(f"judged/alike/graphs: {points} points: {found}")
            if not {*found} <= dues:
                yield f"{points} points: {found}"


def lawful_rows(name, text, cycles):
    """By `check` of a block with rows that take so many cycles, where ours and the least take three."""
    listing = f"block 1 - lawful cycles {cycles} ours 3 least 3\ntotal {cycles} ours 3 least 3\n"
    return listed(f"judged/alike/{name}", text, listing.encode(), ["check"])


def alike_checks():
    block, rows = parts(LISTED["alike_sums"].text)
    yield lawful_rows("behind_empty_rows", block + b"\n" + b"[ ]\n" * MILLION + rows, MILLION + 3)
    yield lawful_rows("behind_empty_lines", block + b"\n[ ]\n" + b"\n" * MILLION + rows, 4)
    for made in MADE:
        for name, blocks in (("sums", [*alike.sums()]), ("apart", [APART])):
            yield Check(f"judged/alike/{name}/{'_'.join(made)}", own_rows_pass, [(text_of(blocks), USUAL)], made)
    yield Check("judged/alike/own", own_drawn)
    yield Check("judged/alike/own_of_ends", own_drawn, *ENDS)
    yield Check("judged/alike/as_exhaustively", as_exhaustively)
    yield Check("judged/alike/graphs", graphs)


load_tests = table(alike_checks)
