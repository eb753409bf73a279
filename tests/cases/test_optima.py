"""`optimize`, `compare --nodes` and `check --nodes`, by the book and with addresses compared: beside an exact search,
beside `check`, and on blocks as compilers make them, that are hard to search, or that aren't searched."""
import json
import random
import re
import time

from cases.test_disambiguate import OPTION
from harness.program import TESTED, ending, unlike
from harness.suite import Check, table
from language import LONGEST_LATENCY, MOST_OPERATIONS, USUAL
from oracle.apart import by_address
from oracle.drawn import aliasing_block, lab_block
from oracle.operations import Op, text_of, words_for
from oracle.optimum import fewest, odd_latencies, small_block
from oracle.printed import Listing
from oracle.reader import read
from oracle.scheduler import Schedule, all_count
from studies.families import families_of

ENTRY = re.compile(rb"^cycles ([0-9]+)\n// bound ([0-9]+)( optimal)?$", re.MULTILINE)
NUMBERS = ("cycles", "ours", "best", "bound", "least")      # that `check` has of a block
CHECKED = re.compile(rf"^block .* {' '.join(rf'{name} ([0-9]+)' for name in NUMBERS)}".encode(), re.MULTILINE)
TOGETHER = 20       # blocks of a run
MOST_SEARCHED = 300
SLOWEST = dict.fromkeys(USUAL, LONGEST_LATENCY)


def options_of(listing):
    return [*words_for(listing.latencies), *[OPTION] * (listing.rule is by_address)]


def optimized(listing, nodes, *words):
    """How a search ends on the blocks of a listing, for its latencies and by its rule."""
    return ending(["optimize", "--nodes", str(nodes), *options_of(listing), *words], text_of(listing.blocks))


def found_in(end, listing):
    """Of each block the cycles, the bound, and whether it is said to be optimal."""
    status, out, err = end
    found = [(int(cycles), int(bound), bool(optimal)) for cycles, bound, optimal in ENTRY.findall(out)]
    if (status, err) != (0, b"") or len(found) != len(listing.blocks):
        raise ValueError(f"status {status}, {len(found)} of {len(listing.blocks)} blocks, {err}")
    return found


def unlawful(end, listing):
    """What `check` has against rows, where anything is; where addresses are compared, which delay isn't kept."""
    given = text_of(listing.blocks) + end[1]
    if listing.rule is by_address:
        broken = (schedule.broken_by(block.rows) for schedule, block in zip(listing.schedules, read(given)))
        yield from (f"{end[1]}: {delay}" for delay in broken if delay)
        return
    status, out, err = ending(["check", "--lawful", *options_of(listing)], given)
    if status:
        yield f"check ends with status {status}: {out[-200:]} {err}"


def small_blocks(chance, rule):
    return Listing([small_block(chance) for _ in range(TOGETHER)], odd_latencies(chance), rule=rule)


def exact(count, rule):
    """No bound is above the fewest cycles, and no schedule takes fewer; with ample nodes both meet."""
    chance = random.Random("optima")
    for _ in range(0, count, TOGETHER):
        listing, nodes = small_blocks(chance, rule), chance.choice([0, 1, 5, 1000])
        end = optimized(listing, nodes)
        for schedule, (cycles, bound, optimal) in zip(listing.schedules, found_in(end, listing)):
            least = fewest(schedule)
            if not bound <= least <= cycles or optimal != (bound == cycles) or nodes == 1000 and not optimal:
                block = [*map(str, schedule.originals)]
                yield f"{block}, {listing.latencies}, {nodes} nodes: {cycles}, bound {bound}, of {least}"
        yield from unlawful(end, listing)


def compared(listing, sought, nodes, *words):
    """Where `compare` lists anything but these bounds and best cycles beside the orders', in lines or in a table."""
    for due, form in ((listing.compare(sought), []), (listing.compare_table(sought), ["--csv"])):
        asked, text = ["compare", "--nodes", str(nodes), *options_of(listing), *words, *form], text_of(listing.blocks)
        yield from unlike(f"{text}, {asked}", ending(asked, text), (0, due, b""))


def exact_beside_orders(count, rule):
    """With ample nodes `compare` lists the fewest cycles as bound and best, and counts the orders that reach them."""
    chance = random.Random("compared optima")
    for _ in range(0, count, TOGETHER):
        listing = small_blocks(chance, rule)
        yield from compared(listing, [(fewest(schedule),) * 2 for schedule in listing.schedules], 1000)


def as_optimized(count, rule):
    """`compare` lists the bounds and the cycles of `optimize` with as many nodes, whatever the workers of both."""
    for seed in range(count):
        chance = random.Random(f"as optimized {seed}")
        latencies, nodes = chance.choice([USUAL, SLOWEST, odd_latencies(chance)]), chance.choice([0, 1, 10, 1000])
        blocks = [lab_block(chance) for _ in range(TOGETHER)] + [hard_block(chance.randrange(10, 60))]
        listing = Listing(blocks, latencies, rule=rule)
        end = optimized(listing, nodes)
        sought = [(bound, cycles) for cycles, bound, _ in found_in(end, listing)]
        for workers in map(str, range(1, 9)):
            yield from unlike(f"{workers} workers", optimized(listing, nodes, "--workers", workers), end)
            yield from compared(listing, sought, nodes, "--workers", workers)


def checked(count, rule):
    """`check` has the best cycles and the bound after ours, in lines and in JSON: with ample nodes both are the fewest
    cycles, which the rows take that are handed in."""
    chance = random.Random("checked optima")
    for _ in range(0, count, TOGETHER):
        listing = small_blocks(chance, rule)
        due = [[best := fewest(schedule), schedule.cycles(), best, best, schedule.least()]
               for schedule in listing.schedules]
        given = text_of(listing.blocks) + optimized(listing, 1000)[1]
        lines, objects = (ending(["check", "--nodes", "1000", *options_of(listing), *form], given)[1]
                          for form in ([], ["--json"]))
        in_lines = [[*map(int, numbers)] for numbers in CHECKED.findall(lines)]
        in_json = [[entry[name] for name in NUMBERS] for entry in map(json.loads, objects.splitlines())]
        if not in_lines == in_json == due:
            yield f"{given}, {listing.latencies}: {in_lines} and {in_json} in place of {due}"


def lawful(count, rule):
    """Each schedule of longer blocks keeps all delays, and takes no more cycles than one by any order."""
    for seed in range(count):
        chance = random.Random(f"lawful {seed}")
        latencies = chance.choice([USUAL, SLOWEST, odd_latencies(chance)])
        blocks = [chance.choice((lab_block, aliasing_block))(chance) for _ in range(TOGETHER)]
        listing = Listing(blocks, latencies, rule=rule)
        end = optimized(listing, chance.choice([0, 10, 1000]))
        for ops, by_orders, (cycles, bound, _) in zip(blocks, listing.by_orders, found_in(end, listing)):
            if cycles > min(map(Schedule.cycles, by_orders)) or bound < by_orders[0].least():
                yield f"{[*map(str, ops)]}, {latencies}: {cycles}, bound {bound}"
        yield from unlawful(end, listing)


def repeated(opcode, numbers, count):
    return [Op(opcode, numbers)] * count


def in_closed_form():
    """Blocks of one class, all alike, and without an edge, whose fewest cycles are known."""
    n = MOST_SEARCHED
    constants = [Op("loadI", [k, k]) for k in range(n)]
    return [(repeated("mult", [0, 0, 1], n), n + 2), (repeated("output", [4], n), n),
            (repeated("store", [0, 1], n), n + 4),
            (repeated("loadAI", [0, 4, 1], n), n + 4), (repeated("addI", [1, 1, 1], n), n), (constants, n // 2),
            (repeated("add", [0, 0, 1], n), n // 2), ([], 0), (repeated("nop", [], 3), 0)]


def known():
    blocks, due = zip(*in_closed_form())
    listing = Listing(blocks)
    for nodes in (0, 1, 1000, 100_000):
        end = optimized(listing, nodes)
        if (got := found_in(end, listing)) != [(cycles, cycles, True) for cycles in due]:
            yield f"{nodes} nodes: {got} in place of {due}"
        yield from unlawful(end, listing)


def loads_with_sums(count):
    """Loads, each with a sum that waits for it and a second one that waits for the first."""
    return [op for k in range(1, 3 * count, 3)
            for op in (Op("load", [0, k]), Op("add", [k, k, k + 1]), Op("add", [k + 1, k + 1, k + 2]))]


def by_one_node():
    """A load is alone in the first row, so the others need a row more than the least: one set of windows shows it."""
    counts = range(4, MOST_SEARCHED // 3 + 1, 12)
    listing = Listing([loads_with_sums(count) for count in counts], dict.fromkeys(USUAL, 1))
    end = optimized(listing, 1)
    due = [(count // 2 * 3 + 1, count // 2 * 3 + 1, True) for count in counts]
    if (got := found_in(end, listing)) != due:
        yield f"{got} in place of {due}"
    yield from unlawful(end, listing)


def hard_block(count):
    """Products two by two, the second of which waits for the first, and sums of them."""
    chance = random.Random(count)
    made = [Op("multI", [0, k, k + 1]) for k in range(count // 3)]
    while len(made) < count:
        made.append(Op(chance.choice(["mult", "add"]),
                       [1 + chance.randrange(len(made)), 1 + chance.randrange(len(made)), len(made) + 1]))
    return made


def long_ones():
    """A block of more than so many operations isn't searched, whatever the nodes."""
    for count in (MOST_SEARCHED + 1, 1000):
        listing = Listing([hard_block(count)])
        end = optimized(listing, 100_000)
        if end != optimized(listing, 0):
            yield f"{count} operations are searched"
        yield from compared(listing, listing.unsearched(), 100_000)
        yield from unlawful(end, listing)


def of_families(size):
    """Of blocks as compilers make them nearly every schedule is proved optimal, and more of those of few operations."""
    blocks = [ops for family in families_of(size).values() for ops in family]
    listing = Listing(blocks)
    found = found_in(optimized(listing, 1000), listing)
    for longest, least in ((MOST_SEARCHED, 0.99), (40, 0.995)):
        optimal = [cycles == bound for ops, (cycles, bound, _) in zip(blocks, found) if len(ops) <= longest]
        if sum(optimal) < least * len(optimal):
            yield f"{sum(optimal)} of {len(optimal)} blocks of up to {longest} operations are proved optimal"


def longest():
    """The longest block takes the time of its six schedules."""
    text = text_of([hard_block(MOST_OPERATIONS)])
    times = []
    for command in ("compare", "optimize"):
        start = time.monotonic()
        if ending([command], text)[0]:
            yield f"{command} fails"
        times.append(time.monotonic() - start)
    if times[1] > 2 * times[0] + 1:
        yield f"{times[1]:.1f} s, where compare takes {times[0]:.1f} s"


def optimum_checks():
    less = 10 if TESTED.is_short else 1
    counts = ((exact, 3000), (lawful, 50), (exact_beside_orders, 1000), (as_optimized, 20), (checked, 1000))
    for rule in (all_count, by_address):
        for check, count in counts:
            yield Check(f"optima/{check.__name__}/{rule.__name__}", check, count // less, rule)
    yield Check("optima/of_families", of_families, 50 // less)
    for check in (known, by_one_node, long_ones, longest):
        yield Check(f"optima/{check.__name__}", check)


load_tests = table(optimum_checks)
