"""What the commands list of drawn blocks, with drawn options, beside the oracle; and the bounds that are known of some
blocks."""
import random
import re

from harness.program import FARMED, TESTED, ending, stored, unlike
from harness.suite import Check, table
from language import LONGEST_LATENCY, USUAL
from oracle.apart import by_address
from oracle.drawn import aliasing_block, lab_block, made_block
from oracle.machine import words_from
from oracle.operations import text_of, words_for
from oracle.printed import Listing
from oracle.scheduler import ORDERS

WORDS = [3, 4_294_967_295, 8, 70, 5, 1_000_000]
FILES, ALL_FILES, OF_A_FILE = 100, 1000, 20
MAKERS = (made_block, made_block, lab_block, aliasing_block)
ODD = {"load": 1, "store": 2, "mult": 16}
SHORT = {"load": 1, "store": 1, "mult": 1}
MOST_PRIORITY = 4_294_967_295
# What a command is asked for, and what it lists by the oracle.
FORMS = (
    (["run"], Listing.run), (["run", "--where"], Listing.where), (["simulate"], Listing.run),
    (["schedule"], Listing.schedule), (["counts"], Listing.counts), (["counts", "--csv"], Listing.counts_table),
    (["explain"], Listing.explain), (["explain", "--cycles"], Listing.cycles),
    (["explain", "--csv"], Listing.explain_table), (["graph"], Listing.graph),
    (["trace"], Listing.trace), (["optimize", "--nodes", "0"], Listing.optimize), (["compare"], Listing.compare),
    (["compare", "--csv"], Listing.compare_table),
    (["compare", "--nodes", "0"], lambda listing: listing.compare(listing.unsearched())),
    (["compare", "--nodes", "0", "--csv"], lambda listing: listing.compare_table(listing.unsearched())),
)
ON_MEMORY = ("run", "simulate", "trace")
BY_ORDER = ("simulate", "schedule", "counts", "explain", "trace")
BY_OWN = ("simulate", "schedule", "counts", "explain", "trace", "compare")
BY_ADDRESS = ("simulate", "schedule", "counts", "explain", "trace", "graph", "compare", "optimize")
# All but the first two wait for others.
SEVEN_OPERATIONS = ("loadI 4 => r1\nloadI 8 => r2\nmult r1, r2 => r3\nload r1 => r4\nadd r3, r4 => r5\n"
                    "store r5 => r2\noutput 8\n")
FOUR_CONSTANTS = "loadI 1 => r1\nloadI 2 => r2\nloadI 3 => r3\nloadI 4 => r4\n"
# Blocks, latencies, and the lower bound: by the longest path, and by what a row can hold.
LEAST = [
    (SEVEN_OPERATIONS, USUAL, 13), (SEVEN_OPERATIONS, SHORT, 5), ("A:", USUAL, 0), ("nop", USUAL, 0),
    (FOUR_CONSTANTS, USUAL, 2), (FOUR_CONSTANTS + "loadI 5 => r5", USUAL, 3),
    ("output 0\noutput 0\noutput 0", USUAL, 3), ("load r0 => r1\nloadAI r0, 4 => r2\nload r0 => r3", USUAL, 7),
    ("mult r0, r0 => r1\nmultI r0, 3 => r2", USUAL, 4), ("store r0 => r1\nstoreAI r0 => r1, 4", USUAL, 6),
    ("load r0 => r1\nmult r0, r0 => r2\noutput 0", USUAL, 5),
]


def drawn_priorities(chance, blocks):
    """Numbers of somebody's own for each block, and the file that has them."""
    most = chance.choice([0, 1, 3, 100, MOST_PRIORITY])
    numbers = [[chance.randint(0, most) for op in ops if op.opcode != "nop"] for ops in blocks]
    return numbers, stored("priorities", "".join(f"{' '.join(map(str, each))}\n" for each in numbers).encode())


def drawn_options(chance, command, blocks):
    """Options of a command, and what they say to the oracle."""
    words, how = [], {}
    if command in ON_MEMORY:
        words, how["start"] = ["--at", "0", *map(str, WORDS)], words_from(0, WORDS)
    if command != "run":
        how["latencies"] = chance.choice([USUAL, ODD, {name: chance.randint(1, LONGEST_LATENCY) for name in USUAL}])
        words += words_for(how["latencies"])
    if command in BY_OWN and chance.random() < 0.4:
        how["by"], file = drawn_priorities(chance, blocks)
        words += ["--priorities", file]
    elif command in BY_ORDER and chance.random() < 0.7:
        how["by"] = chance.choice(ORDERS)
        words += ["--priority", how["by"]]
    if command in BY_ADDRESS and chance.random() < 0.5:
        how["rule"] = by_address
        words.append("--disambiguate")
    if command in FARMED:
        words += ["--workers", str(chance.randint(1, 8))]
    return words, how


def unlike_the_oracle(asked, listing_of, files):
    for seed in range(files):
        chance = random.Random(f"{asked} {seed}")
        blocks = [chance.choice(MAKERS)(chance) for _ in range(OF_A_FILE)]
        options, how = drawn_options(chance, asked[0], blocks)
        got = ending([*asked, *options], text_of(blocks))
        due = listing_of(Listing(blocks, **how))
        yield from unlike(f"{' '.join([*asked, *options])}, seed {seed}", got, (0, due, b""))


def other_bounds():
    for text, latencies, least in LEAST:
        out = ending(["explain", *words_for(latencies)], text.encode())[1]
        if re.findall(rb"^cycles \d+ least (\d+)", out, re.MULTILINE) != [b"%d" % least]:
            yield f"{text!r} for {latencies}: {out} in place of a least of {least}"


def drawn_checks():
    for asked, listing_of in FORMS:
        yield Check(f"drawn/{'_'.join(asked)}", unlike_the_oracle, asked, listing_of,
                    FILES if TESTED.is_short else ALL_FILES)
    yield Check("drawn/known_bounds", other_bounds)


load_tests = table(drawn_checks)
