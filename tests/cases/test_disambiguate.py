"""`--disambiguate`: loads and outputs don't wait for stores that are known to go elsewhere. Runs of such schedules,
what `check` says of them, and blocks where one pair less to wait for would be wrong."""
import random

from harness.program import TESTED, TOP, ending, listed, unlike
from harness.suite import Check, sections, table
from language import USUAL
from oracle.apart import by_address
from oracle.drawn import aliasing_block, lab_block, made_block
from oracle.judge import wrong_ending
from oracle.machine import difference, drawn_word, words_from
from oracle.operations import text_of
from oracle.reader import read
from oracle.scheduler import Schedule

OPTION = "--disambiguate"
RUNS, ALL_RUNS, OF_A_RUN = 2, 100, 300      # blocks of a run
FILES, ALL_FILES, OF_A_FILE = 3, 250, 20    # blocks that are judged
MAKERS = (aliasing_block, aliasing_block, lab_block, made_block)
MEMORIES = 20


def drawn_text(seed, count):
    chance = random.Random(f"apart {seed}")
    return text_of([chance.choice(MAKERS)(chance) for _ in range(count)])


def unlike_a_plain_run(runs):
    """Blocks that alias and fault, many in a run, on one memory after another."""
    for seed in range(runs):
        text = drawn_text(seed, OF_A_RUN)
        for memory in range(MEMORIES):
            words = ["--at", "0", *(str(drawn_word(memory, number)) for number in range(300))]
            got, due = (ending([*command, *words], text) for command in (["simulate", OPTION], ["run"]))
            yield from unlike(f"simulate {OPTION}, seed {seed}, memory {memory}", got, due)


def not_judged_the_same(files):
    """By `check` no row differs, on any memory; and ours and the least are those of the option."""
    for seed in range(files):
        text = drawn_text(seed, OF_A_FILE)
        given = text + ending(["schedule", OPTION], text)[1]
        wrongs = wrong_ending(ending(["check", OPTION], given), given, USUAL, is_right=True, rule=by_address)
        yield from (f"seed {seed}: {wrong}" for wrong in wrongs)


def without(pair):
    """By addresses, but that these two don't count."""
    def rule(ops):
        count = by_address(ops)
        return lambda i, j: (i, j) != pair and count(i, j)
    return rule


def allows_less(text, words, pair):
    """The rows do what the block does, and wouldn't if these two could be issued in any order."""
    block, = read(text.encode())
    weaker = Schedule(block.ops, USUAL, rule=without(pair))
    if not difference(block.ops, weaker.rows, USUAL, words_from(0, words)):
        yield f"rows do the same where {pair} don't count"
    memory = ["--at", "0", *map(str, words)]
    got, due = (ending([*command, *memory], text.encode()) for command in (["simulate", OPTION], ["run"]))
    yield from unlike("simulate", got, due)


def disambiguate_cases():
    yield Check("disambiguate/simulated", unlike_a_plain_run, RUNS if TESTED.is_short else ALL_RUNS)
    yield Check("disambiguate/judged", not_judged_the_same, FILES if TESTED.is_short else ALL_FILES)
    for (kind, name), text, lines in sections(f"{TOP}/tests/cases/addresses.cases"):
        numbers, *memory = ([*map(int, numbers)] for numbers, _ in lines)
        if kind == "meet":
            yield Check(f"disambiguate/{name}", allows_less, text, *memory, tuple(numbers))
            continue
        for words, cycles in zip((["counts"], ["counts", OPTION]), numbers):
            yield listed(f"disambiguate/{name}/{'_'.join(words)}", text.encode(),
                         f"block 1 - cycles {cycles}\ntotal {cycles}\n".encode(), words)


load_tests = table(disambiguate_cases)
