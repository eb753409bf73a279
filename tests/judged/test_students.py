"""Schedules handed in to `check`: our own, students' right and wrong ones, and texts that are cut and changed."""
import random
import re
from functools import cache
from pathlib import Path

from cases.test_drawn import ODD
from cases.test_stored import stored_cases
from harness.program import TESTED, TOP, ending, short, stored, told
from harness.suite import Check, plain, table
from hostile.test_texts import KINDS, changed_texts
from judged.labs import Given
from judged.students import RIGHT, WRONG, early, ours
from language import USUAL
from oracle.drawn import lab_block, made_block
from oracle.judge import AT, ENTRY, NOT_SAME, proposed, request, wrong_ending
from oracle.machine import cycles, words_from
from oracle.operations import text_of, words_for
from oracle.reader import read
from oracle.scheduler import Schedule

SLOW = {"load": 16, "store": 1, "mult": 1}
EACH_LATENCIES = {"usual": USUAL, "odd": ODD, "slow": SLOW}
WORDS = [3, 4_294_967_295, 1028, 70, 5, 1_000_000]
BLOCKS = 8      # of a file
FILES, ALL_FILES, OF_OWN = 500, 5000, 12
SEEDS, ALL_SEEDS, EARLY = 5, 100, 10
# Blocks and schedule lines of each form, with blanks of each kind and none, leading zeros and comments.
LINES = plain(Path(f"{TOP}/tests/judged/lines.text").read_text("ascii")).encode("latin-1")
SHORT_LINES = b"a:output 8\nb:\nblock 1 a\n[output 8;nop]\ncycles 1\nblock 2 b//x\n[ nop; nop ]\ntotal 1"


@cache
def given_blocks(seed, name, count=BLOCKS):
    """Blocks, and each with our schedule of it for the latencies of this name."""
    chance = random.Random(seed)
    blocks = [lab_block(chance) for _ in range(count)]
    return blocks, [Given(Schedule(ops, EACH_LATENCIES[name])) for ops in blocks]


def handed_in(seed, name, kind):
    """A file of blocks with somebody's rows and claims after it, and our rows where the kind has none."""
    chance = random.Random(f"{seed} {kind.__name__}")
    blocks, givens = given_blocks(seed, name)
    text = text_of(blocks)
    for k, given in enumerate(givens, 1):
        rows = kind(chance, given)
        rows = ours(chance, given) if rows is None else rows
        claim = chance.choice([None, cycles(rows, given.latencies), chance.randrange(99)])
        text += proposed(k, f"B{k}", rows, claim)
    return text


def judging_checks():
    yield Check("judging/own/stored", own_rows_pass, stored_texts())
    yield Check("judging/own/made", own_rows_pass, made_texts(FILES if TESTED.is_short else ALL_FILES))
    for kind in (*RIGHT, *WRONG):
        yield Check(f"judging/students/{kind.__name__}", of_kind, kind)
    for second in (1036, 2048, 40_000):
        yield Check(f"judging/early_products/{second}", early_products, second)
    yield Check("judging/texts/cut", judged_texts, [LINES[:end] for end in range(len(LINES) + 1)])
    yield Check("judging/texts/changed", judged_texts, changed_texts(SHORT_LINES, KINDS + b"[];c"))


def stored_texts():
    for case in stored_cases():
        if case.words == ["run"] and case.status == 0 and case.out:
            for latencies in EACH_LATENCIES.values():
                yield case.given, latencies


def made_texts(count):
    chance = random.Random(count)
    for _ in range(count):
        latencies = {name: chance.randint(1, 16) for name in USUAL} if chance.random() < 0.5 else USUAL
        blocks = [chance.choice([lab_block, lab_block, made_block])(chance) for _ in range(OF_OWN)]
        yield text_of(blocks), latencies


def own_rows_pass(texts, made=("schedule",)):
    """Of our schedules of texts, by each command that judges rows; they take the cycles that they claim."""
    for text, latencies in texts:
        words, file = words_for(latencies), stored("own.iloc", text)
        rows = ending([*made, *words], text)[1]
        due = [(b"lawful", b"")] * len(re.findall(rb"^block ", rows, re.MULTILINE))
        for asked in ([], ["--lawful"]):
            end = ending(["check", *asked, *words, "--task", file], rows)
            if end[0] or [(groups[2], groups[6]) for groups in ENTRY.findall(end[1])] != due:
                yield f"check {asked} {made} {words}: {short(text)} {told(end)}"
        end = ending(["explain", *words, "--task", file], rows)
        if end[0] or b"not lawful" in end[1] or end[1].count(b"\npath ") != len(due):
            yield f"explain {made} {words}: {short(text)} {told(end)}"


def of_kind(kind):
    """Files with schedules of one kind."""
    for seed in range(SEEDS if TESTED.is_short else ALL_SEEDS):
        name, latencies = [*EACH_LATENCIES.items()][seed % len(EACH_LATENCIES)]
        text = handed_in(seed, name, kind)
        for words, outputs in (((), False), (WORDS, False), ((), True), (WORDS, True)):
            got = ending(request(latencies, words, outputs), text)
            yield from wrong_ending(got, text, latencies, words_from(AT, words), kind in RIGHT, outputs)


def early_products(second):
    """Of examples/dot.iloc, with its second vector at this address: the judge makes up a memory that shows each."""
    block = Path(f"{TOP}/examples/dot.iloc").read_bytes().replace(b"loadI 1036 ", b"loadI %d " % second)
    given = Given(Schedule(read(block)[0].ops, USUAL))
    for seed in range(EARLY):
        text = block + proposed(1, "dot", early("mult")(random.Random(seed), given))
        end = ending(["check"], text)
        if end[0] != NOT_SAME or not end[1].startswith(b"block 1 dot differs "):
            yield told(end)
        yield from wrong_ending(end, text, USUAL)


def judged_texts(texts):
    statuses = set()
    for text in texts:
        got = ending(["check"], text)
        statuses.add(got[0])
        yield from (f"{text!r}: {fault}" for fault in wrong_ending(got, text, USUAL))
    if statuses != {0, 1, NOT_SAME}:
        yield f"the texts end with the statuses {statuses}"


load_tests = table(judging_checks)
