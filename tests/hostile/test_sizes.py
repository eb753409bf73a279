"""Inputs at the limits: what each command gives, and a line with the time and the memory of each run. Long texts are of
one part, time after time: their listing has the part's as often, and the part's is right by the oracle or, of the
longest blocks, by `check`. The first is an even input, 16 MiB of mixed blocks of about 100 operations."""
import itertools
import random
import re
import resource

from bench import inputs, measure
from bench.measure import contents
from harness.program import COMMANDS, TESTED, ending, folder, stored, told, unlike, with_reason
from harness.suite import Check, table
from language import LONGEST_LATENCY, MOST_BLOCKS, MOST_BYTES, MOST_OPERATIONS
from oracle.judge import NOT_SAME
from oracle.printed import printed
from oracle.reader import NO_SUCH_BLOCK
from refusals.test_program import NO_MEMORY

# At the usual latencies, for processor time and for memory held. The first holds on slow machines too.
MOST_MS = 10_000
MOST_MIB = 286    # 300 MB
# By how much a check of operations that are all alike may take longer than to simulate them.
ALIKE_MS = 100
# An address space that the listing of the longest schedules doesn't fit into, though their rows are counted there.
LITTLE = 80 * 1024 * 1024


def refused_line(line):
    return f"ilocfarm: {line}\n".encode()


def filled(part):
    return part * (MOST_BYTES // len(part))


def block_of(*lines):
    """A block of 10,000 of these lines in turn."""
    return b"A:\n" + b"".join(itertools.islice(itertools.cycle(lines), MOST_OPERATIONS))


def blocks_of(*lines):
    return filled(block_of(*lines))


def even(blocks=100):
    draw = inputs.Draw()
    return b"".join(inputs.block(draw, f"L{k}", 60 + draw.below(81), range(64)) for k in range(1, blocks + 1))


def refused_inputs():
    """Texts of one thing alone, or one more than is allowed, and what is said of them."""
    loads, many = b"load r1 => r1\n", f"line {MOST_OPERATIONS + 1}: more than {MOST_OPERATIONS} operations in a block"
    yield "digits", b"7" * MOST_BYTES, "line 1: not understood"
    yield "a word", b"A" * MOST_BYTES, "line 1: not understood"
    yield "labels", filled(b"A:\n"), f"line {MOST_BLOCKS + 1}: more than {MOST_BLOCKS} blocks"
    yield "65,536 labels", b"A:\n" * (MOST_BLOCKS + 1), f"line {MOST_BLOCKS + 1}: more than {MOST_BLOCKS} blocks"
    yield "loads", filled(loads), many
    yield "nops", filled(b"nop\n"), many
    yield "10,001 operations", loads * (MOST_OPERATIONS + 1), many


def plain_inputs():
    """A text of one thing alone that is taken, what stands for it in few bytes, and how often that."""
    yield "line ends", b"\n" * MOST_BYTES, b"", 1
    yield "blanks", b" \t\r " * (MOST_BYTES // 4), b"", 1
    yield "slashes", b"/" * MOST_BYTES, b"", 1
    yield "a name", b"A" * (MOST_BYTES - 1) + b":", b"A" * (MOST_BYTES - 1) + b":", 1
    yield "a number", b"loadI " + b"0" * (MOST_BYTES - 14) + b"8 => r1\n", b"loadI 8 => r1\n", 1
    yield "65,535 labels", b"A:\n" * MOST_BLOCKS, b"A:\n", MOST_BLOCKS
    yield "10,000 operations", b"load r1 => r1\n" * MOST_OPERATIONS, b"load r1 => r1\n" * MOST_OPERATIONS, 1


def full_inputs():
    """Parts of texts that are taken, each meant to make one part of the program work hard."""
    yield "tiny blocks", b"A:output 0\n"
    yield "long names", b"A" * 254 + b":\n"
    yield "blocks of nops", b"A:\n" + b"nop\n" * 63
    yield "outputs", block_of(b"output 0\n")
    yield "chained loads", block_of(b"load r0=>r0\n")
    yield "chained products", block_of(b"mult r0,r0=>r0\n")
    yield "constants", block_of(b"loadI 0=>r0\n")
    yield "stores", block_of(b"store r0=>r0\n")
    yield "stores and loads", block_of(b"store r1=>r0\n", b"load r0=>r2\n")
    yield "uses of one load", b"A:\nload r0=>r1\n" + b"add r1,r1=>r2\n" * (MOST_OPERATIONS - 1)
    yield "registers anywhere", registers_anywhere()


def own(blocks):
    """Blocks with our schedules of them."""
    path = stored("blocks", blocks)
    return blocks + contents(measure.run([TESTED.program, "schedule"], path, f"{folder()}/listing").output)


def lawful_inputs():
    """Blocks with rows by the book."""
    yield "own rows, even", lambda: own(filled(even())[:4_000_000].rsplit(b"L", 1)[0])
    yield "own rows, loads", lambda: own(blocks_of(b"load r0=>r0\n")[:1_100_000].rsplit(b"A", 1)[0])
    yield "own rows, stores and loads", lambda: own(
        blocks_of(b"store r1=>r0\n", b"load r0=>r0\n")[:1_800_000].rsplit(b"A", 1)[0])
    yield "own rows, sums", lambda: own(b"A:\n" + b"add r0, r1 => r0\nmult r0, r0 => r1\n" * 5000)
    yield "own rows, pointers", lambda: own(b"A:\nload r0 => r1\n" + b"store r1 => r1\nload r1 => r1\n" * 4999)
    yield "own rows, a table", lambda: own(b"A:\nload r0 => r1\n" + b"".join(
        b"storeAI r1 => r1, %d\nloadAI r1, %d => r2\n" % (4 * k, 4 * (k - k % 7)) for k in range(4999)))
    yield "empty rows", lambda: rows(b"[ nop ; nop ]\n" * ((MOST_BYTES - 3) // 14))
    yield "65,535 heads", lambda: b"A:\n" * MOST_BLOCKS + b"".join(
        b"block %d A\n" % k for k in range(1, MOST_BLOCKS + 1))


def rows(*parts):
    return b"A:\n" + b"".join(parts)


def judged_inputs():
    """Blocks with other rows, and how the listing or the refusal starts: of one form alone, or more than is allowed."""
    load, free = b"[ load r0 => r1 ; nop ]\n", b"[ loadI 0 => r1 ; addI r2, 1 => r3 ]\n"
    yield ("most claims", lambda: rows(b"cycles 7\n" * ((MOST_BYTES - 3) // 9)),
           b"block 1 A lawful cycles 0 ours 0 least 0 claimed 7")
    yield ("a load on the wrong unit", lambda: rows(load * 5000, b"[ nop ; load r0 => r1 ]\n", load * 4999),
           b"block 1 A units cycles 10004 ours 0 least 0\n"
           b"  row 5000: [ nop ; load r0 => r1 ]: a load or store on unit 1\n")
    yield ("useless operations", lambda: rows(b"output 0\n", free * 4999, b"[ output 0 ; nop ]\n"),
           b"block 1 A same cycles 5000 ours 1 least 1\n")
    yield ("rows of a block that shows nothing", lambda: rows(free * 5000),
           b"block 1 A void cycles 5000 ours 0 least 0\n  the block shows nothing\n")
    yield ("a memory of which no word can be left out",
           lambda: own(multiples()).replace(b"output 1024 ]", b"output 1280 ]"), b"block 1 A differs cycles ")
    yield ("10,001 operations in rows", lambda: rows(free * 5000, load),
           refused_line(f"line 5002: more than {MOST_OPERATIONS} operations in a block"))
    yield ("65,535 heads of one block", lambda: rows(b"block 1 A\n" * MOST_BLOCKS),
           refused_line(f"line 3: {NO_SUCH_BLOCK}"))
    yield ("brackets", lambda: rows(b"[]\n", b"[" * (MOST_BYTES - 6)),
           b"block 1 A unread cycles 0 ours 0 least 0\n  line 3, row 1: expected an operation, found [\n")
    yield "a row without an end", lambda: b"A:\n[" + b" " * (MOST_BYTES - 4), refused_line("line 2: not understood")
    yield ("a long number", lambda: b"A:\ncycles " + b"9" * (MOST_BYTES - 10),
           b"block 1 A unread cycles 0 ours 0 least 0\n"
           b"  line 2, row 0: expected a number up to 2147483647, found 99999999999999999999\n")


def multiples():
    """A block that emits a word if it and the words after it, 64 in all, are its multiples by 1, 2, 3 and so on, and
    else faults."""
    sums = b"".join(b"loadAI r0, %d => r2\nmultI r1, %d => r3\nsub r2, r3 => r4\nmult r4, r4 => r5\nadd r6, r5 => r6\n"
                    % (4 * k, k + 1) for k in range(1, 64))
    return (b"A:\nloadI 1024 => r0\nload r0 => r1\n" + sums * 31
            + b"multI r6, 65536 => r7\nload r7 => r8\noutput 1024\n")


def registers_anywhere():
    """Each operation defines another register, and the numbers jump."""
    lines = (b"loadI 0=>r%d\n" % (number * 1_103_515_245 % 2**31) for number in range(MOST_OPERATIONS))
    return b"A:\n" + b"".join(lines)


def size_checks():
    part = even()
    yield Check("sizes/even", listed_so, "even", filled(part), part, MOST_BYTES // len(part))
    for case in refused_inputs():
        yield Check(f"sizes/{case[0]}", refused_so, *case)
    for case in plain_inputs():
        yield Check(f"sizes/{case[0]}", listed_so, *case)
    if not TESTED.is_short:
        for name, part in full_inputs():
            times = min(MOST_BLOCKS, MOST_BYTES // len(part))
            yield Check(f"sizes/{name}", listed_so, name, part * times, part, times)
        yield Check("sizes/slow loads", slow_loads)
        yield Check("sizes/slow loads in little memory", in_little_memory)
    for case in [*lawful_inputs(), *judged_inputs()]:
        yield Check(f"sizes/check/{case[0]}", begins_so, *case)
    for case in traced_inputs():
        yield Check(f"sizes/trace/{case[0]}", traced_in_time, *case)
    if not TESTED.is_short:
        for case in stored_apart():
            yield Check(f"sizes/check --task/{case[0]}", judged_apart_in_time, *case)
    for name, (op, unit) in ALIKE.items():
        yield Check(f"sizes/alike/{name}", judged_in_time, op, *alike(op, unit))
    yield Check("sizes/alike/loads of one address", judged_in_time, "loads of one address", *loads_of_one_address())


def measured(name, words, path):
    """A run, of which a line is printed, and where it used too much."""
    got = measure.run([TESTED.program, *words], path, f"{folder()}/got")
    print(f"{' '.join(words):18} {name:28} status {got.status} {got.processor_ms:8.0f} ms {got.mebibytes:7.1f} MiB",
          flush=True)
    is_small = got.processor_ms <= MOST_MS and got.mebibytes <= MOST_MIB
    return got, [] if is_small else [f"{words}: {got.processor_ms:.0f} ms, {got.mebibytes:.0f} MiB"]


def refused_so(name, text, line):
    """Each command says this of the text, and nothing else."""
    path = stored("given", text)
    for command in (*COMMANDS, "explain"):
        got, wrong = measured(name, [command], path)
        if got.shown() != (1, b"", with_reason(command, text, refused_line(line))):
            yield f"{command}: status {got.status}, {front(got.output + '.err')!r}"
        yield from wrong


def listed_so(name, text, part, times):
    """Each command lists of the text what it lists of the part, so many times, and of the part what it must."""
    path = stored("given", text)
    yield from wrong_of_part(part)
    for command in (*COMMANDS, "explain"):
        got, wrong = measured(name, [command], path)
        if got.status != 0 or not is_made_of(got.output, repeated(ending([command], part)[1], times)):
            yield f"{command}: status {got.status}, or another listing: {front(got.output)[:60]!r}"
        yield from wrong


def wrong_of_part(part):
    """How the listings of a part are wrong: by the oracle, or by `check` of blocks that are too long for it."""
    longest = max(len(block) for block in re.split(rb"(?m)^\w*:", part))
    if longest < 10_000 or b"\n" not in part:
        for command in COMMANDS:
            yield from unlike(f"{command} of the part", ending([command], part), printed(command, part))
        return
    ran, checked = printed("run", part), ending(["check", "--lawful"], part + ending(["schedule"], part)[1])
    if ending(["run"], part) != ran or ending(["simulate"], part) != ran or checked[0] != 0:
        yield f"of the part: {told(ran)}, {told(checked)}"


def repeated(listing, times):
    """The listing of a text so often in one, in pieces."""
    entries, total = re.fullmatch(rb"(.*?)(?:total (\d+)\n)?", listing, re.DOTALL).groups()
    each = re.split(rb"(?m)^block \d+", entries)[1:]
    for number in range(times):
        for place, rest in enumerate(each, 1):
            yield b"block %d" % (number * len(each) + place) + rest
    yield b"" if total is None else b"total %d\n" % (times * int(total))


def begins_so(name, make, start=None):
    """How `check` ends, and how its listing or what it says begins."""
    given = make()
    start = start or b"block 1 %s lawful " % given.partition(b":")[0]
    got, wrong = measured(name, ["check"], stored("given", given))
    status = 1 if start.startswith(b"ilocfarm: ") else 0 if b" same " in start or b" lawful " in start else NOT_SAME
    begun = front(got.output + ".err" * (status == 1))
    if got.status != status or not begun.startswith(start):
        yield f"check: status {got.status}, {begun[:60]!r}"
    yield from wrong


def traced_inputs():
    """Blocks, and as many rows for them as a text can have; and as many loads as fit into blocks."""
    block, load = b"A:\n" + b"load r0=>r0\n" * MOST_OPERATIONS, b"[load r0=>r0;nop]\n" * MOST_OPERATIONS
    yield "blocks of loads", b"", filled(block), 2 * MOST_OPERATIONS * (MOST_BYTES // len(block))
    blocks = MOST_BYTES // (len(load) + len(b"block 999 A\n"))
    yield "empty rows", b"A:\n", filled(b"[nop;nop]\n"), 0
    yield ("rows of loads", b"A:\n" * blocks, b"".join(b"block %d A\n%s" % (k, load) for k in range(1, blocks + 1)),
           2 * MOST_OPERATIONS * blocks)


def traced_in_time(name, task, rows, events):
    """A trace of blocks, or of rows for those of a task, takes time and memory in proportion to them."""
    words = ["trace", "--task", stored("task", task)] if task else ["trace"]
    got, wrong = measured(name, words, stored("given", rows))
    with open(got.output, "rb") as file:
        lines = sum(1 for _ in file)
    if got.status != 0 or lines != (task or rows).count(b":") + events:
        yield f"{name}: status {got.status}, {lines} lines"
    yield from wrong


def shuffled_stores(chance, base, values):
    """As many stores as a block can have, above a base and in any order, of these words in turn."""
    places = [*range(MOST_OPERATIONS - 10)]
    chance.shuffle(places)
    return [b"storeAI r%d=>%s,%d" % (values[k % 2], base, 4 * k) for k in places]


def stored_apart():
    """Blocks of stores, each with rows that store in another order, the same words or others, and the verdict."""
    chance = random.Random(7)
    head = [b"loadI 8=>r2", b"loadI 4=>r3"]
    for name, base, verdict, values in (
            ("shuffled stores", b"r3", "same", (2, 3)), ("other stores", b"r3", "differs", (3, 2)),
            ("stores above a loaded word", b"r1", "same", (2, 3))):
        block = [*head, b"load r9=>r1", *shuffled_stores(chance, base, (2, 3))]
        rows = [*head, b"load r9=>r1", b"nop", b"nop", b"nop", b"nop", *shuffled_stores(chance, base, values)]
        yield name, b"".join(b"%s\n" % op for op in block), b"".join(b"[%s;]\n" % op for op in rows), verdict


def judged_apart_in_time(name, block, rows, verdict):
    """As many such blocks as a file can have, and as many such rows, are judged in time."""
    blocks = MOST_BYTES // (max(len(block), len(rows)) + len(b"block 999 A\n"))
    task = stored("task", (b"A:\n" + block) * blocks)
    given = stored("given", b"".join(b"block %d A\n%s" % (k, rows) for k in range(1, blocks + 1)))
    got, wrong = measured(name, ["check", "--task", task], given)
    with open(got.output, "rb") as file:
        found = sum(line.startswith(b"block ") and b" %s cycles " % verdict.encode() in line for line in file)
    if got.status != (0 if verdict == "same" else NOT_SAME) or found != blocks:
        yield f"{name}: status {got.status}, {found} of {blocks} are {verdict}"
    yield from wrong


# Operations of which a block and its rows have nothing else, and the unit of each.
ALIKE = {"constants": ("loadI 0 => r1", 0), "sums": ("add r0, r0 => r1", 0), "products": ("mult r0, r0 => r1", 1),
         "loads": ("load r0 => r1", 0), "stores": ("store r0 => r0", 0), "outputs": ("output 0", 1)}


def alike(op, unit):
    """A block of the most operations of one spelling, and rows of another spelling: one a row, after ours would be
    done."""
    slots = [op.replace("r1", "r7"), "nop"][::-1 if unit else 1]
    block = f"A:\noutput 4\n{op}\n" + f"{op}\n" * (MOST_OPERATIONS - 2)
    rows = "[ {} ; {} ]\n".format(*slots) * (MOST_OPERATIONS - 1)
    return block.encode(), f"[ nop ; nop ]\n[ output 4 ; nop ]\n{rows}".encode()


def loads_of_one_address():
    """A block that is full of them, and rows in other registers."""
    numbers = range(MOST_OPERATIONS - 1)
    block = b"A:\nloadI 4 => r0\n" + b"".join(b"load r0 => r%d\n" % (k % 9 + 1) for k in numbers)
    return block, b"[ loadI 4 => r9 ; nop ]\n" + b"".join(b"[ load r9 => r%d ; nop ]\n" % (k % 8) for k in numbers)


def judged_in_time(name, block, rows):
    """Operations that are all alike are paired with one another, in about the time of `simulate`."""
    got, wrong = measured(name, ["check"], stored("given", block + rows))
    listed = front(got.output)
    other, _ = measured(name, ["simulate"], stored("blocks", block))
    if got.status != 0 or b" lawful " not in listed:
        yield f"{name}: {listed[:100]!r}"
    if got.processor_ms > other.processor_ms + ALIKE_MS:
        yield f"{name}: {got.processor_ms:.0f} ms, and simulate {other.processor_ms:.0f}"
    yield from wrong


def slow_loads():
    """Chained loads that take 16 cycles each: the longest schedules that a text can have."""
    text = blocks_of(b"load r0=>r0\n")
    path = stored("given", text)
    for command in (*COMMANDS[1:], "explain"):
        got, wrong = measured("chained loads", [command, "--load", str(LONGEST_LATENCY)], path)
        if got.status != 0 or not is_made_of(got.output, slow_listing(command, text.count(b":"))):
            yield f"{command}: status {got.status}, or another listing"
        yield from wrong


def slow_listing(command, blocks):
    """What is listed of `slow_loads`, in parts."""
    cycles = LONGEST_LATENCY * MOST_OPERATIONS
    empty = b"[ nop ; nop ]\n" * (LONGEST_LATENCY - 1)
    rows = empty.join(b"[ load r%d => r%d ; nop ]\n" % (k, k + 1) for k in range(MOST_OPERATIONS))
    entry = {"simulate": b"\n", "counts": b" cycles %d\n" % cycles,
             "schedule": b"\n" + rows + b"cycles %d\n" % cycles,
             "explain": b"\n" + b"".join(map(slow_reason, range(MOST_OPERATIONS)))
             + b"cycles %d least %d optimal\nchain " % (cycles, cycles)
             + b" ".join(b"%d" % k for k in range(MOST_OPERATIONS)) + b"\npath "
             + b" ".join(b"%d +%d" % (k, LONGEST_LATENCY) for k in range(MOST_OPERATIONS)) + b"\n"}[command]
    for number in range(1, blocks + 1):
        yield b"block %d A" % number + entry
    if command != "simulate":
        yield b"total %d\n" % (blocks * cycles)


def slow_reason(number):
    """The line of one of `slow_loads`, which waits for the one before it."""
    cycle, before = LONGEST_LATENCY * number, b"%d" % (number - 1) if number else b"-"
    return (b"%d cycle %d unit 0 ready %d after %s priority %d earliest %d slack 0 held - load r0 => r0 ; "
            b"load r%d => r%d\n" % (number, cycle, cycle, before, LONGEST_LATENCY * MOST_OPERATIONS - cycle, cycle,
                                    number, number + 1))


def in_little_memory():
    """The longest schedules are refused where they find no room, with nothing written."""
    words = ["schedule", "--workers", "1", "--load", str(LONGEST_LATENCY)]
    got = ending(words, blocks_of(b"load r0=>r0\n"),
                 preexec_fn=lambda: resource.setrlimit(resource.RLIMIT_AS, (LITTLE, LITTLE)))
    if got != NO_MEMORY:
        yield told(got)


def is_made_of(path, parts):
    with open(path, "rb") as file:
        return all(file.read(len(part)) == part for part in parts) and not file.read(1)


def front(path):
    with open(path, "rb") as file:
        return file.read(200)


load_tests = table(size_checks)
