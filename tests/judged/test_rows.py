"""Rows with their blocks and the verdicts due, and lines of schedules that are refused; memory has 9 at 4, else 0."""
import re
from typing import NamedTuple

from harness.program import TOP, Run, ending, told, unlike
from harness.suite import Check, rows_of, sections, table
from language import MOST_BLOCKS, MOST_BYTES, MOST_OPERATIONS, USUAL
from oracle.book import MOST_FACTS
from oracle.judge import ENTRY, NOT_SAME, entries_of, operations_of, status_of, total, why_void, wrong_ending
from oracle.machine import row_text, words_from
from oracle.reader import NO_SUCH_BLOCK, read

WORDS, MEMORY = ["check", "--at", "4", "9"], words_from(4, [9])
# In lines, and in a table.
VERDICT = re.compile(r"^(?:block \d+ \S+ |\d+,[^,]+,)(\w+)", re.MULTILINE)

# Lines that can't be read only among rows: alone after a block they would be of the block.
OF_A_BLOCK = {"output 0", "nop", "b:", "add r1, r2 => r3"}
TOO_LARGE = {"block 2147483648 b": "2147483648", "block 99999999999999999999 a": "99999999999999999999",
             "cycles 2147483648": "2147483648", "total 4294967296 // wide": "4294967296",
             "[ output 2147483648 ; nop ]": "2147483648", "[ output 2147483648 ]": "2147483648",
             "[ ; multI r1, 2147483648 => r1 ]": "2147483648", "[ nop ; loadI 1 => r2147483648 ]": "r2147483648"}
# Each text is of two blocks, and the second is judged beside the first, among whose rows a line can't be read.
UNREAD_FIRST = "a: output 4\nb: output 4\nblock 1 a\n"
THEN_LAWFUL = "block 2 b\n[ output 4 ]\n"
UNREAD_ROWS = {
    "alone": ("[ output 4", 4, 0, 0, "; or ]", "end of line"),
    "first": ("[ output 4\n[ output 4 ]", 4, 0, 2, "; or ]", "end of line"),
    "last": ("[ output 4 ]\n\n// 9\n[ output 4", 7, 1, 1, "; or ]", "end of line"),
    "two": ("[ nop ]\n[ output 4 ]\ntotal 3\n[ output 4\n[ output", 7, 2, 2, "; or ]", "end of line"),
    "breaks_the_units": ("[ output 4\n[ output 4 ; output 4 ]", 4, 0, 2, "; or ]", "end of line"),
    "too_large": ("[ output 4 ]\n[ output 2147483648 ]", 5, 1, 1, "a number up to 2147483647", "2147483648"),
    "stray": ("[ output 4 ]\n\nhello\n[ output 4", 6, 1, 1, "[", "hello"),
    "operation": ("output 4\n[ output 4 ]", 4, 0, 2, "[", "output"),
    "numbered": ("0: [ output 4 ]\n1: [ nop ]", 4, 0, 0, "[", "0"),
    "misspelled_claim": ("[ output 4 ]\ncycles: 1\n// 9", 5, 1, 1, "a number", ":"),
}
# The first block of two, its name, and another one in its head.
MISNAMED = [("a:", "a", "b"), ("a:", "a", "-"), ("nop", "-", "a"), ("a:", "a", "A"), ("a:", "a", "ab"),
            ("ab:", "ab", "a")]
# Lines before the head of the only block, of which the last can't be read, with what is wanted and found there.
BEFORE_THE_HEAD = [("[ output 2147483648 ]", "a number up to 2147483647", "2147483648"),
                   ("total 1\nhello", "[", "hello"), ("cycles 2147483648", "a number up to 2147483647", "2147483648")]
BAD, NONE = "not understood", NO_SUCH_BLOCK


class Listed(NamedTuple):
    """A text of blocks and rows, what `check` lists of it with these options and, of some, what it does with --json."""
    text: str
    options: list
    out: str
    in_json: str = ""

    def case(self, name, in_json=""):
        words = [*WORDS, *self.options, *["--json"] * bool(in_json)]
        status = status_of(VERDICT.findall(self.out), lawful="--lawful" in self.options)
        given, out = (text.encode("latin-1") for text in (self.text, in_json or self.out))
        return Run(f"judged/{name}", words, given, out, b"", status)


def listed_rows():
    """The cases of rows.cases, by name."""
    for (name, *options), text, listings in sections(f"{TOP}/tests/judged/rows.cases"):
        yield name, Listed(text, options, *(listing for _, listing in listings))


def changed_rows(kind):
    """By name the cases of this kind in changed.cases: a block, somebody's operations, the verdict, and lines below."""
    for (of, name), block, ((verdict, theirs), *below) in sections(f"{TOP}/tests/judged/changed.cases"):
        if of == kind:
            yield name, (block, theirs, *verdict, *"".join(text for _, text in below).splitlines())


LISTED = dict(listed_rows())
JUDGED, UNLIKE, SHOWN = (dict(changed_rows(kind)) for kind in ("judged", "unlike", "outputs"))
LOADS_AND_STORES, SQUARE = JUDGED["itself"][0], JUDGED["square"][0]
# Lines among rows that can't be read, with what is wanted where each stops, and what is found there.
UNREAD = {line: said for line, *said in rows_of(f"{TOP}/tests/judged/unread.tsv")}


def spread(text, apart=6, product_unit=1):
    """Rows with the operations of a text, one in a cycle, so many cycles apart; all but products are on unit 0."""
    rows = []
    for i, op in enumerate(read(text.encode())[0].ops):
        rows += [(None, None)] * (apart * i - len(rows))
        rows.append((None, op) if op.kind == "mult" and product_unit else (op, None))
    return "".join(f"{row_text(row)}\n" for row in rows)


def texts_of(*tables):
    """The blocks of these cases, with their rows."""
    return [case[0] + spread(case[1]) for cases in tables for case in cases.values()]


def judged(name, text, verdict, *below, outputs=False):
    """A case of one block with its rows, the verdict, and what is below it before why the rows aren't by the book."""
    return Check(f"judged/{name}", wrongly_judged, text.encode("latin-1"), verdict, below, outputs)


def wrongly_judged(given, verdict, below, outputs):
    entry, = entries_of(given, USUAL, MEMORY, outputs)
    end = ending([*WORDS, *["--outputs"] * outputs], given)
    lines = [line[2:] for line in end[1].decode().split("\n")[1:-2]]
    why = lines[len(below):]
    due = status_of([verdict]), (entry.text(verdict, *below, *why) + total([entry])).encode(), b""
    if end != due:
        yield f"{told(end)} in place of {told(due)}"
    elif not entry.says_why(why):
        yield f"{why} isn't why the rows aren't by the book"


def isnt_passed(text):
    """What is wrong with what is said of rows that do something else than the block."""
    end = ending(WORDS, text.encode())
    yield from wrong_ending(end, text.encode(), USUAL, MEMORY)
    if end[0] != NOT_SAME:
        yield told(end)


def listed(name, text, *entries):
    """A case of a text and the entries that are listed of it."""
    found = [ENTRY.fullmatch(f"{entry}\n".encode()) for entry in entries]
    sums = [sum(int(match[number]) for match in found) for number in (4, 5, 6)]
    out = "".join(f"{line}\n" for line in [*entries, "total {} ours {} least {}".format(*sums)])
    return Listed(text, [], out).case(name)


def other_statuses():
    """With `--lawful`, `--operations` or both the same is listed, and nothing passes but rows by the book, or of just
    the block's operations, or both."""
    passed = set()
    for block, theirs, verdict, *_ in JUDGED.values():
        given = (block + spread(theirs)).encode()
        _, out, err = ending(WORDS, given)
        keeps = operations_of(read(block.encode())[0].ops) == operations_of(read(theirs.encode())[0].ops)
        for words in ["--lawful"], ["--operations"], ["--operations", "--lawful"]:
            got = ending([*WORDS, *words], given)
            is_kept = keeps or "--operations" not in words
            due = status_of([verdict], "--lawful" in words) if is_kept else NOT_SAME, out, err
            passed |= {(verdict, keeps, got[0] == 0)}
            yield from unlike(f"{given!r} with {words}", got, due)
    if not passed >= {("same", True, True), ("same", False, False), ("lawful", True, True)}:
        yield f"no more than {passed} were tried"


def outputs_alone():
    """With `--outputs` each verdict is right of emitted words and faults; `--lawful` changes the status alone."""
    for block, theirs, verdict, *_ in [*JUDGED.values(), *SHOWN.values()]:
        given = (block + spread(theirs)).encode()
        is_right = verdict == "same" and not why_void(read(given)[0].ops, MEMORY, outputs=True)
        status, out, err = end = ending([*WORDS, "--outputs"], given)
        yield from wrong_ending(end, given, USUAL, MEMORY, is_right, outputs=True)
        due = status_of(VERDICT.findall(out.decode()), lawful=True), out, err
        yield from unlike(repr(given), ending([*WORDS, "--outputs", "--lawful"], given), due)


def dot_product(count, parts):
    """Operations that store a sum of so many products of loaded words, which they add to partial sums, so many."""
    sums = [f"r{10 + part}" for part in range(parts)]
    yield from ["loadI 1024 => r0", *(f"loadI 0 => {part}" for part in sums)]
    for k in range(count):
        yield from [f"loadAI r0, {4 * k} => r2", f"loadAI r0, {2048 + 4 * k} => r3", "mult r2, r3 => r4",
                    f"add {sums[k % parts]}, r4 => {sums[k % parts]}"]
    yield from (f"add r10, {part} => r10" for part in sums[1:])
    yield from ["storeAI r10 => r0, 8000", "output 9024"]


def refused(name, text, fault):
    return Run(f"judged/{name}", WORDS, text.encode("latin-1"), b"", f"ilocfarm: {fault}\n".encode(), 1)


def judged_cases():
    for name, (block, theirs, *said) in JUDGED.items():
        yield judged(name, block + spread(theirs), *said)
    for name, (block, theirs) in UNLIKE.items():
        yield Check(f"judged/unlike_{name}", isnt_passed, block + spread(theirs))
    yield Check("judged/other_statuses", other_statuses)
    for name, (block, theirs, *said) in SHOWN.items():
        yield judged(f"outputs_{name}", block + spread(theirs), *said, outputs=True)
    yield Check("judged/outputs_alone", outputs_alone)
    # Five cycles apart each result is there; four apart one is used a cycle too early.
    yield judged("five_apart", LOADS_AND_STORES + spread(LOADS_AND_STORES, 5), "lawful")
    yield judged("four_apart", LOADS_AND_STORES + spread(LOADS_AND_STORES, 4), "differs",
                 "output 1: 1 for 0 with --at 1032 1")
    yield judged("product_on_unit_0", SQUARE + spread(SQUARE, product_unit=0), "units",
                 "row 12: [ mult r2, r2 => r3 ; nop ]: a product on unit 0")
    yield from (listed.case(f"listed_{name}") for name, listed in LISTED.items())
    for count in 36, 128:
        block, theirs = ("".join(f"{op}\n" for op in dot_product(count, parts)) for parts in (1, 4))
        yield judged(f"partial_sums_of_{count}", block + spread(theirs), "same")
    yield Run("judged/our_rows_for_two_outputs", ["schedule"], b"output 0\noutput 4\n",
               b"block 1 -\n[ output 0 ; nop ]\n[ output 4 ; nop ]\ncycles 2\ntotal 2\n", b"", 0)
    yield from refusals()
    yield from unread_rows()
    yield from at_the_limits()


def refusals():
    for words in (["--at", "2"], ["--at", "6", "--mult", "2"]):
        yield Run(f"judged/bad_start_{words[1]}", ["check", *words], b"a:", b"",
                  b"ilocfarm: --at is not a multiple of 4\n", 2)
    for line in UNREAD.keys() - OF_A_BLOCK:
        wanted, found = UNREAD[line]
        reason = "" if wanted == "[" else f"\nline 2: expected {wanted}, found {found}"
        yield refused(f"unread_at_once: {line!r}", f"a: output 0\n{line}", f"line 2: {BAD}{reason}")
    for text, *lines in rows_of(f"{TOP}/tests/judged/refused.tsv"):
        yield refused(f"refused: {text!r}", text, "\n".join(lines))


def unread(name, text, out, *words):
    return Run(f"judged/unread/{name}", [*WORDS, *words], text.encode("latin-1"), out.encode(), b"", NOT_SAME)


def unread_rows():
    """A line that can't be read costs its block, and no other."""
    for line, (wanted, found) in UNREAD.items():
        yield unread(repr(line), f"a:\noutput 0\ncycles 1\n{line}",
                     f"block 1 a unread cycles 0 ours 1 least 1 claimed 1\n"
                     f"  line 4, row 0: expected {wanted}, found {found}\n"
                     "total 0 ours 1 least 1\n")
    for line, found in TOO_LARGE.items():
        yield unread(repr(line), f"a:\n{line}", "block 1 a unread cycles 0 ours 0 least 0\n"
                     f"  line 2, row 0: expected a number up to 2147483647, found {found}\ntotal 0 ours 0 least 0\n")
    for name, (rows, line, row, cycles, wanted, found) in UNREAD_ROWS.items():
        text = f"{UNREAD_FIRST}{rows}\n{THEN_LAWFUL}"
        out = (f"block 1 a unread cycles {cycles} ours 1 least 1\n"
               f"  line {line}, row {row}: expected {wanted}, found {found}\n"
               f"block 2 b lawful cycles 1 ours 1 least 1\ntotal {cycles + 1} ours 2 least 2\n")
        for words in ([], ["--lawful"], ["--either-slot"]):
            yield unread("_".join([name, *words]), text, out, *words)
        yield unread(f"{name}_in_a_table", text, "block,name,verdict,cycles,ours,least,claimed\n"
                     f"1,a,unread,{cycles},1,1,\n2,b,lawful,1,1,1,\n", "--csv")
    for first, own, name in MISNAMED:
        yield unread(f"{own}_misnamed_{name}", f"{first}\nb:\nblock 1 {name}\n[ output 4 ]\nblock 2 b\n",
                     f"block 1 {own} unread cycles 2 ours 0 least 0\n"
                     f"  line 3, row 0: expected the block's name, found {name}\n"
                     "block 2 b lawful cycles 0 ours 0 least 0\ntotal 2 ours 0 least 0\n")
    for lines, wanted, found in BEFORE_THE_HEAD:
        yield unread(f"before_the_head: {lines!r}", f"a: output 4\n{lines}\nblock 1 a\n[ output 4 ]\n",
                     f"block 1 a unread cycles 2 ours 1 least 1\n  line {lines.count(chr(10)) + 2}, row 0: "
                     f"expected {wanted}, found {found}\ntotal 2 ours 1 least 1\n")


def at_the_limits():
    full = "a:\nb:\nblock 1 a\n" + "[ nop ; output 0 ]\n" * MOST_OPERATIONS
    many = f"line 10004: more than {MOST_OPERATIONS} operations in a block"
    like_none = "".join(f"  row {row}: output 0 like none of the block\n" for row in range(MOST_FACTS))
    a = (f"block 1 a void cycles {MOST_OPERATIONS} ours 0 least 0\n  the block shows nothing\n"
         f"  added {MOST_OPERATIONS}: row 0: output 0\n" + like_none + f"  and {MOST_OPERATIONS - MOST_FACTS} more")
    yield listed("most_operations", full + "[ nop ; nop ]", a, "block 2 b lawful cycles 0 ours 0 least 0")
    yield listed("most_operations_of_one", full + "block 2 b\n[ output 0 ; output 0 ]", a,
                 "block 2 b units cycles 1 ours 0 least 0\n  row 0: [ output 0 ; output 0 ]: two outputs")
    yield refused("one_operation_too_many", full + "[ output 0 ; nop ]", many)
    yield refused("two_operations_too_many", full + "[ output 0 ; output 0 ]", many)
    yield refused("too_many_in_the_second_block", full.replace("block 1 a", "block 2 b") + "[ output 0 ; nop ]", many)
    yield refused("too_many_operations_of_the_block", "a:\n" + "nop\n" * (MOST_OPERATIONS + 1) + "[ nop ; nop ]",
                  f"line {MOST_OPERATIONS + 2}: more than {MOST_OPERATIONS} operations in a block")
    rows = "[nop;nop]\n" * (MOST_BYTES // 10 - 1)
    yield listed("most_rows", f"nop\n{rows}", "block 1 - lawful cycles 0 ours 0 least 0")
    heads = "A:\n" * MOST_BLOCKS + "".join(f"block {k} A\ncycles {k}\n" for k in range(1, MOST_BLOCKS + 1))
    claims = [f"block {k} A lawful cycles 0 ours 0 least 0 claimed {k}" for k in range(1, MOST_BLOCKS + 1)]
    yield listed("most_heads", heads, *claims)
    yield refused("one_head_too_many", heads + "block 65535 A", f"line 196606: {NONE}")
    yield listed("longest_text", "nop" + "\n" * (MOST_BYTES - 3), "block 1 - lawful cycles 0 ours 0 least 0")
    yield refused("one_byte_too_many", "\n" * MOST_BYTES + "[", f"input longer than {MOST_BYTES} bytes")


load_tests = table(judged_cases)
