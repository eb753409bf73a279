"""Inputs at the limits, which are too long to store; hostile/test_sizes has those whose time and memory count too."""
from harness.program import listed, refused
from harness.suite import table
from language import MOST_BLOCKS, MOST_BYTES, MOST_OPERATIONS, WORDS

DIGITS = 1_000_000
COMMENT = b"\n//" + b" " * 520_000 + b"\n"      # what precedes it is read by a thread of its own


def made_cases():
    yield from texts()
    yield from parts()
    yield from numbers()
    yield from blocks()
    yield from operations()
    yield from schedules()
    yield from words()


def texts():
    too_long = b"input longer than 16777216 bytes"
    yield refused("made/text_too_long", b"\n" * (MOST_BYTES + 1), too_long)
    yield refused("made/too_long_and_bad", b"." * (MOST_BYTES + 1), too_long)
    yield refused("made/too_long_behind_a_bad_line", b".\n".ljust(MOST_BYTES + 1), too_long)
    yield refused("made/longest_behind_a_bad_line", b".\n".ljust(MOST_BYTES), b"line 1: not understood")


def parts():
    """Faults of texts that several threads read."""
    labels = b"\n".join([b"A:"] * MOST_BLOCKS)
    for name, parts, line in (
            ("first", [b"A: not", b"B:"], b"line 1: not understood"),
            ("second", [b"A:\nnop", b"B:\nnot", b"C: not"], b"line 5: not understood"),
            ("last", [b"A:\nnop", b"B: nop", b"C:\nnot"], b"line 7: not understood"),
            ("large_number", [b"A: nop", b"B: loadI 2147483648 => r1", b"C: not"], b"line 3: number above 2147483647"),
            ("too_many_blocks", [labels, b"B:", b"C: not"], b"line 65537: more than 65535 blocks")):
        yield refused(f"made/parts/{name}", COMMENT.join(parts), line, 1, ["counts"])


def numbers():
    zeros, nines = b"0" * DIGITS, b"9" * DIGITS
    too_large = b"line 1: number above 2147483647"
    bad = b"line 1: not understood"
    stored = b"loadI " + zeros + b"7 => r" + zeros + b"1\nstore r1 => r2\noutput " + zeros + b"\n"
    yield listed("made/many_zeros", stored, b"block 1 -\n7\n")
    yield refused("made/many_nines", b"loadI " + nines + b" => r1\n", too_large)
    yield refused("made/many_nines_in_a_register", b"loadI 1 => r" + nines + b"\n", too_large)
    yield refused("made/many_nines_on_a_bad_line", b"output " + nines + b" 5\n", bad)


def blocks():
    too_many = b"line 65536: more than 65535 blocks"
    yield refused("made/too_many_with_the_unnamed", b"nop\n" + b"A:\n" * MOST_BLOCKS, too_many)
    yield refused("made/bad_line_with_too_many", b"A:\n" * MOST_BLOCKS + b"A: nop nop\n", b"line 65536: not understood")


def operations():
    many = b"nop\n" * MOST_OPERATIONS
    too_many = b"line %d: more than 10000 operations in a block"
    outputs = b"output 0\n" * MOST_OPERATIONS
    yield listed("made/most_operations", many, b"block 1 -\n")
    yield listed("made/most_operations_twice", many + b"B:\n" + many, b"block 1 -\nblock 2 B\n")
    yield listed("made/most_outputs", outputs, b"block 1 -\n" + b"0\n" * MOST_OPERATIONS)
    yield refused("made/too_many_in_the_second_block", b"nop\nB:" + many + b"nop\n", too_many % (MOST_OPERATIONS + 2))


def schedules():
    loads = b"load r0 => r1\n" * MOST_OPERATIONS
    pairs = b"store r1 => r0\nload r0 => r2\n" * (MOST_OPERATIONS // 2)
    empty = b"".join(b"block %d A cycles 0\n" % k for k in range(1, MOST_BLOCKS + 1))
    for workers in ("1", "8"):
        words = ["counts", "--workers", workers]
        yield listed("made/most_loads", loads, b"block 1 - cycles 10004\ntotal 10004\n", words)
        yield listed("made/stores_and_loads", pairs, b"block 1 - cycles 30004\ntotal 30004\n", words)
        yield listed("made/most_blocks_counted", b"A:\n" * MOST_BLOCKS, empty + b"total 0\n", words)
    constants = b"".join(b"loadI %d => r7\n" % k for k in range(MOST_OPERATIONS))
    rows = b"".join(b"[ loadI %d => r%d ; loadI %d => r%d ]\n" % (k, k, k + 1, k + 1)
                    for k in range(0, MOST_OPERATIONS, 2))
    yield listed("made/numbers_of_up_to_four_digits", constants,
                 b"block 1 -\n" + rows + b"cycles 5000\ntotal 5000\n", ["schedule"])
    yield listed("made/most_nops", b"nop\n" * MOST_OPERATIONS, b"block 1 -\ncycles 0\ntotal 0\n", ["schedule"])
    yield refused("made/too_many_to_count", b"nop\n" * (MOST_OPERATIONS + 1),
                  b"line 10001: more than 10000 operations in a block", 1, ["counts"])


def words():
    numbers = [str(k) for k in range(WORDS)]
    ends = b"output 0\noutput 4\noutput 65532\n"
    misfit = b"the words do not fit into memory"
    yield listed("made/memory_full_of_words", ends, b"block 1 -\n0\n1\n16383\n", ["run", "--at", "0", *numbers])
    yield refused("made/one_word_too_many", ends, misfit, 2, ["run", "--at", "0", *numbers, "7"])
    yield refused("made/one_word_too_many_from_4", ends, misfit, 2, ["run", "--at", "4", *numbers])


load_tests = table(made_cases)
