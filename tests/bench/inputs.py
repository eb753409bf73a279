#!/usr/bin/env python3
"""Makes the inputs of the benchmark in a folder, the same bytes every time.

    tests/bench/inputs.py FOLDER

Each is a valid file of the language and within its limits.
"""
import os
import random
import re
import sys

sys.path.insert(0, os.path.dirname(os.path.dirname(os.path.abspath(__file__))))
import oracle  # noqa: E402,F401  (it finds language)
from bench import measure  # noqa: E402
from language import MAX_NUMBER, MOST_BLOCKS, MOST_BYTES, MOST_OPERATIONS, SPELLED  # noqa: E402

# Operations, what each of their numbers is, and how often they come.
MIX = [
    ("load", "address target", 3), ("store", "left address", 2), ("loadI", "small target", 2),
    ("loadI", "large target", 1), ("add", "left right target", 3), ("sub", "left right target", 1),
    ("mult", "left right target", 2), ("lshift", "left right target", 1), ("rshift", "left right target", 1),
    ("addI", "left small target", 2), ("subI", "left small target", 1), ("multI", "left small target", 1),
    ("lshiftI", "left shift target", 1), ("rshiftI", "left shift target", 1), ("loadAI", "address offset target", 2),
    ("storeAI", "left address offset", 1), ("output", "offset", 1), ("nop", "", 1),
]
OPERATION = re.compile(rb"(?m)^(?:\w+:)?[ \t]*[a-z]+I?[ \t]")
FORMS = [SPELLED[opcode].format(*(f"{{{name}}}" for name in names.split())) for opcode, names, times in MIX
         for _ in range(times)]


class Draw:
    """Numbers that only the seed decides, whatever the version of Python."""

    def __init__(self, seed=1):
        self.fraction = random.Random(seed).random

    def below(self, end):
        return int(self.fraction() * end)

    def one_in(self, count):
        return self.below(count) == 0

    def one_of(self, items):
        return items[self.below(len(items))]


def operation(draw, addresses, values):
    """An operation without fault where each of `addresses` holds a multiple of 4 below 32,768."""
    return draw.one_of(FORMS).format(
        address=draw.one_of(addresses), left=draw.one_of(values), right=draw.one_of(values),
        target=draw.one_of(values), offset=4 * draw.below(8192), shift=draw.below(32),
        small=draw.below(4096), large=draw.below(MAX_NUMBER + 1))


def block(draw, name, count, registers):
    """A block of `count` operations: the first ones put addresses into registers; one in 64 blocks faults."""
    some = max(1, min(8, count // 4))
    addresses, values = registers[:some], registers[some:]
    lines = [f"loadI {4 * draw.below(8192)} => r{register}" for register in addresses]
    lines += [operation(draw, addresses, values) for _ in range(count - some)]
    if draw.one_in(64):
        lines[-1] = "output 2"
    comment = draw.below(count)
    lines[comment] += "  // from the source"
    return (f"{name}:\n\t" + "\n\t".join(lines) + "\n").encode()


def full_of_blocks(draw, counts, registers):
    """As many blocks as fit, each of a number of operations drawn from `counts`."""
    parts, size = [], 0
    while len(parts) < MOST_BLOCKS:
        part = block(draw, f"L{len(parts) + 1}", draw.one_of(counts), registers)
        size += len(part)
        if size > MOST_BYTES:
            break
        parts.append(part)
    return b"".join(parts)


def comments_and_blanks(draw):
    lines = [b"\n", b" \t \r\n", b" " * 60 + b"\n", b"// a short comment\n",
             b"\t// a longer comment, about what the next operations are meant to do\n"]
    parts, left = [], MOST_BYTES
    while left >= max(map(len, lines)):
        parts.append(draw.one_of(lines))
        left -= len(parts[-1])
    return b"".join(parts) + b" " * left


def middling_blocks(draw):
    """7,000 blocks of about 100 operations each."""
    registers = range(64)
    return b"".join(block(draw, f"L{number}", 60 + draw.below(81), registers) for number in range(1, 7001))


def any_registers(draw, count):
    return [draw.below(MAX_NUMBER + 1) for _ in range(count)]


def repeated(*lines):
    """A block of these lines, as often as there is room."""
    text = b"L:\n" + b"".join(line + b"\n" for line in lines)
    return text * min(MOST_BLOCKS, MOST_BYTES // len(text))


def long_comments(draw):
    """Blocks of 100 operations, each before a comment of 400 to 1,600 bytes."""
    parts, left = [], MOST_BYTES
    while left >= 2000:
        label = b"L: " if len(parts) % 100 == 0 else b""
        parts.append(label + b"load r0 => r1 // " + b"why " * (100 + draw.below(301)) + b"\n")
        left -= len(parts[-1])
    return b"".join(parts)


def operations(text):
    """How many operations an input has, at least 1."""
    return max(1, len(OPERATION.findall(text)))


def front(text, most):
    """The first blocks of an input, in at most so many bytes."""
    return text if len(text) <= most else text[:text.rfind(b"\nL", 0, most) + 1]


# By name what makes each input.
MAKERS = {
    "one_block": lambda draw: block(draw, "only", MOST_OPERATIONS, any_registers(draw, 4000)),
    "many_blocks": lambda draw: full_of_blocks(draw, range(6, 29), range(32)),
    "middling_blocks": middling_blocks,
    "long_blocks": lambda draw: full_of_blocks(draw, [MOST_OPERATIONS], range(5000)),
    "least_blocks": lambda _: b"".join(b"L%d: output 0\n" % number for number in range(1, MOST_BLOCKS + 1)),
    "one_store_a_block": lambda _: repeated(b"loadI 64 => r0", b"store r0 => r0", b"output 64"),
    "many_outputs": lambda _: repeated(b"subI r1, 2147483647 => r0", b"store r0 => r1",
                                       *[b"output 0"] * (MOST_OPERATIONS - 2)),
    "high_registers": lambda draw: full_of_blocks(draw, range(60, 141), any_registers(draw, 64)),
    "highest_registers": lambda _: repeated(b"addI r4095, 8 => r2147483647", b"storeAI r2147483647 => r4095, 4",
                                            b"loadAI r4095, 4 => r4095", b"output 4"),
    "comments_and_blanks": comments_and_blanks,
    "long_comments": long_comments,
    "long_number": lambda _: b"loadI %s8 => r1\n" % (b"0" * (MOST_BYTES - 14)),
    "loads": lambda _: b"load r0 => r1\n" * MOST_OPERATIONS,
    "stores": lambda _: b"store r1 => r0\n" * MOST_OPERATIONS,
    "stores_and_loads": lambda _: b"store r1 => r0\nload r0 => r2\n" * (MOST_OPERATIONS // 2),
    "sums": lambda _: b"".join(b"addI r0, %d => r%d\n" % (number, number + 1) for number in range(MOST_OPERATIONS)),
}


def make(folder, only=()):
    """Makes the inputs, or those of the names in `only`, one at a time: gives the name and the path of each."""
    for name in (name for name in MAKERS if not only or name in only):
        yield name, measure.stored(os.path.join(folder, f"{name}.iloc"), MAKERS[name](Draw()))


if __name__ == "__main__":
    if len(sys.argv) != 2:
        sys.exit(__doc__)
    for _, made in make(sys.argv[1]):
        print(made)
