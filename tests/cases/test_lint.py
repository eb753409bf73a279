"""What `lint` says of wrong lines, one by one; its hints; and its texts at the limits."""
from harness.program import TOP, Run
from harness.suite import rows_of, table
from language import MOST_BLOCKS, MOST_BYTES, MOST_OPERATIONS

# So many faults are listed.
MOST_LISTED = 1000
# Of each line of lint.tsv a line of text, what is said of it, and how many bytes of it can be read.
WRONG = [(line.encode("latin-1"), what, int(at)) for line, what, at in rows_of(f"{TOP}/tests/cases/lint.tsv")]
MARKED = "the text begins with a byte-order mark: save it without one"
UTF_16 = "the text is in UTF-16: save it as UTF-8"
NO_OPERATION = 'expected an operation or "//", found '
# Lines by which a text's encoding shows where they are the first: what is said of them there, what elsewhere, and how
# many bytes can be read.
ENCODED = [
    (b"\xef\xbb\xbfnop", MARKED, NO_OPERATION + "a byte-order mark", 0),
    (b"\xff\xfen\0o\0p\0", UTF_16, NO_OPERATION + "byte 0xFF", 0),
    (b"\xfe\xff\0n\0o\0p", UTF_16, NO_OPERATION + "byte 0xFE", 0),
    (b"\0n\0o\0p", UTF_16, NO_OPERATION + "byte 0x00", 0),
    (b"n\0o\0p\0", UTF_16, 'no such opcode "n": byte 0x00 follows it', 1),
    (b"\0}", UTF_16, NO_OPERATION + "byte 0x00", 0),
    (b"}\0", UTF_16, NO_OPERATION + '"}"', 0),
]
ALONE = b"hint: each operation has a label, so each is a block of its own\n"
HINTS = [
    (b"loadI 4 => r1\nstore r1 => r1\n", b""),
    (b"add r0, r0 => r1\n", b"hint: line 1 uses r0, to which nothing before it in the block gives a value: it is 0\n"
                           b"hint: line 1: nothing uses this value of r1\n"),
    (b"loadI 4 => r1\nloadI 5 => r1\noutput 4\n\nstore r1 => r1\n",
     b"hint: line 1: nothing uses this value of r1\n"
     b"hint: line 5 goes on with the block above it: only a label starts a block\n"),
    (b"a: output 4\nb: output 8\nc: nop\n", ALONE),
    (b"a: loadI 4 => r1\nb: output 8\nc: nop\n", ALONE + b"hint: line 1: nothing uses this value of r1\n"),
    (b"".join(b"loadI 4 => r%d\n" % k for k in range(22)),
     b"".join(b"hint: line %d: nothing uses this value of r%d\n" % (k + 1, k) for k in range(20))
     + b"hint: and 2 more like these\n"),
    (b"".join(b"L%d: loadI %d => r1\n" % (k, k) for k in range(30)),
     ALONE + b"".join(b"hint: line %d: nothing uses this value of r1\n" % (k + 1) for k in range(19))
     + b"hint: and 11 more like these\n"),
]


def entry(number, line, what, at):
    start = max(0, at - 40)
    text = "".join(chr(c) if 32 <= c < 127 else " " if c in b"\t\r" else "?" for c in line[start:start + 64])
    before, after = ".." if start else "", ".." if start + 64 < len(line) else ""
    caret = " " * (len(before) + at - start) + "^"
    return f"line {number}: {what}\n    {before}{text}{after}\n    {caret}\n".encode()


def totals(blocks, operations, faults):
    return b"blocks %d operations %d faults %d\n" % (blocks, operations, faults)


def linted(name, given, out):
    return Run(f"lint/{name}", ["lint"], given, out, b"", 0 if out.endswith(b" faults 0\n") else 1)


def cases():
    for line, what, at in WRONG:
        yield linted(line.decode("latin-1"), line, entry(1, line, what, at) + totals(0, 0, 1))
    lines = [case[0] for case in WRONG]
    entries = b"".join(entry(2 * k + 2, *case) for k, case in enumerate(WRONG))
    yield linted("all of them", b"nop\n" + b"\nnop\n".join(lines) + b"\n", entries + totals(1, len(lines), len(lines)))
    for line, first, other, at in ENCODED:
        yield linted(f"first {line}", line, entry(1, line, first, at) + totals(0, 0, 1))
        yield linted(f"second {line}", b"nop\n" + line, entry(2, line, other, at) + totals(1, 1, 1))
    for given, hints in HINTS:
        blocks = max(1, given.count(b":"))
        operations = len([line for line in given.split(b"\n") if line])
        yield linted(given[:40].decode(), given, hints + totals(blocks, operations, 0))
    yield from limits()


def limits():
    yield linted("nothing", b"", totals(0, 0, 0))
    yield linted("longest text", b"\n" * MOST_BYTES, totals(0, 0, 0))
    yield linted("text too long", b"x" * (MOST_BYTES + 1), b"input longer than 16777216 bytes\n" + totals(0, 0, 1))
    label = b"a: nop\n"
    many = entry(MOST_BLOCKS + 1, b"a: nop", "more than 65535 blocks", 0)
    yield linted("most blocks", label * MOST_BLOCKS, ALONE + totals(MOST_BLOCKS, MOST_BLOCKS, 0))
    yield linted("a block too many", label * (MOST_BLOCKS + 1), many + totals(MOST_BLOCKS, MOST_BLOCKS, 1))
    beyond = [entry(MOST_OPERATIONS + k, b"nop", "more than 10000 operations in a block", 0) for k in (1, 3)]
    yield linted("operations too many", b"nop\n" * (MOST_OPERATIONS + 1) + b"\nnop\nB: nop\n",
               b"".join(beyond) + totals(2, MOST_OPERATIONS + 1, 2))
    for count, more in ((MOST_LISTED, b""), (MOST_LISTED + 1, b"and 1 more\n"), (2_000_000, b"and 1999000 more\n")):
        bad = b"".join(entry(k, b"x", 'no such opcode "x"', 0) for k in range(1, MOST_LISTED + 1))
        yield linted(f"{count} faults", b"x\n" * count, bad + more + totals(0, 0, count))


load_tests = table(cases)
