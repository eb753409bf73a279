"""Cases of `ilocview from-llvm`: each construct of LLVM IR, texts that nobody should give, and what clang writes."""
import contextlib
import random
import re
import shutil
import sys
import unittest
from pathlib import Path

import llvm
from harness.place import Place
from harness.program import TOP
from language import MOST_OPERATIONS
from svg import Unread

HEAD = """source_filename = "x.c"
%struct.s = type { i8, i32, [4 x i64], %struct.s* }
%loop = type { %loop }
@where = global %struct.s* null
@g = global i32 0
@array = global [10 x i32] zeroinitializer
"""
ALL = Path(TOP, "tests/beside/llvm.cases").read_text("ascii")
CASES = re.findall(r"^= (.*)\n((?:(?!- |= ).*\n)+)((?:- .*\n)+)", ALL, re.MULTILINE)
TOO_DEEP = "more than 60 types or constants within one another"
# What isn't understood ends a block; the rest is read.
UNREAD_LINES = {
    f"%3 = load {'[1 x ' * 10000}i32{']' * 10000}, ptr %0": TOO_DEEP,
    f"%3 = load i32, ptr {'bitcast (ptr ' * 10000}@g{' to ptr)' * 10000}": TOO_DEEP,
    "%3 = load i32, ptr bitcast (": "the line ends early",
    "%3 = add <2 x i32> <": "the line ends early",
    "%3 = getelementptr %loop, ptr %0, i64 1": "a type is missing",
    "%3 = getelementptr %nosuch, ptr %0, i64 1": "a type is missing",
    "%3 = getelementptr %struct.s, ptr %0, i64 0, i32 4": "a struct has no such part",
    "%3 = getelementptr i32, ptr %0, i64 0, i32 4": "a type has no elements",
    "%3 = load i32 ptr %0": ", is missing",
    "%3 = load": "the line ends early",
    "%3 =": "no such instruction",
    "%3 = swap i32 %0": "no such instruction",
    '%3 = add i32 "%0': ", is missing",
}
REFUSED = (
    (b"", "this is no LLVM IR, as clang -S -emit-llvm writes it"),
    (b"int main() { return 0; }\n", "this is no LLVM IR, as clang -S -emit-llvm writes it"),
    (b"BC\xc0\xde\x35\x14", "this is bitcode: make text of it by llvm-dis, or by clang -S -emit-llvm"),
    (b"define void @f() {\n  ret void\n", "the text ends within the function f"),
)
SAID = """ilocview: functions 1, blocks 2, operations 6, of which 1 load values of other blocks
ilocview: translated 3: getelementptr 1, load 1, store 1
ilocview: approximated 1: icmp as sub 1
ilocview: left out 3: br 1, call 1, not understood 1
ilocview: of other types than i32, taken for words: 1
ilocview: blocks of fewer operations than 2, left out: 1
ilocview: x.ll: line 10 is not understood, so it ends a block: no such instruction
"""
PROGRAM = """
struct pair { struct pair *next; long sums[3]; char name[8]; };
static int table[64];
extern int other(int);
double scaled(double x, int n) { return n ? x * n + 0.5 : -x; }
long walk(struct pair *p, int n) {
    long sum = 0;
    for (int k = 0; p; p = p->next, k++) {
        p->sums[k % 3] += table[k & 63] << 2;
        sum ^= p->sums[1] / (n | 1) + p->name[k & 7];
        switch (k) { case 1: sum += other(n); break; case 7: return -sum; case 9: sum >>= 3; }
    }
    return sum > n ? sum : n;
}
"""
CLANGS = ("clang", *(f"clang-{version}" for version in range(13, 20)))


def text_of(lines, name="@f"):
    return f"{HEAD}define i32 {name}(ptr %0, i32 %1) {{\n{lines}}}\n".encode("latin-1")


def made(given, least=1):
    translator = llvm.Translator(least)
    return "".join(translator.blocks(given, "x.ll")), translator.report


def calls_of(given):
    """How many calls of Python's functions it takes."""
    count = 0

    def seen(_, event, __):
        nonlocal count
        count += event == "call"
    sys.setprofile(seen)
    try:
        made(given)
    finally:
        sys.setprofile(None)
    return count


class Constructs(unittest.TestCase):
    def test_cases(self):
        self.assertEqual(len(CASES), len(re.findall("^= ", ALL, re.MULTILINE)))
        for name, lines, due in CASES:
            with self.subTest(name):
                blocks, report = made(text_of(lines))
                self.assertEqual(blocks, "f:\n" + re.sub("^- (f_.*)", r"\1", re.sub("^- (?!f_)", "", due, flags=re.M),
                                                         flags=re.M))
                self.assertEqual(report.not_understood, [])

    def test_names(self):
        for name, due in (('@"operator new"', "operator_new"), ("@_ZN1a.b", "ZN1a_b"), ("@7", "f7"), ('@"\\01"', "f01"),
                          (f"@{'a' * 100}", "a" * 60)):
            with self.subTest(name):
                self.assertEqual(made(text_of("store i32 1, ptr @g\n", name))[0].split(":")[0], due)


class Hostile(Place):
    def test_lines_that_are_not_understood(self):
        for line, why in UNREAD_LINES.items():
            with self.subTest(line[:40]):
                blocks, report = made(text_of(f"%2 = add i32 %1, 1\n{line}\n%4 = add i32 %3, 1\n"))
                self.assertEqual(report.not_understood, [f"x.ll: line 9 is not understood, so it ends a block: {why}"])
                self.assertEqual(blocks.count("\naddI "), 2)

    def test_numbers_without_end(self):
        """Of a constant its lowest 31 bits count."""
        digits = str(2 ** 70 + 5) + "0" * 100000
        blocks, _ = made(text_of(f"%2 = add i32 %1, {digits}\n%3 = load [{digits} x i32], ptr %0\n"
                                 f"%4 = add i{digits} %1, {2 ** 33 + 5}\n"))
        self.assertEqual(blocks.splitlines()[3:], ["addI r1, 0 => r2", "load r3 => r4", "addI r1, 5 => r5"])

    def test_changed_texts(self):
        """Whatever text it is, there are blocks that can be read, or a refusal."""
        chance, text, every = random.Random(0), text_of("".join(lines for _, lines, _ in CASES)), ""
        for _ in range(300):
            data = bytearray(text)
            for _ in range(chance.randrange(1, 30)):
                at, other = chance.randrange(len(data)), chance.randrange(len(data))
                data[at:at + chance.randrange(20)] = data[other:other + chance.randrange(20)]
            with contextlib.suppress(Unread):
                every += made(bytes(data))[0]
        self.expect("some are read", every.count(":") > 1000, True)
        self.expect("faults", self.call("ilocfarm", "lint", given=every.encode())[1].split()[-1], b"0")

    def test_work_grows_with_the_text(self):
        """Twice the text is at most some more than twice the work."""
        for name, line in (("sums", "%x{0} = add i32 %x{1}, %y{0}\n"), ("labels", "{0}:\nstore i32 %x{0}, ptr @g{0}\n"),
                           ("addresses", "%x{0} = getelementptr i8, ptr %0, i64 {0}\n"),
                           ("casts", "%x{0} = bitcast i32 %x{1} to i32\n"), ("riddles", "%x{0} = swap {{ i32 %x{1}\n")):
            with self.subTest(name):
                half, whole = (calls_of(text_of("".join(line.format(k, k - 1) for k in range(count))))
                               for count in (2000, 4000))
                self.assertLess(whole, 2.2 * half)


class Commands(Place):
    def test_what_it_says(self):
        text = text_of("%2 = load i64, ptr %0\nstore i32 %2, ptr @g\n%3 = swap i32 %2\n%4 = call i32 @g()\n"
                       "%5 = icmp eq i32 4, 4\nbr label %6\n6:\n%7 = getelementptr i8, ptr %0, i64 0\n")
        self.write("x.ll", text)
        blocks = made(text, 2)[0].encode()
        self.expect("blocks", self.call("ilocview", "from-llvm", "x.ll"), (0, blocks, SAID.encode()))
        self.expect("to a file", self.call("ilocview", "from-llvm", "x.ll", "-o", "x.iloc"), (0, b"", SAID.encode()))
        self.expect("the file", self.read("x.iloc"), blocks)
        self.expect("all", self.call("ilocview", "from-llvm", "--least", "1", "x.ll")[1], made(text)[0].encode())

    def test_refused(self):
        for given, why in REFUSED:
            self.write("x.ll", given)
            self.expect(why, self.call("ilocview", "from-llvm", "x.ll"), (1, b"", f"ilocview: x.ll: {why}\n".encode()))
        self.expect("no file", self.call("ilocview", "from-llvm", "nosuch"),
                    (4, b"", b"ilocview: nosuch: No such file or directory\n"))
        for words in (["--least", "0", "x.ll"], ["--load", "3", "x.ll"], ["x.ll", "-o", "x.txt"], []):
            self.expect(words, self.call("ilocview", "from-llvm", *words)[0], 2)

    def test_limit(self):
        """A block of more operations than ilocfarm reads is cut."""
        lines = (f"%x{k} = add i32 %x{k - 1}, 1\n" for k in range(2 * MOST_OPERATIONS))
        blocks, report = made(text_of("".join(lines)))
        self.expect("blocks", (report.blocks, report.cut), (3, 2))
        self.expect("lint", self.call("ilocfarm", "lint", given=blocks.encode())[1].splitlines()[-1],
                    f"blocks 3 operations {2 * MOST_OPERATIONS + 3} faults 0".encode())

    def test_real_code(self):
        """Each clang's text of a program is understood; what is made of it is read, and `simulate` equals `run`."""
        clangs = [clang for clang in CLANGS if shutil.which(clang)]
        if not clangs:
            self.skipTest("clang is not on the PATH")
        self.write("walk.c", PROGRAM)
        for clang in clangs:
            for level in ("-O0", "-O2"):
                self.printed(clang, level, "-S", "-emit-llvm", "walk.c")
                status, blocks, said = self.call("ilocview", "from-llvm", "walk.ll")
                due = (0, False, True)
                self.expect(f"{clang} {level}", (status, b"not understood" in said, len(blocks) > 500), due)
                self.expect("lint", self.call("ilocfarm", "lint", given=blocks)[1].split()[-1], b"0")
                self.expect("simulate", self.call("ilocfarm", "simulate", given=blocks),
                            self.call("ilocfarm", "run", given=blocks))
