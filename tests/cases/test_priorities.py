"""Somebody's own priorities (`--priorities`): how a file spells them, and what is said of one that has none."""
import os

from harness.program import TOP, Run, folder, listed, stored
from harness.suite import rows_of, table
from language import MOST_BYTES
from oracle.scheduler import ORDERS

NOT_READ, NO_DEVICE = 1, 4
TAKING = (["simulate"], ["trace"], ["schedule"], ["counts"], ["explain"], ["explain", "--cycles"], ["compare"])
# Block a has three operations, b has none, c has one.
THREE_BLOCKS = b"a: loadI 4 => r1\nnop\nloadI 8 => r2\noutput 4\nb: nop\nc: output 8\n"
THREE_LISTED = (b"block 1 a\n[ loadI 8 => r1 ; loadI 4 => r0 ]\n[ output 4 ; nop ]\ncycles 2\nblock 2 b\ncycles 0\n"
                b"block 3 c\n[ output 8 ; nop ]\ncycles 1\ntotal 3\n")
THREE_TRACED = (b"block 1 a\nissue 0 unit 0 loadI 8 => r1\nissue 0 unit 1 loadI 4 => r0\nwrite 1 r1 = 8 was 0 from 0\n"
                b"write 1 r0 = 4 was 0 from 0\nissue 1 unit 0 output 4 emits word 4 = 9\nblock 2 b\nblock 3 c\n"
                b"issue 0 unit 0 output 8 emits word 8 = 7\n")
THREE_EMITTED = b"block 1 a\n9\nblock 2 b\nblock 3 c\n7\n"
ON_WORDS = ["--at", "4", "9", "7"]
GOOD = {
    "plain": b"1 3 0\n\n7\n", "no_last_line_end": b"1 3 0\n\n7", "blanks": b" \t1  3\t0 \r\n \r\n\t7\r\n",
    "zeros_first": b"01 0000000000003 00\n\n007\n", "greatest": b"1 4294967295 0\n\n4294967295\n",
    "lines_without_numbers_after_them": b"1 3 0\n\n7\n\n \t\r\n\n",
}


def faults():
    good, none = stored("good", GOOD["plain"]), os.path.join(folder(), "none")
    for name, file, said, status in (
            ("missing", none, "no such file", NO_DEVICE), ("under_a_file", f"{good}/x", "opening failed", NO_DEVICE),
            ("folder", folder(), "reading failed", NO_DEVICE),
            ("long", stored("long", b" " * (MOST_BYTES + 1)), "input longer than 16777216 bytes", NOT_READ),
            *((name, stored(name, text.encode("latin-1")), said, NOT_READ)
              for text, name, said in rows_of(f"{TOP}/tests/cases/priorities.tsv"))):
        for words in TAKING:
            yield Run(f"priorities/{name}/{'_'.join(words)}", [*words, "--priorities", file], THREE_BLOCKS, b"",
                      f"ilocfarm: priorities: {said}\n".encode(), status)
    for words in TAKING:
        yield Run(f"priorities/bad_block/{'_'.join(words)}", [*words, "--priorities", stored("bad", b"x")], b"x", b"",
                  b"ilocfarm: line 1: not understood\n", NOT_READ)


def priorities_cases():
    for name, text in GOOD.items():
        words = ["schedule", "--priorities", stored(f"good_{name}", text)]
        yield listed(f"priorities/{name}", THREE_BLOCKS, THREE_LISTED, words)
    for command, text in (("simulate", THREE_EMITTED), ("trace", THREE_TRACED)):
        words = [command, *ON_WORDS, "--priorities", stored("good", GOOD["plain"])]
        yield listed(f"priorities/{command}", THREE_BLOCKS, text, words)
    noughts = "".join(f" {order} 0" for order in (*ORDERS, "own"))
    yield listed("priorities/no_block", b"",
                 f"total least 0{noughts}\nfewest{noughts} of 0\noptimal{noughts} of 0\n".encode(),
                 ["compare", "--priorities", stored("empty", b"")])
    yield from faults()


load_tests = table(priorities_cases)
