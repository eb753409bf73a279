"""Has each growth of memory in tests of the crates be refused in turn.

The tests of growths.tsv are run as `rt test` or the gate built them (crates/CRATE/out). A run in which a growth was
refused must end with the error of a call that memory, or a thread, was refused to: a test that looks at what is left
after the refusal and tries again ends with that error all the same. One in which none was refused passes. A run that
stops elsewhere, at an assertion for one, or doesn't end in time, fails; and so does one that passes though a growth was
refused. Each run with a refusal counts.
"""
import itertools
import os

from harness.program import TOP, told
from harness.suite import Case, rows_of, table
from refusals.refuser import NOTHING, Asked, refusing, symbols

# What a test ends with where a call answers that memory, or a thread, was refused to it.
REFUSED = [b"error: NoMemory\n", b"error: AllocError\n", b"error: AllocFailed { .. }\n", b"error: NoThread\n",
           b"error: Read(NoMemory)\n", b"error: Text(NoMemory)\n", b"error: Farm(NoMemory)\n",
           b"error: Farm(NoThread)\n"]


def is_told(ending):
    status, _, said = ending
    return status != 0 and any(said.startswith(error) for error in REFUSED)


class Growths(Case):
    """A subtest for each growth."""

    def __init__(self, crate, test):
        super().__init__(f"refusals/crates/{test}")
        self.test, self.program = test, f"{TOP}/crates/{crate}/out/{crate}_tests"

    def passes(self):
        if not os.path.exists(self.program):
            self.skipTest("the crates' tests aren't built: .ci/run or rt test builds them")
        for number in itertools.count(1):
            end, report = refusing(Asked([self.test], "", b""), self.program, growth=number)
            if report.refused == NOTHING:
                break
            with self.subTest(growth=number):
                if end[0] == 0:
                    self.fail(f"{symbols(self.program).asker(report)} does without a growth that was refused")
                if not is_told(end):
                    self.fail(told(end))
        print(f"{self.test}: {number - 1} growths refused", flush=True)
        self.assertEqual(end[0], 0, told(end))
        self.assertGreater(number, 1, "no growth was refused")


load_tests = table(lambda: (Growths(crate, test) for test, crate in rows_of(f"{TOP}/tests/refusals/growths.tsv")))
